//! One run at a time: what reads a record and writes it again has its lock from before it reads.
use super::files::trouble;
use super::names::shown;
use super::paths::beside;
use super::Failure;
use std::fs::{self, File, Metadata, OpenOptions};
use std::io::{self, ErrorKind};
use std::os::unix::fs::MetadataExt;
use std::path::{Path, PathBuf};
use std::thread::sleep;
use std::time::{Duration, Instant};
use thoweldeck::lock::try_lock;

/// How long a run waits for others.
pub const WAIT: Duration = Duration::from_secs(60);

/// Keeps other runs from a file as long as this is there: an empty file beside it, which is locked. The operating system
/// frees the lock of a run that is killed; the empty file that it leaves is locked by the next run as any other.
pub struct Lock {
    file: File,
    path: PathBuf,
}

impl Lock {
    /// Waits until no other run has a file, a while at most. `name` is what the user calls it.
    pub fn of(name: &Path, path: &Path, wait: Duration) -> Result<Lock, Failure> {
        let own = beside(path, "lock")?;
        let start = Instant::now();
        let mut pause = Duration::from_millis(1);
        loop {
            match opened(&own).and_then(|file| Lock::on(file, &own)) {
                Ok(Some(lock)) => return Ok(lock),
                Ok(None) if start.elapsed() < wait => sleep(pause),
                Ok(None) => {
                    let (name, seconds) = (shown(name), wait.as_secs());
                    let line = format!("{name}: another run has it, and still had it after {seconds} seconds");
                    return Err(Failure::Stopped(line));
                }
                Err(error) => return Err(trouble(name, &format!("cannot be locked by {}", shown(&own)), &error)),
            }
            pause = (pause * 2).min(Duration::from_millis(100));
        }
    }

    // The lock on an open file, where it is free. The run that had it may have removed the file since it was opened:
    // then this would be the lock of nothing, and the file is to be opened again.
    fn on(file: File, path: &Path) -> io::Result<Option<Lock>> {
        if !try_lock(&file)? {
            return Ok(None);
        }
        let own = file.metadata()?;
        match fs::symlink_metadata(path) {
            Ok(there) if is_same(&there, &own) => Ok(Some(Lock { file, path: path.to_path_buf() })),
            _ => Ok(None),
        }
    }
}

impl Drop for Lock {
    // The file goes while it is locked, so that no other run has it yet. One that has bytes in it was not made by us.
    fn drop(&mut self) {
        if matches!(self.file.metadata(), Ok(own) if own.len() == 0) {
            let _ = fs::remove_file(&self.path);
        }
    }
}

// The file of a lock, which is made where it is not there. It may be another user's, and is then read only. What is no
// file, a link above all, is not opened.
fn opened(path: &Path) -> io::Result<File> {
    if matches!(fs::symlink_metadata(path), Ok(there) if !there.is_file()) {
        return Err(io::Error::new(ErrorKind::Other, "it is no plain file"));
    }
    match OpenOptions::new().write(true).create(true).truncate(false).open(path) {
        Err(error) if error.kind() == ErrorKind::PermissionDenied => File::open(path).map_err(|_| error),
        opened => opened,
    }
}

// Whether two are one file.
fn is_same(a: &Metadata, b: &Metadata) -> bool {
    (a.dev(), a.ino()) == (b.dev(), b.ino())
}

#[cfg(test)]
mod tests {
    use super::*;
    use crate::command::made::absent;

    #[test]
    fn a_run_waits_for_another_and_not_for_ever() {
        let record = absent("wait");
        let lock = Lock::of(&record, &record, WAIT).expect("a lock");
        let (start, wait) = (Instant::now(), Duration::from_millis(50));
        let failure = Lock::of(Path::new("a.record"), &record, wait).err().expect("it is locked");
        assert!(start.elapsed() >= wait);
        assert!(matches!(failure, Failure::Stopped(_)));
        assert_eq!(failure.to_string(), "a.record: another run has it, and still had it after 0 seconds");
        drop(lock);
        assert!(Lock::of(&record, &record, Duration::ZERO).is_ok());
    }

    #[test]
    fn a_lock_whose_file_was_removed_is_none() {
        let path = beside(&absent("removed"), "lock").expect("a name");
        let open = || opened(&path).expect("the file of a lock");
        let (early, earlier) = (open(), open());
        let first = Lock::on(open(), &path).expect("no error").expect("a lock");
        drop(first);
        assert!(!path.exists());
        assert!(Lock::on(earlier, &path).expect("no error").is_none(), "the file is gone");
        let second = Lock::on(open(), &path).expect("no error").expect("a lock");
        assert!(Lock::on(early, &path).expect("no error").is_none(), "another file has its name");
        assert!(path.exists());
        drop(second);
    }
}
