//! Writing so that nothing is lost: under the lock of what is written, whole or not at all, and then on the disk.
use super::lock::{Lock, WAIT};
use super::names::shown;
use super::paths::{beside, end_of, folder};
use super::Failure;
use std::fs::{self, File, Metadata, OpenOptions};
use std::io::{self, ErrorKind, Write};
use std::os::unix::ffi::OsStrExt;
use std::os::unix::fs::{MetadataExt, OpenOptionsExt};
use std::path::{Path, PathBuf};

/// A file that is to be written, and that no other run writes as long as this is there.
pub struct Target {
    // what the user calls it, the file that this leads to, and the new file beside it
    name: PathBuf,
    path: PathBuf,
    new: PathBuf,
    _lock: Lock,
}

impl Target {
    /// Waits until no other run has the file that a name leads to. Where it may not be written, nothing is made.
    pub fn lock(name: &Path) -> Result<Target, Failure> {
        if name.as_os_str().as_bytes().ends_with(b"/") || name.as_os_str() == "-" {
            return Err(Failure::Trouble(format!("{}: is no name of a file to write", shown(name))));
        }
        let path = end_of(name)?;
        let new = beside(&path, "new")?;
        if !folder(&path).is_dir() {
            let (name, folder) = (shown(name), shown(folder(&path)));
            return Err(Failure::Trouble(format!("{name}: cannot be written: there is no folder {folder}")));
        }
        replaceable(name, &path)?;
        let lock = Lock::of(name, &path, WAIT)?;
        Ok(Target { name: name.to_path_buf(), path, new, _lock: lock })
    }

    /// Whether the file is there.
    pub fn is_there(&self) -> bool {
        self.path.symlink_metadata().is_ok()
    }

    /// Stops where the file is there, for what writes over nothing.
    pub fn is_free(&self) -> Result<(), Failure> {
        if self.is_there() {
            return Err(there(&self.name));
        }
        Ok(())
    }

    /// Writes the file where it is not there yet, and over nothing. Answers lines for the user on what went otherwise than
    /// it should once the file had its name.
    pub fn create(&self, bytes: &[u8]) -> Result<Vec<String>, Failure> {
        self.is_free()?;
        self.clear()?;
        self.done(&self.new, written(&self.new, bytes, None))?;
        let removed = match linked(&self.new, &self.path) {
            Err(error) if error.kind() == ErrorKind::AlreadyExists => {
                let _ = fs::remove_file(&self.new);
                return Err(there(&self.name));
            }
            // a disk that has no second names
            Err(_) => {
                self.done(&self.new, renamed(&self.new, &self.path))?;
                Ok(())
            }
            Ok(()) => fs::remove_file(&self.new),
        };
        let left = removed.err().map(|error| format!("{}: is left behind: {error}", shown(&self.new)));
        Ok(left.into_iter().chain(self.folder_noted()).collect())
    }

    /// Writes the record again, with the permissions that it has. Answers lines for the user on what is not as before:
    /// where the old one has another name, and so is still there, and where it was another user's.
    pub fn replace(&self, bytes: &[u8]) -> Result<Vec<String>, Failure> {
        self.clear()?;
        // asked again, since it may have changed while another run was waited for
        let old = replaceable(&self.name, &self.path)?;
        self.done(&self.new, written(&self.new, bytes, old.as_ref()))?;
        let owner = fs::metadata(&self.new).map(|new| new.uid()).ok();
        self.done(&self.new, renamed(&self.new, &self.path))?;
        let notes = old.map_or(Vec::new(), |old| self.notes(&old, owner));
        Ok(notes.into_iter().chain(self.folder_noted()).collect())
    }

    // What is not as it was before the record was replaced.
    fn notes(&self, old: &Metadata, owner: Option<u32>) -> Vec<String> {
        let name = shown(&self.name);
        let linked = Some(format!("{name}: had a second name (a hard link), which keeps the record as it was"));
        let owned = owner
            .filter(|owner| *owner != old.uid())
            .map(|owner| format!("{name}: was user {}'s, and is user {owner}'s now, who wrote it again", old.uid()));
        linked.filter(|_| old.nlink() > 1).into_iter().chain(owned).collect()
    }

    // Brings the name to the disk. Where that fails the file is written all the same, and a power cut could still lose it.
    fn folder_noted(&self) -> Option<String> {
        let (folder, name) = (folder(&self.path), shown(&self.name));
        let error = folder_synced(folder).err()?;
        Some(format!("{name}: is written, and its folder {} could not be brought to the disk: {error}", shown(folder)))
    }

    // Removes the new file that a killed run has left. It is the work of nobody: who writes it has the lock.
    fn clear(&self) -> Result<(), Failure> {
        match fs::remove_file(&self.new) {
            Err(error) if error.kind() != ErrorKind::NotFound => Err(self.trouble(&self.new, &error)),
            _ => Ok(()),
        }
    }

    // What came of a step with a file. Where it failed, the new file goes.
    fn done(&self, with: &Path, step: io::Result<()>) -> Result<(), Failure> {
        step.map_err(|error| {
            let _ = fs::remove_file(&self.new);
            self.trouble(with, &error)
        })
    }

    // The line for a step that failed: what is not written, and the file that the error is about.
    fn trouble(&self, with: &Path, error: &io::Error) -> Failure {
        Failure::Trouble(format!("{}: cannot be written: {}: {error}", shown(&self.name), shown(with)))
    }
}

/// Writes a file that is not there yet: whole or not at all, and over nothing. Answers lines as [`Target::create`] does.
pub fn write_another(name: &Path, bytes: &[u8]) -> Result<Vec<String>, Failure> {
    if name.metadata().is_ok() {
        return Err(there(name));
    }
    Target::lock(name)?.create(bytes)
}

// The line for a file that is not written over.
fn there(name: &Path) -> Failure {
    Failure::Stopped(format!("{}: is there already, and is left as it is", shown(name)))
}

// The file that is written over, where there is one: a plain file, and one that may be written.
fn replaceable(name: &Path, path: &Path) -> Result<Option<Metadata>, Failure> {
    let old = match fs::metadata(path) {
        Ok(old) => old,
        Err(_) => return Ok(None),
    };
    if !old.is_file() {
        return Err(Failure::Trouble(format!("{}: is no plain file, and is left as it is", shown(name))));
    }
    // root may open any file, so that its permissions are asked too
    if old.permissions().readonly() || OpenOptions::new().write(true).open(path).is_err() {
        return Err(Failure::Stopped(format!("{}: is write-protected, and is left as it is", shown(name))));
    }
    Ok(Some(old))
}

// The steps of writing, in their order: the new file and its bytes on the disk, its name, and the name on the disk.

// Makes a file with bytes in it, which are then on the disk. Nobody may read it who may not read the old one.
fn written(path: &Path, bytes: &[u8], old: Option<&Metadata>) -> io::Result<()> {
    let mode = old.map_or(0o666, |old| old.mode() & 0o777);
    let mut file = OpenOptions::new().write(true).create_new(true).mode(mode).open(path)?;
    if let Some(old) = old {
        file.set_permissions(old.permissions())?;
    }
    file.write_all(bytes)?;
    synced(&file, "the new file")
}

// Gives a file a second name, where none is there yet.
fn linked(from: &Path, to: &Path) -> io::Result<()> {
    noted("its name");
    fs::hard_link(from, to)
}

// Gives a file another name, in the place of what had it.
fn renamed(from: &Path, to: &Path) -> io::Result<()> {
    noted("its name");
    fs::rename(from, to)
}

// Brings the names in a folder to the disk. There are disks that cannot do it, and folders that may not be read.
fn folder_synced(folder: &Path) -> io::Result<()> {
    use ErrorKind::{InvalidInput, PermissionDenied, Unsupported};
    match File::open(folder).and_then(|open| synced(&open, "the folder")) {
        Err(error) if matches!(error.kind(), InvalidInput | Unsupported | PermissionDenied) => Ok(()),
        came => came,
    }
}

// Brings a file to the disk.
fn synced(file: &File, what: &'static str) -> io::Result<()> {
    noted(what);
    file.sync_all()
}

// Notes a step, for the test of their order.
#[cfg(not(test))]
fn noted(_step: &'static str) {}
#[cfg(test)]
use tests::noted;

#[cfg(test)]
mod tests {
    use super::*;
    use crate::command::made::absent;
    use std::cell::RefCell;

    thread_local!(static STEPS: RefCell<Vec<&'static str>> = const { RefCell::new(Vec::new()) });

    pub fn noted(step: &'static str) {
        STEPS.with(|steps| steps.borrow_mut().push(step));
    }

    // The steps since this was asked last.
    fn steps() -> Vec<&'static str> {
        STEPS.with(|steps| steps.take())
    }

    #[test]
    fn bytes_and_name_are_brought_to_the_disk_in_this_order() {
        let record = absent("order");
        let order = ["the new file", "its name", "the folder"];
        let target = Target::lock(&record).expect("the lock");
        target.create(b"first").expect("it is written");
        assert_eq!(steps(), order);
        assert_eq!(target.replace(b"second").expect("it is written again"), Vec::<String>::new());
        assert_eq!(steps(), order);
        assert_eq!(fs::read(&record).expect("it is there"), b"second");
        fs::remove_file(&record).expect("the file goes");
    }

    #[test]
    fn what_is_protected_while_another_run_is_waited_for_is_left() {
        let record = absent("protected");
        fs::write(&record, b"first").expect("a file");
        let target = Target::lock(&record).expect("the lock");
        let mut permissions = fs::metadata(&record).expect("the file").permissions();
        permissions.set_readonly(true);
        fs::set_permissions(&record, permissions).expect("it is protected");
        let failure = target.replace(b"second").expect_err("it is protected");
        assert!(matches!(&failure, Failure::Stopped(line) if line.contains("is write-protected")), "{failure}");
        assert_eq!(fs::read(&record).expect("it is there"), b"first");
        fs::remove_file(&record).expect("the file goes");
    }

    #[test]
    fn what_is_not_as_before_is_told() {
        let record = absent("notes");
        fs::write(&record, b"first").expect("a file");
        let target = Target::lock(&record).expect("the lock");
        let (old, name) = (fs::metadata(&record).expect("the file"), shown(&record));
        assert_eq!(target.notes(&old, Some(old.uid())), Vec::<String>::new());
        let other = old.uid() + 1;
        let line = format!("{name}: was user {}'s, and is user {other}'s now, who wrote it again", old.uid());
        assert_eq!(target.notes(&old, Some(other)), [line]);
        fs::remove_file(&record).expect("the file goes");
    }

    #[test]
    fn a_disk_that_cannot_sync_folders_is_no_failure() {
        // the one that takes everything and keeps nothing cannot sync
        let error = File::open("/dev/null").expect("a device").sync_all().expect_err("it cannot");
        assert_eq!(error.kind(), ErrorKind::InvalidInput);
        assert!(folder_synced(Path::new("/dev/null")).is_ok());
        assert!(folder_synced(&absent("absent")).is_err());
    }
}
