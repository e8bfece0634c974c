//! A lock on an open file, of which the operating system takes care: it is free again when the file is closed, also where
//! the program that had it was killed. It is a lock by agreement: it holds among those who ask for it.
use std::fs::File;
use std::io::{self, ErrorKind};
use std::os::raw::c_int;
use std::os::unix::io::AsRawFd;

extern "C" {
    // of the C library, which every Rust program is linked with; Rust's own library has had it since 1.89 only
    fn flock(descriptor: c_int, operation: c_int) -> c_int;
}

// For one alone, and without waiting.
const EXCLUSIVE: c_int = 2;
const AT_ONCE: c_int = 4;

/// Locks an open file and answers `true`, or `false` where it is locked by way of another opening of the same file, in
/// this program or another one. The lock goes with `file` and its clones.
///
/// # Errors
///
/// Where the operating system has no locks for this file.
pub fn try_lock(file: &File) -> io::Result<bool> {
    loop {
        // sound: two numbers go in and one comes out, and `file` is open as long as it is borrowed
        if unsafe { flock(file.as_raw_fd(), EXCLUSIVE | AT_ONCE) } == 0 {
            return Ok(true);
        }
        let error = io::Error::last_os_error();
        match error.kind() {
            ErrorKind::WouldBlock => return Ok(false),
            ErrorKind::Interrupted => {}
            _ => return Err(error),
        }
    }
}

#[cfg(test)]
mod tests {
    use super::*;
    use std::fs;

    #[test]
    fn one_opening_has_the_lock_until_it_is_closed() {
        let path = std::env::temp_dir().join(format!("thoweldeck-try-lock-{}", std::process::id()));
        let first = File::create(&path).expect("a file");
        let second = File::open(&path).expect("the same file");
        assert!(try_lock(&first).expect("a lock"));
        assert!(try_lock(&first).expect("the same lock"));
        assert!(!try_lock(&second).expect("no lock"));
        drop(first);
        assert!(try_lock(&second).expect("a lock"));
        fs::remove_file(&path).expect("the file goes");
    }
}
