//! Where a file stands that is written: behind all links, in its folder, with files of our own beside it.
use super::files::trouble;
use super::names::shown;
use super::Failure;
use std::ffi::OsStr;
use std::fs;
use std::io::ErrorKind;
use std::os::unix::ffi::OsStrExt;
use std::path::{Path, PathBuf};

// How many links are followed, one behind the other: as many as Linux follows.
const LINKS: usize = 40;
// How many bytes of a file's name stand in the names beside it, so that they are no longer than a disk allows.
const KEPT: usize = 100;

/// The file that a name leads to. Links are followed, the last of them also to a file that is not there yet. So all
/// names of a file lead to one place.
pub fn end_of(name: &Path) -> Result<PathBuf, Failure> {
    let mut path = name.to_path_buf();
    for _ in 0..=LINKS {
        match fs::symlink_metadata(&path) {
            Ok(there) if there.file_type().is_symlink() => {
                let next = fs::read_link(&path).map_err(|error| trouble(&path, "cannot be followed", &error))?;
                path = path.with_file_name(next);
            }
            Err(error) if error.kind() != ErrorKind::NotFound => {
                return Err(trouble(&path, "cannot be looked for", &error));
            }
            _ => return Ok(path),
        }
    }
    Err(Failure::Trouble(format!("{}: is a link that leads to no file, but round in a loop of links", shown(name))))
}

/// The folder of a file.
pub fn folder(path: &Path) -> &Path {
    match path.parent() {
        Some(folder) if folder != Path::new("") => folder,
        _ => Path::new("."),
    }
}

/// A file of our own beside another: `.NAME.lock`, `.NAME.new`. A long name is cut. Files whose names begin alike may
/// then have one lock, and so they have the rest by turns.
pub fn beside(path: &Path, use_of_it: &str) -> Result<PathBuf, Failure> {
    let name = path.file_name().ok_or_else(|| Failure::Trouble(format!("{}: is no name of a file", shown(path))))?;
    let own = [b".", start_of(name.as_bytes()), b".", use_of_it.as_bytes()].concat();
    Ok(path.with_file_name(OsStr::from_bytes(&own)))
}

// The first bytes of a name, in which no character is cut in two.
fn start_of(name: &[u8]) -> &[u8] {
    let is_inside = |place: usize| name.get(place).map_or(false, |byte| byte & 0xC0 == 0x80);
    let mut end = name.len().min(KEPT);
    while end > 0 && is_inside(end) {
        end -= 1;
    }
    &name[..end]
}

#[cfg(test)]
mod tests {
    use super::*;

    #[test]
    fn our_files_stand_beside() {
        let own = |name: &str| beside(Path::new(name), "lock").expect("a name").display().to_string();
        assert_eq!(own("a.record"), ".a.record.lock");
        assert_eq!(own("passes/today/a.record"), "passes/today/.a.record.lock");
        for name in ["", "..", "passes/..", "/"] {
            assert!(beside(Path::new(name), "lock").is_err(), "{name}");
        }
        assert_eq!((folder(Path::new("a")), folder(Path::new("b/a"))), (Path::new("."), Path::new("b")));
    }

    #[test]
    fn a_long_name_is_cut_between_characters() {
        let own = |name: &str| beside(Path::new(name), "new").expect("a name").into_os_string().into_string();
        assert_eq!(own(&"a".repeat(100)), Ok(format!(".{}.new", "a".repeat(100))));
        assert_eq!(own(&"a".repeat(101)), Ok(format!(".{}.new", "a".repeat(100))));
        assert_eq!(own(&format!("{}Übung", "a".repeat(99))), Ok(format!(".{}.new", "a".repeat(99))));
        assert_eq!(start_of(&[0x80; 200]), b"");
    }
}
