//! The samples that ship are the ones that the example `samples` makes.
#[path = "../examples/samples/made.rs"]
mod made;

use std::collections::BTreeMap;
use std::fs;
use std::path::{Path, PathBuf};
use thoweldeck::{Entry, Piece, Reception};

fn folder() -> PathBuf {
    Path::new(env!("CARGO_MANIFEST_DIR")).join("samples")
}

// The files below a folder, by their names from there.
fn files(folder: &Path, below: &Path, found: &mut BTreeMap<String, Vec<u8>>) {
    for entry in fs::read_dir(below).expect("a folder of samples") {
        let path = entry.expect("a sample").path();
        if path.is_dir() {
            files(folder, &path, found);
        } else if path.extension().map_or(true, |extension| extension != "md") {
            let name = path.strip_prefix(folder).expect("below the folder").to_string_lossy().into_owned();
            found.insert(name, fs::read(&path).expect("a sample's bytes"));
        }
    }
}

#[test]
fn the_samples_are_those_that_are_made() {
    let mut shipped = BTreeMap::new();
    files(&folder(), &folder(), &mut shipped);
    let made: BTreeMap<String, Vec<u8>> = made::samples().into_iter().collect();
    assert_eq!(made.keys().collect::<Vec<_>>(), shipped.keys().collect::<Vec<_>>());
    for (name, bytes) in &made {
        assert_eq!(bytes, &shipped[name], "{name}");
    }
}

#[test]
fn two_stations_have_the_file_together() {
    let made: BTreeMap<String, Vec<u8>> = made::samples().into_iter().collect();
    let entry = Entry::read(&made["survey/entry.frame"]).expect("a directory entry");
    let station = |name: &str| {
        let mut reception = Reception::open(entry.number, entry.header.length).expect("a length in range");
        for (_, frame) in made.iter().filter(|(file, _)| file.starts_with(name)) {
            let _ = reception.take(frame);
        }
        reception
    };
    let (mut first, second) = (station("survey/first/"), station("survey/second/"));
    assert!(first.file().is_none() && second.file().is_none());
    first.join(&second).expect("they agree");
    assert_eq!(first.file(), Some(&made["survey/whole.file"][..]));
}

#[test]
fn the_file_begins_with_the_header_of_its_entry() {
    let made: BTreeMap<String, Vec<u8>> = made::samples().into_iter().collect();
    let entry = Entry::read(&made["survey/entry.frame"]).expect("a directory entry");
    let piece = Piece::read(&made["survey/first/01.frame"]).expect("a piece");
    assert_eq!(piece.offset, 0);
    assert!(piece.bytes.starts_with(entry.bytes));
    assert_eq!(entry.header.length as usize, made["survey/whole.file"].len());
}
