//! What a Rust programmer expects of the package: iterators that stay at their end, reasons from numbers, and pages that say
//! when a function refuses and whose answer must be looked at.
use std::fs;
use std::iter::FusedIterator;
use std::path::{Path, PathBuf};
use thoweldeck::{Holes, NoReason, Reason, Reception, Requests};

fn fused<I: FusedIterator>(_: &I) {}

#[test]
fn iterators_stay_at_their_end() {
    let reception = Reception::open(7, 20).expect("a length in range");
    let (mut holes, mut requests): (Holes<'_>, Requests<'_>) =
        (reception.holes(), reception.requests("QST".parse().expect("a call"), "QST-1".parse().expect("a call")));
    fused(&holes);
    fused(&requests);
    assert!(holes.next().is_some() && requests.next().is_some());
    for _ in 0..3 {
        assert!(holes.next().is_none() && requests.next().is_none());
    }
}

#[test]
fn every_number_is_a_reason_or_none() {
    for number in 0..=255u8 {
        match Reason::try_from(number) {
            Ok(reason) => assert!((1..=15).contains(&number) && reason.number() == number),
            Err(none) => assert!(!(1..=15).contains(&number) && none == NoReason(number)),
        }
    }
}

// The sources of the library, without the command's.
fn sources() -> Vec<(PathBuf, String)> {
    let folder = Path::new(env!("CARGO_MANIFEST_DIR")).join("src");
    let files = fs::read_dir(folder).expect("the sources").map(|file| file.expect("a source").path());
    files
        .filter(|path| path.is_file() && !path.ends_with("main.rs"))
        .map(|path| (path.clone(), fs::read_to_string(path).expect("a source")))
        .collect()
}

// The public functions of a source: what stands above each, up to an empty line, and its declaration up to its body.
fn functions(source: &str) -> Vec<(String, String)> {
    let lines: Vec<&str> = source.lines().collect();
    let starts = (0..lines.len()).filter(|index| lines[*index].trim_start().starts_with("pub fn "));
    starts
        .map(|index| {
            let above = (0..index).rev().take_while(|line| !lines[*line].trim().is_empty());
            let above: Vec<&str> = above.map(|line| lines[line]).collect();
            let end = (index..lines.len()).find(|line| lines[*line].ends_with('{')).expect("a body");
            (above.join("\n"), lines[index..=end].join(" "))
        })
        .collect()
}

// Whether a function answers a result.
fn refuses(declared: &str) -> bool {
    declared.contains("Result<")
}

#[test]
fn a_page_says_when_its_function_refuses() {
    let mut count = 0;
    for (path, source) in sources() {
        for (above, declared) in functions(&source).iter().filter(|(_, declared)| refuses(declared)) {
            assert!(above.contains("/// # Errors"), "{}: {declared}\n{above}", path.display());
            count += 1;
        }
    }
    assert!(count >= 15, "the library has functions that refuse: {count}");
}

#[test]
fn an_answer_that_is_all_a_function_does_must_be_looked_at() {
    let mut count = 0;
    for (path, source) in sources() {
        for (above, declared) in functions(&source) {
            let answers = declared.contains("->") && !refuses(&declared);
            // an iterator's own type says it
            if answers && !declared.contains("-> Holes<") && !declared.contains("-> Requests<") {
                assert!(above.contains("#[must_use]"), "{}: {declared}", path.display());
                count += 1;
            }
        }
    }
    assert!(count >= 15, "the library has functions that answer: {count}");
}
