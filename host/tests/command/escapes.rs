//! Names of files and words with control characters in them: they are shown with escapes, and act on no screen.
use super::room::{piece, Ran, Room};

// What a folder's name, a file's name or a word begins with, and how it is shown: it would clear the screen.
const ACTS: &str = "\x1b[2J\n";
const SHOWN: &str = "\\u{1b}[2J\\n";

// Runs the command on words in which `*` stands for the control characters. What is printed has none of them, and has
// a text in which they are escaped.
fn told(room: &Room, words: &[&str], said: &str) -> Ran {
    let words: Vec<String> = words.iter().map(|word| word.replace('*', ACTS)).collect();
    let ran = room.run(&words.iter().map(String::as_str).collect::<Vec<_>>());
    let all = format!("{}{}", ran.text, ran.errors);
    assert!(!all.contains('\x1b') && !all.contains("[2J\n"), "{words:?}: {ran:?}");
    assert!(all.contains(&said.replace('*', SHOWN)), "{words:?}: {ran:?}");
    ran
}

#[test]
fn names_of_files_are_shown_with_escapes() {
    let room = Room::new();
    for (name, offset) in [("1", 0), ("2", 4)] {
        room.write(&format!("{ACTS}{name}"), &piece(7, offset, b"ABCD"));
    }
    room.write(&format!("{ACTS}no"), b"no record");
    for (words, said, status) in [
        (&["explain", "*1"][..], "*1: 31 bytes raw", 0),
        (&["take", "*a", "*1", "--length", "8"], "*1: 4 bytes at 0, 4 new\n", 0),
        (&["take", "*b", "*2", "--length", "8"], "*b: a new record of file 7", 0),
        (&["join", "*a", "*b", "-o", "*c"], "*b: has 4 bytes that *a has not\n*c: file 7", 0),
        (&["join", "*a", "*b", "-o", "*c"], "*c: is there already", 1),
        (&["holes", "*a"], "*a: file 7", 0),
        (&["show", "*a"], "*a: file 7", 0),
        (&["request", "*a", "--from", "VA3SFL", "--to", "QST", "-o", "*d"], "*d/request-001.frame: 28 bytes", 0),
        (&["request", "*a", "--from", "VA3SFL", "--to", "QST", "-o", "*d"], "*d: has requests already", 1),
        (&["request", "*a", "--from", "VA3SFL", "--to", "QST", "-o", "*1"], "*1: cannot be made", 2),
        (&["save", "*a", "-o", "*file"], "*a: file 7, 4 of 8 bytes held, 1 hole", 1),
        (&["save", "*c", "-o", "*file"], "*file: file 7, 8 bytes", 0),
        (&["list", "."], "\n*a        ", 0),
        (&["holes", "*no"], "*no: refused, reason 13: ", 1),
        (&["take", "*no", "*1"], "*no: refused, reason 13: ", 2),
        (&["explain", "*absent"], "*absent: cannot be read", 2),
        (&["take", "*absent/a", "*1", "--length", "8"], "*absent/a: cannot be written: there is no folder *absent", 2),
    ] {
        assert_eq!(told(&room, words, said).status, status, "{words:?}");
    }
}

#[test]
fn names_of_our_own_files_are_shown_with_escapes() {
    let room = Room::new();
    room.write(&format!("{ACTS}1"), &piece(7, 0, b"ABCD"));
    std::fs::create_dir(room.path(&format!(".{ACTS}a.new"))).expect("a folder");
    told(&room, &["take", "*a", "*1", "--length", "8"], "*a: cannot be written: .*a.new: ");
    std::fs::create_dir(room.path(&format!(".{ACTS}a.lock"))).expect("a folder");
    told(&room, &["take", "*a", "*1", "--length", "8"], "*a: cannot be locked by .*a.lock: ");
    let request = format!("request-{ACTS}");
    room.write(&request, b"");
    room.write("a", &thoweldeck::Reception::open(7, 8).expect("a reception").save());
    let words = ["request", "a", "--from", "VA3SFL", "--to", "QST", "-o", "."];
    told(&room, &words, ".: has requests already (request-*)");
}

#[test]
fn words_are_shown_with_escapes() {
    let room = Room::new();
    room.write("1", &piece(7, 0, b"ABCD"));
    room.write("a", &thoweldeck::Reception::open(7, 8).expect("a reception").save());
    for (words, said) in [
        (&["*"][..], "there is no `*`\n"),
        (&["help", "*"], "there is no `*`\n"),
        (&["take", "a", "1", "--*"], "there is no option `--*`"),
        (&["take", "a", "1", "--*=1"], "there is no option `--*=1`"),
        (&["take", "b", "1", "--length", "*"], "`--length *` is not the length of a file"),
        (&["take", "b", "1", "--number=*"], "`--number *` is not the number of a file"),
        (&["explain", "1", "--as", "*"], "`--as *` is none of"),
        (&["request", "a", "--from", "*", "--to", "QST", "-o", "d"], "`--from *`: refused, reason 2: "),
        (&["request", "a", "--from", "QST+*", "--to", "QST", "-o", "d"], "it ends in `+*`, and only `+bit7` may"),
        (&["request", "a", "--from", "QST", "--to", "QST", "-o", "d", "--bit7", "*"], "`--bit7 *` is none of"),
    ] {
        told(&room, words, said);
    }
}

#[test]
fn bytes_of_frames_and_records_are_shown_as_points() {
    let room = Room::new();
    room.write("1", &piece(7, 0, ACTS.as_bytes()));
    told(&room, &["explain", "1"], "|.[2J.|");
    assert_eq!(told(&room, &["take", "a", "1", "--length", "5"], "5 new").status, 0);
    told(&room, &["show", "a"], "|.[2J.|");
}
