//! Words that make no sense: a clear line, exit status 2, and nothing changed.
use super::room::Room;

#[test]
fn words_that_make_no_sense_are_told() {
    let room = Room::new();
    for (words, said) in [
        (&[][..], "what shall be done?"),
        (&["taek"], "there is no `taek`"),
        (&["explain"], "a frame is wanted, and 0 given"),
        (&["explain", "a", "b"], "a frame is wanted, and 2 given"),
        (&["explain", "samples/survey/entry.frame", "--as", "letter"], "`--as letter` is none of"),
        (&["take", "a.record"], "a record and the frames to take are wanted"),
        (&["take", "a.record", "b", "--colour", "red"], "there is no option `--colour`"),
        (&["take", "a.record", "samples/survey/entry.frame", "--length", "many"], "`--length many` is not"),
        (&["take", "a.record", "samples/survey/entry.frame", "--length", "-1"], "`--length -1` is not"),
        (&["join", "a", "b"], "`-o` is wanted"),
        (&["join", "a", "-o", "b"], "a record and the records to join it with are wanted"),
        (&["join", "a", "b", "-o", ""], "is no name of a file"),
        (&["take", "a.record", "b", "--length=many"], "`--length many` is not"),
        (&["take", "a.record", "b", "--length=1", "--length", "2"], "`--length` is given twice"),
        (&["explain", "a", "--steps=yes"], "there is no option `--steps=yes`"),
        (&["join", "a", "b", "-o"], "`-o` is to be followed by its value"),
        (&["save", "a", "-o", "b", "-o", "c"], "`-o` is given twice"),
        (&["request", "a", "-o", "b", "--to", "QST"], "`--from` is wanted"),
        (&["request", "a", "-o", "b", "--from=QST", "--to=QST", "--bit7"], "`--bit7` is to be followed by its value"),
        (&["request", "a", "-o", "b", "--bit7", "both", "--bit7=both"], "`--bit7` is given twice"),
        (&["take", "a.record", "b", "--bit7", "both"], "there is no option `--bit7`"),
        (&["holes", "absent.record"], "absent.record: cannot be read"),
        (&["save", "-", "-o", "file"], "`-` is standard input, which"),
        (&["join", "a", "b", "-o", "-"], "-: is no name of a file to write"),
        (&["take", "a.record/", "samples/survey/first/01.frame"], "a.record/: is no name of a file to write"),
        (&["holes", "samples"], "samples: cannot be read"),
        (&["help", "nothing"], "there is no `nothing`"),
        (&["nothing", "--help"], "there is no `nothing`"),
    ] {
        let ran = room.run(words);
        assert_eq!(ran.status, 2, "{words:?}: {ran:?}");
        assert!(ran.errors.starts_with("thoweldeck: "), "{words:?}: {ran:?}");
        assert!(ran.errors.contains(said), "{words:?}: {ran:?}");
        assert_eq!(ran.text, "");
    }
    assert_eq!(room.names(), Vec::<String>::new());
}

#[test]
fn help_has_every_part_and_every_reason() {
    let room = Room::new();
    let whole = room.run(&["--help"]);
    assert_eq!((whole.status, whole.errors.as_str()), (0, ""));
    for part in ["explain", "take", "join", "holes", "request", "show", "save", "list"] {
        let page = room.run(&[part, "--help"]);
        assert_eq!(page.status, 0);
        assert!(page.text.starts_with(&format!("thoweldeck {part} ")), "{part}");
        assert!(whole.text.contains(page.text.trim_end()), "{part}");
        assert_eq!(room.run(&["help", part]).text, page.text);
    }
    for number in 1..=15 {
        assert!(whole.text.contains(&format!("\n{number:4}  ")), "reason {number}");
    }
    assert!(whole.text.lines().all(|line| line.len() <= 104), "the page is not too wide");
    for status in 0..=3 {
        assert!(whole.text.contains(&format!("\n   {status}  ")), "exit status {status}");
    }
}

#[test]
fn the_version_is_told() {
    let room = Room::new();
    let wanted = format!("thoweldeck {}\n", env!("CARGO_PKG_VERSION"));
    for word in ["-V", "--version"] {
        let ran = room.run(&[word]);
        assert_eq!((ran.status, ran.text.as_str()), (0, wanted.as_str()), "{word}");
    }
}

#[test]
fn words_behind_two_dashes_are_names() {
    let room = Room::new();
    room.write("--help", b"\0no frame");
    let ran = room.run(&["explain", "--", "--help"]);
    assert_eq!(ran.status, 1);
    assert!(ran.text.starts_with("--help: 9 bytes raw"), "{ran:?}");
    // nor is the value of an option one
    let ran = room.run(&["save", "--help", "-o", "--help"]);
    assert!(ran.text.starts_with("thoweldeck save RECORD"), "{ran:?}");
    let ran = room.run(&["save", "-o", "--help", "--", "--help"]);
    assert!(ran.errors.starts_with("thoweldeck: --help: refused, reason 13: "), "{ran:?}");
}

#[test]
fn a_text_that_is_not_hexadecimal_is_told() {
    let room = Room::new();
    // the letter O in the place of a zero, as a copy of a figure may have it
    room.write("figure", b"AC 82 66 A6 O2 98 60\n");
    let said = "figure: is a text, and `O2` in line 1 is no pair";
    let ran = room.run(&["explain", "figure"]);
    assert!(ran.status == 2 && ran.errors.contains(said), "{ran:?}");
    let ran = room.run(&["take", "a.record", "figure", "--number", "7", "--length", "20"]);
    assert!(ran.status == 1 && ran.text.contains(said), "{ran:?}");
}

#[test]
fn nothing_panics_where_nothing_can_be_written() {
    let room = Room::new();
    room.write("empty", b"");
    for (line, status) in [
        ("thoweldeck holes empty 2>/dev/full", 1),
        ("thoweldeck explain samples/survey/entry.frame >/dev/full 2>/dev/full", 2),
        ("thoweldeck --help | true; thoweldeck holes absent 2>/dev/full", 2),
    ] {
        assert_eq!(room.shell(line).status, status, "{line}");
    }
}
