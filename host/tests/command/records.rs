//! `take`, `join`, `holes`, `request`, `show` and `save`: what they write, and that a refusal changes no file.
use super::room::{piece, Room};
use thoweldeck::{Address, Asks, Request};

#[test]
fn frames_make_and_extend_a_record() {
    let room = Room::new();
    room.write("1", &piece(7, 0, b"ABCD"));
    room.write("2", &piece(7, 8, b"EF"));
    let ran = room.run(&["take", "a.record", "1", "--length", "20"]);
    assert_eq!(ran.status, 0, "{ran:?}");
    assert_eq!(
        ran.text,
        "a.record: a new record of file 7, 20 bytes\n\
         1: 4 bytes at 0, 4 new\n\
         1 frame: 1 with something new\n\
         a.record: file 7, 4 of 20 bytes held, 1 hole\n"
    );
    let ran = room.run(&["take", "a.record", "2", "1"]);
    assert_eq!(
        (ran.status, ran.text.as_str()),
        (
            0,
            "2: 2 bytes at 8, 2 new\n\
             1: 4 bytes at 0, a repeat: nothing new\n\
             2 frames: 1 with something new, 1 repeated\n\
             a.record: file 7, 6 of 20 bytes held, 2 holes\n"
        )
    );
    // the example of the rules, byte for byte
    let mut record = b"\x01\x04\0\x07\0\0\0\x02\x04\0\x14\0\0\0\x03\x03\0\x0F\x03\0\x04\x14\0ABCD\0\0\0\0EF".to_vec();
    record.extend([0; 10]);
    assert_eq!(room.read("a.record"), Some(record));
    assert_eq!(room.names(), ["1", "2", "a.record"]);
}

#[test]
fn a_refused_frame_changes_nothing_and_the_others_are_taken() {
    let room = Room::new();
    room.write("1", &piece(7, 0, b"ABCD"));
    assert_eq!(room.run(&["take", "a.record", "1", "--length", "20"]).status, 0);
    let before = room.read("a.record");
    let mut damaged = piece(7, 4, b"EFGH");
    damaged[26] ^= 1;
    room.write("damaged", &damaged);
    room.write("other", &piece(8, 4, b"EFGH"));
    room.write("beyond", &piece(7, 18, b"EFGH"));
    room.write("differs", &piece(7, 2, b"XDEF"));
    for (name, number, status) in [("damaged", 6, 0), ("other", 9, 0), ("beyond", 10, 3), ("differs", 11, 3)] {
        let ran = room.run(&["take", "a.record", name]);
        assert_eq!(ran.status, status);
        assert!(ran.text.starts_with(&format!("{name}: refused, reason {number}: ")), "{ran:?}");
        assert_eq!(room.read("a.record"), before, "{name}");
    }
    room.write("2", &piece(7, 4, b"EFGH"));
    let ran = room.run(&["take", "a.record", "damaged", "2", "other"]);
    assert_eq!(ran.status, 0);
    assert_eq!(room.record("a.record").held(), 8);
}

#[test]
fn a_new_record_needs_a_number_and_a_length() {
    let room = Room::new();
    room.write("1", &piece(7, 0, b"ABCD"));
    let ran = room.run(&["take", "a.record", "1"]);
    assert_eq!(ran.status, 2);
    assert!(ran.errors.contains("the file's length is not known"), "{ran:?}");
    for (length, status) in [("0", 2), ("1", 3), ("4", 0), ("32768", 0), ("32769", 2), ("4294967295", 2)] {
        let name = format!("{length}.record");
        let ran = room.run(&["take", &name, "1", "--length", length]);
        assert_eq!(ran.status, status, "{length}: {ran:?}");
        // a piece beyond the length is refused, and the record is there; a length out of range makes none
        let is_there = ["1", "4", "32768"].contains(&length);
        assert_eq!(ran.errors.contains("reason 7: the file's length is"), !is_there, "{ran:?}");
        assert_eq!(room.read(&name).is_some(), is_there, "{length}");
    }
    let ran = room.run(&["take", "b.record", "1", "--length", "20", "--number", "9"]);
    assert!(ran.status == 0 && ran.text.contains("1: refused, reason 9: "), "{ran:?}");
    let ran = room.run(&["take", "4.record", "1", "--length", "5"]);
    assert!(ran.status == 2 && ran.errors.contains("refused, reason 9: its file has 4 bytes, and not 5"), "{ran:?}");
    let ran = room.run(&["take", "4.record", "1", "--number", "8"]);
    assert!(ran.status == 2 && ran.errors.contains("refused, reason 9: it is of file 7, and not"), "{ran:?}");
}

#[test]
fn no_record_is_told_and_left() {
    let room = Room::new();
    room.write("1", &piece(7, 0, b"ABCD"));
    room.write("no.record", b"this is no record");
    room.write("empty.record", b"");
    for name in ["no.record", "empty.record"] {
        let before = room.read(name);
        for words in [
            &["take", name, "1", "--length", "20"][..],
            &["holes", name],
            &["show", name],
            &["save", name, "-o", "file"],
            &["join", name, name, "-o", name],
            &["request", name, "--from", "VA3SFL-0", "--to", "UOSAT5-11", "-o", "frames"],
        ] {
            let ran = room.run(words);
            assert_eq!(ran.status, if words[0] == "take" { 2 } else { 1 }, "{words:?}");
            assert!(ran.errors.starts_with(&format!("thoweldeck: {name}: refused, reason 13: ")), "{words:?} {ran:?}");
            assert_eq!(room.read(name), before);
        }
    }
    assert_eq!(room.names(), ["1", "empty.record", "no.record"]);
}

// Two stations' records of the survey.
fn stations(room: &Room) {
    for (record, station) in [("a.record", "first"), ("b.record", "second")] {
        let ran =
            room.shell(&format!("thoweldeck take {record} samples/survey/entry.frame samples/survey/{station}/*"));
        assert_eq!(ran.status, 0, "{ran:?}");
    }
}

#[test]
fn joined_records_are_the_file() {
    let room = Room::new();
    stations(&room);
    let (a, b) = (room.read("a.record"), room.read("b.record"));
    assert_eq!(room.run(&["join", "a.record", "b.record", "-o", "c.record"]).status, 0);
    assert_eq!(room.run(&["join", "b.record", "a.record", "-o", "d.record"]).status, 0);
    assert_eq!(room.read("c.record"), room.read("d.record"));
    assert_eq!((room.read("a.record"), room.read("b.record")), (a, b));
    assert_eq!(room.run(&["save", "c.record", "-o", "file"]).status, 0);
    assert_eq!(room.read("file"), room.read("samples/survey/whole.file"));
    // a joined record may take the place of one of the two
    assert_eq!(room.run(&["join", "a.record", "b.record", "-o", "a.record"]).status, 0);
    assert_eq!(room.read("a.record"), room.read("c.record"));
}

#[test]
fn three_records_are_joined() {
    let room = Room::new();
    for (name, offset, bytes) in [("a", 0, b"ABCD"), ("b", 2, b"CDEF"), ("c", 8, b"IJKL")] {
        room.write("1", &piece(7, offset, bytes));
        assert_eq!(room.run(&["take", name, "1", "--length", "20"]).status, 0);
    }
    let ran = room.run(&["join", "a", "b", "c", "-o", "all"]);
    assert_eq!(
        (ran.status, ran.text.as_str()),
        (
            0,
            "b: has 2 bytes that a has not\n\
             c: has 4 bytes that those before it have not\n\
             all: file 7, 10 of 20 bytes held, 2 holes\n"
        )
    );
    // any order, and the last may be written over
    assert_eq!(room.run(&["join", "b", "a", "c", "-o", "c"]).status, 0);
    assert_eq!(room.read("c"), room.read("all"));
    let ran = room.run(&["join", "a", "-o", "alone"]);
    assert_eq!((ran.status, room.read("alone")), (2, None), "one is not enough: {ran:?}");
}

#[test]
fn the_record_that_does_not_fit_is_named() {
    let room = Room::new();
    for (name, offset, bytes) in [("a", 0, b"ABCD"), ("b", 8, b"EFGH"), ("c", 8, b"EFXH")] {
        room.write("1", &piece(7, offset, bytes));
        assert_eq!(room.run(&["take", name, "1", "--length", "20"]).status, 0);
    }
    let ran = room.run(&["join", "a", "b", "c", "-o", "all"]);
    let said =
        "b joined with c: refused, reason 11: position 10 is held with 47 in the first, and with 58 in the second";
    assert_eq!((ran.status, ran.errors.as_str()), (1, format!("thoweldeck: {said}\n").as_str()), "{ran:?}");
    assert_eq!(room.read("all"), None);
}

#[test]
fn nothing_is_written_over() {
    let room = Room::new();
    stations(&room);
    room.write("there", b"a page of notes");
    let whole = room.run(&["join", "a.record", "b.record", "-o", "c.record"]);
    assert_eq!(whole.status, 0);
    for words in [&["join", "a.record", "b.record", "-o", "there"][..], &["save", "c.record", "-o", "there"]] {
        let ran = room.run(words);
        assert_eq!(ran.status, 1);
        assert_eq!(ran.errors, "thoweldeck: there: is there already, and is left as it is\n");
    }
    assert_eq!(room.read("there"), Some(b"a page of notes".to_vec()));
}

#[test]
fn what_does_not_fit_is_not_joined() {
    let room = Room::new();
    for (name, number, length, bytes) in [
        ("a", "7", "20", b"ABCD"),
        ("number", "8", "20", b"ABCD"),
        ("length", "7", "21", b"ABCD"),
        ("byte", "7", "20", b"ABXD"),
    ] {
        room.write("1", &piece(number.parse().expect("a number"), 0, bytes));
        assert_eq!(room.run(&["take", name, "1", "--length", length]).status, 0);
    }
    for (other, reason) in [("number", 9), ("length", 9), ("byte", 11)] {
        let before = room.read("a");
        for out in ["c", "a"] {
            let ran = room.run(&["join", "a", other, "-o", out]);
            assert_eq!(ran.status, 1);
            assert!(ran.errors.contains(&format!(": refused, reason {reason}: ")), "{ran:?}");
        }
        assert_eq!((room.read("a"), room.read("c")), (before, None));
    }
}

#[test]
fn requests_ask_for_every_hole() {
    let room = Room::new();
    stations(&room);
    let words = ["request", "a.record", "--from", "VA3SFL-0", "--to", "UOSAT5-11", "-o", "frames"];
    assert_eq!(room.run(&words).status, 0);
    let reception = room.record("a.record");
    let (to, from): (Address, Address) = ("UOSAT5-11".parse().unwrap(), "VA3SFL-0".parse().unwrap());
    let frames: Vec<Vec<u8>> = reception.requests(to, from).collect();
    assert_eq!(room.read("frames/request-001.frame").as_ref(), frames.first());
    let asks = Request::read(&frames[0]).expect("a request").asks;
    assert_eq!(asks, Asks::Holes(reception.holes().collect()));
    // a folder that has requests is left alone
    let ran = room.run(&words);
    assert_eq!((ran.status, ran.text.lines().count()), (1, 1));
    assert!(ran.errors.contains("has requests already"), "{ran:?}");
    for (option, place) in [("va3sfl", 3), ("VA3SFL-16", 3), ("QRPX1234", 5), ("", 5)] {
        let mut words = words;
        words[place] = option;
        let ran = room.run(&words);
        assert_eq!(ran.status, 1);
        assert!(ran.errors.contains("refused, reason 2: "), "{ran:?}");
    }
}

#[test]
fn a_start_is_asked_for() {
    let room = Room::new();
    stations(&room);
    let calls = ["--from", "VA3SFL-0", "--to", "UOSAT5-11"];
    let (to, from): (Address, Address) = ("UOSAT5-11".parse().unwrap(), "VA3SFL-0".parse().unwrap());
    let ran = room.run(&[&["request", "a.record", "--start", "-o", "start"][..], &calls].concat());
    let line = "start/request-001.frame: 23 bytes, VA3SFL-0 to UOSAT5-11, asks for the start of file 1201\n";
    assert_eq!((ran.status, ran.text.as_str()), (0, line), "{ran:?}");
    assert_eq!(room.read("start/request-001.frame"), Some(Request::start(to, from, 1201)));
    // of a file that there is no record of yet
    let ran = room.run(&[&["request", "--start", "--number=44647", "-o", "other"][..], &calls].concat());
    assert_eq!(
        (ran.status, room.read("other/request-001.frame")),
        (0, Some(Request::start(to, from, 44647))),
        "{ran:?}"
    );
    for words in [
        &["request", "--start", "-o", "none"][..],
        &["request", "a.record", "--start", "--number", "7", "-o", "none"],
        &["request", "a.record", "--number", "7", "-o", "none"],
    ] {
        let ran = room.run(&[words, &calls].concat());
        assert_eq!((ran.status, room.read("none")), (2, None), "{words:?}: {ran:?}");
    }
}

#[test]
fn fifty_holes_take_two_requests() {
    let room = Room::new();
    let mut words = vec!["take".to_string(), "a.record".to_string(), "--length".to_string(), "99".to_string()];
    for odd in 0..49 {
        let name = format!("{odd}");
        room.write(&name, &piece(7, 2 * odd + 1, b"x"));
        words.push(name);
    }
    let words: Vec<&str> = words.iter().map(String::as_str).collect();
    assert_eq!(room.run(&words).status, 0);
    assert_eq!(room.record("a.record").holes().count(), 50);
    let ran = room.run(&["request", "a.record", "--from", "VA3SFL", "--to", "UOSAT5-11", "-o", "frames"]);
    assert_eq!(ran.status, 0);
    assert!(ran.text.contains(
        "frames/request-001.frame: 268 bytes, VA3SFL-0 to UOSAT5-11, asks for 49 bytes of file 7, in 49 holes"
    ));
    assert!(ran
        .text
        .contains("frames/request-002.frame: 28 bytes, VA3SFL-0 to UOSAT5-11, asks for 1 byte of file 7, in 1 hole"));
}

#[test]
fn a_file_with_holes_is_not_saved() {
    let room = Room::new();
    stations(&room);
    let ran = room.run(&["save", "a.record", "-o", "file"]);
    assert_eq!(ran.status, 1);
    assert!(ran.errors.contains("2 holes: the file is not complete"), "{ran:?}");
    assert_eq!(room.read("file"), None);
}

#[test]
fn holes_are_listed_and_drawn() {
    let room = Room::new();
    room.write("1", &piece(7, 0, b"ABCD"));
    room.write("2", &piece(7, 8, b"EF"));
    assert_eq!(room.run(&["take", "a.record", "1", "2", "--length", "20"]).status, 0);
    let ran = room.run(&["holes", "a.record"]);
    assert_eq!(
        ran.text,
        "a.record: file 7, 6 of 20 bytes held, 2 holes\n\n \
         start  length  missing\n     \
         4       4  positions 4 to 7\n    \
         10      10  positions 10 to 19\n\n\
         [####....##..........]\n\
         each character is a position: # held, . missing\n"
    );
}

#[test]
fn what_is_held_is_shown() {
    let room = Room::new();
    room.write("1", &piece(7, 3, b"ABCD"));
    room.write("2", &piece(7, 66, b"EF"));
    assert_eq!(room.run(&["take", "a.record", "1", "2", "--length", "70"]).status, 0);
    let ran = room.run(&["show", "a.record"]);
    assert_eq!(
        ran.text,
        "a.record: file 7, 6 of 70 bytes held, 3 holes\n\n     \
         0  -- -- -- 41 42 43 44 -- -- -- -- -- -- -- -- --  |   ABCD         |\n    \
         16  -- 48 bytes missing, up to position 63\n    \
         64  -- -- 45 46 -- --                                |  EF  |\n"
    );
}

#[test]
fn a_longest_file_goes_through() {
    let room = Room::new();
    let mut words = vec!["take".to_string(), "a.record".to_string(), "--length".to_string(), "32768".to_string()];
    let file: Vec<u8> = (0..32768u32).map(|place| (place * 31 % 251) as u8).collect();
    for (index, bytes) in file.chunks(244).enumerate() {
        let name = format!("{index}");
        room.write(&name, &piece(7, index as u32 * 244, bytes));
        words.push(name);
    }
    let words: Vec<&str> = words.iter().map(String::as_str).collect();
    assert_eq!(room.run(&words).status, 0);
    assert_eq!(room.read("a.record").map(|record| record.len()), Some(36_884));
    assert_eq!(room.run(&["save", "a.record", "-o", "file"]).status, 0);
    assert_eq!(room.read("file"), Some(file));
    // one byte behind the largest record is no record
    let mut longer = room.read("a.record").expect("the record");
    longer.push(0);
    room.write("b.record", &longer);
    assert_eq!(room.run(&["holes", "b.record"]).status, 1);
}

#[test]
fn frames_that_are_no_pieces_are_told_as_what_they_are() {
    let room = Room::new();
    stations(&room);
    let before = room.read("a.record");
    let mut damaged = room.read("samples/survey/entry.frame").expect("a sample");
    damaged[40] ^= 1;
    room.write("damaged", &damaged);
    let (to, from): (Address, Address) = ("UOSAT5-11".parse().unwrap(), "VA3SFL-0".parse().unwrap());
    room.write("start", &Request::start(to, from, 7));
    let ran = room.run(&["take", "a.record", "start", "samples/survey/entry.frame"]);
    assert_eq!(ran.status, 0);
    assert!(ran.text.starts_with("start: a request for file 7, and no piece\n"), "{ran:?}");
    let ran = room.run(&["take", "a.record", "damaged"]);
    assert_eq!(ran.status, 0);
    assert!(ran.text.starts_with("damaged: refused, reason 6: "), "{ran:?}");
    // a new record of which too little is known: each frame is told all the same
    let ran = room.run(&["take", "new.record", "damaged", "samples/survey/first/02.frame"]);
    assert_eq!((ran.status, ran.text.lines().count()), (2, 2));
    assert!(ran.text.starts_with("damaged: refused, reason 6: "), "{ran:?}");
    assert!(ran.text.ends_with("samples/survey/first/02.frame: a piece of file 1201, not taken\n"), "{ran:?}");
    // an entry that tells another length than the record has
    let ran = room.run(&["take", "cut.record", "samples/survey/entry.frame", "--length", "100"]);
    let line = "samples/survey/entry.frame: directory entry of file 1201, 2358 bytes, and the record has 100 bytes\n";
    assert!(ran.text.contains(line), "{ran:?}");
    assert_eq!((room.read("a.record"), room.read("new.record")), (before, None));
}
