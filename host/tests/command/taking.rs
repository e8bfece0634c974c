//! `take`: what comes of a pass. What cannot be read keeps nothing else back, and the exit status says what happened.
use super::room::{checked, piece, Room};
use thoweldeck::{Address, Request};

// A frame as a line of hexadecimal digits.
fn line(frame: &[u8]) -> String {
    frame.iter().map(|byte| format!("{byte:02X}")).collect::<Vec<_>>().join(" ")
}

#[test]
fn what_cannot_be_read_keeps_nothing_back() {
    let room = Room::new();
    room.write("1", &piece(7, 0, b"ABCD"));
    room.write("2", &piece(7, 4, b"EFGH"));
    room.write("notes", b"the pass was short\n");
    let words = ["take", "a.record", "1", "absent", "samples", "notes", "2", "--length", "20"];
    let ran = room.run(&words);
    assert_eq!((ran.status, ran.errors.as_str()), (1, ""), "{ran:?}");
    let lines: Vec<&str> = ran.text.lines().collect();
    assert_eq!(lines[1], "1: 4 bytes at 0, 4 new");
    assert!(lines[2].starts_with("absent: cannot be read: "), "{ran:?}");
    assert!(lines[3].starts_with("samples: cannot be read: "), "{ran:?}");
    assert!(lines[4].starts_with("notes: is a text, and `the` in line 1 "), "{ran:?}");
    assert_eq!(lines[5], "2: 4 bytes at 4, 4 new");
    assert_eq!(lines[6], "2 frames: 2 with something new; 3 that could not be read");
    assert_eq!(lines[7], "a.record: file 7, 8 of 20 bytes held, 1 hole");
    assert_eq!(room.record("a.record").held(), 8);
}

#[test]
fn what_is_no_frame_at_all_is_told_as_what_it_is() {
    let room = Room::new();
    room.write("1", &piece(7, 0, b"ABCD"));
    room.write("picture", b"\x89PNG\r\n\x1A\n\0\0\0\rIHDR");
    room.write("empty", b"");
    assert_eq!(room.run(&["take", "a.record", "1", "--length", "20"]).status, 0);
    // a pattern of the shell brings the record itself, too
    let ran = room.run(&["take", "b.record", "1", "a.record", "picture", "empty", "--length", "20"]);
    assert_eq!(ran.status, 1, "{ran:?}");
    assert!(ran.text.contains("\na.record: this is a record, and no frame"), "{ran:?}");
    assert!(ran.text.contains("\npicture: this looks like a picture, and not like a frame"), "{ran:?}");
    assert!(ran.text.contains("\nempty: there is nothing in it"), "{ran:?}");
    assert!(ran.text.contains("\n1 frame: 1 with something new; 3 that could not be read\n"), "{ran:?}");
    assert_eq!(room.record("b.record").held(), 4);
}

#[test]
fn other_files_and_damage_are_told_and_counted() {
    let room = Room::new();
    let mut damaged = piece(7, 4, b"EFGH");
    damaged[26] ^= 1;
    room.write("1", &piece(7, 0, b"ABCD"));
    room.write("damaged", &damaged);
    room.write("other", &piece(8, 0, b"other"));
    let ran = room.run(&["take", "a.record", "1", "damaged", "other", "1", "--number", "7", "--length", "20"]);
    assert_eq!(ran.status, 0, "{ran:?}");
    let line = "4 frames: 1 with something new, 1 repeated, 1 of other files, 1 damaged\n";
    assert!(ran.text.contains(line), "{ran:?}");
    assert!(ran.text.contains("\ndamaged: refused, reason 6: "), "{ran:?}");
    assert!(ran.text.contains("\nother: refused, reason 9: "), "{ran:?}");
}

#[test]
fn a_piece_that_contradicts_the_record_has_a_status_of_its_own() {
    let room = Room::new();
    room.write("1", &piece(7, 0, b"ABCD"));
    assert_eq!(room.run(&["take", "a.record", "1", "--length", "20"]).status, 0);
    let before = room.read("a.record");
    room.write("beyond", &piece(7, 18, b"EFGH"));
    room.write("differs", &piece(7, 2, b"XDEF"));
    for (name, reason) in [("beyond", 10), ("differs", 11)] {
        let ran = room.run(&["take", "a.record", name, "absent"]);
        assert_eq!(ran.status, 3, "{ran:?}");
        assert!(ran.text.starts_with(&format!("{name}: refused, reason {reason}: ")), "{ran:?}");
        assert!(ran.text.contains("\n1 frame: 1 contradicting the record; 1 that could not be read\n"), "{ran:?}");
        assert_eq!(room.read("a.record"), before);
    }
    // the cause, and not every cause that the number has
    let ran = room.run(&["take", "a.record", "beyond", "differs"]);
    assert!(!ran.text.contains("request") && !ran.text.contains("hole in"), "{ran:?}");
}

#[test]
fn frames_of_several_files_make_no_record_of_any() {
    let room = Room::new();
    // another file's piece comes first, and a length is given
    let words = ["take", "new.record", "samples/survey/first/06.frame", "samples/survey/first/01.frame"];
    for more in [&[][..], &["--length", "2358"]] {
        let ran = room.run(&[&words[..], more].concat());
        assert_eq!(ran.status, 2, "{ran:?}");
        let said = "new.record: is new, and the frames are of several files (";
        assert!(ran.errors.contains(said) && ran.errors.contains("1201"), "{ran:?}");
        assert_eq!(ran.text.lines().count(), 2, "each frame is told: {ran:?}");
        assert_eq!(room.read("new.record"), None);
    }
    // the number decides, and so does a directory entry
    let ran = room.run(&[&words[..], &["--number", "1201"]].concat());
    assert_eq!((ran.status, room.record("new.record").number()), (0, 1201), "{ran:?}");
    let ran = room.run(&["take", "b.record", words[2], words[3], "samples/survey/entry.frame"]);
    assert_eq!((ran.status, room.record("b.record").number()), (0, 1201), "{ran:?}");
    // entries of two files decide nothing
    let ran = room.run(&["take", "c.record", "samples/figures/figure-3.2.hex", "samples/survey/entry.frame"]);
    assert_eq!((ran.status, room.read("c.record")), (2, None), "{ran:?}");
    assert!(ran.errors.contains("several files (1201, 44647)"), "{ran:?}");
}

#[test]
fn the_header_in_the_first_piece_tells_the_length() {
    let room = Room::new();
    let ran = room.shell("thoweldeck take a.record samples/survey/first/01.frame samples/survey/first/02.frame");
    assert_eq!(ran.status, 0, "{ran:?}");
    assert!(ran.text.starts_with("a.record: a new record of file 1201, 2358 bytes\n"), "{ran:?}");
    // a first piece that does not have all of the header says nothing of the length
    let first = room.read("samples/survey/whole.file").expect("a sample")[..79].to_vec();
    room.write("cut", &piece(1201, 0, &first));
    let ran = room.run(&["take", "b.record", "cut"]);
    assert_eq!((ran.status, room.read("b.record")), (2, None), "{ran:?}");
    let said = "the file's length is not known: the first piece of file 1201 has no whole file header";
    assert!(ran.errors.contains(said), "{ran:?}");
    // nor does the header of a piece elsewhere, or one with another file's number in it
    let whole = room.read("samples/survey/whole.file").expect("a sample")[..100].to_vec();
    for frame in [piece(1201, 1, &whole), piece(1202, 0, &whole)] {
        room.write("elsewhere", &frame);
        let ran = room.run(&["take", "b.record", "elsewhere"]);
        assert_eq!((ran.status, room.read("b.record")), (2, None), "{ran:?}");
    }
}

#[test]
fn several_lengths_of_one_file_are_told() {
    let room = Room::new();
    // the entry of the survey with one byte more, its sum and check made right again
    let mut information = room.read("samples/survey/entry.frame").expect("a sample")[16..].to_vec();
    information.truncate(information.len() - 2);
    let place = information.windows(3).position(|item| item == [0x04, 0x00, 0x04]).expect("item 04") + 3;
    let sum = information.windows(3).position(|item| item == [0x0A, 0x00, 0x02]).expect("item 0A") + 3;
    information[place] += 1;
    information[sum] += 1;
    room.write("longer", &checked(0xBD, &information));
    let words = ["take", "a.record", "samples/survey/entry.frame", "longer"];
    let ran = room.run(&words);
    assert_eq!((ran.status, room.read("a.record")), (2, None), "{ran:?}");
    assert!(ran.errors.contains("several lengths of file 1201 (2358, 2359)"), "{ran:?}");
    assert_eq!(room.run(&[&words[..], &["--length=2359"]].concat()).status, 0);
    assert_eq!(room.record("a.record").length(), 2359);
}

#[test]
fn a_text_of_frames_is_taken_line_by_line() {
    let room = Room::new();
    let (one, two) = (line(&piece(7, 0, b"ABCD")), line(&piece(7, 4, b"EFGH")));
    let mut damaged = piece(7, 8, b"IJKL");
    damaged[26] ^= 1;
    let text = format!("# Monday\n{one}\n\n{}\n{two}\n", line(&damaged));
    room.write("pass", text.as_bytes());
    let ran = room.run(&["take", "a.record", "pass", "--length", "20"]);
    assert_eq!(ran.status, 0, "{ran:?}");
    let lines: Vec<&str> = ran.text.lines().skip(1).collect();
    assert_eq!(lines[0], "pass line 2: 4 bytes at 0, 4 new");
    assert!(lines[1].starts_with("pass line 4: refused, reason 6: "), "{ran:?}");
    assert_eq!(lines[2], "pass line 5: 4 bytes at 4, 4 new");
    // a line that is no frame takes nothing from the others
    room.write("noted", format!("{text}noise of a burst\n").as_bytes());
    let ran = room.run(&["take", "b.record", "noted", "--length", "20"]);
    assert_eq!((ran.status, room.read("b.record")), (1, room.read("a.record")), "{ran:?}");
    assert!(ran.text.contains("\nnoted: is a text, and `noise` in line 6 is no pair"), "{ran:?}");
    let ran = room.run(&["explain", "noted"]);
    assert!(ran.status == 1 && ran.text.contains("\nnoted: is a text, and `noise` in line 6 is no pair"), "{ran:?}");
}

#[test]
fn standard_input_is_taken_once() {
    let room = Room::new();
    room.write("1", &piece(7, 0, b"ABCD"));
    let ran = room.shell("thoweldeck take a.record - --length 20 < 1");
    assert_eq!(ran.status, 0, "{ran:?}");
    assert!(ran.text.contains("\nstandard input: 4 bytes at 0, 4 new\n"), "{ran:?}");
    for line in ["thoweldeck take a.record - - < 1", "thoweldeck take - 1 < a.record"] {
        let ran = room.shell(line);
        assert_eq!(ran.status, 2, "{ran:?}");
        assert!(ran.text.contains("standard input"), "{ran:?}");
    }
    let ran = room.shell("thoweldeck holes - < a.record && thoweldeck show - < a.record");
    assert_eq!(ran.status, 0, "{ran:?}");
    assert_eq!(ran.text.matches("standard input: file 7, 4 of 20 bytes held, 1 hole\n").count(), 2, "{ran:?}");
    let ran = room.shell("thoweldeck explain - < 1");
    assert!(ran.status == 0 && ran.text.starts_with("standard input: 31 bytes raw, read as a file piece\n"), "{ran:?}");
}

#[test]
fn an_input_without_end_is_told() {
    let room = Room::new();
    room.write("1", &piece(7, 0, b"ABCD"));
    let ran = room.shell("yes 41 | thoweldeck take a.record - 1 --length 20");
    assert_eq!(ran.status, 1, "{ran:?}");
    assert!(ran.text.contains("standard input: cannot be read: it is longer than 16 MiB\n"), "{ran:?}");
    assert_eq!(room.record("a.record").held(), 4);
}

#[test]
fn where_nothing_is_taken_the_status_says_so() {
    let room = Room::new();
    room.write("1", &piece(7, 0, b"ABCD"));
    room.write("none.record", b"this is no record");
    assert_eq!(room.run(&["take", "a.record", "1", "--length", "20"]).status, 0);
    assert_eq!(room.run(&["take", "held.record", "1", "--length", "20"]).status, 0);
    assert_eq!(room.shell("chmod a-w held.record").status, 0);
    for words in [
        &["take", "none.record", "1"][..],
        &["take", "held.record", "1"],
        &["take", "a.record", "1", "--number", "8"],
        &["take", "a.record", "1", "--length", "21"],
        &["take", "b.record", "1", "--length", "40000"],
        &["take", "b.record", "1", "absent"],
    ] {
        let ran = room.run(words);
        assert_eq!((ran.status, ran.errors.is_empty()), (2, false), "{words:?}: {ran:?}");
    }
}

#[test]
fn frames_with_the_links_check_left_on_are_told() {
    let room = Room::new();
    room.write("1", &[&piece(7, 0, b"ABCD")[..], &[0x12, 0x34]].concat());
    let ran = room.run(&["take", "a.record", "1", "--number", "7", "--length", "20"]);
    assert!(ran.text.contains("; without its last two bytes it is a file piece"), "{ran:?}");
}

#[test]
fn a_reader_that_has_seen_enough_keeps_nothing_from_the_record() {
    let room = Room::new();
    room.write("1", &piece(7, 0, b"ABCD"));
    room.write("2", &piece(7, 4, b"EFGH"));
    room.shell("thoweldeck take a.record 1 2 1 2 1 2 1 2 --length 20 | true");
    assert_eq!(room.record("a.record").held(), 8);
}

#[test]
fn requests_and_entries_are_counted_as_what_they_are() {
    let room = Room::new();
    let (to, from): (Address, Address) = ("UOSAT5-11".parse().unwrap(), "VA3SFL-0".parse().unwrap());
    room.write("start", &Request::start(to, from, 7));
    let ran = room.run(&["take", "a.record", "start", "samples/survey/entry.frame"]);
    assert_eq!(ran.status, 0, "{ran:?}");
    assert!(ran.text.contains("\n2 frames: 1 from the directory, 1 with requests\n"), "{ran:?}");
}
