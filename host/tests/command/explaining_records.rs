//! `explain` of a record, and of a piece beside a record: every field, every fault at its place, and nothing changed.
use super::room::{piece, Room};
use thoweldeck::{Reason, Reception};

// The example of the rules: file 7, 20 bytes, of which 0 to 3 and 8 to 9 are held.
const EXAMPLE: &[u8; 43] = b"\x01\x04\0\x07\0\0\0\x02\x04\0\x14\0\0\0\x03\x03\0\x0F\x03\0\x04\x14\0\
    ABCD\0\0\0\0EF\0\0\0\0\0\0\0\0\0\0";

#[test]
fn a_record_is_explained_field_by_field() {
    let room = Room::new();
    room.write("a.record", EXAMPLE);
    let ran = room.run(&["explain", "a.record"]);
    assert_eq!(
        (ran.status, ran.text.as_str()),
        (
            0,
            "\
a.record: 43 bytes raw, read as a record
this is a record, and no frame: `thoweldeck holes` and `thoweldeck show` tell what it holds

place  bytes                    field         meaning
    0  01                       tag           the file's number follows
    1  04 00                    data length   4 bytes
    3  07 00 00 00              number        file 7
    7  02                       tag           the file's length follows
    8  04 00                    data length   4 bytes
   10  14 00 00 00              length        20 bytes
   14  03                       tag           the map follows
   15  03 00                    data length   3 bytes
   17  0F 03 00                 map           a bit for each position, from the low end on: 6 of 20 held
   20  04                       tag           the buffer follows
   21  14 00                    data length   20 bytes
   23  41 42 43 44 00 00 00 00  buffer        |ABCD....| positions 0 to 19, and 00 where not held
   31  45 46 00 00 00 00 00 00                |EF......|
   39  00 00 00 00                            |....|

accepted: file 7, 6 of 20 bytes held, 2 holes
"
        )
    );
    // named as one, it is one without a guess
    let named = room.run(&["explain", "a.record", "--as", "record", "--steps"]);
    assert_eq!(
        named.text,
        ran.text.replacen(ran.text.lines().nth(1).expect("the guess"), "", 1).replacen("\n\n", "\n", 1)
    );
}

// Checks that a record is refused for a cause, and marked once: in a line that begins so, with these words.
fn refused(room: &Room, record: &[u8], row: &str, mark: &str, cause: &str) {
    room.write("a.record", record);
    let ran = room.run(&["explain", "a.record"]);
    assert_eq!((ran.status, ran.errors.as_str()), (1, ""), "{ran:?}");
    let marked: Vec<&str> = ran.text.lines().filter(|line| line.contains("<--")).collect();
    assert!(marked.len() == 1 && marked[0].starts_with(row), "{}", ran.text);
    assert!(marked[0].ends_with(&format!("<-- reason 13: {mark}")), "{}", ran.text);
    assert!(ran.text.ends_with(&format!("\n\nrefused, reason 13: {cause}\n")), "{}", ran.text);
    // the other parts of the command tell the same cause
    let ran = room.run(&["holes", "a.record"]);
    assert_eq!((ran.status, ran.errors), (1, format!("thoweldeck: a.record: refused, reason 13: {cause}\n")));
}

#[test]
fn a_refused_record_is_marked_where_it_is_at_fault() {
    let room = Room::new();
    let with = |place: usize, byte: u8, row: &str, mark: &str, cause: &str| {
        let mut record = EXAMPLE.to_vec();
        record[place] = byte;
        refused(&room, &record, row, mark, cause);
    };
    with(14, 4, "   14  04 ", "not 03", "the tag at place 14 is 04, and must be 03, of the map");
    with(15, 4, "   15  04 00 ", "not 3", "the data length of the map is 4, and must be 3 (place 15)");
    let length = "the file's length is 32788, and must be 1 to 32,768 (place 10)";
    with(11, 0x80, "   10  14 80 00 00 ", "not 1 to 32,768", length);
    let spare = "bit 4 of 10 at place 19 is a spare bit, behind position 19, and set";
    with(19, 0x10, "   17  0F 03 10 ", spare, spare);
    let unheld = "position 12 is not held, and its byte is 45, not 00 (place 35)";
    with(35, 0x45, "   31  45 46 00 00 45 ", unheld, unheld);
    let inside = "it is cut off at place 30, inside the buffer, with 13 bytes missing";
    let mark = "cut off at place 30, with 13 bytes missing";
    refused(&room, &EXAMPLE[..30], "   23  41 42 43 44 00 00 00  ", mark, inside);
    let before = "it is cut off at place 20, before tag 04";
    refused(&room, &EXAMPLE[..20], "       <-- ", before, before);
    let behind = "nothing may follow the buffer, and at place 43 there is more";
    refused(&room, &[&EXAMPLE[..], b"\n"].concat(), "   43  0A ", "nothing may follow the buffer", behind);
}

#[test]
fn anything_is_explained_as_a_record() {
    let room = Room::new();
    room.write("frame", b"\x02\x04\0");
    let ran = room.run(&["explain", "frame", "--as", "record"]);
    assert!(ran.status == 1 && ran.text.starts_with("frame: 3 bytes raw, read as a record\n\nplace "), "{ran:?}");
    let cause = "\nrefused, reason 13: the tag at place 0 is 02, and must be 01, of the file's number\n";
    assert!(ran.text.ends_with(cause), "{ran:?}");
    for name in ["samples/survey/entry.frame", "samples/survey/whole.file", "samples/figures/figure-3.3.hex"] {
        let ran = room.run(&["explain", name, "--as", "record"]);
        assert!(ran.status == 1 && ran.text.contains("\nrefused, reason 13: the tag at place 0 is A"), "{ran:?}");
    }
}

#[test]
fn a_fault_deep_in_a_record_is_not_hidden() {
    let room = Room::new();
    let mut record = Reception::open(7, 32_768).expect("a length").save();
    assert_eq!(record.len(), 36_884);
    record[36_000] = 0x58;
    let cause = "position 31884 is not held, and its byte is 58, not 00 (place 36000)";
    refused(&room, &record, "35996  00 00 00 00 58 00 00 00                |....X...| <-- ", cause, cause);
    let text = room.run(&["explain", "a.record"]).text;
    let hidden: Vec<&str> = text.lines().filter(|line| line.ends_with(" bytes more")).collect();
    assert_eq!(hidden, ["  273  and 3840 bytes more", " 4372  and 31624 bytes more", "36004  and 880 bytes more"]);
}

#[test]
fn a_piece_is_explained_beside_a_record() {
    let room = Room::new();
    room.write("a.record", EXAMPLE);
    room.write("frame", &piece(7, 2, b"CD....EF.."));
    let ran = room.run(&["explain", "frame", "--record", "a.record"]);
    let end = "it agrees\n\n\
               a.record: file 7, 6 of 20 bytes held, 2 holes\n\
               the piece goes to positions 2 to 11: 6 new, 4 held already\n\
               hole 1, positions 4 to 7: 4 of its 4 bytes\n\
               hole 2, positions 10 to 19: 2 of its 10 bytes\n\n\
               accepted: 10 bytes of file 7, positions 2 to 11: 6 new\n";
    assert!(ran.status == 0 && ran.text.ends_with(end), "{}", ran.text);
    room.write("frame", &piece(7, 8, b"EF"));
    let ran = room.run(&["explain", "frame", "--record=a.record"]);
    let end = "\nthe piece goes to positions 8 to 9: 0 new, 2 held already\n\n\
               accepted: 2 bytes of file 7, positions 8 to 9: a repeat, nothing new\n";
    assert!(ran.status == 0 && ran.text.ends_with(end), "{}", ran.text);
    // what is no piece goes nowhere, and is accepted all the same
    let ran = room.run(&["explain", "samples/survey/entry.frame", "--record", "a.record"]);
    let line = "\nnothing goes there: this is a directory entry, and no piece\n\naccepted: file 1201, ";
    assert!(ran.status == 0 && ran.text.contains(line), "{}", ran.text);
    assert_eq!(room.read("a.record").as_deref(), Some(&EXAMPLE[..]));
    assert_eq!(room.names(), ["a.record", "frame"]);
}

#[test]
fn a_piece_that_a_record_refuses_is_marked_where_it_does_not_fit() {
    let room = Room::new();
    room.write("a.record", EXAMPLE);
    let refused = |frame: &[u8], row: &str, mark: &str, cause: &str| {
        room.write("frame", frame);
        let ran = room.run(&["explain", "frame", "--record", "a.record"]);
        assert_eq!((ran.status, ran.errors.as_str()), (1, ""), "{ran:?}");
        let marked: Vec<&str> = ran.text.lines().filter(|line| line.contains("<--")).collect();
        assert_eq!(marked, [format!("{row} <-- {mark}")], "{}", ran.text);
        assert!(ran.text.ends_with(&format!("\n\nrefused, {cause}\n")), "{}", ran.text);
        assert_eq!(room.read("a.record").as_deref(), Some(&EXAMPLE[..]));
    };
    let row = "   17  B2 04 00 00              number        file 1202";
    let cause = "reason 9: it is a piece of file 1202, and the record is of file 7";
    refused(&piece(1202, 0, b"ABCD"), row, "reason 9: the record is of file 7", cause);
    let row = "   33  2E 2E 2E 2E 2E 2E 2E 2E                |........|";
    let mark = "reason 10: the byte at place 37 goes to position 20, and the file ends at 20";
    let cause = "reason 10: it goes to positions 8 to 23, and ends 4 bytes beyond the file of 20 bytes";
    refused(&piece(7, 8, b"EF.............."), row, mark, cause);
    let row = "   33  45 58                                  |EX|";
    let mark = "reason 11: 58 at place 34 goes to position 9, where 46 is held";
    let cause = "reason 11: position 9 is held with 46, and the piece has 58 there";
    refused(&piece(7, 0, b"ABCD....EX"), row, mark, cause);
    // the frame's own reason comes first
    let mut damaged = piece(8, 18, b"....");
    let [high, low] = [damaged[29], damaged[30]];
    damaged[29..].fill(0);
    let is = format!("the remainder of places 16 to 28 is {high:02X} {low:02X}: it differs");
    let row = format!("   29  00 00                    check         {is}");
    refused(&damaged, &row, "reason 6: not the remainder", &Reason::Check.to_string());
}

#[test]
fn a_record_beside_a_frame_that_makes_no_sense_is_told() {
    let room = Room::new();
    room.write("a.record", EXAMPLE);
    room.write("cut.record", &EXAMPLE[..30]);
    room.write("frame", &piece(7, 0, b"ABCD"));
    let entry = "samples/survey/entry.frame";
    for (words, status, said) in [
        (
            &["explain", "frame", "--record", "cut.record"][..],
            1,
            "cut.record: refused, reason 13: it is cut off at place 30, inside the buffer, with 13 bytes missing",
        ),
        (
            &["explain", "frame", "--record", entry],
            1,
            "samples/survey/entry.frame: refused, reason 13: this is a directory entry, and no record",
        ),
        (&["explain", "frame", "--record", "absent"], 2, "absent: cannot be read"),
        (&["explain", "frame", "--record"], 2, "`--record` is to be followed by its value"),
        (&["explain", "-", "--record", "-"], 2, "standard input cannot be both the frame and the record"),
        (&["explain", "a.record", "--record", "a.record"], 2, "a.record: is read as a record, and `--record` is for"),
    ] {
        let ran = room.run(words);
        assert_eq!((ran.status, ran.text.as_str()), (status, ""), "{words:?} {ran:?}");
        assert!(ran.errors.starts_with(&format!("thoweldeck: {said}")), "{words:?} {ran:?}");
    }
}
