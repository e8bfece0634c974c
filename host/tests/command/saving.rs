//! `save` and `list`: the file as it was sent, and the records of a station.
use super::room::{piece, Room};

// A record of a whole file, made from pieces.
fn kept(room: &Room, name: &str, number: u32, file: &[u8]) {
    let mut words = vec!["take".to_string(), name.to_string(), "--length".to_string(), file.len().to_string()];
    for (index, bytes) in file.chunks(244).enumerate() {
        let frame = format!("{name}-{index}");
        room.write(&frame, &piece(number, index as u32 * 244, bytes));
        words.push(frame);
    }
    let words: Vec<&str> = words.iter().map(String::as_str).collect();
    assert_eq!(room.run(&words).status, 0);
}

#[test]
fn a_saved_file_is_compared_with_its_header() {
    let room = Room::new();
    let file = room.read("samples/survey/whole.file").expect("a sample");
    kept(&room, "good", 1201, &file);
    let ran = room.run(&["save", "good", "-o", "good.file"]);
    assert_eq!(ran.status, 0, "{ran:?}");
    assert!(ran.text.contains("`SURVEY.TXT`, and the body's bytes have the sum 790E, as item 09 says\n"), "{ran:?}");
    // the sum is not the exclusive or of the bytes, which document 002 says
    let xor = file[80..].iter().fold(0u16, |x, byte| x ^ u16::from(*byte));
    assert_ne!(xor, 0x790E);
    // one byte of the body changed: told, and saved all the same
    let mut changed = file.clone();
    changed[1000] += 1;
    kept(&room, "changed", 1201, &changed);
    let ran = room.run(&["save", "changed", "-o", "changed.file"]);
    assert_eq!(ran.status, 0, "{ran:?}");
    assert!(
        ran.text.contains("have the sum 790F, where item 09 says 790E: header and body do not belong together\n"),
        "{ran:?}"
    );
    assert_eq!(room.read("changed.file"), Some(changed));
}

#[test]
fn the_body_alone_is_saved() {
    let room = Room::new();
    let file = room.read("samples/survey/whole.file").expect("a sample");
    kept(&room, "good", 1201, &file);
    let ran = room.run(&["save", "good", "--body", "-o", "body"]);
    assert_eq!(ran.status, 0, "{ran:?}");
    assert!(ran.text.starts_with("body: the body of file 1201, 2278 bytes\n"), "{ran:?}");
    assert_eq!(room.read("body").as_deref(), Some(&file[80..]));
    // a file that has no header has no body that could be told
    kept(&room, "plain", 7, b"no header");
    let ran = room.run(&["save", "plain", "--body", "-o", "none"]);
    assert_eq!((ran.status, room.read("none")), (1, None), "{ran:?}");
    assert!(ran.errors.contains("has no header that says where the body starts"), "{ran:?}");
}

#[test]
fn a_file_without_a_good_header_is_saved_and_told() {
    let room = Room::new();
    let mut file = room.read("samples/survey/whole.file").expect("a sample");
    kept(&room, "plain", 7, b"no header");
    let ran = room.run(&["save", "plain", "-o", "plain.file"]);
    assert!(ran.status == 0 && ran.text.contains("begins with no file header"), "{ran:?}");
    // another file's number in the header; a length that is not the record's
    kept(&room, "number", 1202, &file);
    let ran = room.run(&["save", "number", "-o", "number.file"]);
    assert!(ran.status == 0 && ran.text.contains("its header breaks a rule (reason 8)"), "{ran:?}");
    file.push(0);
    kept(&room, "longer", 1201, &file);
    let ran = room.run(&["save", "longer", "-o", "longer.file"]);
    assert!(
        ran.status == 0 && ran.text.contains("says `SURVEY.TXT` and 2358 bytes in all, which it has not"),
        "{ran:?}"
    );
}

#[test]
fn a_folder_is_listed() {
    let room = Room::new();
    let line =
        "mkdir station && thoweldeck take station/survey.record samples/survey/entry.frame samples/survey/first/* \
                && thoweldeck take station/late samples/survey/entry.frame samples/survey/second/*";
    assert_eq!(room.shell(line).status, 0);
    let file = room.read("samples/survey/whole.file").expect("a sample");
    kept(&room, "station/whole.record", 1201, &file);
    room.write("station/broken.record", b"\x01\x04\0\x07");
    room.write("station/notes.txt", b"notes of the pass");
    assert_eq!(room.shell("mkfifo station/pipe.record station/pipe").status, 0);
    room.write("station/.late.new", &room.read("station/late").expect("a record"));
    let ran = room.run(&["list", "station"]);
    assert_eq!(ran.status, 1, "a file that should be a record is none: {ran:?}");
    let lines: Vec<&str> = ran.text.lines().collect();
    assert!(lines[1].starts_with("broken.record  refused, reason 13: "), "{ran:?}");
    let late = "late                 1201  -               2358    47%      3  [.........+####+.+##########+....]";
    assert_eq!(lines[2], late, "{ran:?}");
    let survey = "survey.record        1201  SURVEY.TXT      2358    58%      2  [#########+...+##+.........+#####]";
    assert_eq!(lines[3], "pipe.record    is no plain file", "{ran:?}");
    assert_eq!(lines[4], survey, "{ran:?}");
    let whole = "whole.record         1201  SURVEY.TXT      2358   100%      0  [################################]";
    assert_eq!(lines[5], whole, "{ran:?}");
    assert_eq!(lines.len(), 6, "{ran:?}");
    let ran = room.run(&["list", "samples/figures"]);
    assert_eq!((ran.status, ran.text.as_str()), (0, "samples/figures: has no records\n"));
    let ran = room.run(&["list", "absent"]);
    assert!(ran.status == 2 && ran.errors.contains("absent: cannot be read: "), "{ran:?}");
}

#[test]
fn what_little_is_held_is_no_nothing() {
    let room = Room::new();
    room.write("1", &piece(7, 5, b"A"));
    assert_eq!(room.run(&["take", "a.record", "1", "--length", "32768"]).status, 0);
    assert!(room.run(&["list", "."]).text.contains("  32768    <1%      2  [+..."), "{:?}", room.run(&["list", "."]));
}
