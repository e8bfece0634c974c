//! Dumps of any bytes, as the programs write them, are read as these bytes; a dump that is not whole is refused.
use super::super::{frames, Form, Heard};
use crate::command::bytes::characters;
use crate::command::made::{chance, piece};

// What `hexdump -C` writes for bytes, where lines that repeat are a `*`.
fn hexdump(bytes: &[u8]) -> String {
    let mut text = String::new();
    let mut last: &[u8] = &[];
    for (index, line) in bytes.chunks(16).enumerate() {
        if line == last {
            if !text.ends_with("*\n") {
                text += "*\n";
            }
            continue;
        }
        let pairs: Vec<String> = line.chunks(8).map(|half| joined(half, " ")).collect();
        text += &format!("{:08x}  {:48}  |{}|\n", index * 16, pairs.join("  "), characters(line));
        last = line;
    }
    text + &format!("{:08x}\n", bytes.len())
}

// What `xxd -c COLUMNS -g GROUP` writes.
fn xxd(bytes: &[u8], columns: usize, group: usize) -> String {
    let width = 2 * columns + (columns + group - 1) / group;
    let row = |(index, line): (usize, &[u8])| {
        let groups: Vec<String> = line.chunks(group).map(|group| joined(group, "")).collect();
        format!("{:08x}: {:width$} {}\n", index * columns, groups.join(" "), characters(line))
    };
    bytes.chunks(columns).enumerate().map(row).collect()
}

// What `od -A x -t x1z` writes, with all lines.
fn od(bytes: &[u8]) -> String {
    let row = |(index, line): (usize, &[u8])| {
        format!("{:06x} {:47}  >{}<\n", index * 16, joined(line, " "), characters(line))
    };
    bytes.chunks(16).enumerate().map(row).collect::<String>() + &format!("{:06x}\n", bytes.len())
}

// Bytes as digits with something between them.
fn joined(bytes: &[u8], between: &str) -> String {
    bytes.iter().map(|byte| format!("{byte:02x}")).collect::<Vec<_>>().join(between)
}

// The frames of a text of dumps.
fn read(text: &str) -> Vec<Heard> {
    let read = frames(text.as_bytes()).unwrap_or_else(|strange| panic!("{text}: {strange}"));
    assert_eq!(read.form, Form::Dump, "{text}");
    read.frames
}

// The line on a dump that is refused.
fn refused(text: &str) -> String {
    frames(text.as_bytes()).expect_err(text).to_string()
}

// Bytes of few values, so that lines repeat and their text is full of what may be mistaken.
fn bytes(next: &mut impl FnMut() -> usize) -> Vec<u8> {
    let values: &[u8] = [&b"  \0"[..], b" #|>", b"0123456789abcdef ", b"\0", b"*\n\xA2 A2", b"\x03\xBB@"][next() % 6];
    let mut bytes: Vec<u8> = (0..next() % 90 + 1).map(|_| values[next() % values.len()]).collect();
    bytes[0] = 0xA2;
    bytes
}

#[test]
fn the_dump_of_any_bytes_is_read_as_these_bytes() {
    let mut next = chance(3);
    for _ in 0..1000 {
        let (bytes, columns, group) = (bytes(&mut next), next() % 30 + 1, next() % 5 + 1);
        for text in [hexdump(&bytes), xxd(&bytes, columns, group), od(&bytes)] {
            assert_eq!(read(&text), [Heard { bytes: bytes.clone(), line: None }], "{text}");
            // an editor may cut the blanks at the ends of lines, or indent all of it
            let cut: String = text.lines().map(|line| format!("\t{}\r\n", line.trim_end())).collect();
            assert_eq!(read(&cut), [Heard { bytes: bytes.clone(), line: None }], "{cut}");
        }
    }
}

#[test]
fn several_dumps_are_several_frames() {
    let (a, b) = (b"\xA2\xA6\xA8@@@ a first frame, and more of it", b"\xA2 a second");
    let text = format!("# first\n{}\n# second\n{}{}{}", hexdump(a), xxd(b, 16, 2), od(a), hexdump(b));
    let wanted = [(2, &a[..]), (8, &b[..]), (9, &a[..]), (13, &b[..])];
    let wanted: Vec<Heard> =
        wanted.iter().map(|(line, bytes)| Heard { bytes: bytes.to_vec(), line: Some(*line) }).collect();
    assert_eq!(read(&text), wanted);
}

#[test]
fn places_of_other_programs() {
    for text in [
        "0000000    a2  a6  a8  40\n0000004    41  42\n0000006\n",
        "0000   a2 a6 a8 40\n0004   41 42\n",
        "  000:  a2 a6 a8 40  ...@\n  004:  41 42        AB\n",
        "00: A2 A6 A8 40\n04: 41 42\n",
        "0000000: a2a6 a840  ...@\n0000004: 4142       AB\n",
    ] {
        assert_eq!(read(text), [Heard { bytes: b"\xA2\xA6\xA8@AB".to_vec(), line: None }], "{text}");
    }
}

#[test]
fn a_place_that_does_not_count_on_is_told() {
    let rows = ["00000000  a2 a6 a8 40  |...@|", "00000004  41 42 43 44  |ABCD|", "00000008  45  |E|", "00000009"];
    assert_eq!(read(&rows.join("\n")).len(), 1);
    let place = |word: &str, line: usize, count: usize| {
        format!("is a dump, and `{word}` in line {line} is not the place of its line, with {count} bytes before it")
    };
    // without a line, with one twice, with two exchanged, and with a line that has lost its place
    assert_eq!(refused(&[rows[0], rows[2], rows[3]].join("\n")), place("00000008", 2, 4));
    assert_eq!(refused(&[rows[0], rows[1], rows[1]].join("\n")), place("00000004", 3, 8));
    assert_eq!(refused(&[rows[0], rows[2], rows[1]].join("\n")), place("00000008", 2, 4));
    assert_eq!(refused(&[rows[0], "41 42 43 44"].join("\n")), place("41", 2, 4));
    assert_eq!(refused(&[rows[0], "04 41 42 43"].join("\n")), place("04", 2, 4));
    assert_eq!(refused(&[rows[0], "|ABCD|"].join("\n")), place("|ABCD|", 2, 4));
    // with the end of another dump, and with more behind the end
    assert_eq!(refused(&[rows[0], rows[3]].join("\n")), place("00000009", 2, 4));
    assert_eq!(refused(&[rows[0], "00000004", rows[1]].join("\n")), place("00000004", 3, 4));
    // a digit lost, a pair lost, and a pair too many, in a dump without text
    let lost = |line: &str| refused(&format!("00000000  {line}\n00000004  41 42\n"));
    assert_eq!(lost("a2 a6 a 40"), "is a text, and `a` in line 1 has 1 digit, an odd count");
    assert_eq!(lost("a2 a6 40"), place("00000004", 2, 3));
    assert_eq!(lost("a2 a6 a8 40 40"), place("00000004", 2, 5));
    assert_eq!(lost("a2 a6 O8 40"), "is a text, and `O8` in line 1 is no pair of hexadecimal digits");
    // places in octal are told by the second line, and stay octal
    assert_eq!(refused("0000000 00 01 02 03 04 05 06 07\n0000010 08\n0000009\n"), place("0000009", 3, 9));
}

#[test]
fn repeated_lines_are_filled_up() {
    let long = read("00000000  a2 a6  |..|\n*\n00000006  41  |A|\n00000007\n");
    assert_eq!(long[0].bytes, b"\xA2\xA6\xA2\xA6\xA2\xA6A");
    assert_eq!(read("00000000: a2a6  ..\n*\n00000004: 41  A\n")[0].bytes, b"\xA2\xA6\xA2\xA6A");
    assert_eq!(read("0000000 a2 a6\n*\n0000004\n")[0].bytes, b"\xA2\xA6\xA2\xA6");
    let star = |line: usize| {
        format!("is a dump, and `*` in line {line} repeats no line, or no place behind it says how often")
    };
    assert_eq!(refused("00000000  a2 a6\n*\n"), star(2));
    assert_eq!(refused("00000000  a2 a6\n*\n*\n00000006\n"), star(3));
    assert_eq!(refused("00000000  a2 a6\n00000002\n*\n00000006\n"), star(3));
    // not by whole lines, by none, and by more than there is room for
    assert!(refused("00000000  a2 a6\n*\n00000005\n").contains("`00000005` in line 3 is not the place"));
    assert!(refused("00000000  a2 a6\n*\n00000002\n").contains("`00000002` in line 3 is not the place"));
    let far = "is a dump, and `fffffffe` in line 3 is a place too far on";
    assert_eq!(refused("00000000  a2 a6\n*\nfffffffe\n"), far);
    let half = "00000000  a2 a6\n*\n00c00000\n";
    assert_eq!(read(half)[0].bytes.len(), 0xC0_0000);
    let twice = frames(half.repeat(2).as_bytes()).expect("the first of them");
    assert_eq!(twice.strange[0].to_string(), "is a dump, and `00c00000` in line 6 is a place too far on");
    let base = "is a dump, and `0000140` in line 3 is a place in octal or in hexadecimal, and both may be meant";
    let zeros = "0000000 00 00 00 00 00 00 00 00 00 00 00 00 00 00 00 00\n";
    assert_eq!(refused(&format!("{zeros}*\n0000140\n")), base);
}

#[test]
fn text_that_does_not_fit_its_bytes_is_told() {
    let column = |word: &str, line: usize, count: usize| {
        format!("is a dump, and `{word}` in line {line} is not the text of the {count} bytes beside it")
    };
    // a pair lost in the last line, which no place follows; a pair too many; a line cut at the edge of a screen
    assert_eq!(refused("00000000: a2a6 a840  ...@\n00000004: 4143       ABC\n"), column("ABC", 2, 2));
    assert_eq!(refused("00000000: a2a6 a840 4142  ...@\n"), column("...@", 1, 6));
    assert_eq!(refused("00000000  a2 a6 a8  |...@|\n"), column("|...@|", 1, 3));
    assert_eq!(refused("00000000  a2 a6 a8 40  |..\n"), column("|..", 1, 4));
    assert_eq!(refused("000000 a2 a6 a8 40  >...@|\n"), column(">...@|", 1, 4));
    assert_eq!(refused("00000000  |....|\n"), column("|....|", 1, 0));
    // a byte that was changed by hand is read as it stands
    assert_eq!(read("00000000: a2a6 ff40  ...@\n")[0].bytes, b"\xA2\xA6\xFF@");
    let missing = "is a dump, and `00000004` in line 2 begins a line without the text that other lines have";
    assert_eq!(refused("00000000  a2 a6 a8 40  |...@|\n00000004  41\n"), missing);
    assert_eq!(refused("00000000: a2a6 a840  ...@\n00000004: 4120\n"), missing.replace("04`", "04:`"));
    assert_eq!(read("00000000: a2a6 a840  ...@\n00000004: 2020\n")[0].bytes.len(), 6);
}

#[test]
fn an_order_of_bytes_that_is_not_told_is_refused() {
    let order = "has several bytes, whose order is not told: `hexdump -C` and `xxd` tell it";
    assert_eq!(refused("0000000 a6a2 40a8\n0000004\n"), format!("is a dump, and `a6a2` in line 1 {order}"));
    assert_eq!(refused("00000000  a2a6 a840\n"), format!("is a dump, and `a2a6` in line 1 {order}"));
    let swapped = "has its bytes in the opposite order, by the text beside it: use `xxd` without -e";
    assert_eq!(refused("00000000: a6a2 40a8  ...@\n"), format!("is a dump, and `a6a2` in line 1 {swapped}"));
    let group = "is not as long as the groups beside it";
    assert_eq!(refused("00000000: a2a6 a8 4041\n"), format!("is a dump, and `4041` in line 1 {group}"));
    assert_eq!(refused("00000000: a2a6 a84041\n"), format!("is a dump, and `a84041` in line 1 {group}"));
    // blanks that were lost before the text
    assert_eq!(refused("00000000: a2a6 a840 abcdef\n"), format!("is a dump, and `abcdef` in line 1 {group}"));
}

#[test]
fn a_dump_that_cannot_be_read_takes_nothing_from_the_others() {
    let frame = piece(7, 4, b"a piece of a file");
    let broken = hexdump(&frame).replacen("00000010", "00000011", 1);
    let text = format!("{}{broken}{}", hexdump(&frame), xxd(&frame, 16, 2));
    let read = frames(text.as_bytes()).expect("two frames");
    let lines: Vec<Option<usize>> = read.frames.iter().map(|heard| heard.line).collect();
    assert_eq!((lines, read.strange.len()), (vec![Some(1), Some(9)], 1));
    assert!(read.frames.iter().all(|heard| heard.bytes == frame));
    assert!(read.strange[0].to_string().contains("`00000011` in line 6 is not the place of its line"));
    // what stands before a line that is no dump's is a frame all the same, and what is none is not
    let read = frames(format!("{}noted\n", hexdump(&frame)).as_bytes()).expect("a frame");
    assert_eq!((read.frames.len(), read.strange.len()), (1, 1));
    assert!(refused(&format!("{}noted\n", hexdump(&frame[..20]))).contains("`noted` in line 4"));
    let star = frames(b"00000000  a2 a6\n*\n00000000  a2 a6\n").expect("the second");
    assert_eq!((star.frames.len(), star.strange.len()), (1, 1));
}

#[test]
fn a_text_beside_no_bytes_is_told() {
    for text in ["00000000  ||\n*\n00000010\n", "00000000  |\n*\n00000010\n", "00000000  |abc\n*\n00000010\n"] {
        assert!(refused(text).contains("in line 1 is not the text of the 0 bytes beside it"), "{text}");
    }
    assert!(refused("00000000  a2  |.|\n00000001  ||\n*\n00000010\n").contains("in line 2 is not the text"));
}
