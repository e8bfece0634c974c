//! `explain`: each kind of frame, each reason on a planted fault, and frames of anything.
use super::room::{checked, framed, piece, Room};
use thoweldeck::{Address, Reason, Reception, Request};

// The frame of figure 3.2.
fn entry_of_the_figure(room: &Room) -> Vec<u8> {
    let text = room.read("samples/figures/figure-3.2.hex").expect("a sample");
    let text = String::from_utf8(text).expect("hexadecimal digits");
    text.split_whitespace().map(|pair| u8::from_str_radix(pair, 16).expect("a pair")).collect()
}

#[test]
fn raw_and_hexadecimal_are_one_frame() {
    let room = Room::new();
    room.write("raw", &entry_of_the_figure(&room));
    let (raw, text) = (room.run(&["explain", "raw"]), room.run(&["explain", "samples/figures/figure-3.2.hex"]));
    assert_eq!((raw.status, text.status), (0, 0));
    let below = |ran: &super::room::Ran| ran.text.lines().skip(1).map(str::to_string).collect::<Vec<_>>();
    assert_eq!(below(&raw), below(&text));
    for line in [
        "    0  A2 A6 A8 40 40 40 62     destination   QST-1",
        "   17  67 AE 00 00              number        file 44647",
        "   42  02 00 08 42 4C 39 39 31  item          02 name: `BL991124`",
        "  100  0A 00 02 84 0C           item          0A the header's sum: 0C84; these two taken as 0 it is 0C84",
        "  113  9D 3D                    check         the remainder of places 16 to 112 is 9D 3D: it agrees",
    ] {
        assert!(raw.text.lines().any(|shown| shown.starts_with(line)), "{line}\n{}", raw.text);
    }
}

#[test]
fn every_byte_is_shown_at_its_place() {
    let room = Room::new();
    for name in ["samples/survey/entry.frame", "samples/survey/first/01.frame", "samples/survey/first/04.frame"] {
        let frame = room.read(name).expect("a sample");
        let ran = room.run(&["explain", name]);
        let mut bytes = Vec::new();
        for line in ran.text.lines().skip(3).take_while(|line| !line.is_empty()) {
            assert_eq!(line[..5].trim().parse::<usize>(), Ok(bytes.len()), "{line}");
            let pairs = line.get(7..30).unwrap_or(&line[7..]);
            bytes.extend(pairs.split_whitespace().map(|pair| u8::from_str_radix(pair, 16).expect("a pair")));
        }
        assert_eq!(bytes, frame, "{name}");
    }
}

#[test]
fn the_steps_end_in_the_check() {
    let room = Room::new();
    let ran = room.run(&["explain", "samples/figures/figure-3.2.hex", "--steps"]);
    assert_eq!(ran.status, 0);
    assert!(ran.text.contains("\n  112  00    9D 3D\n"), "{}", ran.text);
}

#[test]
fn requests_are_explained() {
    let room = Room::new();
    let (server, station): (Address, Address) = ("UOSAT5-11".parse().unwrap(), "VA3SFL-0".parse().unwrap());
    room.write("start", &Request::start(server, station, 7));
    let ran = room.run(&["explain", "start"]);
    assert!(ran.status == 0 && ran.text.ends_with("\naccepted: asks for the start of file 7\n"), "{ran:?}");
    let reception = Reception::open(7, 20).unwrap();
    room.write("holes", &reception.requests(server, station).next().unwrap());
    let ran = room.run(&["explain", "holes"]);
    assert!(
        ran.text.contains("   23  00 00 00 14 00           hole          20 bytes, positions 0 to 19\n"),
        "{ran:?}"
    );
    // the same bytes asked about as a piece are refused
    let ran = room.run(&["explain", "holes", "--as", "piece"]);
    assert_eq!(ran.status, 1);
}

// The faults that an explained frame is marked with: the name of the field, or none behind the table, and the words.
fn marks(text: &str, reason: Reason) -> Vec<(String, String)> {
    let mark = format!("<-- reason {}: ", reason.number());
    let mut field = String::new();
    let mut marks = Vec::new();
    for line in text.lines() {
        // the next mark of a line stands below it, in no field's line
        match line.get(32..44).unwrap_or("").trim() {
            _ if line.starts_with("       <--") => field.clear(),
            "" => {}
            name => field = name.to_string(),
        }
        if let Some((_, words)) = line.split_once(&mark) {
            marks.push((field.clone(), words.to_string()));
        }
    }
    marks
}

// Checks that a frame is refused for a reason and a cause, and marked at just these fields with just these words.
fn explained(room: &Room, reason: Reason, frame: &[u8], cause: &str, wanted: &[(&str, &str)]) {
    room.write("frame", frame);
    let ran = room.run(&["explain", "frame"]);
    assert_eq!(ran.status, 1, "{reason}");
    let end = format!("\nrefused, reason {}: {cause}\n", reason.number());
    assert!(ran.text.ends_with(&end), "{cause}: {}", ran.text);
    let found = marks(&ran.text, reason);
    let found: Vec<(&str, &str)> = found.iter().map(|(field, words)| (field.as_str(), words.as_str())).collect();
    assert_eq!(found, wanted, "{reason}: {}", ran.text);
    assert_eq!(ran.text.matches("<--").count(), wanted.len(), "no other reason is marked: {}", ran.text);
}

// A piece of file 7 with one byte changed, its check left as it was.
fn piece_with(place: usize, byte: u8) -> Vec<u8> {
    let mut frame = piece(7, 0, b"ABC");
    frame[place] = byte;
    frame
}

#[test]
fn a_refused_piece_is_marked_where_it_is_at_fault() {
    let room = Room::new();
    let good = piece(7, 0, b"ABC");
    let behind = |reason: Reason, frame: &[u8], words: &str| explained(&room, reason, frame, words, &[("", words)]);
    behind(Reason::Short, &good[..15], "the frame has 15 bytes, and 16 is the least");
    behind(Reason::Short, &good[..20], "it has 4 bytes of information, and a file piece has 11 at least");
    behind(Reason::Size, &piece(7, 0, b""), "the piece has no data");
    behind(Reason::Size, &piece(7, 0, &[1; 245]), "it has 256 bytes of information, and 255 is the most");
    let control = "the control byte is 13 and not 03, so this is no UI frame";
    explained(&room, Reason::Control, &piece_with(14, 0x13), control, &[("control", "not 03")]);
    let protocol = "the protocol is F0, and a file piece has BB";
    explained(&room, Reason::Protocol, &piece_with(15, 0xF0), protocol, &[("protocol", "not BB")]);
    let mut flags = good[16..good.len() - 2].to_vec();
    flags[0] = 0x06;
    let cause = "the flags are 06, and a file piece has 02";
    explained(&room, Reason::Flags, &checked(0xBB, &flags), cause, &[("flags", "not 02")]);
    let damaged = Reason::Check.sentence();
    explained(&room, Reason::Check, &piece_with(26, 0x00), damaged, &[("check", "not the remainder")]);
    // the check written low byte first
    let mut swapped = good;
    swapped.swap(28, 29);
    let cause = "the check bytes are the remainder with its low byte first, and the high byte must come first";
    let words = format!("low byte first: the remainder is written {:02X} {:02X}", swapped[29], swapped[28]);
    explained(&room, Reason::Check, &swapped, cause, &[("check", &words)]);
}

#[test]
fn a_malformed_address_is_marked_at_each_of_its_faults() {
    let room = Room::new();
    let low_bit = "53 at place 2 has its low bit set; `S` shifted left by one bit is A6";
    let cause = format!("the destination is malformed: {low_bit}");
    explained(&room, Reason::Address, &piece_with(2, 0x53), &cause, &[("destination", low_bit)]);
    let source = "bit 0 of 6C at place 13 is 0, as in a destination; in a source it announces repeaters";
    let cause = format!("the source is malformed: {source}");
    explained(&room, Reason::Address, &piece_with(13, 0x6C), &cause, &[("source", source)]);
    // bit 7 is free, and makes nothing right
    let source = source.replace("6C", "EC");
    let cause = format!("the source is malformed: {source}");
    explained(&room, Reason::Address, &piece_with(13, 0xEC), &cause, &[("source", &source)]);
    let mut frame = piece_with(0, 0xE2);
    frame[1] = 0x40;
    frame[3..7].copy_from_slice(&[0x40, 0x40, 0x40, 0xC3]);
    frame[7..13].fill(0x40);
    let wanted = [
        ("destination", "E2 at place 0 is `q`, in lower case; `Q` is A2"),
        ("destination", "40 at place 1 is a space before the character at place 2"),
        ("destination", "bit 5 of C3 at place 6 is 0, and must be 1"),
        ("destination", "bit 0 of C3 at place 6 is 1, as in a source; in a destination it is 0"),
        ("source", "all six characters are spaces"),
    ];
    let cause = format!("the destination is malformed: {} (and 4 more faults)", wanted[0].1);
    explained(&room, Reason::Address, &frame, &cause, &wanted);
    // it is not shown as if it were good, and a good one is
    let text = room.run(&["explain", "frame"]).text;
    assert!(text.contains("\n    0  E2 40 A8 40 40 40 C3     destination   malformed <-- reason 2: E2 at"), "{text}");
    assert!(text.contains(&format!("\n{:46}<-- reason 2: 40 at place 1 is a space", "")), "{text}");
    assert!(text.contains("\n    7  40 40 40 40 40 40 77     source        malformed <-- reason 2: all"), "{text}");
    room.write("frame", &piece_with(13, 0x6C));
    let text = room.run(&["explain", "frame"]).text;
    assert!(
        text.contains("destination   QST-1: characters shifted left by one bit, SSID byte 62, bit 7 clear\n"),
        "{text}"
    );
}

#[test]
fn a_refused_request_is_marked_where_it_is_at_fault() {
    let room = Room::new();
    let request = |information: &[u8]| framed(0xBB, information);
    let bad_hole = |holes: &[u8], words: &str| {
        let frame = request(&[b"\x11\x07\0\0\0\xF4\0", holes].concat());
        explained(&room, Reason::Beyond, &frame, words, &[("hole", words)]);
        room.run(&["explain", "frame"]).text
    };
    // 4 to 7, then 8 to 9: they touch; one before the other; an empty one; one behind the longest file
    let touch = "hole 2 starts at position 8, where hole 1 ends: at least one position must lie between them";
    let text = bad_hole(b"\x04\0\0\x04\0\x08\0\0\x02\0", touch);
    assert!(text.lines().any(|line| line.starts_with("   28  ") && line.contains("<--")), "the second one: {text}");
    let before = "hole 2 starts at position 2, and hole 1 ends at 8: holes ascend";
    bad_hole(b"\x04\0\0\x04\0\x02\0\0\x01\0", before);
    bad_hole(b"\0\0\0\0\0", "hole 1 has no bytes");
    bad_hole(b"\0\x80\0\x01\0", "hole 1 ends at 32769, beyond 32768, where the longest file ends");
    let size = |information: &[u8], cause: &str, field: &str, words: &str| {
        explained(&room, Reason::Size, &request(information), cause, &[(field, words)]);
    };
    let block = "the block size is 245, and must be 244";
    size(b"\x11\x07\0\0\0\xF5\0\0\0\0\x01\0", block, "block size", "not 244");
    let odd = "a hole has 5 bytes, and the last one has 1";
    size(b"\x11\x07\0\0\0\xF4\0\0\0\0\x01\0\0", odd, "hole", "odd bytes");
    size(b"\x11\x07\0\0\0\xF4\0", "it asks for holes, and lists none", "flags", "no hole follows");
    let start = "it asks for the start, and nothing may follow the block size";
    size(b"\x10\x07\0\0\0\xF4\0\0\0\0\x01\0", start, "hole", "a request for the start has no holes");
    size(b"\x10\x07\0\0\0\xF4\0\0", start, "hole", "a request for the start has no holes");
    let most = "it has 256 bytes of information, and 255 is the most";
    size(&[0x11; 256], most, "", most);
    // asked about as a request
    room.write("frame", &piece(7, 0, b"ABC"));
    let text = room.run(&["explain", "frame", "--as", "request"]).text;
    let flags = "\nrefused, reason 5: the flags are 02, and a request has 10 (for the start) or 11 (for holes)\n";
    assert!(text.ends_with(flags), "{text}");
}

// The information of figure 3.2 without its check, with some bytes changed.
fn figure_with(room: &Room, changes: &[(usize, u8)]) -> Vec<u8> {
    let frame = entry_of_the_figure(room);
    let mut information = frame[16..frame.len() - 2].to_vec();
    for (place, byte) in changes {
        information[place - 16] = *byte;
    }
    information
}

#[test]
fn a_refused_entry_is_marked_where_it_is_at_fault() {
    let room = Room::new();
    let entry = |changes: &[(usize, u8)]| checked(0xBD, &figure_with(&room, changes));
    let two_bits = [("flags", "bit 0 is set"), ("flags", "bit 7 is set")];
    let cause = "the flags are A1: bit 0 is set, and must be 0 (and 1 more fault)";
    explained(&room, Reason::Flags, &entry(&[(16, 0xA1)]), cause, &two_bits);
    let clear = "the flags are 00: bit 5 is clear, so the header is not whole";
    explained(&room, Reason::NotWhole, &entry(&[(16, 0x00)]), clear, &[("flags", "bit 5 is clear")]);
    let offset = "the offset is 1 and not 0, so the header is not whole";
    explained(&room, Reason::NotWhole, &entry(&[(21, 0x01)]), offset, &[("offset", "not 0")]);
    let both = [("flags", "bit 5 is clear"), ("offset", "not 0")];
    let cause = "the flags are 40: bit 5 is clear, so the header is not whole (and 1 more fault)";
    explained(&room, Reason::NotWhole, &entry(&[(16, 0x40), (24, 0x01)]), cause, &both);
    // the same bytes asked about as a piece
    room.write("frame", &entry(&[]));
    let text = room.run(&["explain", "frame", "--as", "piece"]).text;
    assert!(text.ends_with("\nrefused, reason 4: the protocol is BD, and a file piece has BB\n"), "{text}");
}

#[test]
fn a_refused_header_is_marked_where_it_is_at_fault() {
    let room = Room::new();
    let whole = figure_with(&room, &[]);
    let refused = |information: &[u8], field: &str, words: &str, cause: &str| {
        explained(&room, Reason::Header, &checked(0xBD, information), cause, &[(field, words)]);
    };
    let changed = |changes: &[(usize, u8)], words: &str, cause: &str| {
        refused(&figure_with(&room, changes), "item", words, cause);
    };
    let start = ("it does not start with AA 55", "the file header does not start with AA 55");
    refused(&figure_with(&room, &[(33, 0xAB)]), "header", start.0, start.1);
    refused(&whole[..17], "", start.0, start.1);
    changed(&[(89, 0x02)], "a wrong length", "item 07 of the file header has 2 bytes, and not 1");
    changed(&[(112, 0x01)], "it runs past the end", "item 00 of the file header runs past the end");
    let end = ("the item that ends the header is missing", "the item that ends the file header is missing");
    refused(&whole[..whole.len() - 3], "", end.0, end.1);
    let (behind, cause) = ([&whole[..], &[0]].concat(), "1 byte follows the file header, and nothing may");
    refused(&behind, "left over", "nothing may follow the header", cause);
    changed(&[(66, 0x06)], "there are two of it", "item 06 of the file header is there twice");
    let missing = figure_with(&room, &[(66, 0x30)]);
    refused(&missing, "", "item 05 is missing", "item 05 of the file header is missing");
    let number = "item 01 is file 44648, and the frame's number is 44647";
    changed(&[(38, 0x68)], "not the frame's number", number);
    changed(&[(45, 0x43)], "not the sum", "item 0A is 0C84, and the sum of the file header is 0C85");
    // the body one byte earlier, and behind the file, each with the sum made right
    let early = "item 0B is 79, inside the file header, which has 80 bytes";
    changed(&[(108, 0x4F), (103, 0x83)], "inside the header", early);
    let late = "item 0B is 1761, beyond the end of the file, which has 1760 bytes";
    changed(&[(108, 0xE1), (109, 0x06), (103, 0x1B), (104, 0x0D)], "beyond the file's end", late);
}

#[test]
fn what_is_no_frame_is_told_as_what_it_looks_like() {
    let room = Room::new();
    room.write("picture", b"\x89PNG\r\n\x1A\n\0\0\0\rIHDR\0\0\0\x10");
    room.write("empty", b"");
    let frame = room.read("samples/survey/first/01.frame").expect("a sample");
    room.write("information", &frame[16..]);
    room.write("checked", &[&frame[..], b"\x12\x34"].concat());
    let header = "this looks like a received file with its header, and not like a frame: a file is received in frames";
    for (name, line) in [
        ("picture", "this looks like a picture, and not like a frame"),
        ("empty", "there is nothing in it: a frame has at least 16 bytes, and a record 22"),
        ("samples/survey/whole.file", header),
        ("information", "this looks like the information of a frame alone"),
        ("checked", "without its last two bytes it is a file piece"),
    ] {
        let ran = room.run(&["explain", name]);
        assert_eq!((ran.status, ran.errors.as_str()), (1, ""), "{name}");
        assert!(ran.text.lines().nth(1).map_or(false, |second| second.starts_with(line)), "{name}: {}", ran.text);
        assert!(ran.text.contains("\n\nplace  bytes ") && ran.text.contains("\n\nrefused, reason "), "{}", ran.text);
        // what `--as` names is explained as that, without a guess
        let ran = room.run(&["explain", name, "--as", "piece"]);
        assert_eq!(ran.text.lines().nth(1), Some(""), "{name}: {}", ran.text);
    }
    let ran = room.run(&["explain", "samples"]);
    assert_eq!((ran.status, ran.text.as_str()), (2, ""));
    assert_eq!(ran.errors, "thoweldeck: samples: is a folder, and no frame: name a file in it\n");
}

#[test]
fn a_long_input_is_not_shown_whole() {
    let room = Room::new();
    // as many holes, and as many items, as a hundred thousand bytes have
    let mut holes = framed(0xBB, &[0x11; 100_000]);
    room.write("frame", &holes);
    let text = room.run(&["explain", "frame"]).text;
    assert!(text.lines().count() < 120, "{}", text.lines().count());
    assert!(text.contains("\n  271  11 11 11 11 11 11 11 11  left over     |........| beyond the 255 bytes"), "{text}");
    holes[15] = 0xBD;
    room.write("frame", &holes);
    let text = room.run(&["explain", "frame"]).text;
    assert!(text.lines().count() < 120, "{}", text.lines().count());
    assert!(text.contains("bytes more\n"), "{text}");
}
