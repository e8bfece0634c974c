//! Inputs as people have them: raw, in hexadecimal, in dumps, one frame or several, from a file or standard input.
use super::dumps::{self, DUMPS, PLAIN, REFUSED};
use super::room::{piece, Ran, Room};

// What `explain` says below its first line, which names the input.
fn table(ran: &Ran) -> Vec<String> {
    ran.text.lines().skip(1).map(str::to_string).collect()
}

// Bytes as digits with something before each pair and something between them.
fn digits(bytes: &[u8], before: &str, between: &str) -> String {
    bytes.iter().map(|byte| format!("{before}{byte:02X}")).collect::<Vec<_>>().join(between)
}

// A text in UTF-16 with its byte order mark, as PowerShell writes it, or in the other order.
fn wide(text: &str, bytes_of: fn(u16) -> [u8; 2]) -> Vec<u8> {
    std::iter::once(0xFEFF).chain(text.encode_utf16()).flat_map(bytes_of).collect()
}

// Checks that `explain` shows an input as the raw frame is shown, and names its form.
fn is_shown_as(room: &Room, raw: &Ran, form: &str, name: &str, input: &[u8]) {
    room.write("input", input);
    let ran = room.run(&["explain", "input"]);
    assert_eq!((ran.status, ran.errors.as_str()), (0, ""), "{name}: {ran:?}");
    assert!(ran.text.starts_with(&format!("input: 121 bytes {form}, ")), "{name}: {ran:?}");
    assert_eq!(table(&ran), table(raw), "{name}");
}

#[test]
fn each_form_of_a_frame_is_explained_as_the_frame() {
    let room = Room::new();
    let frame = dumps::frame();
    room.write("raw", &frame);
    let raw = room.run(&["explain", "raw"]);
    assert!(raw.status == 0 && raw.text.contains("\naccepted: "), "{raw:?}");
    let mut texts = vec![
        ("a word", digits(&frame, "", "")),
        ("a word in lower case", digits(&frame, "", "").to_lowercase()),
        ("pairs", digits(&frame, "", " ")),
        ("0x and blanks", digits(&frame, "0x", " ")),
        ("0x and commas", digits(&frame, "0x", ", ") + ",\n"),
        ("commas", digits(&frame, "", ",")),
        ("colons", digits(&frame, "", ":")),
        ("dashes", digits(&frame, "", "-")),
        ("\\x", digits(&frame, "\\x", "")),
        ("a byte order mark", format!("\u{feff}{}\r\n", digits(&frame, "", " "))),
        ("comments", format!("# Überflug 3\n\n{} # gehört\n", digits(&frame, "", " "))),
    ];
    texts.extend(PLAIN.iter().map(|(name, text)| (*name, text.to_string())));
    for (name, text) in &texts {
        is_shown_as(&room, &raw, "in hexadecimal", name, text.as_bytes());
    }
    for (name, text) in DUMPS {
        is_shown_as(&room, &raw, "in a dump", name, text.as_bytes());
        is_shown_as(&room, &raw, "in a dump", name, text.replace('\n', "\r\n").as_bytes());
    }
    for text in [&texts[2].1, DUMPS[0].1, DUMPS[2].1] {
        let form = if text == texts[2].1 { "in hexadecimal" } else { "in a dump" };
        is_shown_as(&room, &raw, form, "UTF-16, least significant byte first", &wide(text, u16::to_le_bytes));
        is_shown_as(&room, &raw, form, "UTF-16, most significant byte first", &wide(text, u16::to_be_bytes));
    }
}

#[test]
fn what_cannot_be_told_apart_is_refused_with_its_word_and_line() {
    let room = Room::new();
    let mut texts: Vec<(String, &str, usize)> =
        REFUSED.iter().map(|(_, word, text)| (format!("# a dump\n{text}"), *word, 2)).collect();
    let hexdump = DUMPS[0].1;
    texts.extend([
        // a dump that has lost its first line, a line in its midst, a digit, a pair, and its last bar
        (hexdump.lines().skip(1).map(|line| format!("{line}\n")).collect(), "00000010", 1),
        (hexdump.replacen("00000030  ", "# 00000030  ", 1), "00000040", 5),
        (hexdump.replacen("63 61 66", "63 6 66", 1), "6", 4),
        (hexdump.replacen("63 61 66", "63 66", 1), "|cafe  00000010:-|", 4),
        (hexdump.replacen("A|\n", "A\n", 1), "|41 42 |# ff 0x A", 3),
        (hexdump.replacen("  |cafe  00000010:-|", "", 1), "00000030", 4),
        (hexdump.replacen("00000020", "00O00020", 1), "00O00020", 3),
        ("A2 A6 A8 40\x20\n\nA2 A6 O8\n".to_string(), "O8", 3),
        ("A2 A6 A\n".to_string(), "A", 1),
        ("A2A6A840  40 40\n".to_string(), "A2A6A840", 1),
    ]);
    for (text, word, line) in texts {
        room.write("input", text.as_bytes());
        let ran = room.run(&["explain", "input"]);
        assert_eq!((ran.status, ran.text.as_str()), (2, ""), "{text}\n{ran:?}");
        assert!(ran.errors.starts_with("thoweldeck: input: is a "), "{text}\n{ran:?}");
        assert!(ran.errors.contains(&format!(", and `{word}` in line {line} ")), "{text}\n{ran:?}");
        assert_eq!(ran.errors.lines().count(), 1, "{ran:?}");
    }
    room.write("input", b"# nothing was heard\n");
    let ran = room.run(&["explain", "input"]);
    assert_eq!(
        (ran.status, ran.errors.as_str()),
        (2, "thoweldeck: input: is a text, and has no frame in it\n"),
        "{ran:?}"
    );
}

#[test]
fn what_is_no_text_is_a_raw_frame() {
    let room = Room::new();
    for (input, size) in [(&b""[..], "0 bytes raw"), (b" \n", "2 bytes raw"), (b"A2 A6\0", "6 bytes raw")] {
        room.write("input", input);
        let ran = room.run(&["explain", "input"]);
        assert_eq!(ran.status, 1, "{ran:?}");
        assert!(ran.text.starts_with(&format!("input: {size}")), "{ran:?}");
        assert!(ran.text.contains("\nrefused, reason 1: "), "{ran:?}");
    }
}

#[test]
fn a_text_of_several_frames_is_taken_as_its_frames_are() {
    let room = Room::new();
    let pieces = [piece(7, 0, b"ABCD"), piece(7, 8, b"EF"), piece(7, 12, b"GHIJ"), piece(7, 18, b"KL")];
    let mut names = vec!["take", "wanted.record", "--length", "20"];
    for (name, frame) in ["1", "2", "3", "4"].into_iter().zip(&pieces) {
        room.write(name, frame);
        names.push(name);
    }
    assert_eq!(room.run(&names).status, 0);
    assert_eq!(room.record("wanted.record").held(), 12);
    let line = |frame: &[u8]| digits(frame, "", " ") + "\n";
    let [a, b, c, d] = &pieces;
    let mut damaged = b.clone();
    damaged[1] ^= 1;
    let dump = |frame: &[u8]| format!("00000000: {}\n", digits(frame, "", " "));
    for (name, text) in [
        ("lines", [line(a), line(b), line(c), line(d)].concat()),
        ("comments", format!("# pass 3\n{}\n# weak\n{}{}\n{}", line(a), line(b), line(c), line(d))),
        ("damaged", [line(&damaged), line(a), line(&b[..20]), line(b), line(&damaged), line(c), line(d)].concat()),
        ("dumps", [dump(a), dump(b), dump(c), dump(d)].concat()),
    ] {
        room.write(name, text.as_bytes());
        let record = format!("{name}.record");
        room.run(&["take", &record, name, "--length", "20"]);
        assert_eq!(room.read(&record), room.read("wanted.record"), "{name}");
    }
}

#[test]
fn two_figures_one_behind_the_other_are_two_frames() {
    let room = Room::new();
    let figures = ["samples/figures/figure-3.2.hex", "samples/figures/figure-3.3.hex"];
    let apart: Vec<Ran> = figures.iter().map(|name| room.run(&["explain", name])).collect();
    let both = room.shell("cat samples/figures/*.hex | thoweldeck explain -");
    assert_eq!(both.status, 0, "{both:?}");
    for ran in apart {
        assert!(both.text.contains(&table(&ran).join("\n")), "{both:?}");
    }
}

#[test]
fn a_dash_is_standard_input() {
    let room = Room::new();
    room.write("text", DUMPS[0].1.as_bytes());
    room.write("raw", &dumps::frame());
    let raw = room.run(&["explain", "raw"]);
    for line in ["thoweldeck explain - < raw", "thoweldeck explain - < text", "cat text | thoweldeck explain -"] {
        let ran = room.shell(line);
        assert_eq!(ran.status, 0, "{line}: {ran:?}");
        assert!(ran.text.starts_with("standard input: 121 bytes "), "{line}: {ran:?}");
        assert_eq!(table(&ran), table(&raw), "{line}");
    }
    assert_eq!(room.run(&["take", "a.record", "raw", "--length", "200"]).status, 0);
    for (name, line) in [
        ("b", "thoweldeck take b.record - --length 200 < raw"),
        ("c", "cat text | thoweldeck take c.record - --length=200"),
    ] {
        let ran = room.shell(line);
        assert_eq!(ran.status, 0, "{line}: {ran:?}");
        assert_eq!(room.read(&format!("{name}.record")), room.read("a.record"), "{line}");
    }
    for part in ["holes", "show"] {
        let (file, dash) = (room.run(&[part, "a.record"]), room.shell(&format!("thoweldeck {part} - < a.record")));
        assert_eq!((file.status, dash.status), (0, 0), "{dash:?}");
        assert_eq!(dash.text, file.text.replace("a.record", "standard input"));
        assert!(room
            .shell(&format!("thoweldeck {part} - < raw"))
            .text
            .contains("standard input: refused, reason 13: "));
    }
    // a file of that name is named otherwise
    room.write("-", DUMPS[2].1.as_bytes());
    assert_eq!(table(&room.run(&["explain", "./-"])), table(&raw));
}
