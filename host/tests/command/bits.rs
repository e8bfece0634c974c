//! Bit 7 of the two SSID bytes, which newer terminal controllers set: heard frames are read and taken as those without it
//! are, and a request has it where it is asked for.
use super::room::{piece, Room};
use thoweldeck::{Reception, Request};

const SURVEY: [&str; 4] = ["entry.frame", "first/01.frame", "first/04.frame", "first/06.frame"];

// A frame with bit 7 of its destination and its source set, as far as asked for.
fn with_bits(frame: &[u8], destination: bool, source: bool) -> Vec<u8> {
    let mut frame = frame.to_vec();
    frame[6] |= u8::from(destination) << 7;
    frame[13] |= u8::from(source) << 7;
    frame
}

// The text of an address that the line of a field shows.
fn address<'a>(text: &'a str, field: &str) -> &'a str {
    let line =
        text.lines().find(|line| line.get(32..44).map_or(false, |name| name.trim() == field)).expect("the field");
    line[46..].split(": ").next().expect("a text")
}

#[test]
fn a_frame_with_the_bits_is_explained_as_the_plain_one() {
    let room = Room::new();
    for name in SURVEY {
        let plain = room.read(&format!("samples/survey/{name}")).expect("a sample");
        let frame = with_bits(&plain, true, true);
        // as Direwolf sends them
        assert_eq!((frame[6], frame[13]), (0xE2, 0xF7));
        let [without, with] = [plain, frame].map(|frame| {
            room.write("frame", &frame);
            room.run(&["explain", "frame"])
        });
        assert_eq!(with.status, without.status, "{name}: {with:?}");
        let pairs: Vec<(&str, &str)> = with.text.lines().zip(without.text.lines()).collect();
        assert_eq!(pairs.len(), without.text.lines().count(), "{name}");
        let other: Vec<&str> = pairs.iter().filter(|(one, other)| one != other).map(|(one, _)| *one).collect();
        let set = "bit 7 set: AX.25 2.2 tells commands from responses by it";
        let shifted = "characters shifted left by one bit, SSID byte";
        assert_eq!(
            other,
            [
                format!("    0  A2 A6 A8 40 40 40 E2     destination   QST-1+bit7: {shifted} E2, {set}"),
                format!("    7  AA 9E A6 82 A8 6A F7     source        UOSAT5-11+bit7: {shifted} F7, {set}"),
            ],
            "{name}"
        );
    }
}

#[test]
fn each_bit_is_told_of_its_own_address() {
    let room = Room::new();
    for (destination, source, shown) in
        [(true, false, ["QST-1+bit7", "UOSAT5-11"]), (false, true, ["QST-1", "UOSAT5-11+bit7"])]
    {
        room.write("frame", &with_bits(&piece(7, 0, b"ABC"), destination, source));
        let ran = room.run(&["explain", "frame"]);
        assert_eq!(ran.status, 0, "{ran:?}");
        assert_eq!([address(&ran.text, "destination"), address(&ran.text, "source")], shown);
        let count = |words: &str| ran.text.matches(words).count();
        assert_eq!([count(", bit 7 set: "), count(", bit 7 clear\n")], [1, 1], "{ran:?}");
    }
}

#[test]
fn frames_with_the_bits_are_taken_as_the_plain_ones() {
    let heard = |destination: bool, source: bool| {
        let room = Room::new();
        for name in SURVEY {
            let name = format!("samples/survey/{name}");
            let frame = room.read(&name).expect("a sample");
            room.write(&name, &with_bits(&frame, destination, source));
        }
        let ran = room.shell("thoweldeck take a.record samples/survey/entry.frame samples/survey/first/0[146].frame");
        (ran.status, ran.text, room.read("a.record"))
    };
    let plain = heard(false, false);
    // something is taken of it, and something told to be damaged and another file's
    let line = "4 frames: 1 with something new, 1 of other files, 1 damaged, 1 from the directory\n";
    assert!(plain.0 == 0 && plain.1.contains(line) && plain.2.is_some(), "{plain:?}");
    for (destination, source) in [(true, false), (false, true), (true, true)] {
        assert_eq!(heard(destination, source), plain, "{destination} {source}");
    }
}

// A record of file 7 that needs two requests: 50 holes of a byte each.
fn with_fifty_holes(room: &Room) {
    let mut reception = Reception::open(7, 99).expect("a length");
    for odd in 0..49 {
        reception.take(&piece(7, 2 * odd + 1, b"x")).expect("a piece");
    }
    room.write("a.record", &reception.save());
}

const CALLS: [&str; 5] = ["request", "--from", "VA3SFL-0", "--to", "UOSAT5-11"];

#[test]
fn a_request_has_the_bits_that_are_asked_for() {
    let room = Room::new();
    with_fifty_holes(&room);
    for (kind, words, count) in [("holes", &["a.record"][..], 2), ("start", &["a.record", "--start"], 1)] {
        let request = |more: &[&str], folder: &str| {
            let ran = room.run(&[&CALLS[..], words, &["-o", folder], more].concat());
            assert_eq!(ran.status, 0, "{more:?}: {ran:?}");
            let read = |index: usize| room.read(&format!("{folder}/request-{index:03}.frame"));
            ((1..).map_while(read).collect::<Vec<_>>(), ran.text)
        };
        let (plain, text) = request(&[], kind);
        assert_eq!((plain.len(), text.matches(", VA3SFL-0 to UOSAT5-11, ").count()), (count, count), "{text}");
        for (word, destination, source, shown) in [
            ("destination", true, false, "VA3SFL-0 to UOSAT5-11+bit7"),
            ("source", false, true, "VA3SFL-0+bit7 to UOSAT5-11"),
            ("both", true, true, "VA3SFL-0+bit7 to UOSAT5-11+bit7"),
        ] {
            let folder = format!("{kind}-{word}");
            let (frames, text) = request(&["--bit7", word], &folder);
            let expected: Vec<Vec<u8>> = plain.iter().map(|frame| with_bits(frame, destination, source)).collect();
            assert_eq!(frames, expected, "{word}");
            assert_eq!(text.matches(&format!(", {shown}, asks for ")).count(), count, "{text}");
            let ran = room.run(&["explain", &format!("{folder}/request-001.frame")]);
            let told = format!("{} to {}", address(&ran.text, "source"), address(&ran.text, "destination"));
            assert_eq!((ran.status, told.as_str()), (0, shown), "{ran:?}");
        }
    }
}

#[test]
fn a_call_says_its_bit_itself() {
    let room = Room::new();
    for (index, (from, to, more, ssids)) in [
        ("VA3SFL", "UOSAT5-11+bit7", &[][..], [0xF6, 0x61]),
        ("VA3SFL+bit7", "UOSAT5-11", &[], [0x76, 0xE1]),
        ("VA3SFL-0+bit7", "UOSAT5-11+bit7", &[], [0xF6, 0xE1]),
        ("VA3SFL-0+bit7", "UOSAT5-11", &["--bit7", "destination"], [0xF6, 0xE1]),
        ("VA3SFL-0", "UOSAT5-11+bit7", &["--bit7=source"], [0xF6, 0xE1]),
        ("VA3SFL-0", "UOSAT5-11+bit7", &["--bit7=destination"], [0xF6, 0x61]),
    ]
    .into_iter()
    .enumerate()
    {
        let folder = index.to_string();
        let words = ["request", "--start", "--number", "7", "--from", from, "--to", to, "-o", &folder];
        let ran = room.run(&[&words[..], more].concat());
        let frame = room.read(&format!("{folder}/request-001.frame")).expect("a request");
        assert_eq!((ran.status, [frame[6], frame[13]]), (0, ssids), "{from} {to} {more:?}");
    }
}

#[test]
fn the_text_that_is_shown_can_be_given_to_a_request() {
    let room = Room::new();
    for (index, (destination, source)) in
        [(false, false), (true, false), (false, true), (true, true)].iter().enumerate()
    {
        let frame = with_bits(&piece(7, 0, b"ABC"), *destination, *source);
        room.write("frame", &frame);
        let text = room.run(&["explain", "frame"]).text;
        let (to, from) = (address(&text, "destination"), address(&text, "source"));
        let folder = index.to_string();
        let ran = room.run(&["request", "--start", "--number", "7", "--from", from, "--to", to, "-o", &folder]);
        let written = room.read(&format!("{folder}/request-001.frame")).expect("a request");
        assert_eq!((ran.status, &written[..14]), (0, &frame[..14]), "{from} {to}");
        // and an answer goes to who was heard
        let answer = format!("answer-{index}");
        let ran = room.run(&["request", "--start", "--number", "7", "--from", "VA3SFL", "--to", from, "-o", &answer]);
        let written = room.read(&format!("{answer}/request-001.frame")).expect("a request");
        assert_eq!(ran.status, 0, "{ran:?}");
        assert_eq!(Request::read(&written).expect("a request").destination.to_string(), from);
    }
}

#[test]
fn other_words_are_refused_and_nothing_is_written() {
    let room = Room::new();
    with_fifty_holes(&room);
    for word in ["all", "", "Destination", "7", "destination,source", "neither"] {
        for more in [&[][..], &["--start"]] {
            let ran = room.run(&[&CALLS[..], &["a.record", "-o", "frames", "--bit7", word], more].concat());
            let line = format!("thoweldeck: `--bit7 {word}` is none of destination, source and both\n");
            assert_eq!((ran.status, ran.text.as_str(), ran.errors), (2, "", line));
        }
    }
    for (text, cause) in [
        ("UOSAT5-11+bit8", "it ends in `+bit8`, and only `+bit7` may stand there"),
        ("UOSAT5-16+bit7", "the SSID is `16`, and must be 0 to 15"),
    ] {
        let ran = room.run(&["request", "a.record", "--from", "VA3SFL", "--to", text, "-o", "frames"]);
        let line = format!("thoweldeck: `--to {text}`: refused, reason 2: {cause}\n");
        assert_eq!((ran.status, ran.text.as_str(), ran.errors), (1, "", line));
    }
    assert_eq!(room.names(), ["a.record"]);
}
