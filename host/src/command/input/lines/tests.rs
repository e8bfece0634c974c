//! Texts with one frame and with several, in a line each or in several, whole and damaged.
use super::*;
use crate::command::made::{chance, piece};
use thoweldeck::{Address, Reception};

const FIGURES: [&str; 2] = [
    include_str!(concat!(env!("CARGO_MANIFEST_DIR"), "/samples/figures/figure-3.2.hex")),
    include_str!(concat!(env!("CARGO_MANIFEST_DIR"), "/samples/figures/figure-3.3.hex")),
];

// The frames of a text, each with its line.
fn read(text: &str) -> Vec<(usize, Vec<u8>)> {
    let heard = frames(text).unwrap_or_else(|strange| panic!("{text}: {strange}"));
    assert_eq!(heard.strange, [], "{text}");
    heard.frames.into_iter().map(|heard| (heard.line.expect("a line"), heard.bytes)).collect()
}

// Bytes in lines of a width.
fn wrapped(frame: &[u8], width: usize) -> String {
    frame.chunks(width).map(line).collect()
}

// Bytes in a line.
fn line(bytes: &[u8]) -> String {
    bytes.iter().map(|byte| format!("{byte:02X} ")).collect::<String>() + "\n"
}

// The bytes of a figure.
fn figure(index: usize) -> Vec<u8> {
    FIGURES[index].split_whitespace().map(|pair| u8::from_str_radix(pair, 16).expect("a pair")).collect()
}

// A frame that asks for so many holes.
fn request(holes: u32) -> Vec<u8> {
    let (server, station): (Address, Address) = ("UOSAT5-11".parse().unwrap(), "VA3SFL-0".parse().unwrap());
    let mut reception = Reception::open(7, 2 * holes).expect("a length in range");
    for position in 0..holes {
        reception.take(&piece(7, 2 * position, b"x")).expect("a piece");
    }
    let request = reception.requests(server, station).next().expect("a request");
    assert_eq!(request.len(), 23 + 5 * holes as usize);
    request
}

// A frame with one byte changed.
fn with(frame: &[u8], place: usize, byte: u8) -> Vec<u8> {
    let mut frame = frame.to_vec();
    frame[place] = byte;
    frame
}

#[test]
fn each_line_is_a_frame() {
    let requests = [request(1), request(49)];
    assert_eq!(read(&(line(&requests[0]) + &line(&requests[1]))), [(1, requests[0].clone()), (2, requests[1].clone())]);
    let pieces: Vec<Vec<u8>> = (0..50).map(|index| piece(7, index * 16, &[index as u8; 16])).collect();
    let text: String = pieces.iter().map(|piece| format!("# a piece\n\n{}", line(piece))).collect();
    let wanted: Vec<(usize, Vec<u8>)> = pieces.into_iter().enumerate().map(|(i, piece)| (3 * i + 3, piece)).collect();
    assert_eq!(read(&text), wanted);
}

#[test]
fn each_line_is_a_frame_where_some_are_damaged() {
    let good = piece(7, 4, b"a piece of a file");
    let damages = [
        with(&good, 30, 0x00),
        with(&good, 3, 0x41),
        with(&good, 13, 0x76),
        with(&good, 14, 0x13),
        good[1..].to_vec(),
        good[..10].to_vec(),
        good[..14].to_vec(),
        good[..15].to_vec(),
        good[..20].to_vec(),
        good[..41].to_vec(),
        [&good[..], &[0]].concat(),
        [&good[..], &good[..]].concat(),
        vec![0],
    ];
    let others = [request(2), figure(0), figure(1), piece(7, 9, b"x")];
    for damaged in &damages {
        for other in &others {
            for order in [vec![damaged, other], vec![other, damaged], vec![other, damaged, damaged, other, damaged]] {
                let text: String = order.iter().map(|frame| line(frame)).collect();
                let wanted: Vec<(usize, Vec<u8>)> =
                    order.into_iter().enumerate().map(|(index, frame)| (index + 1, frame.clone())).collect();
                assert_eq!(read(&text), wanted, "{text}");
            }
        }
    }
    // where all are damaged, most of them begin as frames do
    let all = [&damages[0], &damages[1], &damages[0]];
    let text: String = all.iter().map(|frame| line(frame)).collect();
    assert_eq!(read(&text).len(), 3);
    // or they are wider than a frame is cut
    let wide = piece(7, 0, &[b'x'; 60]);
    assert_eq!(read(&(line(&with(&wide, 30, 0)) + &line(&with(&wide, 3, 0x41)))).len(), 2);
}

#[test]
fn one_frame_in_several_lines() {
    let requests = [request(1), request(6), request(25), request(49)];
    for frame in [figure(0), figure(1), piece(7, 4, b"a piece of a file")].iter().chain(&requests) {
        for width in 1..=frame.len() {
            assert_eq!(read(&wrapped(frame, width)), [(1, frame.clone())], "{width}");
        }
    }
    // also where it is refused: by its check, by its address, and a request by its last hole
    for width in [8, 16, 20, 32] {
        for frame in [with(&figure(0), 50, 0xFF), with(&figure(1), 2, 0x41), with(&requests[2], 147, 0x00)] {
            assert_eq!(read(&wrapped(&frame, width)), [(1, frame.clone())], "{width}");
        }
    }
}

#[test]
fn a_check_that_fits_by_chance_cuts_no_frame() {
    // behind the first data stand the two bytes that would be their check, and behind them more data
    let check = thoweldeck::remainder(&piece(7, 0, b"abc")[16..28]).to_be_bytes();
    let frame = piece(7, 0, &[b"abc", &check[..], b" and the rest of the piece"].concat());
    assert!(is_frame(&frame[..30]) && is_frame(&frame));
    for width in [1, 2, 3, 5, 6, 10, 15, 30] {
        assert_eq!(read(&wrapped(&frame, width)), [(1, frame.clone())], "{width}");
        let text = wrapped(&frame, width) + &wrapped(&figure(0), width);
        let frames: Vec<Vec<u8>> = read(&text).into_iter().map(|(_, frame)| frame).collect();
        assert_eq!(frames, [frame.clone(), figure(0)], "{width}");
    }
}

#[test]
fn a_frame_among_the_data_of_a_piece_is_no_frame() {
    let inner = piece(7, 100, b"inner");
    assert_eq!(inner.len(), 32);
    // the inner one stands in a line of its own, where the outer one is cut into lines of 32 or 16 bytes
    let outer = piece(7, 0, &[&[b'.'; 7][..], &inner, b"and so on"].concat());
    for width in [16, 32] {
        assert_eq!(read(&wrapped(&outer, width)), [(1, outer.clone())], "{width}");
        let both: Vec<Vec<u8>> = read(&wrapped(&outer, width).repeat(2)).into_iter().map(|(_, frame)| frame).collect();
        assert_eq!(both, [outer.clone(), outer.clone()], "{width}");
    }
}

#[test]
fn one_field_in_each_line() {
    let frame = figure(1);
    let mut text = "# figure 3.3\n".to_string();
    for (from, to, name) in
        [(0, 7, "to"), (7, 14, "from"), (14, 15, "control"), (15, 16, "protocol"), (16, 17, "flags")]
    {
        text += &format!("{} # {name}\n", line(&frame[from..to]).trim());
    }
    text +=
        &format!("\n# number, type, offset\n{}{}{}", line(&frame[17..21]), line(&frame[21..22]), line(&frame[22..25]));
    text += &line(&frame[25..frame.len() - 2]);
    text += &line(&frame[frame.len() - 2..]);
    assert_eq!(read(&text), [(2, frame)]);
    // and twice
    assert_eq!(read(&(text.clone() + &text)).iter().map(|(line, _)| *line).collect::<Vec<_>>(), [2, 13 + 2]);
}

#[test]
fn several_frames_in_several_lines_each() {
    let figures = [figure(0), figure(1)];
    let text = FIGURES.concat();
    assert_eq!(read(&text), [(1, figures[0].clone()), (9, figures[1].clone())]);
    // a damaged one beside a good one takes nothing from it
    for damaged in [with(&figures[1], 40, 0xFF), with(&figures[1], 2, 0x41), figures[1][..200].to_vec()] {
        let text = format!("{}\n{}", wrapped(&figures[0], 16), wrapped(&damaged, 16));
        assert_eq!(read(&text), [(1, figures[0].clone()), (10, damaged.clone())]);
        let text = format!("{}\n{}", wrapped(&damaged, 16), wrapped(&figures[0], 16));
        assert_eq!(read(&text)[1].1, figures[0]);
    }
    // one in a line, one in several, and one in a line again
    let (first, last) = (piece(7, 0, b"a"), piece(7, 1, b"b"));
    let text = line(&first) + &wrapped(&figures[0], 16) + &line(&last);
    assert_eq!(read(&text), [(1, first), (2, figures[0].clone()), (10, last)]);
    // two that are both damaged
    let damaged = [with(&figures[0], 40, 0xFF), with(&figures[1], 40, 0xFF)];
    let text = wrapped(&damaged[0], 16) + &wrapped(&damaged[1], 16);
    assert_eq!(read(&text), [(1, damaged[0].clone()), (9, damaged[1].clone())]);
}

#[test]
fn a_line_that_almost_begins_as_a_frame_begins_none() {
    // behind 7 bytes a line of 16: even bytes up to an odd one and 03, and the same with each of them otherwise
    let mut lines = vec![[0; 16]; 3];
    lines.iter_mut().for_each(|line| line[13..15].copy_from_slice(&[0x01, 0x03]));
    lines[0][14] = 0x13;
    lines[1][13] = 0x00;
    lines[2][12] = 0x01;
    for near in lines {
        let mut frame = piece(7, 0, &[&[0; 7][..], &near, b"abc"].concat());
        frame[20] = 0xFF;
        assert_eq!(read(&wrapped(&frame, 16)), [(1, frame.clone())], "{near:02X?}");
    }
}

#[test]
fn frames_inside_a_piece_are_its_data() {
    let inside = [&[0; 7][..], &piece(7, 0, b"a"), &[0; 4], &piece(7, 1, b"b"), &[0; 4], &request(1)].concat();
    let frame = piece(7, 0, &inside);
    // the frames in it stand at places 32, 64 and 96
    for width in [8, 16] {
        assert_eq!(read(&wrapped(&frame, width)), [(1, frame.clone())], "{width}");
    }
}

#[test]
fn every_good_line_is_found() {
    let mut next = chance(5);
    for _ in 0..500 {
        let mut lines: Vec<(Vec<u8>, bool)> = Vec::new();
        for _ in 0..next() % 12 + 1 {
            let data: Vec<u8> = (0..next() % 60 + 1).map(|_| next() as u8).collect();
            let mut frame = piece(7, next() as u32 % 100, &data);
            let is_good = next() % 3 > 0;
            if !is_good {
                let place = next() % frame.len();
                frame[place] ^= 1 << (next() % 8);
            }
            lines.push((frame, is_good));
        }
        let text: String = lines.iter().map(|(frame, _)| line(frame)).collect();
        let found = read(&text);
        for (index, (frame, is_good)) in lines.into_iter().enumerate() {
            assert!(!is_good || found.contains(&(index + 1, frame)), "line {} of\n{text}", index + 1);
        }
    }
}

#[test]
fn a_line_that_cannot_be_read_takes_nothing_from_the_others() {
    let (one, two) = (piece(7, 0, b"ABCD"), piece(7, 4, b"EFGH"));
    let text = format!("{}heard at noon\n{}A2 A\n", line(&one), line(&two));
    let read = frames(&text).expect("two frames");
    let lines: Vec<(Option<usize>, &[u8])> = read.frames.iter().map(|one| (one.line, &one.bytes[..])).collect();
    assert_eq!(lines, [(Some(1), &one[..]), (Some(3), &two[..])]);
    let strange: Vec<String> = read.strange.iter().map(Strange::to_string).collect();
    let pair = "is a text, and `heard` in line 2 is no pair of hexadecimal digits";
    assert_eq!(strange, [pair, "is a text, and `A` in line 4 has 1 digit, an odd count"]);
    // one frame, and a line that is none
    assert_eq!(frames(&format!("{}O2\n", line(&one))).expect("a frame").frames.len(), 1);
    // nor from frames of several lines, over which it does not go
    let text = wrapped(&one, 16) + "O2\n" + &wrapped(&two, 16);
    let read = frames(&text).expect("two frames");
    let bytes: Vec<&[u8]> = read.frames.iter().map(|one| &one.bytes[..]).collect();
    assert_eq!((bytes, read.strange.len()), (vec![&one[..], &two[..]], 1));
    // a request that has such a line in it is not taken for a shorter one
    let request = request(6);
    let mut lines: Vec<String> = request.chunks(16).map(line).collect();
    lines[3] = "O2\n".to_string();
    assert!(matches!(frames(&lines.concat()), Err(Strange::Word { line: 4, .. })));
    // where no frame is accepted it may be a part of any
    for text in
        [wrapped(&one, 16).replacen("AA", "AO", 1), line(&with(&one, 26, 0)) + "O2\n" + &line(&with(&two, 26, 0))]
    {
        assert!(matches!(frames(&text), Err(Strange::Word { .. })), "{text}");
    }
}
