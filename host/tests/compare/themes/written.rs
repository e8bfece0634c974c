//! Requests written: from every kind of place, repeated until no hole is left, and read back.
use super::holes::map;
use crate::both::{Both, Part};
use crate::lent::{enough, length, map_size, too_short, wrong_length};
use crate::made::{address, file_number, malformed_number, number_of};
use crate::model;
use crate::random::Random;
use thoweldeck::boundary::Wanted;

/// The size of a request for the start, and of one with no hole yet.
const HEAD: usize = 23;
const MOST: u32 = 49;

pub fn round(both: &mut Both, random: &mut Random) {
    let length = if random.chance(30) { random.within(95, 260) as u32 } else { length(random) };
    let count = random.within(47, 52) + random.pick(&[0, 0, 0, 49]);
    let map = if random.chance(30) { holes_of_one(random, length, count) } else { map(random, length) };
    let (destination, source) = (number_of(address(random)), number_of(address(random)));
    let wanted = Wanted { destination, source, number: file_number(random), length, map: &map };
    repeated(both, random, wanted);
    one_frame_or_two(both, random, wanted);
    for _ in 0..8 {
        from_a_place(both, random, wanted);
        refused(both, random, wanted);
        start(both, random, wanted);
    }
}

// A map with so many holes of one position each, at 0, 2, 4 and so on, as far as the length has room for them.
fn holes_of_one(random: &mut Random, length: u32, count: usize) -> Vec<u8> {
    let mut map = vec![0xFF; map_size(length)];
    for position in (0..length as usize).filter(|position| position % 2 == 0).take(count) {
        map[position / 8] ^= 1 << (position % 8);
    }
    map.extend(random.some_bytes(0, 2));
    map
}

// From 0, each time from the end of the last, until 15: every hole is listed, 49 in each frame but the last.
fn repeated(both: &mut Both, random: &mut Random, wanted: Wanted<'_>) {
    let held = |position| model::is_held(wanted.length, wanted.map, position);
    let mut unlisted: Vec<bool> = (0..wanted.length).map(|position| !held(position)).collect();
    let mut counts = Vec::new();
    let mut place = 0;
    loop {
        let target = enough(random, HEAD + 5 * MOST as usize);
        let written = both.write_fill(wanted, place, &target);
        let (count, end) = match written.answer {
            Ok(told) => told,
            Err(_) => break,
        };
        for frame in written.targets {
            read_back(both, &frame[..HEAD + 5 * count as usize], wanted, &mut unlisted);
        }
        counts.push(count);
        place = end;
    }
    let input = [Part::Number("length", wanted.length.into()), Part::Bytes("map", wanted.map)];
    both.claim(!unlisted.contains(&true), "every position that is not held is listed", &input);
    let full = counts.iter().rev().skip(1).all(|&count| count == MOST);
    both.claim(full, "each request but the last lists 49 holes", &input);
}

// 49 holes need one frame, 50 need two.
fn one_frame_or_two(both: &mut Both, random: &mut Random, wanted: Wanted<'_>) {
    for (count, frames) in [(49, [Ok((49, 97)), Err(15)]), (50, [Ok((49, 97)), Ok((1, 99))])] {
        let map = holes_of_one(random, 105, count);
        let wanted = Wanted { length: 105, map: &map, ..wanted };
        for (place, expected) in [0, 97].into_iter().zip(frames) {
            let target = enough(random, HEAD + 5 * MOST as usize);
            let answer = both.write_fill(wanted, place, &target).answer;
            both.claim(answer == expected, "49 holes need one frame, 50 need two", &[Part::Bytes("map", &map)]);
        }
    }
}

// What was written is read again; then its holes no longer count as unlisted.
fn read_back(both: &mut Both, frame: &[u8], wanted: Wanted<'_>, unlisted: &mut [bool]) {
    let read = both.read_request(frame).answer;
    let input = [Part::Bytes("frame", frame)];
    both.claim(read.is_ok(), "a written request is accepted", &input);
    let request = read.expect("an accepted request");
    let (destination, source) = (number_of(request.destination), number_of(request.source));
    both.claim((destination, source) == (wanted.destination, wanted.source), "the addresses are those written", &input);
    both.claim(request.number == wanted.number, "the number is the one written", &input);
    for (index, (start, size)) in request.holes.into_iter().enumerate() {
        if index % 10 == 0 {
            both.hole(frame, index as u32);
        }
        unlisted[start as usize..(start + size) as usize].fill(false);
    }
}

// Space for the target that is exact, longer, one byte short or empty.
fn from_a_place(both: &mut Both, random: &mut Random, wanted: Wanted<'_>) {
    let place = match random.below(8) {
        0 => random.pick(&[0, wanted.length, wanted.length + 1, 65_536, u32::MAX]),
        1 => random.word(),
        _ => random.below(wanted.length as usize) as u32,
    };
    let whole = both.write_fill(wanted, place, &random.bytes(HEAD + 5 * MOST as usize));
    let needed = HEAD + 5 * whole.answer.map_or(1, |told| told.0) as usize;
    let target = if random.chance(60) { too_short(random, needed) } else { enough(random, needed) };
    both.write_fill(wanted, place, &target);
}

// One or two faults: an address, the length, the map, the target.
fn refused(both: &mut Both, random: &mut Random, wanted: Wanted<'_>) {
    let (mut spoilt, mut target) = (wanted, random.bytes(HEAD + 5 * MOST as usize));
    let short = too_short(random, map_size(wanted.length));
    for _ in 0..random.within(1, 2) {
        match random.below(5) {
            0 => spoilt.destination = malformed_number(random),
            1 => spoilt.source = malformed_number(random),
            2 => spoilt.length = wrong_length(random),
            3 => spoilt.map = &short,
            _ => target = too_short(random, HEAD + 5),
        }
    }
    let place = if random.chance(70) { 0 } else { random.below(wanted.length as usize + 1) as u32 };
    both.write_fill(spoilt, place, &target);
}

fn start(both: &mut Both, random: &mut Random, wanted: Wanted<'_>) {
    let Wanted { mut destination, mut source, number, .. } = wanted;
    match random.below(6) {
        0 => destination = malformed_number(random),
        1 => source = malformed_number(random),
        _ => (),
    }
    let target = if random.chance(25) { too_short(random, HEAD) } else { enough(random, HEAD) };
    for frame in both.write_start(destination, source, number, &target) {
        both.read_request(&frame[..HEAD.min(frame.len())]);
    }
}
