//! Makes requests, for holes and for the start of a file.
use super::{file_number, Draft, FILE};
use crate::random::Random;

/// The most holes in a request.
pub const MOST: usize = 49;
/// Where the longest file ends.
const END: usize = 32_768;

/// A request that lists these holes, or asks for the start where there are none.
pub fn with(random: &mut Random, holes: &[(u32, u32)]) -> Draft {
    let mut information = vec![if holes.is_empty() { 0x10 } else { 0x11 }];
    information.extend(file_number(random).to_le_bytes());
    information.extend([244, 0]);
    for hole in holes {
        information.extend(hole_bytes(*hole));
    }
    Draft::new(random, FILE, information, None)
}

pub fn hole_bytes((start, length): (u32, u32)) -> [u8; 5] {
    let ([a, b, c, _], [d, e, ..]) = (start.to_le_bytes(), length.to_le_bytes());
    [a, b, c, d, e]
}

/// A right request.
pub fn any(random: &mut Random) -> Draft {
    let count = match random.below(6) {
        0 => 0,
        1 => random.within(MOST - 1, MOST),
        2 => random.within(1, MOST),
        _ => random.within(1, 4),
    };
    let holes = holes(random, count);
    with(random, &holes)
}

/// So many holes: ascending, at least one position between neighbours, none ending beyond the longest file.
pub fn holes(random: &mut Random, count: usize) -> Vec<(u32, u32)> {
    if count == 1 && random.chance(10) {
        return vec![(0, END as u32)];
    }
    let bound = if random.chance(30) { 2 * count + random.below(4) } else { END };
    let shift = if random.chance(30) { END - bound } else { 0 };
    let mut marks = std::collections::BTreeSet::new();
    if random.chance(30) {
        marks.insert(bound);
    }
    while marks.len() < 2 * count {
        marks.insert(random.below(bound + 1));
    }
    let marks: Vec<usize> = marks.into_iter().collect();
    marks.chunks_exact(2).map(|two| ((two[0] + shift) as u32, (two[1] - two[0]) as u32)).collect()
}
