//! Every operation on a reception at the limits of L, with space enough for the length that is too long.
use crate::both::Both;
use crate::lent::{enough, map_size, Lent};
use crate::made::{address, number_of, piece};
use crate::random::Random;
use thoweldeck::boundary::Wanted;

pub fn round(both: &mut Both, random: &mut Random) {
    let length = random.pick(&[0, 1, 32_767, 32_768, 32_768, 32_769, 32_770, 65_535, 65_536, 65_556]);
    let (map, buffer) = (enough(random, map_size(length)), enough(random, length as usize));
    let mut reception = Lent { number: random.word(), length, map, buffer };
    let place = random.below(length as usize + 1) as u32;
    both.list(length, &reception.map, place);
    both.count_held(length, &reception.map);
    both.is_held(length, &reception.map, place);
    let (destination, source) = (number_of(address(random)), number_of(address(random)));
    let wanted = Wanted { destination, source, number: reception.number, length, map: &[] };
    both.write_fill(Wanted { map: &reception.map, ..wanted }, place, &random.bytes(268));
    saved(both, random, &reception);
    let mut joined = reception.clone();
    both.join(&mut joined, &reception);
    both.open(&mut reception);
    both.join(&mut reception, &joined);
    both.open(&mut reception);
    whole_hole(both, Wanted { map: &reception.map, ..wanted });
    taken(both, random, &mut reception);
}

// A fresh reception has one hole, as long as the file.
fn whole_hole(both: &mut Both, wanted: Wanted<'_>) {
    both.list(wanted.length, wanted.map, 0);
    let written = both.write_fill(wanted, 0, &[0; 28]);
    for frame in written.targets {
        both.read_request(&frame);
        both.hole(&frame, 0);
    }
}

// The largest record has 36,884 bytes; one of a longer file, made by hand, is refused.
fn saved(both: &mut Both, random: &mut Random, reception: &Lent) {
    let mut target = enough(random, 20 + map_size(reception.length) + reception.length as usize);
    both.save(reception, &mut target);
    both.load(&target, &mut reception.clone());
    let (map, buffer) = (vec![0; map_size(reception.length)], vec![0; reception.length as usize]);
    let mut record = vec![1, 4, 0, 7, 0, 0, 0, 2, 4, 0];
    record.extend(reception.length.to_le_bytes());
    for (tag, bytes) in [(3, map), (4, buffer)] {
        record.push(tag);
        record.extend((bytes.len() as u16).to_le_bytes());
        record.extend(bytes);
    }
    both.load(&record, &mut reception.clone());
}

// One byte at the last position and at those around it, and what has the same low 16 bits.
fn taken(both: &mut Both, random: &mut Random, reception: &mut Lent) {
    let last = reception.length.saturating_sub(1);
    for offset in [last, last + 1, last + 65_536, last.saturating_sub(1), 0x00FF_FFFF] {
        let size = random.within(1, 2);
        let bytes = random.bytes(size);
        let frame = piece::with(random, reception.number, offset, &bytes).bytes();
        both.take(reception, &frame);
    }
}
