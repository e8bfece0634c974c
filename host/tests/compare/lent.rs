//! Lent space: receptions and targets that are exact, longer with rubbish in them, or too short.
use crate::both::Part;
use crate::made::File;
use crate::model;
use crate::random::Random;

/// How many bytes the map of a file of this length has.
pub fn map_size(length: u32) -> usize {
    (length as usize + 7) / 8
}

/// A length that a file can have; a long one only now and then.
pub fn length(random: &mut Random) -> u32 {
    match random.below(100) {
        0 => random.pick(&[32_767, 32_768]),
        1 => random.within(2_000, 32_768) as u32,
        2..=29 => random.pick(&[1, 2, 7, 8, 9, 15, 16, 17, 20, 63, 64, 65]),
        30..=39 => random.within(300, 1_500) as u32,
        _ => random.within(1, 300) as u32,
    }
}

/// A length that no file can have.
pub fn wrong_length(random: &mut Random) -> u32 {
    match random.below(3) {
        0 => random.pick(&[0, 32_769, 65_535, 65_536, 65_556, u32::MAX]),
        // the low 16 bits alone would be a right length
        1 => 65_536 * random.within(1, 65_535) as u32 + random.within(1, 300) as u32,
        _ => random.within(32_769, 0xFFFF_FFFF) as u32,
    }
}

/// Rubbish of exactly the needed size, or of more.
pub fn enough(random: &mut Random, needed: usize) -> Vec<u8> {
    let more = random.pick(&[0, 0, 1, 2, 9]);
    random.bytes(needed + more)
}

/// Rubbish of less than the needed size, which is not 0: most often one byte less.
pub fn too_short(random: &mut Random, needed: usize) -> Vec<u8> {
    let size = match random.below(4) {
        0 => 0,
        1 => random.below(needed),
        _ => needed - 1,
    };
    random.bytes(size)
}

/// A reception in lent space.
#[derive(Clone, Debug, PartialEq, Eq)]
pub struct Lent {
    pub number: u32,
    pub length: u32,
    pub map: Vec<u8>,
    pub buffer: Vec<u8>,
}

impl Lent {
    /// Space full of rubbish: positions held at random, spare bits set, bytes beyond.
    pub fn rubbish(random: &mut Random, number: u32, length: u32) -> Lent {
        let size = length.min(33_000);
        let map = enough(random, map_size(size));
        Lent { number, length, map, buffer: enough(random, size as usize) }
    }

    /// A reception that holds nothing; spare bits and the bytes beyond are rubbish.
    pub fn fresh(random: &mut Random, number: u32, length: u32) -> Lent {
        let mut made = Lent::rubbish(random, number, length);
        model::open(length, &mut made.map, &mut made.buffer).expect("the length is right and the space enough");
        made.spoil_spare_bits(random);
        made
    }

    /// A reception that holds runs of a file, about so many of a hundred positions; unheld bytes are rubbish.
    pub fn holding(random: &mut Random, file: &File, percent: usize) -> Lent {
        let mut made = Lent::rubbish(random, file.number, file.length());
        made.map[..map_size(file.length())].fill(0);
        made.spoil_spare_bits(random);
        let longest = random.pick(&[1, 2, 9, 40]);
        let mut position = 0;
        while position < file.bytes.len() {
            let end = file.bytes.len().min(position + random.within(1, longest));
            if random.chance(percent) {
                made.hold(position..end, &file.bytes);
            }
            position = end;
        }
        made
    }

    fn hold(&mut self, positions: std::ops::Range<usize>, bytes: &[u8]) {
        for position in positions {
            self.map[position / 8] |= 1 << (position % 8);
            self.buffer[position] = bytes[position];
        }
    }

    fn spoil_spare_bits(&mut self, random: &mut Random) {
        let spare = self.length % 8;
        if spare != 0 && random.chance(60) {
            self.map[map_size(self.length) - 1] |= random.byte() & (0xFF << spare);
        }
    }

    /// The same reception with a map or a buffer that is too short.
    pub fn shortened(&self, random: &mut Random) -> Lent {
        let mut made = self.clone();
        let (map, buffer) = (map_size(self.length), self.length as usize);
        let choice = random.below(5);
        if choice != 0 {
            let size = too_short(random, buffer).len();
            made.buffer.truncate(size);
        }
        if choice < 3 {
            let size = too_short(random, map).len();
            made.map.truncate(size);
        }
        made
    }

    pub fn is_held(&self, position: u32) -> bool {
        model::is_held(self.length, &self.map, position)
    }

    pub fn length_is_right(&self) -> bool {
        self.length >= 1 && self.length <= 32_768
    }

    pub fn fits(&self) -> bool {
        self.map.len() >= map_size(self.length) && self.buffer.len() >= self.length as usize
    }

    /// For the message of a failure.
    pub fn shown(&self) -> [Part<'_>; 4] {
        [
            Part::Number("number", self.number.into()),
            Part::Number("length", self.length.into()),
            Part::Bytes("map", &self.map),
            Part::Bytes("buffer", &self.buffer),
        ]
    }
}
