//! A reception of a file: what a station holds of it (01, "Reception" and "Record").
use crate::{boundary, Address, Reason, Requests};
use std::iter::FusedIterator;

/// The longest file, in bytes.
pub const LONGEST: u32 = 32_768;

/// A reception of a file: its number, its length, which positions are held, and their bytes.
///
/// ```
/// use thoweldeck::{remainder, Hole, Reason, Reception};
///
/// // a frame with a piece of file 7
/// fn frame(offset: u8, bytes: &[u8]) -> Vec<u8> {
///     let mut frame = b"\xA2\xA6\xA8\x40\x40\x40\x60\xAA\x9E\xA6\x82\xA8\x6A\x77\x03\xBB\x02\x07\0\0\0\0".to_vec();
///     frame.extend([offset, 0, 0]);
///     frame.extend(bytes);
///     let check = remainder(&frame[16..]);
///     frame.extend(check.to_be_bytes());
///     frame
/// }
///
/// let mut reception = Reception::open(7, 20)?;
/// assert_eq!(reception.take(&frame(0, b"ABCD"))?, 4);
/// assert_eq!(reception.take(&frame(8, b"EF"))?, 2);
/// assert_eq!(reception.take(&frame(8, b"EF"))?, 0); // a repeat spoils nothing
/// assert_eq!(reception.take(&frame(3, b"XY")), Err(Reason::Differs));
///
/// assert_eq!(reception.held(), 6);
/// let holes: Vec<Hole> = reception.holes().collect();
/// assert_eq!(holes, [Hole { start: 4, length: 4 }, Hole { start: 10, length: 10 }]);
///
/// let saved = reception.save();
/// assert_eq!(Reception::load(&saved)?, reception);
/// # Ok::<(), Reason>(())
/// ```
#[derive(Clone, Debug, PartialEq, Eq)]
pub struct Reception {
    number: u32,
    length: u32,
    map: Vec<u8>,
    buffer: Vec<u8>,
}

impl Reception {
    /// A fresh reception of a file that holds nothing.
    ///
    /// # Errors
    ///
    /// Refuses 7: a length is 1 to 32,768.
    pub fn open(number: u32, length: u32) -> Result<Reception, Reason> {
        let size = length.min(LONGEST) as usize;
        let mut map = vec![0; map_size(size)];
        let mut buffer = vec![0; size];
        boundary::open(length, &mut map, &mut buffer)?;
        Ok(Reception { number, length, map, buffer })
    }

    /// The file's number.
    #[must_use]
    pub fn number(&self) -> u32 {
        self.number
    }

    /// The file's length.
    #[must_use]
    pub fn length(&self) -> u32 {
        self.length
    }

    /// The map: position p is bit p mod 8, counted from the low end, of byte p/8. A set bit means **held**.
    #[must_use]
    pub fn map(&self) -> &[u8] {
        &self.map
    }

    /// The file's bytes where they are held, and zero elsewhere.
    #[must_use]
    pub fn buffer(&self) -> &[u8] {
        &self.buffer
    }

    /// Takes a frame in, whatever it is, and answers how many positions are newly held: 0 for a repeat.
    ///
    /// # Errors
    ///
    /// Refuses as [`Piece::read`](crate::Piece::read) does, then 9 (another file), 10 (beyond the length), 11 (a held
    /// byte differs); then nothing has changed.
    pub fn take(&mut self, frame: &[u8]) -> Result<u32, Reason> {
        let mut new = 0;
        boundary::take(self.number, self.length, &mut self.map, &mut self.buffer, frame, &mut new)?;
        Ok(new)
    }

    /// Takes in what another reception of the file holds, and answers how many positions are newly held. Then
    /// this one is byte for byte what one station would hold after the frames of both.
    ///
    /// # Errors
    ///
    /// Refuses 9 (another number or length), 11 (a byte that both hold differs); then nothing has changed.
    pub fn join(&mut self, other: &Reception) -> Result<u32, Reason> {
        let second =
            boundary::Second { number: other.number, length: other.length, map: &other.map, buffer: &other.buffer };
        let mut new = 0;
        boundary::join(self.number, self.length, &mut self.map, &mut self.buffer, second, &mut new)?;
        Ok(new)
    }

    /// Whether a position is held.
    #[must_use]
    pub fn is_held(&self, position: u32) -> bool {
        boundary::is_held(self.length, &self.map, position)
    }

    /// How many positions are held.
    #[must_use]
    pub fn held(&self) -> u32 {
        boundary::count_held(self.length, &self.map)
    }

    /// The holes, ascending: exactly the longest runs of positions that are not held.
    pub fn holes(&self) -> Holes<'_> {
        Holes { length: self.length, map: &self.map, place: 0 }
    }

    /// The whole file, where no hole is left.
    #[must_use]
    pub fn file(&self) -> Option<&[u8]> {
        match self.holes().next() {
            None => Some(&self.buffer),
            Some(_) => None,
        }
    }

    /// The frames of the requests for every hole, at most 49 in each: together they name every byte that is
    /// missing exactly once, and no byte that is held.
    pub fn requests(&self, destination: Address, source: Address) -> Requests<'_> {
        Requests::of(boundary::Wanted {
            destination: destination.to_number(),
            source: source.to_number(),
            number: self.number,
            length: self.length,
            map: &self.map,
        })
    }

    /// The reception as a record, of 20 + ceil(L/8) + L bytes.
    #[must_use]
    pub fn save(&self) -> Vec<u8> {
        let mut record = vec![0; 20 + self.map.len() + self.buffer.len()];
        let mut size = 0;
        boundary::save(self.number, self.length, &self.map, &self.buffer, &mut record, &mut size)
            .expect("the length is 1 to 32,768 and the space is the record's");
        record.truncate(size);
        record
    }

    /// The reception that a record keeps.
    ///
    /// # Errors
    ///
    /// Refuses 13: everything that is not exactly a record.
    pub fn load(record: &[u8]) -> Result<Reception, Reason> {
        let mut map = vec![0; map_size(LONGEST as usize)];
        let mut buffer = vec![0; LONGEST as usize];
        let (mut number, mut length) = (0, 0);
        boundary::load(record, &mut map, &mut buffer, &mut number, &mut length)?;
        map.truncate(map_size(length as usize));
        buffer.truncate(length as usize);
        Ok(Reception { number, length, map, buffer })
    }
}

// How many bytes the map of a file of this length has.
fn map_size(length: usize) -> usize {
    (length + 7) / 8
}

/// A hole: a longest run of positions that are not held.
#[derive(Clone, Copy, Debug, PartialEq, Eq, Hash)]
pub struct Hole {
    /// Its first position, counted from 0.
    pub start: u32,
    /// How many positions it has.
    pub length: u32,
}

impl Hole {
    /// The first position behind it. (A hole of a file ends by 32,768; one made up may not.)
    #[must_use]
    pub fn end(self) -> u32 {
        self.start.saturating_add(self.length)
    }
}

/// The holes of a reception, ascending: see [`Reception::holes`].
#[derive(Clone, Debug)]
#[must_use]
pub struct Holes<'a> {
    length: u32,
    map: &'a [u8],
    place: u32,
}

impl Iterator for Holes<'_> {
    type Item = Hole;

    fn next(&mut self) -> Option<Hole> {
        let mut hole = Hole { start: 0, length: 0 };
        // 15, the one reason that a reception's own map can have, means that there is none left
        boundary::list(self.length, self.map, self.place, &mut hole.start, &mut hole.length).ok()?;
        self.place = hole.end();
        Some(hole)
    }
}

// behind the last hole there is none at any later place
impl FusedIterator for Holes<'_> {}
