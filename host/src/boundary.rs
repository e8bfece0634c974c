//! The proved library's functions on numbers and lent slices, with safe types: the one module that declares and
//! calls what `libstation.a` exports.
//!
//! A function answers `Ok(())`, or the reason of the refusal. What it tells stands in numbers that it is
//! lent, beside the lent slices; **a refusal leaves every lent number and byte as it was**, which is proved
//! of the exported functions. Slices may be longer than needed: what lies beyond is neither read nor
//! written. The types above this module own their space; use this one where a station lends its own.
//!
//! An address is one number here: six plain characters, the number of its SSID, and bit 7 of its SSID byte as
//! 0 or 1, a byte each, least significant byte first ([`Address::to_number`](crate::Address::to_number)). One
//! that is told has the bit as it was read. One to be written whose eighth byte is above 1 is malformed: 2.
//!
//! From C the same functions can be called; there it is the caller who must lend slices that do not
//! overlap, as Rust's borrows make sure of here.
use crate::Reason;

extern "C" {
    fn station_open(length: u32, map: *mut u8, map_size: usize, buffer: *mut u8, buffer_size: usize) -> u8;
    fn station_take(
        number: u32,
        length: u32,
        map: *mut u8,
        map_size: usize,
        buffer: *mut u8,
        buffer_size: usize,
        frame: *const u8,
        frame_size: usize,
        new: &mut u32,
    ) -> u8;
    fn station_join(
        number: u32,
        length: u32,
        map: *mut u8,
        map_size: usize,
        buffer: *mut u8,
        buffer_size: usize,
        second_number: u32,
        second_length: u32,
        second_map: *const u8,
        second_map_size: usize,
        second_buffer: *const u8,
        second_buffer_size: usize,
        new: &mut u32,
    ) -> u8;
    fn station_list(
        length: u32,
        map: *const u8,
        map_size: usize,
        place: u32,
        start: &mut u32,
        hole_length: &mut u32,
    ) -> u8;
    fn station_save(
        number: u32,
        length: u32,
        map: *const u8,
        map_size: usize,
        buffer: *const u8,
        buffer_size: usize,
        target: *mut u8,
        target_size: usize,
        size: &mut usize,
    ) -> u8;
    fn station_load(
        saved: *const u8,
        saved_size: usize,
        map: *mut u8,
        map_size: usize,
        buffer: *mut u8,
        buffer_size: usize,
        number: &mut u32,
        length: &mut u32,
    ) -> u8;
    fn station_piece(frame: *const u8, frame_size: usize, told: &mut [u64; 7]) -> u8;
    fn station_write_fill(
        destination: u64,
        source: u64,
        number: u32,
        length: u32,
        map: *const u8,
        map_size: usize,
        place: u32,
        target: *mut u8,
        target_size: usize,
        count: &mut u32,
        end: &mut u32,
    ) -> u8;
    fn station_write_start(destination: u64, source: u64, number: u32, target: *mut u8, target_size: usize) -> u8;
    fn station_read_request(frame: *const u8, frame_size: usize, told: &mut [u64; 5]) -> u8;
    fn station_hole(frame: *const u8, frame_size: usize, index: u32, start: &mut u32, hole_length: &mut u32) -> u8;
    fn station_entry(frame: *const u8, frame_size: usize, told: &mut [u64; 9], values: &mut [u64; 12]) -> u8;
    fn station_header(bytes: *const u8, bytes_size: usize, number: u32, size: &mut usize, values: &mut [u64; 12])
        -> u8;
    fn station_is_held(length: u32, map: *const u8, map_size: usize, position: u32) -> bool;
    fn station_count_held(length: u32, map: *const u8, map_size: usize) -> u32;
    fn station_remainder(bytes: *const u8, bytes_size: usize) -> u16;
}

// Every call below is sound for the same reasons. The exported functions ask nothing of their caller but that a pointer
// and its size are a slice's, which each is here; that what is lent to be changed overlaps with nothing else lent, which
// Rust's borrows make sure of; and they keep no pointer, do not unwind, and return a bool as 0 or 1. That the
// declarations are those of the library is compared by `tests/declarations.rs`.

// What is told as an array of numbers: a struct whose fields stand in the array's order. Each number is a field's own
// value, so that no cast loses anything.
macro_rules! told {
    ($(#[$said:meta])* $told:ident of $count:literal { $($(#[$is:meta])* $field:ident: $kind:ty,)* }) => {
        $(#[$said])*
        #[derive(Clone, Copy, Debug, Default, PartialEq, Eq)]
        pub struct $told {
            $($(#[$is])* pub $field: $kind,)*
        }

        impl $told {
            // the array that is lent
            fn lent(self) -> [u64; $count] {
                [$(self.$field as u64),*]
            }

            // what is left in it
            fn left(numbers: [u64; $count]) -> $told {
                let [$($field),*] = numbers;
                $told { $($field: $field as $kind),* }
            }
        }
    };
}

/// Opens a reception: clears ceil(length/8) bytes of the map and length bytes of the buffer.
///
/// # Errors
///
/// Refuses 7, 12.
pub fn open(length: u32, map: &mut [u8], buffer: &mut [u8]) -> Result<(), Reason> {
    answer(unsafe { station_open(length, map.as_mut_ptr(), map.len(), buffer.as_mut_ptr(), buffer.len()) })
}

/// Takes a frame into a reception, and tells how many positions are newly held.
///
/// # Errors
///
/// Refuses as [`piece`] does, then 7, 12, 9, 10, 11.
pub fn take(
    number: u32,
    length: u32,
    map: &mut [u8],
    buffer: &mut [u8],
    frame: &[u8],
    new: &mut u32,
) -> Result<(), Reason> {
    answer(unsafe {
        station_take(
            number,
            length,
            map.as_mut_ptr(),
            map.len(),
            buffer.as_mut_ptr(),
            buffer.len(),
            frame.as_ptr(),
            frame.len(),
            new,
        )
    })
}

/// A reception whose space is lent to be read: the second of a join.
#[derive(Clone, Copy, Debug)]
pub struct Second<'a> {
    /// The file's number.
    pub number: u32,
    /// The file's length.
    pub length: u32,
    /// The map: position p is bit p mod 8, from the low end, of byte p/8; set means held.
    pub map: &'a [u8],
    /// The file's bytes as far as they are held.
    pub buffer: &'a [u8],
}

/// Joins a second reception into a first, and tells how many positions are newly held.
///
/// # Errors
///
/// Refuses 7, 12, 9, 11.
pub fn join(
    number: u32,
    length: u32,
    map: &mut [u8],
    buffer: &mut [u8],
    second: Second<'_>,
    new: &mut u32,
) -> Result<(), Reason> {
    answer(unsafe {
        station_join(
            number,
            length,
            map.as_mut_ptr(),
            map.len(),
            buffer.as_mut_ptr(),
            buffer.len(),
            second.number,
            second.length,
            second.map.as_ptr(),
            second.map.len(),
            second.buffer.as_ptr(),
            second.buffer.len(),
            new,
        )
    })
}

/// Tells start and length of the first hole that starts at a place or later.
///
/// # Errors
///
/// Refuses 7, 12, 15.
pub fn list(length: u32, map: &[u8], place: u32, start: &mut u32, hole_length: &mut u32) -> Result<(), Reason> {
    answer(unsafe { station_list(length, map.as_ptr(), map.len(), place, start, hole_length) })
}

/// Writes a reception as a record into the first bytes of a target, and tells how many they are.
///
/// # Errors
///
/// Refuses 7, 12.
pub fn save(
    number: u32,
    length: u32,
    map: &[u8],
    buffer: &[u8],
    target: &mut [u8],
    size: &mut usize,
) -> Result<(), Reason> {
    answer(unsafe {
        station_save(
            number,
            length,
            map.as_ptr(),
            map.len(),
            buffer.as_ptr(),
            buffer.len(),
            target.as_mut_ptr(),
            target.len(),
            size,
        )
    })
}

/// Loads a record into a map and a buffer, and tells the file's number and length.
///
/// # Errors
///
/// Refuses 13, 12.
pub fn load(saved: &[u8], map: &mut [u8], buffer: &mut [u8], number: &mut u32, length: &mut u32) -> Result<(), Reason> {
    answer(unsafe {
        station_load(
            saved.as_ptr(),
            saved.len(),
            map.as_mut_ptr(),
            map.len(),
            buffer.as_mut_ptr(),
            buffer.len(),
            number,
            length,
        )
    })
}

told! {
    /// What [`piece`] tells.
    PieceTold of 7 {
        /// To whom the frame goes.
        destination: u64,
        /// Who sent it.
        source: u64,
        /// The file's number.
        number: u32,
        /// The file's type.
        kind: u8,
        /// The position of the piece's first byte in the file.
        offset: u32,
        /// Where the piece's bytes start in the frame.
        start: usize,
        /// How many they are.
        size: usize,
    }
}

/// Reads a frame as a file piece.
///
/// # Errors
///
/// Refuses 1, 2, 3, 4, 7, 1, 6, 5, 7.
pub fn piece(frame: &[u8], told: &mut PieceTold) -> Result<(), Reason> {
    let mut numbers = told.lent();
    let returned = unsafe { station_piece(frame.as_ptr(), frame.len(), &mut numbers) };
    *told = PieceTold::left(numbers);
    answer(returned)
}

/// What a request asks for, and of whom.
#[derive(Clone, Copy, Debug)]
pub struct Wanted<'a> {
    /// To whom the request goes.
    pub destination: u64,
    /// Who sends it.
    pub source: u64,
    /// The file's number.
    pub number: u32,
    /// The file's length.
    pub length: u32,
    /// The map of the reception whose holes are asked for.
    pub map: &'a [u8],
}

/// Writes a request for the holes from a place on, at most 49, into the first 23 + 5 × count bytes of a target, and
/// tells their count and the end of the last.
///
/// # Errors
///
/// Refuses 2, 7, 12 (map), 15, 12 (target).
pub fn write_fill(
    wanted: Wanted<'_>,
    place: u32,
    target: &mut [u8],
    count: &mut u32,
    end: &mut u32,
) -> Result<(), Reason> {
    answer(unsafe {
        station_write_fill(
            wanted.destination,
            wanted.source,
            wanted.number,
            wanted.length,
            wanted.map.as_ptr(),
            wanted.map.len(),
            place,
            target.as_mut_ptr(),
            target.len(),
            count,
            end,
        )
    })
}

/// Writes a request for the start of a file into the first 23 bytes of a target.
///
/// # Errors
///
/// Refuses 2, 12.
pub fn write_start(destination: u64, source: u64, number: u32, target: &mut [u8]) -> Result<(), Reason> {
    answer(unsafe { station_write_start(destination, source, number, target.as_mut_ptr(), target.len()) })
}

told! {
    /// What [`read_request`] tells.
    RequestTold of 5 {
        /// To whom the frame goes.
        destination: u64,
        /// Who sent it.
        source: u64,
        /// 0x10 for the start of a file, 0x11 for holes.
        flags: u8,
        /// The file's number.
        number: u32,
        /// How many holes it lists.
        count: u32,
    }
}

/// Reads a frame as a request.
///
/// # Errors
///
/// Refuses 1, 2, 3, 4, 7, 1, 5, 7, 10.
pub fn read_request(frame: &[u8], told: &mut RequestTold) -> Result<(), Reason> {
    let mut numbers = told.lent();
    let returned = unsafe { station_read_request(frame.as_ptr(), frame.len(), &mut numbers) };
    *told = RequestTold::left(numbers);
    answer(returned)
}

/// Tells start and length of the hole with an index, from 0, in a request frame; both 0 beyond its count.
///
/// # Errors
///
/// Refuses as [`read_request`] does.
pub fn hole(frame: &[u8], index: u32, start: &mut u32, hole_length: &mut u32) -> Result<(), Reason> {
    answer(unsafe { station_hole(frame.as_ptr(), frame.len(), index, start, hole_length) })
}

told! {
    /// What [`entry`] tells.
    EntryTold of 9 {
        /// To whom the frame goes.
        destination: u64,
        /// Who sent it.
        source: u64,
        /// The flags: bit 5 is set, bit 6 is free.
        flags: u8,
        /// The file's number.
        number: u32,
        /// The offset, which is 0.
        offset: u32,
        /// Time old.
        old: u32,
        /// Time new.
        new: u32,
        /// Where the file header starts in the frame.
        start: usize,
        /// How many bytes it has.
        size: usize,
    }
}

told! {
    /// What [`entry`] tells beside, and [`header`] too: the values of the file header's items.
    HeaderTold of 12 {
        /// Item 02: the eight bytes of the name, least significant byte first.
        name: u64,
        /// Item 03: the three bytes of the extension, least significant byte first.
        extension: u32,
        /// Item 04: the whole file's length.
        length: u32,
        /// Item 05: when the file was made.
        created: u32,
        /// Item 06: when it was last changed.
        modified: u32,
        /// Item 07: upsets seen.
        upset: u8,
        /// Item 08: the file's type.
        kind: u8,
        /// Item 09: the body's sum.
        bodysum: u16,
        /// Item 0A: the header's sum.
        headersum: u16,
        /// Item 0B: where the body starts in the file.
        body: u16,
        /// 1 where item 12 is there, 0 where not.
        uploaded: u8,
        /// Item 12: when the file was uploaded; 0 where there is none.
        upload: u32,
    }
}

/// Reads a frame as a directory entry, and the file header in it.
///
/// # Errors
///
/// Refuses 1, 2, 3, 4, 7, 1, 6, 5, 14, 8.
pub fn entry(frame: &[u8], told: &mut EntryTold, header: &mut HeaderTold) -> Result<(), Reason> {
    let (mut numbers, mut values) = (told.lent(), header.lent());
    let returned = unsafe { station_entry(frame.as_ptr(), frame.len(), &mut numbers, &mut values) };
    *told = EntryTold::left(numbers);
    *header = HeaderTold::left(values);
    answer(returned)
}

/// Reads the file header that the bytes start with, of the file with the number, and tells how many bytes the
/// header itself has. What follows it is not looked at.
///
/// # Errors
///
/// Refuses 8.
pub fn header(bytes: &[u8], number: u32, size: &mut usize, told: &mut HeaderTold) -> Result<(), Reason> {
    let mut values = told.lent();
    let returned = unsafe { station_header(bytes.as_ptr(), bytes.len(), number, size, &mut values) };
    *told = HeaderTold::left(values);
    answer(returned)
}

/// Whether a position is held: never at the length or beyond, nor where the map has no such position.
#[must_use]
pub fn is_held(length: u32, map: &[u8], position: u32) -> bool {
    unsafe { station_is_held(length, map.as_ptr(), map.len(), position) }
}

/// How many positions are held.
#[must_use]
pub fn count_held(length: u32, map: &[u8]) -> u32 {
    unsafe { station_count_held(length, map.as_ptr(), map.len()) }
}

/// The remainder of all bytes, which the two check bytes of a frame must be.
#[must_use]
pub fn remainder(bytes: &[u8]) -> u16 {
    unsafe { station_remainder(bytes.as_ptr(), bytes.len()) }
}

// What a function returned: 0, or the number of a reason.
fn answer(returned: u8) -> Result<(), Reason> {
    match returned {
        0 => Ok(()),
        number => Err(Reason::try_from(number).expect("a function returns 0 or a reason of 1 to 15")),
    }
}
