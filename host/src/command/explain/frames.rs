//! The fields of a frame: its head, then those of a piece, an entry or a request, and the check worked out.
use super::addresses::{self, Role};
use super::fields::{Name, Walk};
use super::{items, requests};
use crate::command::bytes::{counted, date, number, pairs};
use thoweldeck::remainder;

/// Where the information of a frame starts: behind two addresses, control and protocol.
pub const INFORMATION: usize = 16;

/// How many bytes of it there are at most.
pub const MOST: usize = 255;

/// Walks over a frame with a piece of a file.
pub fn piece(walk: &mut Walk<'_>) {
    head(walk);
    checked(walk, |walk| {
        walk.next(1, Name::Flags, |bytes| named(bytes[0], &[(0x02, "a piece whose offset counts bytes")]));
        walk.next(4, Name::Number, |bytes| format!("file {}", number(bytes)));
        walk.next(1, Name::Type, |bytes| format!("{}", number(bytes)));
        walk.next(3, Name::Offset, |bytes| format!("the data start at position {} of the file", number(bytes)));
        let size = counted(walk.left().len(), "byte");
        walk.rest(Name::Data, &format!("{size} of the file"));
    });
}

/// Walks over a frame with a directory entry.
pub fn entry(walk: &mut Walk<'_>) {
    head(walk);
    checked(walk, |walk| {
        walk.up_to(INFORMATION + MOST - 2, |walk| {
            walk.next(1, Name::Flags, |bytes| entry_flags(bytes[0]));
            walk.next(4, Name::Number, |bytes| format!("file {}", number(bytes)));
            walk.next(4, Name::Offset, |bytes| format!("{}", number(bytes)));
            walk.next(4, Name::TimeOld, |bytes| date(number(bytes)));
            walk.next(4, Name::TimeNew, |bytes| date(number(bytes)));
            items::walked(walk);
        });
        beyond(walk);
    });
}

/// Walks over a frame with a request.
pub fn request(walk: &mut Walk<'_>) {
    head(walk);
    walk.up_to(INFORMATION + MOST, |walk| {
        walk.next(1, Name::Flags, |bytes| named(bytes[0], &[(0x10, "asks for the start"), (0x11, "asks for holes")]));
        walk.next(4, Name::Number, |bytes| format!("file {}", number(bytes)));
        walk.next(2, Name::BlockSize, |bytes| format!("{}", number(bytes)));
        requests::walked(walk);
    });
    beyond(walk);
}

// The fields that every frame begins with.
fn head(walk: &mut Walk<'_>) {
    walk.next(7, Name::Destination, |bytes| addresses::meaning(Role::Destination, bytes));
    walk.next(7, Name::Source, |bytes| addresses::meaning(Role::Source, bytes));
    walk.next(1, Name::Control, |bytes| named(bytes[0], &[(0x03, "a UI frame")]));
    walk.next(1, Name::Protocol, |bytes| named(bytes[0], &[(0xBB, "files"), (0xBD, "the directory")]));
}

// An information that ends in two check bytes, which are the remainder of what is before them.
fn checked(walk: &mut Walk<'_>, inner: impl Fn(&mut Walk<'_>)) {
    let information = walk.left();
    let size = match information.len().checked_sub(2) {
        Some(size) => size,
        None => return walk.rest(Name::Information, "too short for two check bytes"),
    };
    let (first, end) = (walk.place(), walk.place() + size);
    walk.up_to(end, inner);
    let worked_out = remainder(&information[..size]).to_be_bytes();
    walk.next(2, Name::Check, |check| {
        let verdict = if check == worked_out { "it agrees" } else { "it differs" };
        let places = if first == end { "no bytes".to_string() } else { format!("places {first} to {}", end - 1) };
        format!("the remainder of {places} is {}: {verdict}", pairs(&worked_out))
    });
}

// What stands behind as many fields as an information has room for, as it is.
fn beyond(walk: &mut Walk<'_>) {
    walk.rest(Name::LeftOver, "beyond the 255 bytes of information that a frame has at most");
}

// The flags of a directory entry: bit 5 says that the header is whole, bit 6 is free, and the others are 0.
fn entry_flags(flags: u8) -> String {
    let whole = if flags & 0x20 != 0 { "set: the header is whole" } else { "clear: the header is not whole" };
    let other: Vec<String> = other_bits(flags).map(|bit| format!("bit {bit} is set and must be 0")).collect();
    if other.is_empty() {
        format!("bit 5 is {whole}; bit 6 is free")
    } else {
        other.join(", ")
    }
}

/// The bits of a directory entry's flags that are set and must be 0.
pub fn other_bits(flags: u8) -> impl Iterator<Item = u32> {
    [0, 1, 2, 3, 4, 7].into_iter().filter(move |bit| flags >> bit & 1 == 1)
}

// What a byte means, of those that are allowed.
fn named(byte: u8, allowed: &[(u8, &str)]) -> String {
    match allowed.iter().find(|(value, _)| *value == byte) {
        Some((_, meaning)) => meaning.to_string(),
        None => {
            let values: Vec<String> = allowed.iter().map(|(value, name)| format!("{value:02X} ({name})")).collect();
            format!("none of what is allowed: {}", values.join(", "))
        }
    }
}
