//! The rules of the ground station, written a second time for the tests.
//!
//! This is an implementation of the rules of 01 alone. The tests run the
//! library and these functions on the same input and compare the answers and
//! every lent byte. So that the two share no trick, this one works on texts,
//! on lists of items and on positions one by one, and prefers the obvious way
//! to the fast one.
//!
//! Every function answers for all inputs. A refusal is the number of its
//! reason (01, Numbered reasons) and changes no lent byte. The reasons stand
//! in each function in the order of 01, each with its number.

mod address;
mod check;
mod frame;
mod header;
mod numbers;
mod reception;
mod record;
mod request;

pub use check::remainder;
pub use frame::{entry, piece};
pub use header::read as read_header;
pub use reception::{count_held, is_held, join, list, open, take};
pub use record::{load, save};
pub use request::{read_request, write_fill, write_start};

/// A value, or the number of the reason of a refusal.
pub type Answer<T> = Result<T, u8>;

/// Six plain characters, padded with spaces, the number of the SSID, and bit 7
/// of the SSID byte (01, Frame). One that is given to be written may be
/// malformed.
#[derive(Clone, Copy, Debug, PartialEq, Eq)]
pub struct Address {
    pub characters: [u8; 6],
    pub number: u8,
    /// 0 or 1.
    pub bit7: u8,
}

/// A file piece (01, Frame).
#[derive(Clone, Debug, PartialEq, Eq)]
pub struct Piece {
    pub destination: Address,
    pub source: Address,
    pub number: u32,
    /// The type byte.
    pub kind: u8,
    pub offset: u32,
    /// Where its data start in the frame.
    pub start: usize,
    /// How many data bytes there are.
    pub size: usize,
}

/// A directory entry (01, Frame).
#[derive(Clone, Debug, PartialEq, Eq)]
pub struct Entry {
    pub destination: Address,
    pub source: Address,
    pub flags: u8,
    pub number: u32,
    pub offset: u32,
    /// Time old.
    pub old: u32,
    /// Time new.
    pub new: u32,
    /// Where its file header starts in the frame.
    pub start: usize,
    /// The length of its file header.
    pub size: usize,
    pub header: Header,
}

/// The values of the mandatory items and of item 12 (01, File header). Item 01
/// is the number of the entry.
#[derive(Clone, Debug, PartialEq, Eq)]
pub struct Header {
    /// Item 02.
    pub name: [u8; 8],
    /// Item 03.
    pub extension: [u8; 3],
    /// Item 04, the whole file's length with its header.
    pub length: u32,
    /// Item 05.
    pub created: u32,
    /// Item 06.
    pub modified: u32,
    /// Item 07.
    pub upset: u8,
    /// Item 08.
    pub kind: u8,
    /// Item 09.
    pub bodysum: u16,
    /// Item 0A.
    pub headersum: u16,
    /// Item 0B.
    pub body: u16,
    /// Item 12, where present.
    pub upload: Option<u32>,
}

/// A fill request (01, Fill request).
#[derive(Clone, Debug, PartialEq, Eq)]
pub struct Request {
    pub destination: Address,
    pub source: Address,
    pub flags: u8,
    pub number: u32,
    /// Start and length of each hole.
    pub holes: Vec<(u32, u32)>,
}

/// Refuses with this reason if its condition is met.
fn refuse_if(condition: bool, reason: u8) -> Answer<()> {
    if condition {
        Err(reason)
    } else {
        Ok(())
    }
}
