//! Frames that a station hears: file pieces and directory entries (01, "Frame" and "File header").
use crate::{boundary, Address, Reason};

/// A file piece, read from a frame. Its bytes are the frame's own, without the two check bytes.
///
/// ```
/// use thoweldeck::{remainder, Piece, Reason};
///
/// // to QST-0 from UOSAT5-11, control 03, protocol BB, then flags 02, file 7, type 0, offset 4 and "ABC"
/// let mut frame = b"\xA2\xA6\xA8\x40\x40\x40\x60\xAA\x9E\xA6\x82\xA8\x6A\x77\x03\xBB\x02\x07\0\0\0\0\x04\0\0ABC".to_vec();
/// let check = remainder(&frame[16..]);
/// frame.extend(check.to_be_bytes());
///
/// let piece = Piece::read(&frame)?;
/// assert_eq!(piece.source.to_string(), "UOSAT5-11");
/// assert_eq!((piece.number, piece.offset, piece.bytes), (7, 4, &b"ABC"[..]));
///
/// frame[25] = b'X';
/// assert_eq!(Piece::read(&frame), Err(Reason::Check));
/// # Ok::<(), Reason>(())
/// ```
#[derive(Clone, Copy, Debug, PartialEq, Eq)]
pub struct Piece<'a> {
    /// To whom the frame goes.
    pub destination: Address,
    /// Who sent it.
    pub source: Address,
    /// The file's number.
    pub number: u32,
    /// The file's type.
    pub kind: u8,
    /// The position of the first byte in the file, counted from 0.
    pub offset: u32,
    /// The piece: 1 to 244 bytes of the file.
    pub bytes: &'a [u8],
}

impl<'a> Piece<'a> {
    /// Reads a frame as a file piece.
    ///
    /// # Errors
    ///
    /// Refuses 1 (below 16 bytes), 2, 3, 4, 7 (over 255), 1 (information), 6, 5, 7 (no data).
    pub fn read(frame: &'a [u8]) -> Result<Piece<'a>, Reason> {
        let mut told = boundary::PieceTold::default();
        boundary::piece(frame, &mut told)?;
        Ok(Piece {
            destination: Address::told(told.destination),
            source: Address::told(told.source),
            number: told.number,
            kind: told.kind,
            offset: told.offset,
            bytes: &frame[told.start..told.start + told.size],
        })
    }
}

/// A directory entry, read from a frame, with the values of its file header.
///
/// An entry tells the number and the length of a file before any piece of it is heard.
///
/// ```
/// use thoweldeck::{Entry, Reason, Reception};
///
/// // a sample of this package: the directory entry of a made-up file
/// let frame = include_bytes!(concat!(env!("CARGO_MANIFEST_DIR"), "/samples/survey/entry.frame"));
/// let entry = Entry::read(frame)?;
/// assert_eq!((entry.number, entry.header.length), (1201, 2358));
/// assert_eq!(&entry.header.name, b"SURVEY  ");
/// let reception = Reception::open(entry.number, entry.header.length)?;
/// assert_eq!(reception.held(), 0);
/// # Ok::<(), Reason>(())
/// ```
#[derive(Clone, Copy, Debug, PartialEq, Eq)]
pub struct Entry<'a> {
    /// To whom the frame goes.
    pub destination: Address,
    /// Who sent it.
    pub source: Address,
    /// The flags: bit 5 is set, bit 6 is free.
    pub flags: u8,
    /// The file's number.
    pub number: u32,
    /// The offset, which is 0: the header is whole.
    pub offset: u32,
    /// Time old.
    pub old: u32,
    /// Time new.
    pub new: u32,
    /// The values of the file header.
    pub header: Header,
    /// The file header, the frame's own bytes.
    pub bytes: &'a [u8],
}

impl<'a> Entry<'a> {
    /// Reads a frame as a directory entry.
    ///
    /// # Errors
    ///
    /// Refuses 1 (below 16 bytes), 2, 3, 4, 7 (over 255), 1 (information), 6, 5, 14, 8.
    pub fn read(frame: &'a [u8]) -> Result<Entry<'a>, Reason> {
        let mut told = boundary::EntryTold::default();
        let mut header = boundary::HeaderTold::default();
        boundary::entry(frame, &mut told, &mut header)?;
        Ok(Entry {
            destination: Address::told(told.destination),
            source: Address::told(told.source),
            flags: told.flags,
            number: told.number,
            offset: told.offset,
            old: told.old,
            new: told.new,
            header: Header::told(header, told.size),
            bytes: &frame[told.start..told.start + told.size],
        })
    }
}

/// The values of a file header's items. Times are seconds since the start of 1970.
///
/// A directory entry has a header, and a file starts with it.
#[derive(Clone, Copy, Debug, PartialEq, Eq)]
pub struct Header {
    /// How many bytes the header itself has, from AA 55 to the end item.
    pub size: usize,
    /// Item 02: the name.
    pub name: [u8; 8],
    /// Item 03: the extension.
    pub extension: [u8; 3],
    /// Item 04: the whole file's length, with its header.
    pub length: u32,
    /// Item 05: when the file was made.
    pub created: u32,
    /// Item 06: when it was last changed.
    pub modified: u32,
    /// Item 07: upsets seen.
    pub upset: u8,
    /// Item 08: the file's type.
    pub kind: u8,
    /// Item 09: the body's sum.
    pub bodysum: u16,
    /// Item 0A: the header's sum.
    pub headersum: u16,
    /// Item 0B: where the body starts in the file.
    pub body: u16,
    /// Item 12: when the file was uploaded, where the item is there.
    pub upload: Option<u32>,
}

impl Header {
    /// Reads the file header that bytes start with, of the file with a number. What follows the header is not looked at.
    ///
    /// A file starts with its header, so the piece at offset 0 tells the file's length, where the header is whole in it.
    ///
    /// ```
    /// use thoweldeck::{Header, Piece, Reason};
    ///
    /// // a sample of this package: the first piece of a made-up file
    /// let frame = include_bytes!(concat!(env!("CARGO_MANIFEST_DIR"), "/samples/survey/first/01.frame"));
    /// let piece = Piece::read(frame)?;
    /// assert_eq!(piece.offset, 0);
    ///
    /// let header = Header::read(piece.bytes, piece.number)?;
    /// assert_eq!((header.size, header.length), (80, 2358));
    /// assert!(piece.bytes[header.size..].starts_with(b"Lake survey"));
    ///
    /// // not whole, and another file's
    /// assert_eq!(Header::read(&piece.bytes[..79], piece.number), Err(Reason::Header));
    /// assert_eq!(Header::read(piece.bytes, 7), Err(Reason::Header));
    /// # Ok::<(), Reason>(())
    /// ```
    ///
    /// # Errors
    ///
    /// Refuses 8 where the header breaks a rule: it does not start with AA 55 or has no end item within the bytes; an
    /// item is missing, repeated or of another length; its sum differs, its number is another, or the body starts
    /// inside it or beyond the file.
    pub fn read(bytes: &[u8], number: u32) -> Result<Header, Reason> {
        let mut size = 0;
        let mut told = boundary::HeaderTold::default();
        boundary::header(bytes, number, &mut size, &mut told)?;
        Ok(Header::told(told, size))
    }

    // The header that the library told, and how many bytes it has.
    fn told(told: boundary::HeaderTold, size: usize) -> Header {
        let [a, b, c, _] = told.extension.to_le_bytes();
        Header {
            size,
            name: told.name.to_le_bytes(),
            extension: [a, b, c],
            length: told.length,
            created: told.created,
            modified: told.modified,
            upset: told.upset,
            kind: told.kind,
            bodysum: told.bodysum,
            headersum: told.headersum,
            body: told.body,
            upload: if told.uploaded == 1 { Some(told.upload) } else { None },
        }
    }
}
