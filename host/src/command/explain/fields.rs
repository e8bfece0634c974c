//! The fields of a frame or a record in their order: places, bytes and meanings, as far as its bytes go. It shows where
//! things stand; whether a frame or a record is accepted is for the library.
use super::{frames, records};
use crate::command::bytes::counted;

/// What bytes are read as.
#[derive(Clone, Copy, Debug, PartialEq, Eq)]
pub enum Kind {
    /// A frame with a piece of a file.
    Piece,
    /// A frame with a directory entry.
    Entry,
    /// A frame with a request for a file's start or for holes.
    Request,
    /// A record of a reception.
    Record,
}

impl Kind {
    /// The kind with a name.
    pub fn named(name: &str) -> Option<Kind> {
        match name {
            "piece" => Some(Kind::Piece),
            "entry" => Some(Kind::Entry),
            "request" => Some(Kind::Request),
            "record" => Some(Kind::Record),
            _ => None,
        }
    }

    /// The kind in words.
    pub fn name(self) -> &'static str {
        match self {
            Kind::Piece => "a file piece",
            Kind::Entry => "a directory entry",
            Kind::Request => "a request",
            Kind::Record => "a record",
        }
    }
}

/// The names of fields.
#[derive(Clone, Copy, Debug, PartialEq, Eq)]
pub enum Name {
    Destination,
    Source,
    Control,
    Protocol,
    /// An information that is too short to have fields.
    Information,
    Flags,
    Number,
    Type,
    Offset,
    Data,
    TimeOld,
    TimeNew,
    /// The two bytes that start a file header.
    Header,
    Item,
    BlockSize,
    Hole,
    Check,
    Tag,
    /// How many bytes of data stand behind a tag.
    DataLength,
    /// The file's length.
    Length,
    Map,
    Buffer,
    /// Bytes behind the fields, which belong to none.
    LeftOver,
}

impl Name {
    /// The name as the table has it.
    pub fn text(self) -> &'static str {
        match self {
            Name::Destination => "destination",
            Name::Source => "source",
            Name::Control => "control",
            Name::Protocol => "protocol",
            Name::Information => "information",
            Name::Flags => "flags",
            Name::Number => "number",
            Name::Type => "type",
            Name::Offset => "offset",
            Name::Data => "data",
            Name::TimeOld => "time old",
            Name::TimeNew => "time new",
            Name::Header => "header",
            Name::Item => "item",
            Name::BlockSize => "block size",
            Name::Hole => "hole",
            Name::Check => "check",
            Name::Tag => "tag",
            Name::DataLength => "data length",
            Name::Length => "length",
            Name::Map => "map",
            Name::Buffer => "buffer",
            Name::LeftOver => "left over",
        }
    }
}

/// A field: where it stands, its bytes, its name and what they mean.
pub struct Field<'a> {
    /// The place of its first byte, from 0.
    pub place: usize,
    /// Its bytes, as far as they are there.
    pub bytes: &'a [u8],
    /// Its name.
    pub name: Name,
    /// What the bytes mean.
    pub meaning: String,
    /// Whether the bytes are shown as characters too.
    pub is_text: bool,
    /// Whether the frame or the record ends inside it.
    pub is_cut: bool,
}

/// The fields of a frame or a record.
pub fn of(kind: Kind, bytes: &[u8]) -> Vec<Field<'_>> {
    let mut walk = Walk::over(bytes);
    match kind {
        Kind::Piece => frames::piece(&mut walk),
        Kind::Entry => frames::entry(&mut walk),
        Kind::Request => frames::request(&mut walk),
        // where it is at fault is asked for elsewhere
        Kind::Record => drop(records::walked(&mut walk)),
    }
    walk.fields
}

/// A walk over bytes up to an end, field by field.
pub struct Walk<'a> {
    bytes: &'a [u8],
    place: usize,
    end: usize,
    fields: Vec<Field<'a>>,
}

impl<'a> Walk<'a> {
    /// A walk that has just begun.
    pub fn over(bytes: &'a [u8]) -> Walk<'a> {
        Walk { bytes, place: 0, end: bytes.len(), fields: Vec::new() }
    }

    /// The place of the next field.
    pub fn place(&self) -> usize {
        self.place
    }

    /// The bytes that are left.
    pub fn left(&self) -> &'a [u8] {
        &self.bytes[self.place..self.end]
    }

    /// Adds a field of so many bytes, or of what is left, and answers its bytes.
    pub fn next(&mut self, size: usize, name: Name, meaning: impl Fn(&[u8]) -> String) -> &'a [u8] {
        let bytes = &self.left()[..size.min(self.left().len())];
        if !bytes.is_empty() {
            let is_cut = bytes.len() < size;
            let meaning = if is_cut { format!("cut: {} wanted", counted(size, "byte")) } else { meaning(bytes) };
            self.fields.push(Field { place: self.place, bytes, name, meaning, is_text: false, is_cut });
            self.place += bytes.len();
        }
        bytes
    }

    /// The same, shown as characters too.
    pub fn next_text(&mut self, size: usize, name: Name, meaning: impl Fn(&[u8]) -> String) -> &'a [u8] {
        let bytes = self.next(size, name, meaning);
        if let (false, Some(field)) = (bytes.is_empty(), self.fields.last_mut()) {
            field.is_text = true;
        }
        bytes
    }

    /// Walks on up to an earlier end; the end is then the old one.
    pub fn up_to(&mut self, end: usize, inner: impl FnOnce(&mut Walk<'a>)) {
        let whole = self.end;
        self.end = whole.min(end).max(self.place);
        inner(self);
        self.end = whole;
    }

    /// Adds all that is left as one field, shown as characters too.
    pub fn rest(&mut self, name: Name, meaning: &str) {
        self.next_text(self.left().len(), name, |_| meaning.to_string());
    }
}
