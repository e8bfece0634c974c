//! Where a refused frame or record is at fault, for the eye of a student: the place, and a word on it. That it is
//! refused, and by which reason, is the library's answer; this looks for the place of it.
use super::addresses::{self, Role};
use super::fields::{self, Field, Kind, Name, Walk};
use super::frames::{other_bits, INFORMATION, MOST};
use super::{items, records, requests};
use crate::command::bytes::{counted, number, pairs};
use thoweldeck::{remainder, Reason};

/// A fault: where it is, and what is wrong.
#[derive(Clone, Debug, PartialEq, Eq)]
pub struct Fault {
    /// The place of the byte, where there is one to show.
    pub place: Option<usize>,
    /// What is wrong, in a few words beside the place.
    pub words: String,
    /// What is wrong, in a sentence that stands alone.
    pub sentence: String,
}

impl Fault {
    /// A fault at a place, or behind all of them.
    pub fn of(place: Option<usize>, words: impl Into<String>) -> Fault {
        let words = words.into();
        Fault { place, sentence: words.clone(), words }
    }

    /// A fault at a place.
    pub fn at(place: usize, words: impl Into<String>) -> Fault {
        Fault::of(Some(place), words)
    }

    /// The same with another sentence.
    pub fn told(self, sentence: impl Into<String>) -> Fault {
        Fault { sentence: sentence.into(), ..self }
    }
}

/// The faults of a frame or a record that is refused for a reason, in their order.
pub fn of(kind: Kind, bytes: &[u8], reason: Reason) -> Vec<Fault> {
    let fields = &fields::of(kind, bytes);
    let one = |fault: Option<Fault>| fault.into_iter().collect();
    match reason {
        Reason::Short => vec![short(kind, bytes.len())],
        Reason::Address => of_addresses(bytes),
        Reason::Control => one(control(fields)),
        Reason::Protocol => one(protocol(kind, fields)),
        Reason::Flags => flags(kind, fields),
        Reason::Check => one(check(bytes, fields)),
        Reason::Size => one(size(kind, bytes.len(), fields)),
        Reason::Header => one(items::fault(fields)),
        Reason::Beyond => requests::holes(fields),
        Reason::Record => one(records::walked(&mut Walk::over(bytes))),
        Reason::NotWhole => not_whole(fields),
        _ => Vec::new(),
    }
}

/// The first field with a name.
pub fn find<'f, 'a>(fields: &'f [Field<'a>], name: Name) -> Option<&'f Field<'a>> {
    fields.iter().find(|field| field.name == name)
}

// Reason 1: of the frame, or of its information.
fn short(kind: Kind, length: usize) -> Fault {
    if length < INFORMATION {
        return Fault::of(None, format!("the frame has {}, and {INFORMATION} is the least", counted(length, "byte")));
    }
    let (has, name) = (counted(length - INFORMATION, "byte"), kind.name());
    let least = match kind {
        Kind::Entry => 19,
        Kind::Request => 7,
        _ => 11,
    };
    Fault::of(None, format!("it has {has} of information, and {name} has {least} at least"))
}

// Reason 2: every fault of the addresses that the library calls malformed.
fn of_addresses(frame: &[u8]) -> Vec<Fault> {
    let malformed =
        |role: &Role| Some((*role, role.bytes(frame)?)).filter(|(role, bytes)| addresses::is_malformed(*role, bytes));
    Role::BOTH.iter().filter_map(malformed).flat_map(|(role, bytes)| addresses::faults(role, bytes)).collect()
}

// Reason 3.
fn control(fields: &[Field<'_>]) -> Option<Fault> {
    let field = find(fields, Name::Control)?;
    let sentence = format!("the control byte is {:02X} and not 03, so this is no UI frame", field.bytes[0]);
    Some(Fault::at(field.place, "not 03").told(sentence))
}

// Reason 4: the other protocol, or none of the two.
fn protocol(kind: Kind, fields: &[Field<'_>]) -> Option<Fault> {
    let field = find(fields, Name::Protocol)?;
    let wanted = if kind == Kind::Entry { 0xBD } else { 0xBB };
    let sentence = format!("the protocol is {:02X}, and {} has {wanted:02X}", field.bytes[0], kind.name());
    Some(Fault::at(field.place, format!("not {wanted:02X}")).told(sentence))
}

// Reason 5: the flags of each kind.
fn flags(kind: Kind, fields: &[Field<'_>]) -> Vec<Fault> {
    let (place, flags) = match find(fields, Name::Flags) {
        Some(field) => (field.place, field.bytes[0]),
        None => return Vec::new(),
    };
    let is = format!("the flags are {flags:02X}");
    match kind {
        Kind::Entry => other_bits(flags)
            .map(|bit| {
                let sentence = format!("{is}: bit {bit} is set, and must be 0");
                Fault::at(place, format!("bit {bit} is set")).told(sentence)
            })
            .collect(),
        Kind::Request => {
            let sentence = format!("{is}, and a request has 10 (for the start) or 11 (for holes)");
            vec![Fault::at(place, "neither 10 nor 11").told(sentence)]
        }
        _ => vec![Fault::at(place, "not 02").told(format!("{is}, and a file piece has 02"))],
    }
}

// Reason 6, with a word on the remainder written low byte first.
fn check(frame: &[u8], fields: &[Field<'_>]) -> Option<Fault> {
    let field = find(fields, Name::Check)?;
    let swapped = remainder(frame.get(INFORMATION..field.place)?).to_le_bytes();
    if field.bytes != swapped {
        return Some(Fault::at(field.place, "not the remainder").told(Reason::Check.sentence()));
    }
    let words = format!("low byte first: the remainder is written {}", pairs(&[swapped[1], swapped[0]]));
    let sentence = "the check bytes are the remainder with its low byte first, and the high byte must come first";
    Some(Fault::at(field.place, words).told(sentence))
}

// Reason 7: of the information, of a request, or of a piece.
fn size(kind: Kind, length: usize, fields: &[Field<'_>]) -> Option<Fault> {
    let information = length.saturating_sub(INFORMATION);
    if information > MOST {
        let words = format!("it has {information} bytes of information, and {MOST} is the most");
        return Some(Fault::of(None, words));
    }
    match kind {
        Kind::Request => requests::size(fields),
        _ => Some(Fault::of(None, "the piece has no data")),
    }
}

// Reason 14: bit 5 of the flags is clear, or the offset is not 0.
fn not_whole(fields: &[Field<'_>]) -> Vec<Fault> {
    let flags = find(fields, Name::Flags).filter(|field| field.bytes[0] & 0x20 == 0).map(|field| {
        let sentence = format!("the flags are {:02X}: bit 5 is clear, so the header is not whole", field.bytes[0]);
        Fault::at(field.place, "bit 5 is clear").told(sentence)
    });
    let offset = find(fields, Name::Offset).filter(|field| number(field.bytes) != 0).map(|field| {
        let sentence = format!("the offset is {} and not 0, so the header is not whole", number(field.bytes));
        Fault::at(field.place, "not 0").told(sentence)
    });
    flags.into_iter().chain(offset).collect()
}
