//! The numbered reasons of a refusal (01, "Numbered reasons").
use std::error::Error;
use std::fmt;

/// Why an operation refused: one of the paper's fifteen reasons. A refusal gives one reason, the first
/// that holds in the operation's order, and has changed nothing.
///
/// ```
/// use thoweldeck::{Reason, Reception};
///
/// let refused = Reception::open(7, 0).unwrap_err();
/// assert_eq!(refused, Reason::Size);
/// assert_eq!(refused.number(), 7);
/// assert!(refused.to_string().starts_with("reason 7: "));
/// ```
#[derive(Clone, Copy, Debug, PartialEq, Eq, Hash, PartialOrd, Ord)]
pub enum Reason {
    /// 1: the frame has fewer than 16 bytes, or its information is too short.
    Short = 1,
    /// 2: an address is malformed.
    Address = 2,
    /// 3: the control byte is not 0x03.
    Control = 3,
    /// 4: the protocol byte is not the one that this operation reads.
    Protocol = 4,
    /// 5: the flags are not allowed.
    Flags = 5,
    /// 6: the check bytes differ from the remainder.
    Check = 6,
    /// 7: a size is wrong: of the information, a piece, a file, a block or a request.
    Size = 7,
    /// 8: the file header breaks a rule.
    Header = 8,
    /// 9: the frame or the reception is another file's.
    OtherFile = 9,
    /// 10: a piece ends beyond the file, or a hole in a request breaks its rules.
    Beyond = 10,
    /// 11: a byte that is held already differs.
    Differs = 11,
    /// 12: the lent space is too short.
    Space = 12,
    /// 13: the record is malformed.
    Record = 13,
    /// 14: the header of a directory entry is not whole.
    NotWhole = 14,
    /// 15: no hole starts at the place or later.
    NoHole = 15,
}

impl Reason {
    /// All reasons, by their numbers.
    pub const ALL: [Reason; 15] = [
        Reason::Short,
        Reason::Address,
        Reason::Control,
        Reason::Protocol,
        Reason::Flags,
        Reason::Check,
        Reason::Size,
        Reason::Header,
        Reason::OtherFile,
        Reason::Beyond,
        Reason::Differs,
        Reason::Space,
        Reason::Record,
        Reason::NotWhole,
        Reason::NoHole,
    ];

    /// The paper's number, 1 to 15.
    #[must_use]
    pub fn number(self) -> u8 {
        self as u8
    }

    /// The reason in a sentence, in the words of the course, with every cause that its number has.
    #[must_use]
    pub fn sentence(self) -> &'static str {
        match self {
            Reason::Short => "the frame has fewer than 16 bytes, or its information is too short (11 bytes for a piece, 19 for a directory entry, 7 for a request)",
            Reason::Address => "an address is malformed: six characters of A-Z and 0-9, padded at the end with spaces, and an SSID of 0 to 15",
            Reason::Control => "the control byte is not 0x03, so this is no UI frame",
            Reason::Protocol => "the protocol is not the one that is read here: 0xBB for a file, 0xBD for the directory",
            Reason::Flags => "the flags are not allowed",
            Reason::Check => "the check bytes are not the remainder of the bytes before them, so the frame was damaged on its way",
            Reason::Size => "a size is wrong: more than 255 bytes of information, a piece without data, a file's length that is not 1 to 32,768, a request's block size or count of holes, or odd bytes left over in it",
            Reason::Header => "the file header breaks a rule",
            Reason::OtherFile => "it belongs to another file: the number differs, or in a join the length",
            Reason::Beyond => "the piece ends beyond the file, or a hole in the request breaks its rules",
            Reason::Differs => "a byte that is held already differs",
            Reason::Space => "the lent space is too short",
            Reason::Record => "this is no record: a field, a length, a spare bit or an unheld byte is not as the writer writes it",
            Reason::NotWhole => "the directory entry does not have the whole header",
            Reason::NoHole => "no hole starts at this place or later",
        }
    }
}

impl fmt::Display for Reason {
    fn fmt(&self, f: &mut fmt::Formatter<'_>) -> fmt::Result {
        write!(f, "reason {}: {}", self.number(), self.sentence())
    }
}

impl Error for Reason {}

impl TryFrom<u8> for Reason {
    type Error = NoReason;

    /// The reason with a number.
    ///
    /// # Errors
    ///
    /// [`NoReason`] for 0, which means accepted, and for a number above 15.
    ///
    /// ```
    /// use thoweldeck::{NoReason, Reason};
    ///
    /// assert_eq!(Reason::try_from(6), Ok(Reason::Check));
    /// assert_eq!(Reason::try_from(0), Err(NoReason(0)));
    /// assert_eq!(Reason::try_from(16), Err(NoReason(16)));
    /// ```
    fn try_from(number: u8) -> Result<Reason, NoReason> {
        Reason::ALL.into_iter().find(|reason| reason.number() == number).ok_or(NoReason(number))
    }
}

/// A number that is none of a reason's.
#[derive(Clone, Copy, Debug, PartialEq, Eq, Hash)]
pub struct NoReason(pub u8);

impl fmt::Display for NoReason {
    fn fmt(&self, f: &mut fmt::Formatter<'_>) -> fmt::Result {
        write!(f, "{} is the number of no reason: they are 1 to 15", self.0)
    }
}

impl Error for NoReason {}
