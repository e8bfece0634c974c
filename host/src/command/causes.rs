//! Why something is refused: the reason that the library gave, and in words the cause of it that holds.
use super::bytes::counted;
use super::explain::{faults, looks, places, Fault, Kind};
use super::names::escaped;
use std::fmt;
use thoweldeck::{Reason, Reception};

/// A refusal's reason and its cause.
#[derive(Clone, Debug, PartialEq, Eq)]
pub struct Cause {
    /// The reason that the library gave.
    pub reason: Reason,
    /// What holds, in a sentence.
    pub words: String,
}

impl From<Reason> for Cause {
    /// A reason that has one cause only: its own sentence.
    fn from(reason: Reason) -> Cause {
        Cause { reason, words: reason.sentence().to_string() }
    }
}

impl fmt::Display for Cause {
    fn fmt(&self, f: &mut fmt::Formatter<'_>) -> fmt::Result {
        write!(f, "reason {}: {}", self.reason.number(), self.words)
    }
}

impl Cause {
    /// The cause of a frame that is refused as a kind.
    pub fn of_frame(kind: Kind, frame: &[u8], reason: Reason) -> Cause {
        Cause::of_faults(reason, &faults::of(kind, frame, reason))
    }

    /// The cause of a frame that a reception refuses.
    pub fn of_piece(frame: &[u8], reception: &Reception, reason: Reason) -> Cause {
        Cause::of_faults(reason, &places::faults(frame, reception, reason))
    }

    /// The cause of bytes that are no record.
    pub fn of_record(bytes: &[u8]) -> Cause {
        let reason = Reason::Record;
        let words = match (looks::accepted_as(bytes), looks::known(bytes)) {
            _ if bytes.is_empty() => "this is empty, and no record".to_string(),
            (Some(kind), _) => format!("this is {}, and no record", kind.name()),
            (None, Some((what, _))) => format!("this looks like {what}, and not like a record"),
            (None, None) => return Cause::of_frame(Kind::Record, bytes, reason),
        };
        Cause { reason, words }
    }

    /// The cause of two receptions that cannot be joined.
    pub fn of_join(first: &Reception, second: &Reception, reason: Reason) -> Cause {
        let length = |reception: &Reception| counted(reception.length() as usize, "byte");
        let words = match reason {
            Reason::OtherFile if first.number() != second.number() => {
                format!("the first is of file {}, and the second of file {}", first.number(), second.number())
            }
            Reason::OtherFile => {
                format!("the file has {} in the first, and {} in the second", length(first), length(second))
            }
            Reason::Differs => differing(first, second).unwrap_or_else(|| reason.sentence().to_string()),
            _ => reason.sentence().to_string(),
        };
        Cause { reason, words }
    }

    /// The cause of a length that no reception has.
    pub fn of_length(length: u32) -> Cause {
        let words = format!("the file's length is {length}, and must be 1 to 32,768");
        Cause { reason: Reason::Size, words }
    }

    /// The cause of a text that is no address: what stands in it in the place of a callsign and its SSID, as `VA3SFL-0`,
    /// or behind them.
    pub fn of_call(text: &str) -> Cause {
        let (plain, end) = text.split_at(text.find('+').unwrap_or(text.len()));
        let (callsign, ssid) = plain.split_once('-').map_or((plain, None), |(callsign, ssid)| (callsign, Some(ssid)));
        let strange = callsign.chars().find(|c| !c.is_ascii_uppercase() && !c.is_ascii_digit());
        let words = match (callsign.chars().count(), strange, ssid) {
            (0, ..) => "it has no callsign".to_string(),
            (_, Some(c), _) if c.is_ascii_lowercase() => {
                format!("`{c}` is a small letter, and a callsign has A-Z and 0-9")
            }
            (_, Some(c), _) => format!("`{}` is none of A-Z and 0-9", escaped(&c.to_string())),
            (count, ..) if count > 6 => format!("the callsign has {count} characters, and 6 is the most"),
            _ if !matches!(end, "" | "+bit7") => {
                format!("it ends in `{}`, and only `+bit7` may stand there", escaped(end))
            }
            (.., Some(ssid)) => format!("the SSID is `{}`, and must be 0 to 15", escaped(ssid)),
            _ => Reason::Address.sentence().to_string(),
        };
        Cause { reason: Reason::Address, words }
    }

    /// The cause that a refusal's faults tell: the first of them, and how many more there are.
    pub fn of_faults(reason: Reason, faults: &[Fault]) -> Cause {
        match faults {
            [] => Cause::from(reason),
            [fault] => Cause { reason, words: fault.sentence.clone() },
            [fault, others @ ..] => {
                Cause { reason, words: format!("{} (and {})", fault.sentence, counted(others.len(), "more fault")) }
            }
        }
    }
}

// The first position that both receptions hold with different bytes.
fn differing(first: &Reception, second: &Reception) -> Option<String> {
    let bytes = first.buffer().iter().zip(second.buffer());
    let differs = |(position, (one, other)): &(u32, (&u8, &u8))| {
        one != other && first.is_held(*position) && second.is_held(*position)
    };
    let (position, (one, other)) = (0..).zip(bytes).find(differs)?;
    Some(format!("position {position} is held with {one:02X} in the first, and with {other:02X} in the second"))
}

#[cfg(test)]
mod tests {
    use super::*;

    // A reception of a file with some bytes held from a position on.
    fn reception(number: u32, length: u32, from: usize, bytes: &[u8]) -> Reception {
        let mut record = Reception::open(number, length).expect("a length").save();
        let buffer = record.len() - length as usize;
        for (position, byte) in (from..).zip(bytes) {
            record[17 + position / 8] |= 1 << (position % 8);
            record[buffer + position] = *byte;
        }
        Reception::load(&record).expect("a record")
    }

    #[test]
    fn what_cannot_be_joined_is_told() {
        let first = reception(7, 20, 4, b"ABCD");
        for (second, words) in [
            (reception(8, 21, 4, b"ABCD"), "reason 9: the first is of file 7, and the second of file 8"),
            (reception(7, 1, 0, b""), "reason 9: the file has 20 bytes in the first, and 1 byte in the second"),
            (
                reception(7, 20, 2, b"XXABXX"),
                "reason 11: position 6 is held with 43 in the first, and with 58 in the second",
            ),
        ] {
            let reason = first.clone().join(&second).expect_err("a refusal");
            assert_eq!(Cause::of_join(&first, &second, reason).to_string(), words);
        }
    }

    #[test]
    fn no_record_is_told_as_what_it_is() {
        let sample = include_bytes!(concat!(env!("CARGO_MANIFEST_DIR"), "/samples/survey/entry.frame"));
        let record = reception(7, 20, 4, b"ABCD").save();
        for (bytes, words) in [
            (&b""[..], "this is empty, and no record"),
            (&sample[..], "this is a directory entry, and no record"),
            (b"\x89PNG\r\n\x1A\n\0", "this looks like a picture, and not like a record"),
            (b"what was heard", "this looks like a text, and not like a record"),
            (&record[..15], "it is cut off at place 15, before the data length of the map"),
            (b"\0\0", "the tag at place 0 is 00, and must be 01, of the file's number"),
        ] {
            assert_eq!(Cause::of_record(bytes), Cause { reason: Reason::Record, words: words.to_string() });
        }
    }

    #[test]
    fn a_length_that_no_file_has_is_told() {
        let told = Cause::of_length(40_000).to_string();
        assert_eq!(told, "reason 7: the file's length is 40000, and must be 1 to 32,768");
    }

    #[test]
    fn a_text_that_is_no_address_is_told() {
        for (text, words) in [
            ("", "it has no callsign"),
            ("-1", "it has no callsign"),
            ("VA3sFL-0", "`s` is a small letter, and a callsign has A-Z and 0-9"),
            ("VA3 FL", "` ` is none of A-Z and 0-9"),
            ("VA\u{1b}3", "`\\u{1b}` is none of A-Z and 0-9"),
            ("QRPX1234", "the callsign has 8 characters, and 6 is the most"),
            ("VA3SFL-16", "the SSID is `16`, and must be 0 to 15"),
            ("VA3SFL-07", "the SSID is `07`, and must be 0 to 15"),
            ("VA3SFL-", "the SSID is ``, and must be 0 to 15"),
            ("VA3SFL-16+bit7", "the SSID is `16`, and must be 0 to 15"),
            ("VA3sFL+bit7", "`s` is a small letter, and a callsign has A-Z and 0-9"),
            ("QRPX1234+bit7", "the callsign has 8 characters, and 6 is the most"),
            ("+bit7", "it has no callsign"),
            ("VA3SFL-0+bit8", "it ends in `+bit8`, and only `+bit7` may stand there"),
            ("VA3SFL+BIT7", "it ends in `+BIT7`, and only `+bit7` may stand there"),
            ("VA3SFL-0+bit7+bit7", "it ends in `+bit7+bit7`, and only `+bit7` may stand there"),
            ("VA3SFL+bit7-0", "it ends in `+bit7-0`, and only `+bit7` may stand there"),
            ("VA3SFL-0+", "it ends in `+`, and only `+bit7` may stand there"),
            ("VA3SFL-0+\n", "it ends in `+\\n`, and only `+bit7` may stand there"),
        ] {
            let reason = text.parse::<thoweldeck::Address>().expect_err(text);
            assert_eq!(Cause::of_call(text), Cause { reason, words: words.to_string() });
        }
    }

    #[test]
    fn the_first_fault_is_told_and_the_others_counted() {
        let frame = b"\xA2\xA6\xA9\x40\x40\x40\x63\xAA\x9E\xA6\x82\xA8\x6A\x77\x03\xBB";
        let told = Cause::of_frame(Kind::Piece, frame, Reason::Address).to_string();
        assert_eq!(
            told,
            "reason 2: the destination is malformed: A9 at place 2 has its low bit set (and 1 more fault)"
        );
        let short = Cause::of_frame(Kind::Entry, &frame[..15], Reason::Short).to_string();
        assert_eq!(short, "reason 1: the frame has 15 bytes, and 16 is the least");
        // where no fault is found, the reason has its own sentence
        assert_eq!(Cause::of_faults(Reason::Space, &[]), Cause::from(Reason::Space));
    }
}
