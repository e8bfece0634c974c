//! A line of a dump, taken apart: its place, its bytes, and the text beside them.
use super::super::pairs::{self, is_digits, is_pair};
use super::super::strange::{Unread, Why};
use super::column::{self, Column};

/// A place: the word as it stands, and its digits.
#[derive(Clone, Copy)]
pub struct Place<'a> {
    pub word: &'a str,
    digits: &'a str,
}

impl Place<'_> {
    // Whether a colon stands behind it, as `xxd` writes it.
    fn has_colon(&self) -> bool {
        self.word.len() > self.digits.len()
    }

    /// Whether it is written as another.
    pub fn is_written_as(&self, other: &Place<'_>) -> bool {
        self.digits.len() == other.digits.len() && self.has_colon() == other.has_colon()
    }

    /// The bases it may be in: `od` writes seven digits, octal unless it is told otherwise.
    pub fn bases(&self) -> Vec<u32> {
        if self.digits.len() == 7 && !self.has_colon() {
            vec![8, 10, 16]
        } else {
            vec![16]
        }
    }

    /// The place as a number.
    pub fn value(&self, base: u32) -> Option<usize> {
        usize::from_str_radix(self.digits, base).ok()
    }
}

/// A line of a dump.
pub struct Row<'a> {
    pub place: Place<'a>,
    pub bytes: Vec<u8>,
    /// The digits of its first group of bytes.
    pub group: &'a str,
    /// The text beside the bytes.
    pub column: Option<Column<'a>>,
}

impl<'a> Row<'a> {
    /// Takes a line apart, before which so many bytes stand.
    pub fn of(line: &'a str, before: usize) -> Result<Row<'a>, Unread<'a>> {
        let (place, rest) = match apart(line) {
            Ok(apart) => apart,
            Err(word) => return Err((word, Why::Place(before))),
        };
        if place.has_colon() {
            grouped(place, rest)
        } else {
            in_pairs(place, rest)
        }
    }
}

// The place in a line and what stands behind it, or the first word where it is none.
fn apart(line: &str) -> Result<(Place<'_>, &str), &str> {
    let (word, rest) = cut(line);
    let digits = word.strip_suffix(':').unwrap_or(word);
    if is_digits(digits) {
        Ok((Place { word, digits }, rest))
    } else {
        Err(word)
    }
}

// The first word of a line, and the rest with the blanks before it.
fn cut(line: &str) -> (&str, &str) {
    line.split_at(line.find(char::is_whitespace).unwrap_or(line.len()))
}

// A line as `xxd` writes it: groups of as many bytes each, between single blanks, and behind more blanks the text.
fn grouped<'a>(place: Place<'a>, rest: &'a str) -> Result<Row<'a>, Unread<'a>> {
    let rest = rest.trim_start();
    let end = rest.find("  ").into_iter().chain(rest.find('\t')).min().unwrap_or(rest.len());
    let (groups, text) = rest.split_at(end);
    let group = groups.split_whitespace().next().unwrap_or("");
    let mut bytes = Vec::new();
    let mut is_last = false;
    for word in groups.split_whitespace() {
        pairs::add_digits(word, &mut bytes)?;
        if is_last || word.len() > group.len() {
            return Err((word, Why::Group));
        }
        // only the last group of a line may be shorter
        is_last = word.len() < group.len();
    }
    Ok(Row { place, bytes, group, column: column::behind(text) })
}

// A line as `hexdump -C` and `od` write it: pairs between blanks, and the text between two marks.
fn in_pairs<'a>(place: Place<'a>, rest: &'a str) -> Result<Row<'a>, Unread<'a>> {
    let mut bytes = Vec::new();
    let mut rest = rest.trim_start();
    let group = cut(rest).0;
    while !rest.is_empty() && !column::opens(rest) {
        let (word, behind) = cut(rest);
        if word.len() > 2 && word.len() % 2 == 0 && is_digits(word) {
            return Err((word, Why::Order));
        }
        pairs::add_digits(word, &mut bytes)?;
        rest = behind.trim_start();
    }
    Ok(Row { place, bytes, group, column: column::between(rest) })
}

/// The place 0 that a line of a dump begins with, where more stands behind it: with a colon, or of six to eight digits,
/// or of four before a pair.
pub fn start(line: &str) -> Option<Place<'_>> {
    let (place, rest) = apart(line).ok()?;
    let is_zero = place.digits.bytes().all(|digit| digit == b'0') && !rest.is_empty();
    let is_place = match place.digits.len() {
        _ if place.has_colon() => true,
        6..=8 => true,
        4 => is_pair(cut(rest.trim_start()).0),
        _ => false,
    };
    (is_zero && is_place).then_some(place)
}

/// The first word of a line that is no line of a dump, where it stands like a place: with a colon, or with four or six to
/// eight digits before pairs, and two blanks between; or with six to eight and zeros at its beginning.
pub fn place_in(line: &str) -> Option<&str> {
    let (place, rest) = apart(line).ok()?;
    let mut words = rest.split_whitespace().take_while(|word| !column::opens(word)).peekable();
    let stands_alone = rest.starts_with("  ") || place.digits.starts_with("00");
    let is_place = match place.digits.len() {
        _ if rest.is_empty() => false,
        _ if place.has_colon() => true,
        6..=8 => stands_alone && words.peek().is_some() && words.all(is_pair),
        4 => rest.starts_with("  ") && words.peek().is_some() && words.all(is_pair),
        _ => false,
    };
    is_place.then_some(place.word)
}
