//! Why a text cannot be read: the word in the way, its line, and what is wrong with it.
use super::super::bytes::counted;
use super::super::names::escaped;
use std::fmt;

// How many characters of a word are shown.
const SHOWN: usize = 20;

/// What is strange in a text.
#[derive(Clone, Debug, PartialEq, Eq)]
pub enum Strange {
    /// A word in a line, from 1.
    Word { line: usize, word: String, why: Why },
    /// It has comments, and no frame.
    Nothing,
}

/// A word that cannot be read, and why.
pub type Unread<'a> = (&'a str, Why);

/// What is wrong with a word.
#[derive(Clone, Copy, Debug, PartialEq, Eq)]
pub enum Why {
    /// It is no pair of digits.
    Pair,
    /// It has so many digits, an odd count.
    Odd(usize),
    /// It is a number of several bytes.
    Number,
    /// It stands like a place, and no dump has begun.
    Start,
    /// It has its bytes joined, beside words that have not.
    Mixed,
    /// It is not the place of its line, before which so many bytes stand.
    Place(usize),
    /// It is a place both in octal and in another base, as far as the lines tell.
    Base,
    /// It is a place behind all that is read.
    Far,
    /// It is a `*` that stands behind no line, or before no place.
    Repeat,
    /// It is a group of bytes in a dump whose groups may be in either order.
    Order,
    /// It is a group of bytes that the text beside it has in the opposite order.
    Swapped,
    /// It is longer or shorter than the groups of bytes beside it.
    Group,
    /// It is the text beside so many bytes, and has another count of characters.
    Column(usize),
    /// It is the place of a line that lacks the text that others have.
    NoColumn,
}

impl Strange {
    /// A word in a line.
    pub fn at(line: usize, (word, why): Unread<'_>) -> Strange {
        let mut characters = word.chars();
        let mut word: String = characters.by_ref().take(SHOWN).collect();
        if characters.next().is_some() {
            word.push_str("...");
        }
        Strange::Word { line, word, why }
    }
}

/// The part of a word to show: all of it where it is short, else what stands from a place on.
pub fn shown(word: &str, from: usize) -> &str {
    if word.chars().nth(SHOWN).is_none() {
        word
    } else {
        &word[from..]
    }
}

impl fmt::Display for Strange {
    fn fmt(&self, f: &mut fmt::Formatter<'_>) -> fmt::Result {
        match self {
            Strange::Word { line, word, why } => {
                write!(f, "is a {}, and `{}` in line {line} {}", why.form(), escaped(word), why.words(word))
            }
            Strange::Nothing => f.write_str("is a text, and has no frame in it"),
        }
    }
}

impl Why {
    // What the text is taken for.
    fn form(self) -> &'static str {
        match self {
            Why::Pair | Why::Odd(_) | Why::Number | Why::Start | Why::Mixed => "text",
            _ => "dump",
        }
    }

    // What is wrong, behind the word and its line.
    fn words(self, word: &str) -> String {
        match self {
            Why::Pair => format!("is no pair of hexadecimal digits{}", letter(word)),
            Why::Odd(count) => format!("has {}, an odd count", counted(count, "digit")),
            Why::Number => "is a number of several bytes, whose order is not told: write its pairs apart".to_string(),
            Why::Start => "stands like a place of a dump, which begins with place 0".to_string(),
            Why::Mixed => {
                "may be a time or a place as well as bytes, since others in the line are not joined so".to_string()
            }
            Why::Place(count) => {
                format!("is not the place of its line, with {} before it", counted(count, "byte"))
            }
            Why::Base => "is a place in octal or in hexadecimal, and both may be meant".to_string(),
            Why::Far => "is a place too far on".to_string(),
            Why::Repeat => "repeats no line, or no place behind it says how often".to_string(),
            Why::Order => "has several bytes, whose order is not told: `hexdump -C` and `xxd` tell it".to_string(),
            Why::Swapped => {
                "has its bytes in the opposite order, by the text beside it: use `xxd` without -e".to_string()
            }
            Why::Group => "is not as long as the groups beside it".to_string(),
            Why::Column(count) => format!("is not the text of the {} beside it", counted(count, "byte")),
            Why::NoColumn => "begins a line without the text that other lines have".to_string(),
        }
    }
}

// A word on a letter that only looks like a digit, as copies of the thesis have them.
fn letter(word: &str) -> String {
    match word.chars().find(|c| c.is_alphabetic() && !c.is_ascii()) {
        Some(c) => format!(": its `{c}` is U+{:04X}", u32::from(c)),
        None => String::new(),
    }
}
