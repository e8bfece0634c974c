//! Words of hexadecimal digits as people have them: `A2A6A8`, `0xA2,`, `A2:A6`, `A2,A6`, `A2-A6`, `\xA2\xA6`.
use super::strange::{shown, Unread, Why};

/// Adds the bytes that a word says. In a list, and behind `0x` or `\x`, a byte stands by itself: a longer number may
/// have its bytes in either order.
pub fn add<'a>(word: &'a str, bytes: &mut Vec<u8>) -> Result<(), Unread<'a>> {
    if let Some(rest) = word.strip_prefix("\\x") {
        return rest.split("\\x").try_for_each(|part| add_one(word, part, part, bytes));
    }
    if !word.contains(separates) && number(word).is_none() {
        return add_digits(word, bytes);
    }
    let list = word.strip_suffix(separates).unwrap_or(word);
    list.split(separates).try_for_each(|part| add_one(word, part, number(part).unwrap_or(part), bytes))
}

/// Adds the bytes of a word of digits alone, a pair for each.
pub fn add_digits<'a>(word: &'a str, bytes: &mut Vec<u8>) -> Result<(), Unread<'a>> {
    if let Some(place) = word.find(|c: char| !c.is_ascii_hexdigit()) {
        return Err((shown(word, place - place % 2), Why::Pair));
    }
    if word.len() % 2 != 0 {
        return Err((word, Why::Odd(word.len())));
    }
    bytes.extend(word.as_bytes().chunks(2).map(|pair| digit(pair[0]) * 16 + digit(pair[1])));
    Ok(())
}

/// Whether a word has its bytes joined as a time or a date is, too. (One `-` stands in the middle of a line of `debug`.)
pub fn is_joined(word: &str) -> bool {
    word.trim_end_matches(':').contains(':') || word.matches('-').count() > 1
}

/// Whether a word is one pair of digits.
pub fn is_pair(word: &str) -> bool {
    word.len() == 2 && is_digits(word)
}

/// Whether a word has hexadecimal digits and nothing else.
pub fn is_digits(word: &str) -> bool {
    !word.is_empty() && word.bytes().all(|c| c.is_ascii_hexdigit())
}

// Adds the byte that the digits in a part of a word say.
fn add_one<'a>(word: &'a str, part: &'a str, digits: &'a str, bytes: &mut Vec<u8>) -> Result<(), Unread<'a>> {
    if is_pair(digits) {
        return add_digits(digits, bytes);
    }
    match digits.len() {
        0 => Err((word, Why::Pair)),
        count if is_digits(digits) && count % 2 == 0 => Err((part, Why::Number)),
        count if is_digits(digits) => Err((part, Why::Odd(count))),
        _ => Err((part, Why::Pair)),
    }
}

// What stands behind `0x`.
fn number(word: &str) -> Option<&str> {
    word.strip_prefix("0x").or_else(|| word.strip_prefix("0X"))
}

// Whether a character stands between the bytes of a list.
fn separates(c: char) -> bool {
    matches!(c, ',' | ':' | '-')
}

// The value of a digit.
fn digit(c: u8) -> u8 {
    char::from(c).to_digit(16).map_or(0, |value| value as u8)
}
