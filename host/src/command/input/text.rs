//! Whether an input is a text, and its lines.
use std::borrow::Cow;

/// The text that an input is, without its byte order mark: UTF-8, or UTF-16 with its mark, of visible characters and
/// white space, and not of white space alone. No frame that is accepted is one: its control byte 03 is not visible.
pub fn as_text(bytes: &[u8]) -> Option<Cow<'_, str>> {
    let text = match bytes {
        [0xFF, 0xFE, rest @ ..] => Cow::Owned(wide(rest, u16::from_le_bytes)?),
        [0xFE, 0xFF, rest @ ..] => Cow::Owned(wide(rest, u16::from_be_bytes)?),
        [0xEF, 0xBB, 0xBF, rest @ ..] | rest => Cow::Borrowed(std::str::from_utf8(rest).ok()?),
    };
    let is_text = !text.trim().is_empty() && text.chars().all(|c| c.is_whitespace() || !c.is_control());
    is_text.then_some(if text.contains('\r') { Cow::Owned(with_one_line_end(&text)) } else { text })
}

// A text whose lines end in one way: they may end in CR LF, or in CR alone.
fn with_one_line_end(text: &str) -> String {
    text.replace("\r\n", "\n").replace('\r', "\n")
}

// The text in UTF-16, whose units have their two bytes in an order.
fn wide(bytes: &[u8], unit: fn([u8; 2]) -> u16) -> Option<String> {
    if bytes.len() % 2 != 0 {
        return None;
    }
    let units = bytes.chunks(2).map(|pair| unit([pair[0], pair[1]]));
    char::decode_utf16(units).collect::<Result<String, _>>().ok()
}

/// The lines of a text that are neither empty nor a comment, each with its number from 1. Where texts were put one
/// behind the other, a line may begin with the next one's byte order mark.
pub fn lines(text: &str) -> impl Iterator<Item = (usize, &str)> {
    text.lines()
        .enumerate()
        .map(|(index, line)| (index + 1, line.trim_start_matches('\u{feff}').trim()))
        .filter(|(_, line)| !line.is_empty() && !line.starts_with('#'))
}
