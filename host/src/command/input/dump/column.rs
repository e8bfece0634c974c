//! The text beside the bytes of a dump's line. It is no data, and anything may stand in it; but it tells whether bytes
//! are missing, and whether they are in their order.
use super::super::super::bytes::characters;

/// The text beside bytes.
pub struct Column<'a> {
    /// As it stands.
    pub word: &'a str,
    // the characters, and whether marks around them tell where they begin and end
    text: &'a str,
    is_marked: bool,
}

/// Whether a text stands here between two marks: `|` and `|`, as `hexdump -C` writes it, or `>` and `<`, as `od`.
pub fn opens(rest: &str) -> bool {
    rest.starts_with(['|', '>'])
}

/// The text between two marks.
pub fn between(word: &str) -> Option<Column<'_>> {
    let bars = word.strip_prefix('|').and_then(|text| text.strip_suffix('|'));
    let text = bars.or_else(|| word.strip_prefix('>')?.strip_suffix('<'));
    // without the second mark it has been cut
    (!word.is_empty()).then_some(Column { word, text: text.unwrap_or(""), is_marked: true })
}

/// The text behind blanks, as `xxd` writes it. How many of them are its own is not known.
pub fn behind(rest: &str) -> Option<Column<'_>> {
    let text = rest.trim();
    (!text.is_empty()).then_some(Column { word: text, text, is_marked: false })
}

impl Column<'_> {
    /// Whether it has a character for each byte; blanks at its ends may be missing where no marks are.
    pub fn fits(&self, bytes: &[u8]) -> bool {
        let count = self.text.chars().count();
        let is_blank = |byte: &&u8| **byte == b' ';
        let blanks = bytes.iter().take_while(is_blank).count() + bytes.iter().rev().take_while(is_blank).count();
        count <= bytes.len() && bytes.len() <= count + if self.is_marked { 0 } else { blanks }
    }

    /// Whether it is the text of the bytes with those of each group in the opposite order, and not as they are.
    pub fn is_swapped(&self, bytes: &[u8], group: usize) -> bool {
        let swapped: Vec<u8> = bytes.chunks(group.max(1)).flat_map(|group| group.iter().rev().copied()).collect();
        characters(bytes).trim() != self.text && characters(&swapped).trim() == self.text
    }
}
