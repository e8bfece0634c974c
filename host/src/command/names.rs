//! Names of files and words of the user as they are shown: nothing in them can act on the screen.
use std::ffi::OsStr;

/// A name or a word, with each character that cannot be seen written as an escape: `\n`, `\u{1b}`.
pub fn shown(name: impl AsRef<OsStr>) -> String {
    escaped(&name.as_ref().to_string_lossy())
}

/// A text, with the same escapes.
pub fn escaped(text: &str) -> String {
    text.chars().flat_map(|c| if acts(c) { c.escape_default().collect() } else { vec![c] }).collect()
}

// Whether a character acts and is not seen: a control character, one that turns the direction of the text, or a mark.
fn acts(c: char) -> bool {
    c.is_control()
        || matches!(c, '\u{ad}' | '\u{61c}' | '\u{180e}' | '\u{200b}'..='\u{200f}' | '\u{2028}'..='\u{202e}')
        || matches!(c, '\u{2060}'..='\u{206f}' | '\u{feff}' | '\u{fff9}'..='\u{fffb}' | '\u{e0000}'..='\u{e007f}')
}

#[cfg(test)]
mod tests {
    use super::*;

    #[test]
    fn what_acts_is_escaped() {
        assert_eq!(shown("a record\n\u{1b}[2J\r\t\u{7f}\u{9b}"), "a record\\n\\u{1b}[2J\\r\\t\\u{7f}\\u{9b}");
        assert_eq!(shown("\u{202e}drocer.a"), "\\u{202e}drocer.a");
        assert_eq!(shown("a\u{61c}\u{2060}b\u{ad}\u{e0041}"), "a\\u{61c}\\u{2060}b\\u{ad}\\u{e0041}");
        assert_eq!(shown("Übung 3, \\n.record"), "Übung 3, \\n.record");
    }
}
