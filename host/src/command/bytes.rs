//! Bytes as text: in hexadecimal, as characters, as dates.

/// Bytes in hexadecimal, with spaces between them.
pub fn pairs(bytes: &[u8]) -> String {
    bytes.iter().map(|byte| format!("{byte:02X}")).collect::<Vec<_>>().join(" ")
}

/// A byte as a character, and a point for one that cannot be seen.
pub fn character(byte: u8) -> char {
    if byte == b' ' || byte.is_ascii_graphic() {
        char::from(byte)
    } else {
        '.'
    }
}

/// Bytes as characters.
pub fn characters(bytes: &[u8]) -> String {
    bytes.iter().map(|byte| character(*byte)).collect()
}

/// A count of things: `1 byte`, `2 bytes`.
pub fn counted(count: usize, thing: &str) -> String {
    format!("{count} {thing}{}", if count == 1 { "" } else { "s" })
}

/// The positions from one up to another, which is behind the last: `position 4`, `positions 4 to 7`.
pub fn positions(start: u64, end: u64) -> String {
    if start + 1 == end {
        format!("position {start}")
    } else {
        format!("positions {start} to {}", end - 1)
    }
}

/// A number of bytes, least significant byte first. There are at most eight.
pub fn number(bytes: &[u8]) -> u64 {
    bytes.iter().rev().fold(0, |above, byte| above * 256 + u64::from(*byte))
}

/// The date and time of a count of seconds since the start of 1970.
pub fn date(seconds: u64) -> String {
    let (days, second) = (seconds / 86_400, seconds % 86_400);
    let (year, day) = year_and_day(days);
    let (month, day) = month_and_day(year, day);
    let (hour, minute, second) = (second / 3600, second / 60 % 60, second % 60);
    format!("{year}-{month:02}-{day:02} {hour:02}:{minute:02}:{second:02} UTC")
}

// The year, and the day in it from 0, of a count of days since the start of 1970.
fn year_and_day(mut days: u64) -> (u64, u64) {
    let mut year = 1970;
    while days >= days_in(year) {
        days -= days_in(year);
        year += 1;
    }
    (year, days)
}

// The month and the day in it, both from 1, of a day in a year from 0.
fn month_and_day(year: u64, mut day: u64) -> (u64, u64) {
    let february = days_in(year) - 337;
    let mut month = 1;
    for length in [31, february, 31, 30, 31, 30, 31, 31, 30, 31, 30] {
        if day < length {
            break;
        }
        day -= length;
        month += 1;
    }
    (month, day + 1)
}

fn days_in(year: u64) -> u64 {
    let leap = year % 4 == 0 && (year % 100 != 0 || year % 400 == 0);
    365 + u64::from(leap)
}

#[cfg(test)]
mod tests {
    use super::*;

    #[test]
    fn dates() {
        assert_eq!(date(0), "1970-01-01 00:00:00 UTC");
        // table 3.6 of the thesis
        assert_eq!(date(0x383C_7EE0), "1999-11-25 00:12:16 UTC");
        assert_eq!(date(0x383D_CFEE), "1999-11-26 00:10:22 UTC");
        assert_eq!(date(951_782_399), "2000-02-28 23:59:59 UTC");
        assert_eq!(date(951_782_400), "2000-02-29 00:00:00 UTC");
        assert_eq!(date(978_307_199), "2000-12-31 23:59:59 UTC");
        assert_eq!(date(4_294_967_295), "2106-02-07 06:28:15 UTC");
    }

    #[test]
    fn counts() {
        assert_eq!((counted(0, "hole"), counted(1, "hole")), ("0 holes".to_string(), "1 hole".to_string()));
    }

    #[test]
    fn numbers() {
        assert_eq!(number(&[]), 0);
        assert_eq!(number(&[0x67, 0xAE, 0, 1]), 0x0100_AE67);
    }
}
