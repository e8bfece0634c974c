//! The table of fields: each in lines of eight bytes with their places, and each fault beside the line that it is in.
use super::faults::Fault;
use super::fields::Field;
use crate::command::{bytes, Out};
use thoweldeck::Reason;

// How many bytes a line shows, and how many lines of a field are shown. A line with a fault always is.
const LINE: usize = 8;
const LINES: usize = 32;

/// Says the fields as a table, with the faults that a reason has. A fault that is at no place stands behind them.
pub fn say(fields: &[Field<'_>], reason: Option<Reason>, faults: &[Fault], out: &mut Out<'_>) {
    let mark = |fault: &Fault| format!("<-- reason {}: {}", reason.map_or(0, Reason::number), fault.words);
    out.line(format!("{:>5}  {:23}  {:12}  meaning", "place", "bytes", "field"));
    for field in fields {
        let marks = |place: usize, size: usize| {
            let here = move |fault: &&Fault| fault.place.map_or(false, |at| (place..place + size).contains(&at));
            faults.iter().filter(here).map(mark).collect()
        };
        rows(field, marks, out);
    }
    for fault in faults.iter().filter(|fault| fault.place.is_none()) {
        out.line(format!("       {}", mark(fault)));
    }
}

// A field in lines, of which the first has its name and its meaning. The marks of a line are asked for by its place and
// its size.
fn rows(field: &Field<'_>, marks: impl Fn(usize, usize) -> Vec<String>, out: &mut Out<'_>) {
    let mut hidden = 0;
    for (index, line) in field.bytes.chunks(LINE).enumerate() {
        let place = field.place + index * LINE;
        let marks = marks(place, line.len());
        if index >= LINES && marks.is_empty() {
            hidden += line.len();
            continue;
        }
        say_hidden(place, &mut hidden, out);
        let (name, meaning) = if index == 0 { (field.name.text(), field.meaning.as_str()) } else { ("", "") };
        row(place, line, name, &shown(field, line, meaning), &marks, out);
    }
    say_hidden(field.place + field.bytes.len(), &mut hidden, out);
}

// What a line says behind its name.
fn shown(field: &Field<'_>, line: &[u8], meaning: &str) -> String {
    if field.is_text {
        format!("|{}| {meaning}", bytes::characters(line))
    } else {
        meaning.to_string()
    }
}

// A line of a field with its first mark, and each other mark in a line of its own.
fn row(place: usize, line: &[u8], name: &str, shown: &str, marks: &[String], out: &mut Out<'_>) {
    let first = marks.first().map_or("", String::as_str);
    let shown = format!("{} {first}", shown.trim_end());
    out.line(format!("{place:5}  {:23}  {name:12}  {}", bytes::pairs(line), shown.trim_start()).trim_end());
    for mark in marks.iter().skip(1) {
        out.line(format!("{:46}{mark}", ""));
    }
}

// The line for what is hidden before a place, if something is.
fn say_hidden(place: usize, hidden: &mut usize, out: &mut Out<'_>) {
    if *hidden > 0 {
        out.line(format!("{:5}  and {} more", place - *hidden, bytes::counted(*hidden, "byte")));
        *hidden = 0;
    }
}

#[cfg(test)]
mod tests {
    use super::*;
    use crate::command::explain::fields::Name;

    // A field of so many zeros at place 100 as a table, with faults at some places.
    fn table(size: usize, places: &[usize]) -> Vec<String> {
        let bytes = vec![0; size];
        let (name, meaning) = (Name::Map, "nothing".to_string());
        let field = Field { place: 100, bytes: &bytes, name, meaning, is_text: false, is_cut: false };
        let faults: Vec<Fault> = places.iter().map(|place| Fault::at(*place, format!("place {place}"))).collect();
        let mut text = Vec::new();
        let mut out = Out::to(&mut text);
        say(&[field], Some(Reason::Record), &faults, &mut out);
        out.end().expect("a list takes all");
        String::from_utf8(text).expect("a text").lines().map(str::to_string).collect()
    }

    #[test]
    fn long_fields_are_cut() {
        let whole = table(8 * 32, &[]);
        assert_eq!(whole.len(), 1 + 32);
        assert_eq!(whole[1], "  100  00 00 00 00 00 00 00 00  map           nothing");
        assert_eq!(whole[32], "  348  00 00 00 00 00 00 00 00");
        let longer = table(8 * 32 + 1, &[]);
        assert_eq!((longer.len(), longer[33].as_str()), (1 + 33, "  356  and 1 byte more"));
    }

    #[test]
    fn a_fault_is_never_hidden() {
        let lines = table(1000, &[100, 500, 503, 1099]);
        assert_eq!(lines[1], "  100  00 00 00 00 00 00 00 00  map           nothing <-- reason 13: place 100");
        let zeros = "00 00 00 00 00 00 00 00";
        let gap = " ".repeat(16);
        assert_eq!(
            lines[33..],
            [
                "  356  and 144 bytes more".to_string(),
                format!("  500  {zeros}{gap}<-- reason 13: place 500"),
                format!("{:46}<-- reason 13: place 503", ""),
                "  508  and 584 bytes more".to_string(),
                format!(" 1092  {zeros}{gap}<-- reason 13: place 1099"),
            ]
        );
    }
}
