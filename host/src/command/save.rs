//! `thoweldeck save RECORD -o FILE`: the file itself, or its body, where no hole is left.
use super::bytes::counted;
use super::headers;
use super::names::shown;
use super::words::Words;
use super::{files, End, Ended, Failure, Out};
use thoweldeck::{Header, Reception};

pub fn run(words: Words, out: &mut Out<'_>) -> End {
    let [path] = words.exactly(["a record"])?;
    let target = words.path("-o")?;
    let reception = files::record(&path)?;
    let stopped = |what: &str| Failure::Stopped(format!("{}: {what}", shown(&path)));
    let file = reception
        .file()
        .ok_or_else(|| stopped(&format!("{}: the file is not complete", super::holes::summary(&reception))))?;
    let header = headers::of(&reception);
    let is_body = words.has("--body");
    let saved = match header.as_ref().and_then(|header| body(file, header)) {
        Some(body) if is_body => body,
        None if is_body => return Err(stopped("its file has no header that says where the body starts")),
        _ => file,
    };
    files::write_another(&target, saved)?.iter().for_each(|note| out.line(note));
    let what = if is_body { "the body of file" } else { "file" };
    out.line(format!("{}: {what} {}, {}", shown(&target), reception.number(), counted(saved.len(), "byte")));
    out.line(agrees(&reception, file, header.as_ref()));
    Ok(Ended::Well)
}

// The body of a file, which starts where item 0B says.
fn body<'a>(file: &'a [u8], header: &Header) -> Option<&'a [u8]> {
    file.get(usize::from(header.body)..)
}

// Whether the file is what its header says, in words.
fn agrees(reception: &Reception, file: &[u8], header: Option<&Header>) -> String {
    let header = match header {
        None if file.starts_with(&[0xAA, 0x55]) => {
            return "its header breaks a rule (reason 8), so the body is compared with nothing".to_string()
        }
        None => return "it begins with no file header, so the body is compared with nothing".to_string(),
        Some(header) => header,
    };
    let name = headers::name(header);
    if header.length != reception.length() {
        let length = counted(header.length as usize, "byte");
        return format!("its header says `{name}` and {length} in all, which it has not: look where it came from");
    }
    let (said, sum) = (header.bodysum, headers::sum(body(file, header).unwrap_or(&[])));
    if said == sum {
        format!("its header says `{name}`, and the body's bytes have the sum {sum:04X}, as item 09 says")
    } else {
        format!("its header says `{name}`, and the body's bytes have the sum {sum:04X}, where item 09 says {said:04X}: header and body do not belong together")
    }
}
