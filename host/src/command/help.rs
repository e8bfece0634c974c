//! What `--help` says.
use super::names::escaped;
use super::{End, Ended, Failure, Out};
use std::ffi::OsString;
use thoweldeck::Reason;

/// What the command can do, in a line each.
pub const SHORT: &str = "  thoweldeck explain INPUT                       a frame or a record, field by field
  thoweldeck take RECORD INPUT...                frames into a record
  thoweldeck join A B... -o C                    several stations' records into one
  thoweldeck holes RECORD                        what is missing
  thoweldeck request RECORD --from CALL --to CALL -o DIR
                                                 the frames that ask for it
  thoweldeck show RECORD                         the bytes that are held
  thoweldeck save RECORD -o FILE                 the file, once it is complete
  thoweldeck list FOLDER                         the records of a folder
  thoweldeck --help                              the whole page
";

const PAGE: &str = "\
thoweldeck: collect files from a store-and-forward (PACSAT) satellite

A satellite sends a file in pieces, each in a frame of its own, to everybody who listens. A pass is
short and the path is bad, so a station hears some pieces, misses others, and hears a few twice. It
keeps what it has in a record, asks for what is missing, and joins its record with those of others.

  THE FRAME    Two addresses of 7 bytes, control 03, protocol BB (file) or BD (directory), and at most
               255 bytes of information. In what a satellite sends, the last two bytes are the check,
               high byte first: the remainder of all information before them. They are no data.
  THE PIECE    Flags 02, file number (4 bytes), type (1), offset (3), then 1 to 244 bytes of the file.
               Numbers have their least significant byte first. Positions count from 0.
  THE ENTRY    What the directory says about a file: its number, its length and more.
  THE RECORD   Number and length of the file, a map of which positions are HELD (a set bit means
               held, not missing), and the bytes. A repeat changes nothing, so take what you hear.
  THE HOLE     A longest run of positions that are not held: where it starts, how many they are.
  THE INPUT    A file, or - for standard input. Raw bytes are one frame. A text has frames in
               hexadecimal, each in a line of its own or in several: A2A6, A2 A6, 0xA2, A2:A6 or A2,A6.
               What stands behind # is a comment. The dumps of hexdump -C, xxd and od -t x1 are read
               too. What cannot be told apart safely is refused, with the word and its line.
";

const PARTS: [(&str, &str); 8] = [
    (
        "explain",
        "\
thoweldeck explain INPUT [--steps] [--as piece|entry|request|record] [--record RECORD]
    Explains the frames or the record in INPUT: each field with its place, its bytes and its meaning,
    the check worked out, and where it is refused the reason, its cause and the byte at fault. With
    --steps the check is worked out byte by byte. INPUT is taken for what it looks like, unless --as
    says otherwise. With --record it is shown where a piece goes in RECORD, or why it does not fit;
    nothing is written.
",
    ),
    (
        "take",
        "\
thoweldeck take RECORD INPUT... [--number N] [--length L]
    Takes frames into RECORD, and says for each what happened. A frame that is refused changes nothing,
    and what cannot be read keeps the others from nothing. Where RECORD is not there yet it is made.
    Then number and length of the file are what the options say, or what the frames say: a directory
    entry, or the file header in the piece at offset 0. Frames of several files need --number, unless
    the directory entries among them are of one.
",
    ),
    (
        "join",
        "\
thoweldeck join A B... -o C
    Writes to C what the stations of A, B and more hold together: what one station would hold that had
    heard all that they heard. The order does not matter. C may be one of them; another file is not
    written over.
",
    ),
    (
        "holes",
        "\
thoweldeck holes RECORD
    Lists the holes of RECORD, ascending, and draws the map: # held, . missing. `-` is standard input.
",
    ),
    (
        "request",
        "\
thoweldeck request RECORD --from CALL --to CALL -o DIR [--bit7 destination|source|both]
thoweldeck request RECORD|--number N --start --from CALL --to CALL -o DIR [--bit7 ..]
    Writes the frames that ask for every hole, 49 at most in a frame, into the folder DIR. CALL is a
    callsign and its SSID, as VA3SFL-0. The frames name every byte that is missing once, and no other.
    With --start it is one frame that asks for the file from its start: a record's file, or file N.
    With --bit7, bit 7 of the SSID byte is set in the destination, the source or both, in every frame;
    a CALL that ends in +bit7, as VA3SFL-0+bit7, has it set too. Otherwise it is clear. Some newer
    stations expect the bits of AX.25 2.2, where a command has the destination's set.
",
    ),
    (
        "show",
        "\
thoweldeck show RECORD
    Shows the bytes that RECORD holds, in hexadecimal and as characters, with -- for a missing one.
    `-` is standard input.
",
    ),
    (
        "save",
        "\
thoweldeck save RECORD -o FILE [--body]
    Writes the received file itself to FILE, once no hole is left, and says whether the body's bytes
    have the sum that its header tells (item 09). With --body it writes the body alone, without the
    file header.
",
    ),
    (
        "list",
        "\
thoweldeck list FOLDER
    Lists the records in FOLDER: number, name where the file header is held, length, how much is held,
    how many holes there are, and the map as a picture.
",
    ),
];

const END: &str = "\
Nothing is lost: what is written goes into a new file, which takes the name once it is whole, and
runs that write one record wait for each other, a minute at most.

The exit status:
   0  It is done. In `take`: all that was named was read, and what could be used is in the record.
      Pieces of other files and damaged frames are told and counted; every pass has them.
   1  Something was refused or left alone, as the lines say. In `take`: something that was named could
      not be read; what could be used of the rest is in the record.
   2  The words make no sense or do not say enough, or a file cannot be read or written; the line says
      which. In `take`: nothing was taken, whatever the cause.
   3  In `take`: a piece of the record's own file does not fit the record (reasons 10 and 11), so one of
      the two is not what it says. What could be used of the rest is in the record.

A refusal has one of fifteen reasons, the first that holds in the operation's order:
";

/// The page on one part of the command, or all of it.
pub fn of(name: &str, out: &mut Out<'_>) -> End {
    match PARTS.iter().find(|(part, _)| *part == name) {
        Some((_, page)) => out.line(page.trim_end()),
        None => whole(out),
    }
    Ok(Ended::Well)
}

/// `thoweldeck help`, with the name of a part or without.
pub fn asked(words: Vec<OsString>, out: &mut Out<'_>) -> End {
    match words.first().map(|word| word.to_string_lossy().into_owned()) {
        None => of("", out),
        Some(name) if PARTS.iter().any(|(part, _)| *part == name) => of(&name, out),
        Some(name) => Err(Failure::Trouble(format!("there is no `{}`\n\n{SHORT}", escaped(&name)))),
    }
}

/// The version.
pub fn version(out: &mut Out<'_>) -> End {
    out.line(concat!("thoweldeck ", env!("CARGO_PKG_VERSION")));
    Ok(Ended::Well)
}

fn whole(out: &mut Out<'_>) {
    out.line(PAGE.trim_end());
    for (_, page) in PARTS {
        out.line(format!("\n{}", page.trim_end()));
    }
    out.line(format!("\n{}\n", END.trim_end()));
    for reason in Reason::ALL {
        let mut number = format!("{:4}", reason.number());
        for line in lines(reason.sentence(), 94) {
            out.line(format!("{number:4}  {line}"));
            number.clear();
        }
    }
}

// A sentence in lines of at most so many characters.
fn lines(sentence: &str, most: usize) -> Vec<String> {
    let mut lines = vec![String::new()];
    for word in sentence.split(' ') {
        let last = lines.last_mut().expect("there is a line");
        if last.is_empty() {
            last.push_str(word);
        } else if last.len() + 1 + word.len() <= most {
            last.push(' ');
            last.push_str(word);
        } else {
            lines.push(word.to_string());
        }
    }
    lines
}
