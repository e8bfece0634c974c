//! The command `thoweldeck`: frames explained, records built, joined and asked for, from the shell.
#![forbid(unsafe_code)]
mod command;

use command::Out;
use std::io::{self, ErrorKind, Write};
use std::process::exit;

fn main() {
    let words = std::env::args_os().skip(1).collect();
    let mut stdout = io::stdout();
    let mut out = Out::to(&mut stdout);
    let end = command::run(words, &mut out);
    let written = out.end();
    if let Err(failure) = &end {
        complain(&failure.to_string());
    }
    match written {
        // a reader that has seen enough, as `head`, is no error
        Err(error) if error.kind() != ErrorKind::BrokenPipe => {
            complain(&format!("what it says cannot be written: {error}"));
            exit(2)
        }
        _ => exit(command::status(&end)),
    }
}

// A line for the user; where even that cannot be written there is nobody to tell.
fn complain(line: &str) {
    let _ = writeln!(io::stderr(), "thoweldeck: {line}");
}
