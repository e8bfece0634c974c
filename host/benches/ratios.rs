//! Measures the proved library against plain Rust in one run.
//!
//! `cargo bench` prints a table, `cargo bench -- --markdown` the same in Markdown; further words choose the
//! operations, as in `cargo bench -- take join`.
//!
//! Every input is first given to both, and so are every SSID and messages of each length, and the run stops with an error where
//! an answer or a lent byte differs.
//! Then both are timed in turns, over many rounds, and each time is the **minimum** over the rounds, less the
//! clock's own time. The ratio is plain Rust's time divided by the library's: from 1.00 on the library is at
//! least as fast. Both are real calls: the library's through `thoweldeck::boundary`, as a host makes them.
//! `THOWELDECK_BENCH_ROUNDS` sets the number of rounds.
mod addresses;
mod inputs;
mod plain;
mod remainders;
mod rows;
mod sides;

use inputs::Space;
use rows::Row;
use std::env;
use std::process::ExitCode;
use std::time::{Duration, Instant};

const DEFAULT_ROUNDS: u32 = 400;

/// The minimum of both sides' times for one call, in nanoseconds.
struct Times {
    library: f64,
    plain: f64,
}

/// Checks all rows, then measures and prints each.
fn main() -> ExitCode {
    let (flags, words): (Vec<String>, Vec<String>) = env::args().skip(1).partition(|word| word.starts_with('-'));
    let markdown = flags.iter().any(|flag| flag == "--markdown");
    let rounds = match rounds_asked() {
        Ok(rounds) => rounds,
        Err(error) => return stop(&error),
    };
    let rows = rows::rows();
    let alike = addresses::check().and_then(|()| remainders::check());
    if let Err(error) = alike.and_then(|()| rows.iter().try_for_each(check)) {
        return stop(&error);
    }
    let clock = clock_time();
    println!("{} inputs: equal answers and equal lent bytes.", rows.len());
    println!("Minimum of {rounds} rounds, library and plain Rust in turns; ratio = plain / library.\n");
    print_head(markdown);
    for row in rows.iter().filter(|row| is_chosen(row, &words)) {
        print_row(row, &measure(row, rounds, clock), markdown);
    }
    ExitCode::SUCCESS
}

/// Whether the words choose a row: one of them is a part of its operation, or there is none.
fn is_chosen(row: &Row, words: &[String]) -> bool {
    words.is_empty() || words.iter().any(|word| row.operation.contains(&word[..]))
}

/// Says why the run stops.
fn stop(error: &str) -> ExitCode {
    eprintln!("{error}");
    ExitCode::FAILURE
}

/// The number of rounds that the environment asks for, or the usual one.
fn rounds_asked() -> Result<u32, String> {
    match env::var("THOWELDECK_BENCH_ROUNDS") {
        Err(_) => Ok(DEFAULT_ROUNDS),
        Ok(text) => match text.parse() {
            Ok(rounds) if rounds > 0 => Ok(rounds),
            _ => Err(format!("THOWELDECK_BENCH_ROUNDS is not a number above 0: {text}")),
        },
    }
}

/// Runs both sides once on the row's input, and compares what they told and all lent bytes.
fn check(row: &Row) -> Result<(), String> {
    let (mut library, mut plain) = ((row.input)(), (row.input)());
    if (row.library.answers)(&mut library) != (row.plain.answers)(&mut plain) {
        return Err(format!("{}, {}: the answers differ", row.operation, row.case));
    }
    if library != plain {
        return Err(format!("{}, {}: the lent bytes differ", row.operation, row.case));
    }
    Ok(())
}

/// What two readings of the clock take, one after the other.
fn clock_time() -> Duration {
    (0..10_000).map(|_| Instant::now().elapsed()).min().unwrap_or_default()
}

/// Times both sides in turns, in the same space, and keeps the least time of each.
fn measure(row: &Row, rounds: u32, clock: Duration) -> Times {
    let start = (row.input)();
    let mut space = start.clone();
    let (mut library, mut plain) = (Duration::MAX, Duration::MAX);
    for _ in 0..rounds * row.parts {
        library = library.min(time(row, row.library.repeat, &mut space, &start));
        plain = plain.min(time(row, row.plain.repeat, &mut space, &start));
    }
    let per_call = |time: Duration| time.saturating_sub(clock).as_nanos() as f64 / f64::from(row.calls);
    Times { library: per_call(library), plain: per_call(plain) }
}

/// One timed part of a side: the row's number of calls, the space put back before it where the row says so.
fn time(row: &Row, repeat: fn(&mut Space, u32) -> u64, space: &mut Space, start: &Space) -> Duration {
    if row.reset {
        space.put_back(start);
    }
    let begin = Instant::now();
    let told = repeat(space, row.calls);
    let taken = begin.elapsed();
    sides::black_box(told);
    taken
}

/// The head of the table.
fn print_head(markdown: bool) {
    if markdown {
        println!("|Operation|Input|Library, ns|Plain Rust, ns|Ratio|Space|\n|-|-|-:|-:|-:|-|");
    } else {
        println!("{:<14}{:<52}{:>12}{:>12}{:>8}  space", "operation", "input", "library ns", "plain ns", "ratio");
    }
}

/// A line of the table.
fn print_row(row: &Row, times: &Times, markdown: bool) {
    let Times { library, plain } = times;
    let (operation, case, space) = (row.operation, row.case, row.space);
    let ratio = plain / library;
    if markdown {
        println!("|{operation}|{case}|{library:.1}|{plain:.1}|{ratio:.2}|{space}|");
    } else {
        println!("{operation:<14}{case:<52}{library:>12.1}{plain:>12.1}{ratio:>8.2}  {space}");
    }
}
