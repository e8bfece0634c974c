//! The library compared with a second implementation of the rules, the model, over many inputs of a seeded
//! generator: the answer, every lent number and every byte of every lent slice.
//!
//! `THOWELDECK_COMPARE_ROUNDS` is a factor for longer runs, `THOWELDECK_COMPARE_SEED` another seed; with
//! `--nocapture` each theme prints how often each operation gave each answer.
mod both;
mod damage;
mod faults;
mod lent;
mod made;
mod model;
mod random;
mod settings;
mod tally;
mod themes;

use both::Both;
use random::Random;
use std::time::Instant;
use tally::*;

/// What a theme must reach in each run of its rounds.
struct Theme<'a> {
    name: &'static str,
    rounds: u64,
    /// Compared operations, at least.
    share: u64,
    /// Operations that must have given each answer of their order.
    orders: &'a [Order],
    round: fn(&mut Both, &mut Random),
}

fn run(theme: &Theme<'_>) {
    let (seed, factor, start) = (settings::seed(), settings::factor(), Instant::now());
    let mut both = Both::new(theme.name, seed);
    for round in 0..theme.rounds.saturating_mul(factor) {
        both.begin(round);
        (theme.round)(&mut both, &mut Random::new(seed, theme.name, round));
    }
    let (operations, share) = (both.tally.operations(), theme.share.saturating_mul(factor));
    let seconds = start.elapsed().as_secs_f32();
    println!("{}: {operations} operations in {seconds:.1} s{}", theme.name, both.tally.line());
    assert!(operations >= share, "{}: {operations} operations are fewer than {share}", theme.name);
    let missing: Vec<String> = theme.orders.iter().flat_map(|&order| both.tally.missing(order)).collect();
    assert!(missing.is_empty(), "{}: too few answers: {}", theme.name, missing.join("; "));
}

/// Makes a test of each line of the table, and one of the shares together.
macro_rules! themes {
    ($($name:ident $rounds:literal $share:literal $orders:tt)*) => {
        $(#[test]
        fn $name() {
            let round = themes::$name::round;
            run(&Theme { name: stringify!($name), rounds: $rounds, share: $share, orders: &$orders, round });
        })*

        #[test]
        fn shares_are_a_million_together() {
            let shares = [$($share),*];
            assert!(shares.iter().sum::<u64>() >= 1_000_000, "{shares:?}");
        }
    };
}

// theme, rounds, compared operations at least, operations that must give all their answers
themes! {
    addresses         10    100_000 [
        order("piece", "accepted 2"),
        order("entry", "accepted 2"),
        order("read_request", "accepted 2")
    ]
    free_bits      2_000     60_000 [
        order("piece", "accepted 2"),
        order("entry", "accepted 2"),
        order("read_request", "accepted 2"),
        order("hole", "accepted 2"),
        order("take", "accepted 2"),
        order("write_fill", "accepted 15"),
        order("write_start", "accepted"),
        bits("piece"),
        bits("entry"),
        bits("read_request"),
        bits("hole"),
        bits("take"),
        bits("write_fill"),
        bits("write_start")
    ]
    pieces         2_000    250_000 [PIECE, bits("piece"), REMAINDER]
    entries        2_000    200_000 [ENTRY, bits("entry")]
    headers        2_000    110_000 [HEADER]
    requests_read  2_500    280_000 [READ_REQUEST, bits("read_request"), HOLE, bits("hole")]
    opens         10_000     40_000 [OPEN]
    takes          5_000    350_000 [TAKE, bits("take")]
    joins          3_000    100_000 [JOIN]
    holes          1_200    250_000 [LIST, IS_HELD, COUNT_HELD]
    written        3_000    180_000 [WRITE_FILL, bits("write_fill"), WRITE_START, bits("write_start")]
    records        1_500    200_000 [SAVE, LOAD]
    numbers        4_000    100_000 [REMAINDER, IS_HELD, COUNT_HELD]
    remainders     1_000     42_000 [REMAINDER]
    limits           400      6_000 [
        order("open", "7"),
        order("take", "7'' 10"),
        order("join", "7"),
        order("list", "7"),
        order("save", "7"),
        order("load", "13"),
        order("write_fill", "7")
    ]
    frames_read   12_000     60_000 [
        order("Piece::read", "accepted 1 2 3 4 7 6 5"),
        order("Entry::read", "accepted 1 2 3 4 7 6 5 14 8"),
        order("Header::read", "accepted 8"),
        order("Request::read", "accepted 1 2 3 4 7 5 10"),
        order("Request::start", "accepted"),
        bits("Piece::read"),
        bits("Entry::read"),
        bits("Request::read"),
        bits("Request::start")
    ]
    receptions     3_000     80_000 [
        order("Reception::open", "accepted 7"),
        order("Reception::take", "accepted 1 2 3 4 7 6 5 9 10 11"),
        order("Reception::join", "accepted 9 11"),
        order("Reception::file", "whole not_whole"),
        order("Reception::is_held", "held unheld"),
        order("Reception::load", "accepted 13"),
        bits("Reception::take"),
        bits("Reception::requests")
    ]
    texts          1_500    120_000 [
        order("parse", "accepted 2"),
        order("new", "accepted 2"),
        order("bit7", "set clear"),
        order("with_bit7", "set clear")
    ]
    stations       1_200    100_000 [order("take", "accepted"), bits("take"), order("join", "accepted")]
}
