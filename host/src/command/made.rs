//! What the tests of the command's parts are made from.
use std::path::PathBuf;
use thoweldeck::{remainder, Reception};

/// A frame with a piece of a file, to QST-1 from UOSAT5-11.
pub fn piece(number: u32, offset: u32, bytes: &[u8]) -> Vec<u8> {
    let mut frame = b"\xA2\xA6\xA8\x40\x40\x40\x62\xAA\x9E\xA6\x82\xA8\x6A\x77\x03\xBB\x02".to_vec();
    frame.extend(number.to_le_bytes());
    frame.push(0);
    frame.extend(&offset.to_le_bytes()[..3]);
    frame.extend(bytes);
    let check = remainder(&frame[16..]);
    frame.extend(check.to_be_bytes());
    frame
}

/// The example of the rules: file 7, 20 bytes, of which 0 to 3 and 8 to 9 are held.
pub fn example() -> Reception {
    let mut reception = Reception::open(7, 20).expect("a length");
    reception.take(&piece(7, 0, b"ABCD")).expect("a piece");
    reception.take(&piece(7, 8, b"EF")).expect("a piece");
    reception
}

/// Numbers that look like chance, the same in each run.
pub fn chance(seed: u64) -> impl FnMut() -> usize {
    let mut state = seed;
    move || {
        state = state.wrapping_mul(6_364_136_223_846_793_005).wrapping_add(1_442_695_040_888_963_407);
        (state >> 33) as usize
    }
}

/// The path of a record that is not there, for one test.
pub fn absent(test: &str) -> PathBuf {
    std::env::temp_dir().join(format!("thoweldeck-{test}-{}.record", std::process::id()))
}
