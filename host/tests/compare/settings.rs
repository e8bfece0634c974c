//! What the environment sets: how long the run is, and from which seed.
use std::env;

const ROUNDS: &str = "THOWELDECK_COMPARE_ROUNDS";
const SEED: &str = "THOWELDECK_COMPARE_SEED";
const USUAL_SEED: u64 = 20_241_107;

/// A factor for the rounds of every theme.
pub fn factor() -> u64 {
    setting(ROUNDS, 1, 1)
}

pub fn seed() -> u64 {
    setting(SEED, USUAL_SEED, 0)
}

fn setting(name: &str, usual: u64, least: u64) -> u64 {
    match env::var_os(name) {
        None => usual,
        Some(value) => read(name, &value.to_string_lossy(), least).unwrap_or_else(|message| panic!("{message}")),
    }
}

fn read(name: &str, value: &str, least: u64) -> Result<u64, String> {
    match value.parse() {
        Ok(number) if number >= least => Ok(number),
        _ => Err(format!("{name} must be a whole number of at least {least}, and is `{value}`")),
    }
}

#[test]
fn values_are_read_and_bad_ones_named() {
    assert_eq!(read(ROUNDS, "12", 1), Ok(12));
    assert_eq!(read(SEED, "0", 0), Ok(0));
    for value in ["0", "", "-1", "2.5", "many", "1 ", "18446744073709551616"] {
        let message = read(ROUNDS, value, 1).unwrap_err();
        assert!(message.contains(ROUNDS) && message.contains(&format!("`{value}`")), "{message}");
    }
}
