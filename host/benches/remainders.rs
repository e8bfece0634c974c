//! That both sides give the same remainder, before they are measured: of messages of each length up to the longest content, and of
//! each single bit in one. Nothing is timed.
use crate::inputs;
use crate::sides::{Library, Plain, Side};

/// Where the two sides differ, in words.
pub fn check() -> Result<(), String> {
    let message = inputs::longest_content().bytes;
    for size in 0..=message.len() {
        let bytes = &message[message.len() - size..];
        if Library::remainder(bytes) != Plain::remainder(bytes) {
            return Err(format!("the remainders of {size} bytes differ"));
        }
    }
    for (place, bit) in (0..message.len()).flat_map(|place| (0..8).map(move |bit| (place, bit))) {
        let mut bytes = vec![0; message.len()];
        bytes[place] = 1 << bit;
        if Library::remainder(&bytes) != Plain::remainder(&bytes) {
            return Err(format!("the remainders of bit {bit} at place {place} of {} differ", bytes.len()));
        }
    }
    Ok(())
}
