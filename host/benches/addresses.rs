//! That both sides have one rule for an address, before they are measured: every SSID byte in both addresses that are read,
//! and every number and every bit 7 in both that are written. Nothing is timed.
use crate::inputs::{self, Space};
use crate::sides::{Library, Plain, Side};
use thoweldeck::boundary::{EntryTold, HeaderTold, Wanted};
use thoweldeck::Reason;

/// The places of the two SSID bytes in a frame.
const PLACES: [usize; 2] = [6, 13];

/// Where the two sides differ, in words.
pub fn check() -> Result<(), String> {
    let frame = &inputs::figure().frames[0];
    for (place, byte) in PLACES.into_iter().flat_map(|place| (0..=255).map(move |byte| (place, byte))) {
        let mut frame = frame.clone();
        frame[place] = byte;
        if read::<Library>(&frame) != read::<Plain>(&frame) {
            return Err(format!("an SSID byte {byte:02X} at place {place}: the answers differ"));
        }
    }
    let space = inputs::one_hole();
    for (ssid, bit7) in (0..=255).map(|ssid| (ssid, 1)).chain((0..=255).map(|bit7| (11, bit7))) {
        let (given, other) = (address(ssid, bit7), address(0, 0));
        for addresses in [[given, other], [other, given]] {
            if written::<Library>(addresses, &space) != written::<Plain>(addresses, &space) {
                return Err(format!("an SSID {ssid} with bit 7 {bit7} to be written: the answers differ"));
            }
        }
    }
    Ok(())
}

/// An address as a number.
fn address(ssid: u8, bit7: u8) -> u64 {
    let [a, b, c, d, e, f] = *b"UOSAT5";
    u64::from_le_bytes([a, b, c, d, e, f, ssid, bit7])
}

/// What a side answers to a frame, and the addresses that it tells.
fn read<S: Side>(frame: &[u8]) -> (Result<(), Reason>, u64, u64) {
    let mut told = EntryTold::default();
    let answer = S::entry(frame, &mut told, &mut HeaderTold::default());
    (answer, told.destination, told.source)
}

/// What a side answers to a request from and to these addresses, and the target behind it.
fn written<S: Side>([destination, source]: [u64; 2], space: &Space) -> (Result<(), Reason>, Vec<u8>) {
    let Space { number, length, ref map, ref target, .. } = *space;
    let mut target = target.clone();
    let wanted = Wanted { destination, source, number, length, map };
    let answer = S::write_fill(wanted, 0, &mut target, &mut 0, &mut 0);
    (answer, target)
}
