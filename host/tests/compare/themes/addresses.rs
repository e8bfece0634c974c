//! Addresses in frames: every byte value at every place of both addresses, in each kind of frame.
use crate::both::Both;
use crate::made::{entry, piece, request};
use crate::random::Random;

pub fn round(both: &mut Both, random: &mut Random) {
    let frames = [piece::any(random).bytes(), entry::any(random).bytes(), request::any(random).bytes()];
    for place in 0..14 {
        for value in 0..=255 {
            let [piece, entry, request] = frames.clone().map(|frame| changed(frame, place, value));
            both.piece(&piece);
            both.entry(&entry);
            both.read_request(&request);
        }
    }
}

fn changed(mut frame: Vec<u8>, place: usize, value: u8) -> Vec<u8> {
    frame[place] = value;
    frame
}
