//! Demand 3 in its own words: a position is held exactly if an accepted piece covered it, a held byte is the
//! file's and the others are zero; and a join is what one station holds after the frames of both.
use crate::both::Both;
use crate::lent::{length, map_size, Lent};
use crate::made::{piece, File};
use crate::random::Random;

/// A station: its reception, and beside it the positions that its accepted pieces covered.
#[derive(Clone)]
struct Station {
    reception: Lent,
    covered: Vec<bool>,
}

impl Station {
    fn open(both: &mut Both, file: &File) -> Station {
        let length = file.length();
        let (map, buffer) = (vec![0xFF; map_size(length)], vec![0xFF; length as usize]);
        let mut reception = Lent { number: file.number, length, map, buffer };
        let answer = both.open(&mut reception).answer;
        both.claim(answer.is_ok(), "a right length is opened", &reception.shown());
        Station { reception, covered: vec![false; length as usize] }
    }

    fn take(&mut self, both: &mut Both, sent: &Sent) {
        let answer = both.take(&mut self.reception, &sent.frame).answer;
        let places = sent.start..sent.start + sent.size;
        let new = self.covered[places.clone()].iter().filter(|&&covered| !covered).count();
        both.claim(answer == Ok(new as u32), "a take counts the newly covered positions", &self.reception.shown());
        self.covered[places].fill(true);
    }

    fn join(&mut self, both: &mut Both, other: &Station) {
        let answer = both.join(&mut self.reception, &other.reception).answer;
        let new = (0..self.covered.len()).filter(|&p| other.covered[p] && !self.covered[p]).count();
        both.claim(answer == Ok(new as u32), "a join counts the newly covered positions", &self.reception.shown());
        for (covered, &also) in self.covered.iter_mut().zip(&other.covered) {
            *covered |= also;
        }
    }

    // Held exactly if covered, held bytes the file's, the others zero, spare bits zero.
    fn check(&self, both: &Both, file: &File) {
        let mut map = vec![0; map_size(file.length())];
        let mut buffer = vec![0; file.bytes.len()];
        for position in (0..file.bytes.len()).filter(|&position| self.covered[position]) {
            map[position / 8] |= 1 << (position % 8);
            buffer[position] = file.bytes[position];
        }
        let right = self.reception.map == map && self.reception.buffer == buffer;
        both.claim(right, "held exactly if covered, held bytes the file's, others zero", &self.reception.shown());
    }
}

/// A frame of the file, and which positions its piece covers.
#[derive(Clone)]
struct Sent {
    frame: Vec<u8>,
    start: usize,
    size: usize,
}

fn sent(random: &mut Random, file: &File) -> Sent {
    let start = random.below(file.bytes.len());
    let most = random.pick(&[3, 30, piece::MOST]).min(file.bytes.len() - start);
    let size = random.within(1, most);
    let frame = piece::with(random, file.number, start as u32, &file.bytes[start..start + size]).bytes();
    Sent { frame, start, size }
}

// What a station hears of what is sent: some, some twice, in any order.
fn heard(random: &mut Random, all: &[Sent]) -> Vec<Sent> {
    let percent = random.below(101);
    let mut heard: Vec<Sent> = all.iter().filter(|_| random.chance(percent)).cloned().collect();
    heard.extend(all.iter().filter(|_| random.chance(10)).cloned());
    random.shuffle(&mut heard);
    heard
}

fn after(both: &mut Both, file: &File, sequence: &[Sent]) -> Station {
    let mut station = Station::open(both, file);
    for sent in sequence {
        station.take(both, sent);
    }
    station.check(both, file);
    station
}

pub fn round(both: &mut Both, random: &mut Random) {
    let length = length(random);
    let file = File::random(random, length);
    let all: Vec<Sent> = (0..random.within(1, 25)).map(|_| sent(random, &file)).collect();
    let sequences = [heard(random, &all), heard(random, &all), heard(random, &all)];
    let [a, b, c] = [0, 1, 2].map(|which| after(both, &file, &sequences[which]));
    let together = after(both, &file, &sequences[..2].concat());
    let three = after(both, &file, &sequences.concat());
    for (first, second) in [(&a, &b), (&b, &a)] {
        let joined = joined(both, &[first, second], &file);
        same(both, &joined, &together, "a join is one station after both");
    }
    for order in [[&a, &b, &c], [&c, &b, &a], [&b, &a, &c], [&b, &c, &a], [&a, &c, &b], [&c, &a, &b]] {
        let left = joined(both, &order, &file);
        same(both, &left, &three, "three joined are one station after all three");
        let right = joined(both, &order[1..], &file);
        let grouped = joined(both, &[order[0], &right], &file);
        same(both, &grouped, &three, "the grouping of three does not matter");
    }
    neutral(both, &file, &a, &b);
}

fn joined(both: &mut Both, stations: &[&Station], file: &File) -> Station {
    let mut joined = stations[0].clone();
    for station in &stations[1..] {
        joined.join(both, station);
        joined.check(both, file);
    }
    joined
}

// A fresh one joined changes nothing, and a repeated join neither.
fn neutral(both: &mut Both, file: &File, a: &Station, b: &Station) {
    let fresh = Station::open(both, file);
    let with_fresh = joined(both, &[a, &fresh], file);
    same(both, &with_fresh, a, "a fresh reception is neutral");
    let from_fresh = joined(both, &[&fresh, a], file);
    same(both, &from_fresh, a, "a fresh reception becomes what it is joined with");
    let once = joined(both, &[a, b], file);
    let twice = joined(both, &[a, b, b], file);
    same(both, &twice, &once, "a repeated join changes nothing");
    let itself = joined(both, &[a, a], file);
    same(both, &itself, a, "a reception joined with itself stays");
}

fn same(both: &Both, one: &Station, other: &Station, law: &str) {
    both.claim(one.reception == other.reception, law, &one.reception.shown());
}
