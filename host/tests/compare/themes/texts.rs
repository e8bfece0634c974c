//! Addresses as texts, both ways, with bit 7 and without, and texts that are none.
use crate::both::{Both, Part};
use crate::made::{address, number_of};
use crate::model;
use crate::random::Random;
use crate::tally::ACCEPTED;
use thoweldeck::Address;

pub fn round(both: &mut Both, random: &mut Random) {
    let address = address(random);
    let characters = std::str::from_utf8(&address.characters).expect("letters and digits").trim_end();
    for bit7 in [0, 1] {
        let text = format!("{characters}-{}{}", address.number, ["", "+bit7"][usize::from(bit7)]);
        both_ways(both, &text, model::Address { bit7, ..address });
        for _ in 0..15 {
            parsed(both, &other_text(random, &text));
        }
    }
    parsed(both, characters);
    parsed(both, &format!("{characters}+bit7"));
    others(both);
    new(both, random, characters);
}

// What may stand at the end of an address's text, and what may not.
const ENDS: [&str; 11] =
    ["", "+bit7", "+", "+bit", "+bit8", "+bit07", "+BIT7", "bit7", " +bit7", "+bit7 ", "+bit7+bit7"];

// Texts of which few are an address, each with every end.
fn others(both: &mut Both) {
    for text in ["", "-", "-0", "A", "A-", "A-1", "A-16", "A-00", "A-+1", "A-1-1", "A -1", " A", "A B", "É", "a"] {
        for end in ENDS {
            parsed(both, &format!("{text}{end}"));
        }
    }
    for text in ["ABCDEF", "ABCDEFG", "ABCDEF-15", "ABCDEF-16", "A+bit7-1", "A+bit7-0+bit7", "+bit7-1"] {
        parsed(both, text);
        parsed(both, &format!("{text}+bit7"));
    }
}

fn both_ways(both: &mut Both, text: &str, address: model::Address) {
    let parsed = text.parse::<Address>();
    let input = [Part::Bytes("text", text.as_bytes())];
    both.alike("parse", &input, parsed.map(Address::to_number), Ok(number_of(address)));
    let parsed = parsed.expect("a right text");
    both.equal(("to_string", ACCEPTED), &input, parsed.to_string(), text.to_string());
    both.equal(("ssid", ACCEPTED), &input, parsed.ssid(), address.number);
    let case = if address.bit7 == 1 { "set" } else { "clear" };
    both.equal(("bit7", case), &input, parsed.bit7(), address.bit7 == 1);
    let turned = model::Address { bit7: 1 - address.bit7, ..address };
    both.equal(("with_bit7", case), &input, parsed.with_bit7(!parsed.bit7()).to_number(), number_of(turned));
    both.equal(("with_bit7", case), &input, parsed.with_bit7(parsed.bit7()), parsed);
    both.equal(("callsign", ACCEPTED), &input, Some(parsed.callsign()), text.split('-').next());
}

// A text with a character changed, removed or inserted.
fn other_text(random: &mut Random, text: &str) -> String {
    let mut characters: Vec<char> = text.chars().collect();
    let place = random.below(characters.len());
    let other =
        random.pick(&['A', 'Z', '0', '1', '9', 'a', 'z', '-', ' ', '+', '7', 'b', '_', 'é', '/', ':', '@', '[', '\0']);
    match random.below(3) {
        0 => characters[place] = other,
        1 => drop(characters.remove(place)),
        _ => characters.insert(place, other),
    }
    characters.into_iter().collect()
}

fn parsed(both: &mut Both, text: &str) {
    let library = text.parse::<Address>().map(Address::to_number);
    both.alike("parse", &[Part::Bytes("text", text.as_bytes())], library, read(text).map(number_of).ok_or(2));
}

// The address of a text: up to six letters and digits, after a dash one of the numbers 0 to 15, and after a plus `bit7`.
fn read(text: &str) -> Option<model::Address> {
    let (plain, bit7) = match text.split_once('+') {
        None => (text, 0),
        Some((plain, "bit7")) => (plain, 1),
        Some(_) => return None,
    };
    let (name, number) = plain.split_once('-').unwrap_or((plain, "0"));
    let number = (0..16).find(|known: &u8| known.to_string() == number)?;
    Some(model::Address { bit7, ..right(name, number)? })
}

fn right(name: &str, number: u8) -> Option<model::Address> {
    let plain = name.chars().all(|character| character.is_ascii_uppercase() || character.is_ascii_digit());
    if !plain || name.is_empty() || name.len() > 6 || number > 15 {
        return None;
    }
    let mut characters = [b' '; 6];
    characters[..name.len()].copy_from_slice(name.as_bytes());
    Some(model::Address { characters, number, bit7: 0 })
}

fn new(both: &mut Both, random: &mut Random, characters: &str) {
    for _ in 0..4 {
        let ssid = if random.chance(50) { random.below(18) as u8 } else { random.byte() };
        let name = if random.chance(50) { characters.to_string() } else { other_text(random, characters) };
        let input = [Part::Bytes("callsign", name.as_bytes()), Part::Number("ssid", ssid.into())];
        let library = Address::new(&name, ssid).map(Address::to_number);
        both.alike("new", &input, library, right(&name, ssid).map(number_of).ok_or(2));
    }
}
