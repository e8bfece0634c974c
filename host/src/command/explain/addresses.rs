//! An address in a frame: what its seven bytes mean, and which character or which bit of a malformed one is at fault.
//! Whether it is malformed is the library's answer.
use super::faults::Fault;
use thoweldeck::{Address, Request};

/// Which of a frame's two addresses it is.
#[derive(Clone, Copy, Debug, PartialEq, Eq)]
pub enum Role {
    /// The first one: to whom the frame goes.
    Destination,
    /// The second one: who sent it.
    Source,
}

impl Role {
    /// Both, in their order.
    pub const BOTH: [Role; 2] = [Role::Destination, Role::Source];

    // The place of its first byte in a frame.
    fn place(self) -> usize {
        match self {
            Role::Destination => 0,
            Role::Source => 7,
        }
    }

    // Its name in a sentence.
    fn name(self) -> &'static str {
        match self {
            Role::Destination => "destination",
            Role::Source => "source",
        }
    }

    /// Its seven bytes in a frame, where they are there.
    pub fn bytes(self, frame: &[u8]) -> Option<&[u8]> {
        frame.get(self.place()..self.place() + 7)
    }
}

// The bits of the SSID byte above its number that must be set. Bit 7 is free.
const ABOVE: [u8; 2] = [6, 5];

/// What the seven bytes of an address mean.
pub fn meaning(role: Role, bytes: &[u8]) -> String {
    let address = match read(role, bytes) {
        None => return "malformed".to_string(),
        Some(address) => address,
    };
    let bit7 = if address.bit7() { "set: AX.25 2.2 tells commands from responses by it" } else { "clear" };
    format!("{address}: characters shifted left by one bit, SSID byte {:02X}, bit 7 {bit7}", bytes[6])
}

/// Whether an address is malformed.
pub fn is_malformed(role: Role, bytes: &[u8]) -> bool {
    read(role, bytes).is_none()
}

// The address in seven bytes, where it is well formed: the library is asked about it in a frame that has no other fault.
fn read(role: Role, bytes: &[u8]) -> Option<Address> {
    let mut probe = *b"\xA2\xA6\xA8\x40\x40\x40\x62\xA2\xA6\xA8\x40\x40\x40\x63\x03\xBB\x10\0\0\0\0\xF4\0";
    probe[role.place()..role.place() + 7].copy_from_slice(bytes);
    let request = Request::read(&probe).ok()?;
    Some(match role {
        Role::Destination => request.destination,
        Role::Source => request.source,
    })
}

/// The faults of an address, each at its place in the frame.
pub fn faults(role: Role, bytes: &[u8]) -> Vec<Fault> {
    let (callsign, ssid) = (&bytes[..6], bytes[6]);
    let mut faults = Vec::new();
    if callsign.iter().all(|byte| *byte == 0x40) {
        faults.push((0, "all six characters are spaces".to_string()));
    }
    for (index, byte) in callsign.iter().enumerate() {
        if let Some(words) = character(role.place() + index, *byte, &callsign[index + 1..]) {
            faults.push((index, words));
        }
    }
    faults.extend(bits(role, ssid).into_iter().map(|words| (6, words)));
    let told = |(index, words): (usize, String)| {
        let sentence = format!("the {} is malformed: {words}", role.name());
        Fault::at(role.place() + index, words).told(sentence)
    };
    faults.into_iter().map(told).collect()
}

// What is wrong with the character at a place, before others.
fn character(place: usize, byte: u8, behind: &[u8]) -> Option<String> {
    let at = format!("{byte:02X} at place {place}");
    match byte >> 1 {
        _ if byte & 1 == 1 => Some(format!("{at} has its low bit set{}", plain(byte))),
        b'A'..=b'Z' | b'0'..=b'9' => None,
        b' ' => {
            let next = behind.iter().position(|byte| byte >> 1 != b' ')?;
            Some(format!("{at} is a space before the character at place {}", place + 1 + next))
        }
        lower @ b'a'..=b'z' => {
            let upper = lower.to_ascii_uppercase();
            Some(format!("{at} is `{}`, in lower case; `{}` is {:02X}", lower as char, upper as char, upper << 1))
        }
        other if other.is_ascii_graphic() && other != b'`' => {
            Some(format!("{at} is `{}`, none of A-Z and 0-9{}", other as char, plain(byte)))
        }
        other => Some(format!("{at} is character {other:02X}, none of A-Z and 0-9{}", plain(byte))),
    }
}

// A word on a byte that is a character as it stands: somebody forgot to shift it.
fn plain(byte: u8) -> String {
    match byte {
        b'A'..=b'Z' | b'0'..=b'9' | b' ' => {
            format!("; `{}` shifted left by one bit is {:02X}", byte as char, byte << 1)
        }
        _ => String::new(),
    }
}

// What is wrong with the bits of an SSID byte: those above its number, and bit 0, which says which address it is.
fn bits(role: Role, ssid: u8) -> Vec<String> {
    let of = format!("of {ssid:02X} at place {}", role.place() + 6);
    let clear = ABOVE.into_iter().filter(|bit| ssid >> bit & 1 == 0);
    let mut words: Vec<String> = clear.map(|bit| format!("bit {bit} {of} is 0, and must be 1")).collect();
    match (role, ssid & 1) {
        (Role::Destination, 1) => words.push(format!("bit 0 {of} is 1, as in a source; in a destination it is 0")),
        (Role::Source, 0) => {
            words.push(format!("bit 0 {of} is 0, as in a destination; in a source it announces repeaters"))
        }
        _ => {}
    }
    words
}

#[cfg(test)]
mod tests {
    use super::*;

    // Addresses to start from, well formed or not, without their SSID byte.
    const CALLSIGNS: [&[u8; 6]; 8] =
        [b"VA3SFL", b"QST   ", b"A     ", b"      ", b"A B   ", b" QST  ", b"ABCDE ", b"     Z"];

    // The bytes of an address.
    fn shifted(callsign: &[u8; 6], ssid: u8) -> [u8; 7] {
        let mut bytes = [ssid; 7];
        for (byte, plain) in bytes.iter_mut().zip(callsign) {
            *byte = plain << 1;
        }
        bytes
    }

    // Checks that the walk finds a fault exactly if the library refuses; answers whether it does.
    fn same(role: Role, bytes: &[u8]) -> bool {
        let (refused, found) = (is_malformed(role, bytes), faults(role, bytes));
        assert_eq!(refused, !found.is_empty(), "{role:?} {bytes:02X?}");
        let places = role.place()..role.place() + 7;
        assert!(found.iter().all(|fault| fault.place.map_or(false, |place| places.contains(&place))));
        refused
    }

    #[test]
    fn a_fault_is_found_exactly_if_the_library_refuses() {
        let mut counts = [0, 0];
        for role in Role::BOTH {
            for callsign in CALLSIGNS {
                let base = shifted(callsign, if role == Role::Source { 0x77 } else { 0x62 });
                for (place, byte) in (0..7).flat_map(|place| (0..=255).map(move |byte| (place, byte))) {
                    let mut bytes = base;
                    bytes[place] = byte;
                    counts[usize::from(same(role, &bytes))] += 1;
                }
            }
        }
        assert!(counts[0] > 500 && counts[1] > 20_000, "both answers are given: {counts:?}");
    }

    #[test]
    fn two_faults_are_found_as_one_is() {
        // what is at fault alone, or only beside another: every pair of them at every pair of places
        let bytes = [0x40, 0x41, 0x82, 0xB4, 0x60, 0x72, 0x74, 0x80, 0xB6, 0xC2, 0x20, 0x00, 0xFF];
        for role in Role::BOTH {
            let base = shifted(b"QST   ", if role == Role::Source { 0x77 } else { 0x62 });
            for (first, second) in (0..7).flat_map(|first| (0..first).map(move |second| (first, second))) {
                for (one, other) in bytes.into_iter().flat_map(|one| bytes.into_iter().map(move |other| (one, other))) {
                    let mut changed = base;
                    changed[first] = one;
                    changed[second] = other;
                    same(role, &changed);
                }
            }
        }
    }

    // The faults of an address with some bytes changed: their places and their words.
    fn told(role: Role, callsign: &[u8; 6], ssid: u8, changes: &[(usize, u8)]) -> Vec<(usize, String)> {
        let mut bytes = shifted(callsign, ssid);
        for (place, byte) in changes {
            bytes[*place] = *byte;
        }
        faults(role, &bytes).into_iter().map(|fault| (fault.place.expect("a place"), fault.words)).collect()
    }

    #[test]
    fn each_fault_of_a_character_has_its_words() {
        let (to, from) = (Role::Destination, Role::Source);
        for (found, place, words) in [
            (told(to, b"QST   ", 0x62, &[(2, 0xA9)]), 2, "A9 at place 2 has its low bit set"),
            (
                told(from, b"QST   ", 0x63, &[(1, 0x53)]),
                8,
                "53 at place 8 has its low bit set; `S` shifted left by one bit is A6",
            ),
            (
                told(from, b"QST   ", 0x63, &[(2, 0x54)]),
                9,
                "54 at place 9 is `*`, none of A-Z and 0-9; `T` shifted left by one bit is A8",
            ),
            (told(from, b"QsT   ", 0x63, &[]), 8, "E6 at place 8 is `s`, in lower case; `S` is A6"),
            (told(to, b"Q/T   ", 0x62, &[]), 1, "5E at place 1 is `/`, none of A-Z and 0-9"),
            (told(to, b"Q\x01T   ", 0x62, &[]), 1, "02 at place 1 is character 01, none of A-Z and 0-9"),
            (told(from, b"QS T  ", 0x63, &[]), 9, "40 at place 9 is a space before the character at place 10"),
            (told(from, b"      ", 0x63, &[]), 7, "all six characters are spaces"),
        ] {
            assert_eq!(found, [(place, words.to_string())]);
        }
        assert_eq!(told(to, b"QST   ", 0x62, &[]), []);
        assert_eq!(told(to, b" Q ST ", 0x62, &[]).len(), 2, "each space before a character");
    }

    #[test]
    fn each_fault_of_a_bit_has_its_words() {
        let (to, from) = (Role::Destination, Role::Source);
        for (found, place, words) in [
            (told(to, b"QST   ", 0x22, &[]), 6, "bit 6 of 22 at place 6 is 0, and must be 1"),
            (told(to, b"QST   ", 0xC2, &[]), 6, "bit 5 of C2 at place 6 is 0, and must be 1"),
            (told(from, b"QST   ", 0x43, &[]), 13, "bit 5 of 43 at place 13 is 0, and must be 1"),
            (
                told(to, b"QST   ", 0x63, &[]),
                6,
                "bit 0 of 63 at place 6 is 1, as in a source; in a destination it is 0",
            ),
            (
                told(from, b"QST   ", 0x6C, &[]),
                13,
                "bit 0 of 6C at place 13 is 0, as in a destination; in a source it announces repeaters",
            ),
            (
                told(from, b"QST   ", 0xEC, &[]),
                13,
                "bit 0 of EC at place 13 is 0, as in a destination; in a source it announces repeaters",
            ),
        ] {
            assert_eq!(found, [(place, words.to_string())]);
        }
        assert_eq!(told(from, b"QST   ", 0x80, &[]).len(), 3, "each bit but the free one");
    }

    #[test]
    fn bit_7_is_no_fault_and_is_told() {
        for (role, last) in [(Role::Destination, 0), (Role::Source, 1)] {
            for number in 0..16 {
                let plain = 0x60 | number << 1 | last;
                for ssid in [plain, plain | 0x80] {
                    assert_eq!(told(role, b"QST   ", ssid, &[]), [], "{role:?} {ssid:02X}");
                }
                let shown = |ssid: u8| meaning(role, &shifted(b"QST   ", ssid));
                let words = "characters shifted left by one bit, SSID byte";
                assert_eq!(shown(plain), format!("QST-{number}: {words} {plain:02X}, bit 7 clear"));
                let set = ", bit 7 set: AX.25 2.2 tells commands from responses by it";
                assert_eq!(shown(plain | 0x80), format!("QST-{number}+bit7: {words} {:02X}{set}", plain | 0x80));
            }
        }
    }

    #[test]
    fn the_text_that_is_shown_is_the_address_s_own() {
        for (role, ssid) in [(Role::Destination, 0xF6), (Role::Destination, 0x60), (Role::Source, 0xE1)] {
            let bytes = shifted(b"VA3SFL", ssid);
            let shown = meaning(role, &bytes);
            let text = shown.split(": ").next().expect("a text");
            let (address, other): (Address, Address) = (text.parse().expect(text), "QST".parse().expect("a call"));
            let (to, from) = if role == Role::Source { (other, address) } else { (address, other) };
            assert_eq!(role.bytes(&Request::start(to, from, 7)), Some(&bytes[..]), "{shown}");
        }
    }
}
