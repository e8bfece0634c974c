//! The static library has no table of remainders (02, C-13). What is looked for is a row of neighbouring entries, of the 256 that
//! byte values have, in any of eight layouts, wherever it stands. A compiler may put a table there by itself, where it sees that a
//! loop works out a remainder bit by bit.
use std::fs;

/// A function that the library exports: what has it is the library.
const EXPORTED: &str = "station_remainder";

/// How a table may be laid out: what it is called, the bytes of an entry, and how many entries make a row. A row has eight bytes, as
/// many as a constant in the code, or more; of single bytes, which are less rare, it has 16.
type Layout = (&'static str, fn(u16) -> Vec<u8>, usize);

const LAYOUTS: [Layout; 8] = [
    ("2 bytes, low first", |entry| entry.to_le_bytes().to_vec(), 4),
    ("2 bytes, high first", |entry| entry.to_be_bytes().to_vec(), 4),
    ("4 bytes, low first", |entry| u32::from(entry).to_le_bytes().to_vec(), 8),
    ("4 bytes, high first", |entry| u32::from(entry).to_be_bytes().to_vec(), 8),
    ("8 bytes, low first", |entry| u64::from(entry).to_le_bytes().to_vec(), 8),
    ("8 bytes, high first", |entry| u64::from(entry).to_be_bytes().to_vec(), 8),
    ("high bytes alone", |entry| vec![entry.to_be_bytes()[0]], 16),
    ("low bytes alone", |entry| vec![entry.to_be_bytes()[1]], 16),
];

/// The remainder of each byte value by the polynomial of 16, 12, 5 and 0.
fn remainders() -> Vec<u16> {
    (0..256u16).map(|byte| (0..8).fold(byte << 8, |c, _| if c >= 0x8000 { c << 1 ^ 0x1021 } else { c << 1 })).collect()
}

/// The bytes of some entries in a layout.
fn laid_out(entries: &[u16], (_, bytes, _): Layout) -> Vec<u8> {
    entries.iter().flat_map(|&entry| bytes(entry)).collect()
}

/// Whether some bytes stand among others.
fn stands_in(part: &[u8], bytes: &[u8]) -> bool {
    bytes.windows(part.len()).any(|window| window == part)
}

/// A part of the table that stands in the bytes: its layout, and the byte value that it starts with.
fn found(bytes: &[u8]) -> Option<(&'static str, usize)> {
    let all = remainders();
    LAYOUTS.iter().find_map(|&layout| {
        let (name, _, row) = layout;
        let first = all.chunks(row).position(|entries| stands_in(&laid_out(entries, layout), bytes))?;
        Some((name, first * row))
    })
}

#[test]
fn the_static_library_has_no_table_of_remainders() {
    let library = fs::read(env!("THOWELDECK_LINKED")).expect("the library that this test is linked with");
    assert!(library.starts_with(b"!<arch>\n"), "it is no static library");
    assert!(stands_in(EXPORTED.as_bytes(), &library), "it has no {EXPORTED}");
    if let Some((layout, first)) = found(&library) {
        panic!("the remainders from byte value {first} on stand in it: {layout}");
    }
}

#[test]
fn a_table_would_be_found_in_every_layout_and_in_part() {
    let all = remainders();
    assert_eq!((all[1], all[255]), (0x1021, 0x1EF0));
    assert_eq!(found(&[0x5A; 600]), None);
    for layout in LAYOUTS {
        let (name, _, row) = layout;
        let whole = [&[0x5A; 43][..], &laid_out(&all, layout), &[0xA5; 7]].concat();
        assert_eq!(found(&whole), Some((name, 0)));
        // a compiler may lay a table down in parts, in any order
        let part = [&[0x5A; 16][..], &laid_out(&all[row * 5..row * 6], layout), &[0x5A; 16]].concat();
        assert_eq!(found(&part), Some((name, row * 5)));
    }
}
