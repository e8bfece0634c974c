//! Plain Rust of the operations that are measured, written by hand for speed and without `unsafe`: the same
//! signatures, checks, refusals and effects as in `thoweldeck::boundary`. Each public function is a real call.
use thoweldeck::boundary::{EntryTold, HeaderTold, Second, Wanted};
use thoweldeck::Reason;

const LONGEST: u32 = 32_768;
const HEAD: usize = 16;
const MOST_INFORMATION: usize = 255;
const FILE: u8 = 0xBB;
const DIRECTORY: u8 = 0xBD;
const PIECE_DATA: usize = 9;
const ENTRY_HEADER: usize = 17;
const CHECK: usize = 2;
const MOST_HOLES: usize = 49;
const BYTES_PER_HOLE: usize = 5;
const BEFORE_HOLES: usize = 23;
const RECORD_MAP: usize = 17;
const UPLOAD: u16 = 0x12;
const MANDATORY: u32 = 0x0FFE;

static REMAINDERS: [u16; 256] = remainders();

/// The remainder of each byte value by the polynomial of 16, 12, 5 and 0.
const fn remainders() -> [u16; 256] {
    let mut list = [0; 256];
    let mut byte = 0;
    while byte < 256 {
        let mut remainder = (byte as u16) << 8;
        let mut bit = 0;
        while bit < 8 {
            remainder = if remainder & 0x8000 != 0 { (remainder << 1) ^ 0x1021 } else { remainder << 1 };
            bit += 1;
        }
        list[byte] = remainder;
        byte += 1;
    }
    list
}

/// The remainder of all bytes.
#[inline(never)]
pub fn remainder(bytes: &[u8]) -> u16 {
    bytes.iter().fold(0, |c, &b| (c << 8) ^ REMAINDERS[usize::from((c >> 8) as u8 ^ b)])
}

/// Opens a reception. Refuses 7, 12.
#[inline(never)]
pub fn open(length: u32, map: &mut [u8], buffer: &mut [u8]) -> Result<(), Reason> {
    let l = checked_space(length, map, buffer)?;
    map[..map_size(l)].fill(0);
    buffer[..l].fill(0);
    Ok(())
}

/// Takes a frame into a reception. Refuses 1, 2, 3, 4, 7, 1, 6, 5, 7, then 7, 12, 9, 10, 11.
#[inline(never)]
pub fn take(
    number: u32,
    length: u32,
    map: &mut [u8],
    buffer: &mut [u8],
    frame: &[u8],
    new: &mut u32,
) -> Result<(), Reason> {
    let piece = read_piece(frame)?;
    let l = checked_space(length, map, buffer)?;
    if piece.number != number {
        return Err(Reason::OtherFile);
    }
    let end = piece.offset + piece.bytes.len();
    if end > l {
        return Err(Reason::Beyond);
    }
    let place = &mut buffer[piece.offset..end];
    if !piece_agrees(map, place, piece.offset, piece.bytes) {
        return Err(Reason::Differs);
    }
    place.copy_from_slice(piece.bytes);
    *new = hold(map, piece.offset, end);
    Ok(())
}

/// Joins a second reception into a first. Refuses 7, 12, 9, 11.
#[inline(never)]
pub fn join(
    number: u32,
    length: u32,
    map: &mut [u8],
    buffer: &mut [u8],
    second: Second<'_>,
    new: &mut u32,
) -> Result<(), Reason> {
    let l = checked_length(length)?;
    let second_l = checked_length(second.length)?;
    if is_short(l, map, buffer) || is_short(second_l, second.map, second.buffer) {
        return Err(Reason::Space);
    }
    if number != second.number || l != second_l {
        return Err(Reason::OtherFile);
    }
    let size = map_size(l);
    let (map, buffer) = (&mut map[..size], &mut buffer[..l]);
    let (other, bytes) = (&second.map[..size], &second.buffer[..l]);
    if !receptions_agree(map, buffer, other, bytes) {
        return Err(Reason::Differs);
    }
    *new = add(map, buffer, other, bytes);
    Ok(())
}

/// Tells the first hole that starts at a place or later. Refuses 7, 12, 15.
#[inline(never)]
pub fn list(length: u32, map: &[u8], place: u32, start: &mut u32, size: &mut u32) -> Result<(), Reason> {
    let l = checked_map(length, map)?;
    let (from, to) = next_hole(map, l, place as usize).ok_or(Reason::NoHole)?;
    *start = from as u32;
    *size = (to - from) as u32;
    Ok(())
}

/// Writes a reception as a record. Refuses 7, 12.
#[inline(never)]
pub fn save(
    number: u32,
    length: u32,
    map: &[u8],
    buffer: &[u8],
    target: &mut [u8],
    size: &mut usize,
) -> Result<(), Reason> {
    let l = checked_space(length, map, buffer)?;
    let map_size = map_size(l);
    let record_size = RECORD_MAP + map_size + 3 + l;
    let target = target.get_mut(..record_size).ok_or(Reason::Space)?;
    target[..3].copy_from_slice(&[1, 4, 0]);
    target[3..7].copy_from_slice(&number.to_le_bytes());
    target[7..10].copy_from_slice(&[2, 4, 0]);
    target[10..14].copy_from_slice(&length.to_le_bytes());
    target[14] = 3;
    target[15..17].copy_from_slice(&(map_size as u16).to_le_bytes());
    let (saved_map, rest) = target[RECORD_MAP..].split_at_mut(map_size);
    saved_map.copy_from_slice(&map[..map_size]);
    if l % 8 != 0 {
        saved_map[l / 8] &= low_bits(l % 8);
    }
    rest[0] = 4;
    rest[1..3].copy_from_slice(&(l as u16).to_le_bytes());
    save_bytes(saved_map, &buffer[..l], &mut rest[3..]);
    *size = record_size;
    Ok(())
}

/// Loads a record. Refuses 13, 12.
#[inline(never)]
pub fn load(saved: &[u8], map: &mut [u8], buffer: &mut [u8], number: &mut u32, length: &mut u32) -> Result<(), Reason> {
    let record = read_record(saved).ok_or(Reason::Record)?;
    if map.len() < record.map.len() || buffer.len() < record.bytes.len() {
        return Err(Reason::Space);
    }
    map[..record.map.len()].copy_from_slice(record.map);
    buffer[..record.bytes.len()].copy_from_slice(record.bytes);
    *number = record.number;
    *length = record.bytes.len() as u32;
    Ok(())
}

/// Writes a request for the holes from a place on, at most 49. Refuses 2, 7, 12 (map), 15, 12 (target).
#[inline(never)]
pub fn write_fill(
    wanted: Wanted<'_>,
    place: u32,
    target: &mut [u8],
    count: &mut u32,
    end: &mut u32,
) -> Result<(), Reason> {
    let to = address_bytes(wanted.destination, 0)?;
    let from = address_bytes(wanted.source, 1)?;
    let l = checked_map(wanted.length, wanted.map)?;
    let mut entries = [0; MOST_HOLES * BYTES_PER_HOLE];
    let mut listed = 0;
    let mut last = place as usize;
    for entry in entries.chunks_exact_mut(BYTES_PER_HOLE) {
        let (hole, hole_end) = match next_hole(wanted.map, l, last) {
            Some(found) => found,
            None => break,
        };
        entry[..3].copy_from_slice(&(hole as u32).to_le_bytes()[..3]);
        entry[3..].copy_from_slice(&((hole_end - hole) as u16).to_le_bytes());
        listed += 1;
        last = hole_end;
    }
    if listed == 0 {
        return Err(Reason::NoHole);
    }
    let size = listed * BYTES_PER_HOLE;
    let target = target.get_mut(..BEFORE_HOLES + size).ok_or(Reason::Space)?;
    target[..7].copy_from_slice(&to);
    target[7..14].copy_from_slice(&from);
    target[14..17].copy_from_slice(&[0x03, FILE, 0x11]);
    target[17..21].copy_from_slice(&wanted.number.to_le_bytes());
    target[21..23].copy_from_slice(&244_u16.to_le_bytes());
    target[23..].copy_from_slice(&entries[..size]);
    *count = listed as u32;
    *end = last as u32;
    Ok(())
}

/// Reads a frame as a directory entry with all values of its header. Refuses 1, 2, 3, 4, 7, 1, 6, 5, 14, 8.
#[inline(never)]
pub fn entry(frame: &[u8], told: &mut EntryTold, header_told: &mut HeaderTold) -> Result<(), Reason> {
    let (destination, source, information) = read_head(frame, DIRECTORY)?;
    if information.len() < ENTRY_HEADER + CHECK {
        return Err(Reason::Short);
    }
    let content = checked(information)?;
    let flags = content[0];
    if flags & !0x60 != 0 {
        return Err(Reason::Flags);
    }
    let offset = number4(&content[5..]);
    if flags & 0x20 == 0 || offset != 0 {
        return Err(Reason::NotWhole);
    }
    let number = number4(&content[1..]);
    let header = &content[ENTRY_HEADER..];
    *header_told = read_header(header, number).ok_or(Reason::Header)?;
    *told = EntryTold {
        destination,
        source,
        flags,
        number,
        offset,
        old: number4(&content[9..]),
        new: number4(&content[13..]),
        start: HEAD + ENTRY_HEADER,
        size: header.len(),
    };
    Ok(())
}

/// A length of 1 to 32,768, or reason 7.
fn checked_length(length: u32) -> Result<usize, Reason> {
    if (1..=LONGEST).contains(&length) {
        Ok(length as usize)
    } else {
        Err(Reason::Size)
    }
}

/// A right length whose map is long enough, or reason 7 or 12.
fn checked_map(length: u32, map: &[u8]) -> Result<usize, Reason> {
    let l = checked_length(length)?;
    if map.len() < map_size(l) {
        return Err(Reason::Space);
    }
    Ok(l)
}

/// A right length whose map and buffer are long enough, or reason 7 or 12.
fn checked_space(length: u32, map: &[u8], buffer: &[u8]) -> Result<usize, Reason> {
    let l = checked_length(length)?;
    if is_short(l, map, buffer) {
        return Err(Reason::Space);
    }
    Ok(l)
}

/// Whether a map or a buffer is too short for a file of a length.
fn is_short(l: usize, map: &[u8], buffer: &[u8]) -> bool {
    map.len() < map_size(l) || buffer.len() < l
}

/// How many bytes the map of a file of a length has.
fn map_size(l: usize) -> usize {
    (l + 7) / 8
}

/// The byte whose lowest bits, fewer than eight, are set.
fn low_bits(count: usize) -> u8 {
    (1 << count) - 1
}

/// The number of the first four bytes.
fn number4(bytes: &[u8]) -> u32 {
    u32::from_le_bytes([bytes[0], bytes[1], bytes[2], bytes[3]])
}

/// The number of the first two bytes.
fn number2(bytes: &[u8]) -> u16 {
    u16::from_le_bytes([bytes[0], bytes[1]])
}

/// Whether six characters are a callsign, padded at the end with spaces and not all spaces.
fn is_callsign(characters: &[u8]) -> bool {
    let mut right = characters[0] != b' ';
    let mut padded = false;
    for &c in characters {
        let space = c == b' ';
        right &= space || (!padded && (c.is_ascii_uppercase() || c.is_ascii_digit()));
        padded |= space;
    }
    right
}

/// The address in seven bytes of a frame as a number, or reason 2; `last` is bit 0 of its SSID byte.
fn read_address(bytes: &[u8; 7], last: u8) -> Result<u64, Reason> {
    let mut address = [0; 8];
    let mut odd = 0;
    for (c, &b) in address.iter_mut().zip(&bytes[..6]) {
        odd |= b;
        *c = b >> 1;
    }
    if odd & 1 != 0 || bytes[6] & 0x61 != 0x60 | last || !is_callsign(&address[..6]) {
        return Err(Reason::Address);
    }
    address[6] = (bytes[6] >> 1) & 15;
    address[7] = bytes[6] >> 7;
    Ok(u64::from_le_bytes(address))
}

/// The seven bytes of an address in a frame, or reason 2.
fn address_bytes(address: u64, last: u8) -> Result<[u8; 7], Reason> {
    let [a, b, c, d, e, f, ssid, bit7] = address.to_le_bytes();
    if bit7 > 1 || ssid > 15 || !is_callsign(&[a, b, c, d, e, f]) {
        return Err(Reason::Address);
    }
    Ok([a << 1, b << 1, c << 1, d << 1, e << 1, f << 1, (bit7 << 7) | 0x60 | (ssid << 1) | last])
}

/// Both addresses and the information of a frame. Refuses 1, 2, 3, 4, 7.
fn read_head(frame: &[u8], protocol: u8) -> Result<(u64, u64, &[u8]), Reason> {
    if frame.len() < HEAD {
        return Err(Reason::Short);
    }
    let (head, information) = frame.split_at(HEAD);
    let destination = read_address(head[..7].try_into().expect("seven bytes"), 0)?;
    let source = read_address(head[7..14].try_into().expect("seven bytes"), 1)?;
    if head[14] != 0x03 {
        return Err(Reason::Control);
    }
    if head[15] != protocol {
        return Err(Reason::Protocol);
    }
    if information.len() > MOST_INFORMATION {
        return Err(Reason::Size);
    }
    Ok((destination, source, information))
}

/// The information without its two check bytes, or reason 6.
fn checked(information: &[u8]) -> Result<&[u8], Reason> {
    let (content, check) = information.split_at(information.len() - CHECK);
    if remainder(content).to_be_bytes() == check {
        Ok(content)
    } else {
        Err(Reason::Check)
    }
}

/// A piece of a file, its bytes a part of the frame.
struct Piece<'a> {
    number: u32,
    offset: usize,
    bytes: &'a [u8],
}

/// The piece in a frame. Refuses 1, 2, 3, 4, 7, 1, 6, 5, 7.
fn read_piece(frame: &[u8]) -> Result<Piece<'_>, Reason> {
    let (_, _, information) = read_head(frame, FILE)?;
    if information.len() < PIECE_DATA + CHECK {
        return Err(Reason::Short);
    }
    let content = checked(information)?;
    let (fields, bytes) = content.split_at(PIECE_DATA);
    if fields[0] != 0x02 {
        return Err(Reason::Flags);
    }
    if bytes.is_empty() {
        return Err(Reason::Size);
    }
    let offset = u32::from_le_bytes([fields[6], fields[7], fields[8], 0]) as usize;
    Ok(Piece { number: number4(&fields[1..]), offset, bytes })
}

/// The bits of map byte `i` whose positions are from `at` on and below `end`.
fn span_bits(i: usize, at: usize, end: usize) -> u8 {
    let from = at.saturating_sub(i * 8);
    let to = (end - i * 8).min(8);
    ((1_u16 << to) - (1_u16 << from)) as u8
}

/// Whether a piece agrees with the bytes that are held at its place, which starts at position `at`.
fn piece_agrees(map: &[u8], place: &[u8], at: usize, piece: &[u8]) -> bool {
    let ahead = ((8 - at % 8) % 8).min(piece.len());
    let first = at + ahead;
    if ahead > 0 && !bits_agree(map[at / 8] >> (at % 8), &place[..ahead], &piece[..ahead]) {
        return false;
    }
    let place = place[ahead..].chunks_exact(8);
    let piece = piece[ahead..].chunks_exact(8);
    let rest = (place.remainder(), piece.remainder());
    let whole = place.len();
    let map = &map[first / 8..];
    let wholes_agree = map.iter().zip(place.zip(piece)).all(|(&held, (a, b))| bits_agree(held, a, b));
    wholes_agree && (rest.0.is_empty() || bits_agree(map[whole], rest.0, rest.1))
}

/// Whether up to eight bytes are the same wherever a bit is set.
#[inline]
fn bits_agree(bits: u8, a: &[u8], b: &[u8]) -> bool {
    match bits {
        0 => true,
        0xFF => a == b,
        _ => a.iter().zip(b).enumerate().all(|(k, (a, b))| (bits >> k) & 1 == 0 || a == b),
    }
}

/// The positions from `at` on and below `end` become held; how many were not.
fn hold(map: &mut [u8], at: usize, end: usize) -> u32 {
    let (first, last) = (at / 8, (end - 1) / 8);
    let mut new = 0;
    for (i, held) in map.iter_mut().enumerate().take(last + 1).skip(first) {
        let bits = span_bits(i, at, end);
        new += (bits & !*held).count_ones();
        *held |= bits;
    }
    new
}

/// Whether two receptions agree at each position that both hold.
fn receptions_agree(map: &[u8], buffer: &[u8], other: &[u8], bytes: &[u8]) -> bool {
    let buffer = buffer.chunks_exact(8);
    let bytes = bytes.chunks_exact(8);
    let rest = (buffer.remainder(), bytes.remainder());
    let whole = buffer.len();
    let both = map.iter().zip(other).map(|(a, b)| a & b);
    both.zip(buffer.zip(bytes)).all(|(both, (a, b))| bits_agree(both, a, b))
        && (rest.0.is_empty() || bits_agree(map[whole] & other[whole], rest.0, rest.1))
}

/// Copies each position that only the second reception holds into the first; how many they are.
fn add(map: &mut [u8], buffer: &mut [u8], other: &[u8], bytes: &[u8]) -> u32 {
    let (whole, spare) = (buffer.len() / 8, buffer.len() % 8);
    let mut new = 0;
    let chunks = buffer.chunks_exact_mut(8).zip(bytes.chunks_exact(8));
    for ((held, &theirs), (to, from)) in map.iter_mut().zip(other).zip(chunks) {
        new += add_bits(held, theirs, to, from);
    }
    if spare > 0 {
        let theirs = other[whole] & low_bits(spare);
        new += add_bits(&mut map[whole], theirs, &mut buffer[whole * 8..], &bytes[whole * 8..]);
    }
    new
}

/// Copies what only the second reception holds of one map byte's positions; how many they are.
#[inline]
fn add_bits(held: &mut u8, theirs: u8, to: &mut [u8], from: &[u8]) -> u32 {
    let added = theirs & !*held;
    if added == 0 {
        return 0;
    }
    *held |= added;
    copy_bits(added, to, from);
    added.count_ones()
}

/// Copies those of up to eight bytes whose bit is set.
#[inline]
fn copy_bits(bits: u8, to: &mut [u8], from: &[u8]) {
    if bits == 0xFF {
        return to.copy_from_slice(from);
    }
    for (k, (to, from)) in to.iter_mut().zip(from).enumerate() {
        if (bits >> k) & 1 == 1 {
            *to = *from;
        }
    }
}

/// The first position from `from` on and below `l` that is held or, where `flip` is 0xFF, not held; else `l`.
fn first(map: &[u8], from: usize, l: usize, flip: u8) -> usize {
    if from >= l {
        return l;
    }
    let here = (map[from / 8] ^ flip) >> (from % 8);
    if here != 0 {
        return l.min(from + here.trailing_zeros() as usize);
    }
    let next = from / 8 + 1;
    match map[next..map_size(l)].iter().position(|&byte| byte != flip) {
        Some(skipped) => l.min((next + skipped) * 8 + (map[next + skipped] ^ flip).trailing_zeros() as usize),
        None => l,
    }
}

/// Start and end of the first hole that starts at a place or later.
fn next_hole(map: &[u8], l: usize, place: usize) -> Option<(usize, usize)> {
    if place >= l {
        return None;
    }
    let inside = place > 0 && (map[(place - 1) / 8] >> ((place - 1) % 8)) & 1 == 0;
    let from = if inside { first(map, place, l, 0) } else { place };
    let start = first(map, from, l, 0xFF);
    if start == l {
        return None;
    }
    Some((start, first(map, start, l, 0)))
}

/// Copies the held bytes of a buffer and clears the others.
fn save_bytes(map: &[u8], buffer: &[u8], target: &mut [u8]) {
    target.copy_from_slice(buffer);
    let whole = target.len() / 8;
    for (&held, bytes) in map.iter().zip(target.chunks_exact_mut(8)) {
        clear_unheld(held, bytes);
    }
    if target.len() % 8 > 0 {
        clear_unheld(map[whole], &mut target[whole * 8..]);
    }
}

/// Clears those of up to eight bytes whose bit is not set.
#[inline]
fn clear_unheld(held: u8, bytes: &mut [u8]) {
    match held {
        0xFF => {}
        0 => bytes.fill(0),
        _ => {
            for (k, byte) in bytes.iter_mut().enumerate() {
                if (held >> k) & 1 == 0 {
                    *byte = 0;
                }
            }
        }
    }
}

/// What a record says, its map and its bytes parts of it.
struct Record<'a> {
    number: u32,
    map: &'a [u8],
    bytes: &'a [u8],
}

/// A record, if it is one.
fn read_record(saved: &[u8]) -> Option<Record<'_>> {
    if saved.len() < RECORD_MAP {
        return None;
    }
    let (fields, rest) = saved.split_at(RECORD_MAP);
    let l = checked_length(number4(&fields[10..])).ok()?;
    let map_size = map_size(l);
    if rest.len() != map_size + 3 + l {
        return None;
    }
    let (map, rest) = rest.split_at(map_size);
    let (before, bytes) = rest.split_at(3);
    let right = fields[..3] == [1, 4, 0]
        && fields[7..10] == [2, 4, 0]
        && fields[14] == 3
        && usize::from(number2(&fields[15..])) == map_size
        && before[0] == 4
        && usize::from(number2(&before[1..])) == l;
    let spare_clear = l % 8 == 0 || map[l / 8] >> (l % 8) == 0;
    if !right || !spare_clear || !unheld_clear(map, bytes) {
        return None;
    }
    Some(Record { number: number4(&fields[3..]), map, bytes })
}

/// Whether every byte that is not held is zero.
fn unheld_clear(map: &[u8], bytes: &[u8]) -> bool {
    let wholes = bytes.chunks_exact(8);
    let (whole, rest) = (wholes.len(), wholes.remainder());
    map.iter().zip(wholes).all(|(&held, bytes)| is_clear(held, bytes))
        && (rest.is_empty() || is_clear(map[whole], rest))
}

/// Whether those of up to eight bytes are zero whose bit is not set.
#[inline]
fn is_clear(held: u8, bytes: &[u8]) -> bool {
    held == 0xFF || bytes.iter().enumerate().all(|(k, &byte)| (held >> k) & 1 == 1 || byte == 0)
}

/// The values of a whole file header with a number that nothing follows, if it keeps the rules.
fn read_header(header: &[u8], number: u32) -> Option<HeaderTold> {
    let mut items = header.strip_prefix(&[0xAA, 0x55])?;
    let mut told = HeaderTold::default();
    let mut file_number = 0;
    let mut seen = 0_u32;
    loop {
        if items.len() < 3 {
            return None;
        }
        let (head, rest) = items.split_at(3);
        let (id, size) = (number2(head), usize::from(head[2]));
        if rest.len() < size {
            return None;
        }
        let (data, rest) = rest.split_at(size);
        match (id, size) {
            (0, 0) => {
                items = rest;
                break;
            }
            (0x01, 4) => file_number = number4(data),
            (0x02, 8) => told.name = u64::from_le_bytes(data.try_into().expect("eight bytes")),
            (0x03, 3) => told.extension = u32::from_le_bytes([data[0], data[1], data[2], 0]),
            (0x04, 4) => told.length = number4(data),
            (0x05, 4) => told.created = number4(data),
            (0x06, 4) => told.modified = number4(data),
            (0x07, 1) => told.upset = data[0],
            (0x08, 1) => told.kind = data[0],
            (0x09, 2) => told.bodysum = number2(data),
            (0x0A, 2) => told.headersum = number2(data),
            (0x0B, 2) => told.body = number2(data),
            (UPLOAD, 4) => {
                told.uploaded = 1;
                told.upload = number4(data);
            }
            (0..=0x0B | UPLOAD, _) => return None,
            _ => {}
        }
        if id <= 0x0B || id == UPLOAD {
            if seen & (1 << id) != 0 {
                return None;
            }
            seen |= 1 << id;
        }
        items = rest;
    }
    let all: u16 = header.iter().fold(0, |sum: u16, &byte| sum.wrapping_add(u16::from(byte)));
    let own = told.headersum.to_le_bytes().iter().fold(0, |sum: u16, &byte| sum + u16::from(byte));
    let right = items.is_empty()
        && seen & MANDATORY == MANDATORY
        && all.wrapping_sub(own) == told.headersum
        && file_number == number
        && usize::from(told.body) >= header.len()
        && u32::from(told.body) <= told.length;
    right.then_some(told)
}
