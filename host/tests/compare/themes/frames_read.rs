//! The types of frames and headers that are read, and the request for a start, beside the model.
use super::{entries, headers, pieces, requests_read};
use crate::both::{Both, Part};
use crate::made::{address, address_of, file_number};
use crate::model;
use crate::random::Random;
use crate::tally::ACCEPTED;
use thoweldeck::{Address, Asks, Entry, Header, Piece, Request};

pub fn round(both: &mut Both, random: &mut Random) {
    piece(both, &pieces::one(random));
    entry(both, &entries::one(random));
    header(both, headers::one(random));
    request(both, &requests_read::one(random));
    start(both, random);
}

fn plain(address: Address) -> model::Address {
    address_of(address.to_number())
}

/// The library's address for a well formed one of the model.
pub fn made(address: model::Address) -> Address {
    let callsign = String::from_utf8(address.characters.to_vec()).expect("letters and digits");
    Address::new(callsign.trim_end(), address.number).expect("a right address").with_bit7(address.bit7 == 1)
}

// The addresses of an accepted frame: each tells bit 7 as its byte has it, and its text says all that is in its bytes.
fn addresses(both: &mut Both, operation: &'static str, frame: &[u8], [destination, source]: [Address; 2]) {
    let input = [Part::Bytes("frame", frame)];
    let told = (destination.bit7(), source.bit7()) == (frame[6] > 0x7F, frame[13] > 0x7F);
    both.claim(told, "bit 7 is that of the SSID byte", &input);
    let parsed = |address: Address| address.to_string().parse::<Address>().expect("an address's own text");
    let written = Request::start(parsed(destination), parsed(source), 7);
    both.claim(written[..14] == frame[..14], "a text says all that is in an address's bytes", &input);
    both.note_bits(operation, plain(destination), plain(source));
}

// Where the bytes lie in the frame, whose own they are.
fn place_in(frame: &[u8], bytes: &[u8]) -> (usize, usize) {
    ((bytes.as_ptr() as usize).wrapping_sub(frame.as_ptr() as usize), bytes.len())
}

fn piece(both: &mut Both, frame: &[u8]) {
    let library = Piece::read(frame).map(|piece| {
        addresses(both, "Piece::read", frame, [piece.destination, piece.source]);
        let (start, size) = place_in(frame, piece.bytes);
        let Piece { number, kind, offset, .. } = piece;
        let (destination, source) = (plain(piece.destination), plain(piece.source));
        model::Piece { destination, source, number, kind, offset, start, size }
    });
    both.alike("Piece::read", &[Part::Bytes("frame", frame)], library, model::piece(frame));
}

fn entry(both: &mut Both, frame: &[u8]) {
    let (input, read) = ([Part::Bytes("frame", frame)], Entry::read(frame));
    let all = read.map_or(true, |entry| entry.header.size == entry.bytes.len());
    both.claim(all, "an entry's header has all its bytes", &input);
    let library = read.map(|entry| {
        addresses(both, "Entry::read", frame, [entry.destination, entry.source]);
        let (start, size) = place_in(frame, entry.bytes);
        let Entry { flags, number, offset, old, new, .. } = entry;
        let (destination, source, header) = (plain(entry.destination), plain(entry.source), values(entry.header));
        model::Entry { destination, source, flags, number, offset, old, new, start, size, header }
    });
    both.alike("Entry::read", &input, library, model::entry(frame));
}

fn header(both: &mut Both, (bytes, number): (Vec<u8>, u32)) {
    let library = Header::read(&bytes, number).map(|header| (values(header), header.size));
    let input = [Part::Number("number", number.into()), Part::Bytes("bytes", &bytes)];
    both.alike("Header::read", &input, library, model::read_header(&bytes, number));
}

fn values(header: Header) -> model::Header {
    model::Header {
        name: header.name,
        extension: header.extension,
        length: header.length,
        created: header.created,
        modified: header.modified,
        upset: header.upset,
        kind: header.kind,
        bodysum: header.bodysum,
        headersum: header.headersum,
        body: header.body,
        upload: header.upload,
    }
}

fn request(both: &mut Both, frame: &[u8]) {
    let library = Request::read(frame).map(|request| {
        addresses(both, "Request::read", frame, [request.destination, request.source]);
        let (flags, holes) = match request.asks {
            Asks::Start => (0x10, Vec::new()),
            Asks::Holes(holes) => (0x11, holes.iter().map(|hole| (hole.start, hole.length)).collect()),
        };
        let (destination, source) = (plain(request.destination), plain(request.source));
        model::Request { destination, source, flags, number: request.number, holes }
    });
    both.alike("Request::read", &[Part::Bytes("frame", frame)], library, model::read_request(frame));
}

fn start(both: &mut Both, random: &mut Random) {
    let (destination, source, number) = (address(random), address(random), file_number(random));
    let library = Request::start(made(destination), made(source), number);
    let mut model = vec![0; 23];
    model::write_start(destination, source, number, &mut model).expect("right addresses and enough space");
    both.equal(("Request::start", ACCEPTED), &[Part::Number("number", number.into())], library, model);
    both.note_bits("Request::start", destination, source);
}
