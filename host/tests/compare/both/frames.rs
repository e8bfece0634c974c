//! Reading frames: pieces, entries with their headers, requests with their holes; and headers by themselves.
use super::{Both, Compared, Outcome, Part};
use crate::made::number_of;
use crate::model::{self, Answer};
use crate::tally::case;
use thoweldeck::boundary::{self, EntryTold, HeaderTold, PieceTold, RequestTold};

// Whether a reason is given for the first or the second time in the order of a frame.
pub(super) fn frame_case<T>(answer: &Answer<T>, frame: &[u8]) -> &'static str {
    match answer {
        Ok(_) => case(0, 0),
        Err(1) => case(1, usize::from(frame.len() >= 16)),
        Err(7) => case(7, usize::from(frame.len() <= 16 + 255)),
        Err(reason) => case(*reason, 0),
    }
}

impl Both {
    pub fn piece(&mut self, frame: &[u8]) -> Compared<model::Piece> {
        let before = self.rubbish_piece();
        let (lent, mut told) = (frame.to_vec(), before);
        let answer = boundary::piece(&lent, &mut told);
        let model = model::piece(frame);
        let library = Outcome::library(answer, told, vec![lent]);
        let expected = Outcome::model(&model.clone().map(piece_told), before, vec![frame.to_vec()]);
        self.compare(("piece", frame_case(&model, frame)), &[Part::Bytes("frame", frame)], &library, &expected);
        if let Ok(piece) = &model {
            self.note_bits("piece", piece.destination, piece.source);
        }
        Compared { answer: model }
    }

    /// The entry with its header.
    pub fn entry(&mut self, frame: &[u8]) -> Compared<model::Entry> {
        let before = (self.rubbish_entry(), self.rubbish_header());
        let (lent, mut told) = (frame.to_vec(), before);
        let answer = boundary::entry(&lent, &mut told.0, &mut told.1);
        let model = model::entry(frame);
        let library = Outcome::library(answer, told, vec![lent]);
        let expected = Outcome::model(&model.clone().map(entry_told), before, vec![frame.to_vec()]);
        self.compare(("entry", frame_case(&model, frame)), &[Part::Bytes("frame", frame)], &library, &expected);
        if let Ok(entry) = &model {
            self.note_bits("entry", entry.destination, entry.source);
        }
        Compared { answer: model }
    }

    /// The header that bytes start with, and its own size.
    pub fn header(&mut self, bytes: &[u8], number: u32) -> Compared<(model::Header, usize)> {
        let before = (self.rubbish.draw() as usize, self.rubbish_header());
        let (lent, mut told) = (bytes.to_vec(), before);
        let answer = boundary::header(&lent, number, &mut told.0, &mut told.1);
        let model = model::read_header(bytes, number);
        let library = Outcome::library(answer, told, vec![lent]);
        let told = model.clone().map(|(header, size)| (size, header_told(&header)));
        let expected = Outcome::model(&told, before, vec![bytes.to_vec()]);
        let input = [Part::Number("number", number.into()), Part::Bytes("bytes", bytes)];
        let case = case(expected.reason, 0);
        self.compare(("header", case), &input, &library, &expected);
        Compared { answer: model }
    }

    pub fn read_request(&mut self, frame: &[u8]) -> Compared<model::Request> {
        let before = self.rubbish_request();
        let (lent, mut told) = (frame.to_vec(), before);
        let answer = boundary::read_request(&lent, &mut told);
        let model = model::read_request(frame);
        let library = Outcome::library(answer, told, vec![lent]);
        let expected = Outcome::model(&model.clone().map(request_told), before, vec![frame.to_vec()]);
        self.compare(("read_request", frame_case(&model, frame)), &[Part::Bytes("frame", frame)], &library, &expected);
        if let Ok(request) = &model {
            self.note_bits("read_request", request.destination, request.source);
        }
        Compared { answer: model }
    }

    /// A hole by its index; beyond the count both numbers are 0.
    pub fn hole(&mut self, frame: &[u8], index: u32) {
        let before = (self.rubbish.word(), self.rubbish.word());
        let (lent, mut told) = (frame.to_vec(), before);
        let answer = boundary::hole(&lent, index, &mut told.0, &mut told.1);
        let model = model::read_request(frame);
        let library = Outcome::library(answer, told, vec![lent]);
        let hole = |request: model::Request| request.holes.get(index as usize).copied().unwrap_or((0, 0));
        let expected = Outcome::model(&model.clone().map(hole), before, vec![frame.to_vec()]);
        let input = [Part::Number("index", index.into()), Part::Bytes("frame", frame)];
        self.compare(("hole", frame_case(&model, frame)), &input, &library, &expected);
        if let Ok(request) = &model {
            self.note_bits("hole", request.destination, request.source);
        }
    }

    /// Reads one frame as each of the three kinds, of which at most one accepts.
    pub fn read_as_all(&mut self, frame: &[u8]) {
        let accepted = [
            self.piece(frame).answer.is_ok(),
            self.entry(frame).answer.is_ok(),
            self.read_request(frame).answer.is_ok(),
        ];
        self.hole(frame, 0);
        let count = accepted.iter().filter(|&&accepted| accepted).count();
        self.claim(count <= 1, "a frame is of one kind at most", &[Part::Bytes("frame", frame)]);
    }

    fn rubbish_piece(&mut self) -> PieceTold {
        let random = &mut self.rubbish;
        PieceTold {
            destination: random.draw(),
            source: random.draw(),
            number: random.word(),
            kind: random.byte(),
            offset: random.word(),
            start: random.draw() as usize,
            size: random.draw() as usize,
        }
    }

    fn rubbish_entry(&mut self) -> EntryTold {
        let random = &mut self.rubbish;
        EntryTold {
            destination: random.draw(),
            source: random.draw(),
            flags: random.byte(),
            number: random.word(),
            offset: random.word(),
            old: random.word(),
            new: random.word(),
            start: random.draw() as usize,
            size: random.draw() as usize,
        }
    }

    fn rubbish_header(&mut self) -> HeaderTold {
        let random = &mut self.rubbish;
        HeaderTold {
            name: random.draw(),
            extension: random.word(),
            length: random.word(),
            created: random.word(),
            modified: random.word(),
            upset: random.byte(),
            kind: random.byte(),
            bodysum: random.word() as u16,
            headersum: random.word() as u16,
            body: random.word() as u16,
            uploaded: random.byte(),
            upload: random.word(),
        }
    }

    fn rubbish_request(&mut self) -> RequestTold {
        let random = &mut self.rubbish;
        RequestTold {
            destination: random.draw(),
            source: random.draw(),
            flags: random.byte(),
            number: random.word(),
            count: random.word(),
        }
    }
}

fn piece_told(piece: model::Piece) -> PieceTold {
    PieceTold {
        destination: number_of(piece.destination),
        source: number_of(piece.source),
        number: piece.number,
        kind: piece.kind,
        offset: piece.offset,
        start: piece.start,
        size: piece.size,
    }
}

fn entry_told(entry: model::Entry) -> (EntryTold, HeaderTold) {
    let header = header_told(&entry.header);
    let told = EntryTold {
        destination: number_of(entry.destination),
        source: number_of(entry.source),
        flags: entry.flags,
        number: entry.number,
        offset: entry.offset,
        old: entry.old,
        new: entry.new,
        start: entry.start,
        size: entry.size,
    };
    (told, header)
}

fn header_told(header: &model::Header) -> HeaderTold {
    let [a, b, c] = header.extension;
    HeaderTold {
        name: u64::from_le_bytes(header.name),
        extension: u32::from_le_bytes([a, b, c, 0]),
        length: header.length,
        created: header.created,
        modified: header.modified,
        upset: header.upset,
        kind: header.kind,
        bodysum: header.bodysum,
        headersum: header.headersum,
        body: header.body,
        uploaded: u8::from(header.upload.is_some()),
        upload: header.upload.unwrap_or(0),
    }
}

fn request_told(request: model::Request) -> RequestTold {
    RequestTold {
        destination: number_of(request.destination),
        source: number_of(request.source),
        flags: request.flags,
        number: request.number,
        count: request.holes.len() as u32,
    }
}
