//! Requests that a station sends, for holes or for the start of a file (01, "Fill request").
use crate::{boundary, Address, Hole, Reason};
use std::iter::FusedIterator;

/// The bytes of a frame before its first hole: both addresses, control, protocol, and the request's own head.
const HEAD: usize = 23;
/// The bytes of a hole in a request.
const HOLE: usize = 5;
/// The most holes that a request lists.
const MOST: usize = 49;

/// The frames of the requests for every hole of a reception: see [`Reception::requests`](crate::Reception::requests).
///
/// ```
/// use thoweldeck::{Address, Asks, Hole, Reason, Reception, Request};
///
/// let (server, station): (Address, Address) = ("UOSAT5-11".parse()?, "VA3SFL-0".parse()?);
/// let reception = Reception::open(7, 20)?;
/// let frames: Vec<Vec<u8>> = reception.requests(server, station).collect();
/// assert_eq!(frames.len(), 1);
/// let request = Request::read(&frames[0])?;
/// assert_eq!(request.asks, Asks::Holes(vec![Hole { start: 0, length: 20 }]));
/// # Ok::<(), Reason>(())
/// ```
#[derive(Clone, Debug)]
#[must_use]
pub struct Requests<'a> {
    wanted: boundary::Wanted<'a>,
    place: u32,
}

impl<'a> Requests<'a> {
    pub(crate) fn of(wanted: boundary::Wanted<'a>) -> Requests<'a> {
        Requests { wanted, place: 0 }
    }
}

impl Iterator for Requests<'_> {
    type Item = Vec<u8>;

    fn next(&mut self) -> Option<Vec<u8>> {
        let mut frame = vec![0; HEAD + HOLE * MOST];
        let mut count = 0;
        // 15, the one reason that is left here, means that there is no hole left
        boundary::write_fill(self.wanted, self.place, &mut frame, &mut count, &mut self.place).ok()?;
        frame.truncate(HEAD + HOLE * count as usize);
        Some(frame)
    }
}

// behind the last hole there is none to ask for at any later place
impl FusedIterator for Requests<'_> {}

/// What a request asks for.
#[derive(Clone, Debug, PartialEq, Eq)]
pub enum Asks {
    /// The start of the file (flags 0x10).
    Start,
    /// The bytes of 1 to 49 holes, ascending (flags 0x11).
    Holes(Vec<Hole>),
}

/// A request, read from a frame.
#[derive(Clone, Debug, PartialEq, Eq)]
pub struct Request {
    /// To whom the frame goes.
    pub destination: Address,
    /// Who sent it.
    pub source: Address,
    /// The file's number.
    pub number: u32,
    /// What it asks for.
    pub asks: Asks,
}

impl Request {
    /// Reads a frame as a request.
    ///
    /// # Errors
    ///
    /// Refuses 1 (below 16 bytes), 2, 3, 4, 7 (over 255), 1 (information), 5, 7 (block size, count or odd bytes), 10.
    pub fn read(frame: &[u8]) -> Result<Request, Reason> {
        let mut told = boundary::RequestTold::default();
        boundary::read_request(frame, &mut told)?;
        let asks = match told.count {
            0 => Asks::Start,
            count => Asks::Holes((0..count).map(|index| hole(frame, index)).collect::<Result<_, _>>()?),
        };
        Ok(Request {
            destination: Address::told(told.destination),
            source: Address::told(told.source),
            number: told.number,
            asks,
        })
    }

    /// The frame of a request for the start of a file.
    ///
    /// ```
    /// use thoweldeck::{Address, Asks, Reason, Request};
    ///
    /// let (server, station): (Address, Address) = ("UOSAT5-11".parse()?, "VA3SFL-0".parse()?);
    /// let frame = Request::start(server, station, 7);
    /// assert_eq!(frame.len(), 23);
    /// assert_eq!(Request::read(&frame)?.asks, Asks::Start);
    /// # Ok::<(), Reason>(())
    /// ```
    #[must_use]
    pub fn start(destination: Address, source: Address, number: u32) -> Vec<u8> {
        let mut frame = vec![0; HEAD];
        boundary::write_start(destination.to_number(), source.to_number(), number, &mut frame)
            .expect("the addresses are well formed and the space is the frame's");
        frame
    }
}

// The hole with an index in a request frame.
fn hole(frame: &[u8], index: u32) -> Result<Hole, Reason> {
    let mut hole = Hole { start: 0, length: 0 };
    boundary::hole(frame, index, &mut hole.start, &mut hole.length)?;
    Ok(hole)
}
