//! A ground station for store-and-forward (PACSAT) satellites, over a library that is proved.
//!
//! A station hears frames, keeps what it received of a file, joins it with what others received, lists
//! what is missing and asks for it. The work is done by `libstation.a`, whose functions are written in
//! Rattle and proved to do what the rules say; this package makes them safe Rust:
//!
//! - [`Reception`]: what is held of a file: [`open`](Reception::open), [`take`](Reception::take),
//!   [`join`](Reception::join), [`holes`](Reception::holes), [`requests`](Reception::requests),
//!   [`save`](Reception::save), [`load`](Reception::load);
//! - [`Piece`], [`Entry`], [`Request`]: a frame, read;
//! - [`Header`]: a file header, read with its directory entry or from the start of the file itself;
//! - [`Address`]: a callsign, its SSID and bit 7 of the SSID byte, from and to the texts `VA3SFL-0` and `VA3SFL-0+bit7`;
//! - [`Reason`]: why something was refused, with the paper's number and a sentence;
//! - [`boundary`]: the proved functions themselves, on numbers and lent slices;
//! - [`lock`]: a lock on an open file, for programs that share records.
//!
//! Where these pages say 01, they mean the customer's rules, which the library's definitions say line by line; 000 and 002 are
//! excerpts of the thesis behind them (Laura Halliday, *Communications Infrastructure for the MOST Microsatellite Project*, 2000).
//!
//! Two stations that each missed a part of a file have it whole together:
//!
//! ```
//! use thoweldeck::{remainder, Reason, Reception};
//!
//! # fn frame(offset: u8, bytes: &[u8]) -> Vec<u8> {
//! #     let mut frame = b"\xA2\xA6\xA8\x40\x40\x40\x60\xAA\x9E\xA6\x82\xA8\x6A\x77\x03\xBB\x02\x07\0\0\0\0".to_vec();
//! #     frame.extend([offset, 0, 0]);
//! #     frame.extend(bytes);
//! #     let check = remainder(&frame[16..]);
//! #     frame.extend(check.to_be_bytes());
//! #     frame
//! # }
//! let mut first = Reception::open(7, 10)?;
//! let mut second = Reception::open(7, 10)?;
//! first.take(&frame(0, b"store-"))?; // frames with pieces of file 7
//! second.take(&frame(4, b"e-and!"))?;
//!
//! assert_eq!(first.join(&second)?, 4);
//! assert_eq!(first.file(), Some(&b"store-and!"[..]));
//! # Ok::<(), Reason>(())
//! ```
//!
//! # Linking
//!
//! The library must be there before a program is built over this package, and it links only into programs for x86-64.
//! `./tour` in the project's first folder proves it and writes `target/staticlib/libstation.a`, which is where this
//! package looks for it. A library that was built elsewhere is found through the variable `THOWELDECK_LIBRARY`, the full
//! path of the folder that has `libstation.a`:
//!
//! ```console
//! $ THOWELDECK_LIBRARY=/srv/station/lib cargo build --release
//! ```
//!
//! It is linked into a program once (`links = "station"`).
#![warn(missing_docs)]
#![deny(unsafe_code)]
// build.rs sets `no_library`, and Rust 1.63 does not know the lint on names that cargo has not heard of
#![allow(unknown_lints, unexpected_cfgs)]

// the pages of the documentation need no library
#[cfg(all(no_library, not(doc)))]
compile_error!(env!("THOWELDECK_NO_LIBRARY"));

mod address;
#[allow(unsafe_code)]
pub mod boundary;
mod frame;
#[allow(unsafe_code)]
pub mod lock;
mod reason;
mod reception;
mod request;

pub use address::Address;
pub use boundary::remainder;
pub use frame::{Entry, Header, Piece};
pub use reason::{NoReason, Reason};
pub use reception::{Hole, Holes, Reception, LONGEST};
pub use request::{Asks, Request, Requests};
