//! The two sides that are measured, under one set of names: the proved library and plain Rust.
use crate::plain;
use thoweldeck::boundary::{self, EntryTold, HeaderTold, Second, Wanted};
use thoweldeck::Reason;

/// What both sides can do, as in `thoweldeck::boundary`.
pub trait Side {
    /// The remainder of all bytes.
    fn remainder(bytes: &[u8]) -> u16;
    /// Opens a reception.
    fn open(length: u32, map: &mut [u8], buffer: &mut [u8]) -> Result<(), Reason>;
    /// Takes a frame into a reception.
    fn take(
        number: u32,
        length: u32,
        map: &mut [u8],
        buffer: &mut [u8],
        frame: &[u8],
        new: &mut u32,
    ) -> Result<(), Reason>;
    /// Joins a second reception into a first.
    fn join(
        number: u32,
        length: u32,
        map: &mut [u8],
        buffer: &mut [u8],
        second: Second<'_>,
        new: &mut u32,
    ) -> Result<(), Reason>;
    /// Tells the first hole from a place on.
    fn list(length: u32, map: &[u8], place: u32, start: &mut u32, size: &mut u32) -> Result<(), Reason>;
    /// Writes a reception as a record.
    fn save(
        number: u32,
        length: u32,
        map: &[u8],
        buffer: &[u8],
        target: &mut [u8],
        size: &mut usize,
    ) -> Result<(), Reason>;
    /// Loads a record.
    fn load(saved: &[u8], map: &mut [u8], buffer: &mut [u8], number: &mut u32, length: &mut u32) -> Result<(), Reason>;
    /// Writes a request for the holes from a place on.
    fn write_fill(
        wanted: Wanted<'_>,
        place: u32,
        target: &mut [u8],
        count: &mut u32,
        end: &mut u32,
    ) -> Result<(), Reason>;
    /// Reads a directory entry with all values of its header.
    fn entry(frame: &[u8], told: &mut EntryTold, header: &mut HeaderTold) -> Result<(), Reason>;
}

/// The proved library.
pub struct Library;

/// Plain Rust.
pub struct Plain;

/// Hands every operation of a side to the functions of a module.
macro_rules! side {
    ($side:ident, $module:ident) => {
        impl Side for $side {
            fn remainder(bytes: &[u8]) -> u16 {
                $module::remainder(bytes)
            }
            fn open(length: u32, map: &mut [u8], buffer: &mut [u8]) -> Result<(), Reason> {
                $module::open(length, map, buffer)
            }
            fn take(
                number: u32,
                length: u32,
                map: &mut [u8],
                buffer: &mut [u8],
                frame: &[u8],
                new: &mut u32,
            ) -> Result<(), Reason> {
                $module::take(number, length, map, buffer, frame, new)
            }
            fn join(
                number: u32,
                length: u32,
                map: &mut [u8],
                buffer: &mut [u8],
                second: Second<'_>,
                new: &mut u32,
            ) -> Result<(), Reason> {
                $module::join(number, length, map, buffer, second, new)
            }
            fn list(length: u32, map: &[u8], place: u32, start: &mut u32, size: &mut u32) -> Result<(), Reason> {
                $module::list(length, map, place, start, size)
            }
            fn save(
                number: u32,
                length: u32,
                map: &[u8],
                buffer: &[u8],
                target: &mut [u8],
                size: &mut usize,
            ) -> Result<(), Reason> {
                $module::save(number, length, map, buffer, target, size)
            }
            fn load(
                saved: &[u8],
                map: &mut [u8],
                buffer: &mut [u8],
                number: &mut u32,
                length: &mut u32,
            ) -> Result<(), Reason> {
                $module::load(saved, map, buffer, number, length)
            }
            fn write_fill(
                wanted: Wanted<'_>,
                place: u32,
                target: &mut [u8],
                count: &mut u32,
                end: &mut u32,
            ) -> Result<(), Reason> {
                $module::write_fill(wanted, place, target, count, end)
            }
            fn entry(frame: &[u8], told: &mut EntryTold, header: &mut HeaderTold) -> Result<(), Reason> {
                $module::entry(frame, told, header)
            }
        }
    };
}

side!(Library, boundary);
side!(Plain, plain);

/// Hands on a value of which the compiler may know nothing, so that no call is moved or left out.
pub fn black_box<T: Copy>(value: T) -> T {
    // sound: a value on the stack is read, and a value that is Copy may be there twice
    unsafe { std::ptr::read_volatile(&value) }
}
