//! The command `thoweldeck`, run as a user runs it: what it prints, its exit status, and what it leaves in files.
mod bits;
mod dumps;
mod escapes;
mod explaining;
mod explaining_records;
mod inputs;
mod losing;
mod page;
mod records;
mod room;
mod saving;
mod taking;
mod words;
