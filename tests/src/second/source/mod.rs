//! The second implementation of the source language, written from
//! docs/SOURCE.md alone; quotations are from it.

mod make;
mod names;
mod print;
mod statement;
mod words;

pub use make::make;
pub use names::Names;

use super::read::read;
use super::Wrong;

/// "a line and column, from 1, in characters (the byte-order mark is none)"
#[derive(Clone, Copy, Debug, Default, PartialEq, Eq)]
pub struct Place {
    pub line: usize,
    pub column: usize,
}

/// Why there is no case.
#[derive(Clone, Copy, Debug, PartialEq, Eq)]
pub enum Fault {
    /// The file is empty, no text, or has control characters.
    NoSource,
    At(Place),
}

/// The source of an accepted case, with plain names if it has no others; none
/// if the case is refused.
pub fn source(case: &[u8], names: Option<&Names>, wrong: Wrong) -> Option<String> {
    let case = read(case, wrong).ok()?;
    let plain = Names::plain(case.globals, case.mutexes, case.threads);
    Some(print::print(&case, names.unwrap_or(&plain)))
}
