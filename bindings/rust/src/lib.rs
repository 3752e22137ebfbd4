//! Menduvo's proved calls, for Rust: safe functions on slices over the static library `libmenduvo.a`.
//!
//! What each call answers, and what it leaves in each slice that it is lent, is defined in `crates/model/specs` (`Accept`,
//! `Answers`, with what is filled in `Fill`, `Listing`, and of `take_line` `Taking`, with the walk itself in `Copies`) and
//! `crates/script/specs` (`Text`); the library is proved to give just that. This package passes the slices and reads the numbers
//! back into answers, which is not proved. It is the one place in this repository with unsafe code, and all of that stands in the
//! private module `library`: the declaration of the ten functions of C, which nothing checks against their source, and the ten
//! calls. The proof asks three rules of a caller: pointers are valid for their lengths, aligned, and a slice that is written overlaps
//! no other. Rust's slices keep them.
//!
//! A slice that is written is written from its start, and numbers beyond the result keep their values. A refused call alters
//! nothing. [`Refusal`] has what each refusal means, and what its place is.
//!
//! Every call panics where the linked library gives numbers that stand for no answer: then it is not the proved one.
//!
//! Without the feature `link`, which is there by default, the calls are left out and no library is needed: the answers' types,
//! what they say and the sizes are the same, for a program that only passes on or shows what another one was answered.
#![deny(unsafe_code)]

mod answers;
#[cfg(feature = "link")]
mod calls;
#[cfg(feature = "link")]
#[allow(unsafe_code)]
mod library;
mod refusal;

pub use answers::{Checked, Decoded, Encoded, Filled, Listed, Replayed, Taken, Verdict};
#[cfg(feature = "link")]
pub use calls::{accept, check, decode, encode, fill, listing, replay, smt_length, smt_text, take_line};
pub use refusal::Refusal;

/// The most bytes that an accepted case has.
pub const MOST_CASE_BYTES: usize = 4_128;
/// The most numbers that a table has, six for each constraint: a slice of so many is never refused with 10.
pub const MOST_TABLE_NUMBERS: usize = 8_742;
/// The most numbers that an assignment of an accepted case has: a slice of so many is never refused with 10.
pub const MOST_VARIABLES: usize = 692;
/// The most numbers that a schedule has: a slice of so many is never refused with 10.
pub const MOST_SCHEDULE_NUMBERS: usize = 272;
/// The most items, globals and mutexes together: a slice of so many is never refused with 10.
pub const MOST_ITEMS: usize = 12;
/// The most bytes that a listing has: a slice of so many is never refused with 10.
pub const MOST_LISTING_BYTES: usize = 52_464;
/// The most bytes that a text for solvers has: a slice of so many is never refused with 10.
pub const MOST_SMT_BYTES: usize = 2_000_000;
/// How many numbers are held for a thread, one for each name: 16 locals, 8 globals, 4 mutexes.
pub const NAMES: usize = 28;
