//! The C interface of `bindings/menduvo.h`, and all unsafe code of this repository.

use crate::{Refusal, Taken, NAMES};
use std::fmt::Debug;

/// An answer in the document's numbers, as C has it.
#[repr(C)]
#[derive(Clone, Copy, Debug)]
pub struct Numbers {
    pub refusal: u16,
    pub place: u16,
    pub answer: u16,
    pub first: u16,
    pub second: u16,
}

/// An answer about the text of a case, as C has it.
#[repr(C)]
#[derive(Clone, Copy, Debug)]
pub struct TextNumbers {
    pub refusal: u16,
    pub place: u16,
    pub bytes: usize,
}

/// An answer about one line, as C has it.
#[repr(C)]
#[derive(Clone, Copy, Debug)]
pub struct Copies {
    pub refusal: u16,
    pub place: u16,
    pub guard: u16,
    pub a: u16,
    pub b: u16,
    pub target: u16,
}

unsafe extern "C" {
    fn menduvo_accept(case: *const u8, case_len: usize) -> Numbers;
    fn menduvo_encode(case: *const u8, case_len: usize, table: *mut u16, table_len: usize) -> Numbers;
    fn menduvo_check(case: *const u8, case_len: usize, assignment: *const u16, assignment_len: usize) -> Numbers;
    fn menduvo_decode(
        case: *const u8,
        case_len: usize,
        assignment: *const u16,
        assignment_len: usize,
        schedule: *mut u16,
        schedule_len: usize,
    ) -> Numbers;
    fn menduvo_replay(
        case: *const u8,
        case_len: usize,
        schedule: *const u16,
        schedule_len: usize,
        items: *mut u16,
        items_len: usize,
    ) -> Numbers;
    fn menduvo_fill(
        case: *const u8,
        case_len: usize,
        schedule: *const u16,
        schedule_len: usize,
        assignment: *mut u16,
        assignment_len: usize,
    ) -> Numbers;
    fn menduvo_listing(case: *const u8, case_len: usize, text: *mut u8, text_len: usize) -> Numbers;
    fn menduvo_smt_length(case: *const u8, case_len: usize) -> TextNumbers;
    fn menduvo_smt_text(case: *const u8, case_len: usize, text: *mut u8, text_len: usize) -> TextNumbers;
    fn menduvo_take_line(globals: u16, mutexes: u16, number: u16, record: *const u16, held: *mut u16) -> Copies;
}

// SAFETY, of every call below: each pointer and its length are those of one slice, which is lent until the call returns and
// which Rust keeps aligned and not null, also where it is empty. A pointer without a length is that of an array with as many
// elements as the header says. A slice that is written is lent as mutable, so no other slice overlaps it. The library reads and
// writes within the slices and keeps no pointer.

pub fn accept(case: &[u8]) -> Numbers {
    unsafe { menduvo_accept(case.as_ptr(), case.len()) }
}

pub fn encode(case: &[u8], table: &mut [u16]) -> Numbers {
    unsafe { menduvo_encode(case.as_ptr(), case.len(), table.as_mut_ptr(), table.len()) }
}

pub fn check(case: &[u8], assignment: &[u16]) -> Numbers {
    unsafe { menduvo_check(case.as_ptr(), case.len(), assignment.as_ptr(), assignment.len()) }
}

pub fn decode(case: &[u8], assignment: &[u16], schedule: &mut [u16]) -> Numbers {
    unsafe {
        menduvo_decode(case.as_ptr(), case.len(), assignment.as_ptr(), assignment.len(), schedule.as_mut_ptr(), schedule.len())
    }
}

pub fn replay(case: &[u8], schedule: &[u16], items: &mut [u16]) -> Numbers {
    unsafe { menduvo_replay(case.as_ptr(), case.len(), schedule.as_ptr(), schedule.len(), items.as_mut_ptr(), items.len()) }
}

pub fn fill(case: &[u8], schedule: &[u16], assignment: &mut [u16]) -> Numbers {
    unsafe {
        menduvo_fill(case.as_ptr(), case.len(), schedule.as_ptr(), schedule.len(), assignment.as_mut_ptr(), assignment.len())
    }
}

pub fn listing(case: &[u8], text: &mut [u8]) -> Numbers {
    unsafe { menduvo_listing(case.as_ptr(), case.len(), text.as_mut_ptr(), text.len()) }
}

pub fn smt_length(case: &[u8]) -> TextNumbers {
    unsafe { menduvo_smt_length(case.as_ptr(), case.len()) }
}

pub fn smt_text(case: &[u8], text: &mut [u8]) -> TextNumbers {
    unsafe { menduvo_smt_text(case.as_ptr(), case.len(), text.as_mut_ptr(), text.len()) }
}

pub fn take_line(globals: u16, mutexes: u16, number: u16, record: &[u16; 8], held: &mut [u16; NAMES]) -> Copies {
    unsafe { menduvo_take_line(globals, mutexes, number, record.as_ptr(), held.as_mut_ptr()) }
}

/// The answer that the numbers stand for.
pub fn read<Answer>(
    numbers: Numbers,
    refused: impl FnOnce(u16, u16) -> Answer,
    answered: impl FnOnce(Numbers) -> Option<Answer>,
) -> Answer {
    let answer = match numbers {
        Numbers { refusal: 0, place: 0, .. } => answered(numbers),
        Numbers { refusal: 1..=17, answer: 0, first: 0, second: 0, .. } => Some(refused(numbers.refusal, numbers.place)),
        _ => None,
    };
    answer.unwrap_or_else(|| stand_for_none(&numbers))
}

/// How many bytes a text has, at most so many, or why there is none.
pub fn read_text(numbers: TextNumbers, most: usize) -> Result<usize, Refusal> {
    match numbers {
        TextNumbers { refusal: 0, place: 0, bytes } if bytes <= most => Ok(bytes),
        TextNumbers { refusal: number @ 1..=10, place, bytes: 0 } => Err(Refusal { number, place }),
        _ => stand_for_none(&numbers),
    }
}

/// The copies of the line with this record number, or why it was refused.
pub fn read_copies(copies: Copies, line: u16) -> Taken {
    match copies {
        Copies { refusal: 0, place: 0, guard, a, b, target } => Taken::Copies { guard, a, b, target },
        Copies { refusal: number @ (4 | 6), place: 0, guard: 0, a: 0, b: 0, target: 0 } => Taken::Refused { number, place: 0 },
        Copies { refusal: 9, place, guard: 0, a: 0, b: 0, target: 0 } if place == line => Taken::Refused { number: 9, place },
        _ => stand_for_none(&copies),
    }
}

/// Numbers that stand for no answer cannot come from the proved library: then something else was linked in its place, and nothing
/// that it says can be used.
fn stand_for_none(numbers: &dyn Debug) -> ! {
    panic!("libmenduvo.a gave numbers that stand for no answer, so it is not the proved library: {numbers:?}")
}
