//! The refusals in words. `bindings/menduvo.h` has the same words for C.

use std::error::Error;
use std::fmt::{self, Display, Formatter};

/// Why a call was refused, as the variant `Refused` of an answer has it, or the `Err` of the calls on a case's text: the number, 1
/// to 17, and the place, which is 0 but for 9, 14 and 17 (a record) and 15 (a constraint), each counted from 1.
#[derive(Clone, Copy, Debug, PartialEq, Eq)]
pub struct Refusal {
    pub number: u16,
    pub place: u16,
}

impl Refusal {
    /// What the number means.
    pub fn meaning(self) -> &'static str {
        match self.number {
            1 => "the case is not 32 + 16R bytes with R from 0 to 256",
            2 => "T, the number of threads, is outside 2 to 4",
            3 => "n, the number of switches, is over 15",
            4 => "G, the number of globals, is over 8, or M, the number of mutexes, is over 4",
            5 => "a header field of an absent thread or global is not 0",
            6 => "a first or next number is over R, or a record is reached twice",
            7 => "a record is in no chain",
            8 => "a thread has over 64 lines",
            9 => "a record breaks the rules of its fields (the place is the lowest such record)",
            10 => "an output slice is shorter than what would be written",
            11 => "the assignment does not have exactly 2R + n x (G + M) numbers",
            12 => "the schedule does not have exactly n + 1 numbers and one for each input line",
            13 => "the block lengths of some thread add up to more than its lines",
            14 => "an input line with a false guard, or not run, has a value other than 0 (the place is that record)",
            15 => "the assignment fails (the place is the first failed constraint, from 1)",
            16 => "the run of the schedule does not violate (it is clean, or cut off)",
            17 => {
                "the schedule runs an invisible line in a later block than the line before it (the place is the first such record, \
                 by thread and chain)"
            }
            _ => "no refusal has this number",
        }
    }
}

impl Display for Refusal {
    fn fmt(&self, to: &mut Formatter) -> fmt::Result {
        write!(to, "refusal {}, place {}: {}", self.number, self.place, self.meaning())
    }
}

impl Error for Refusal {}
