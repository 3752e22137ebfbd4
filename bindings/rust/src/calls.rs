//! The ten calls: safe functions on slices.

use crate::library::{self, read, read_copies, read_text, Numbers};
use crate::{Checked, Decoded, Encoded, Filled, Listed, Refusal, Replayed, Taken, Verdict, NAMES};

/// Whether the other calls take this case. Refusals 1 to 9.
pub fn accept(case: &[u8]) -> Verdict {
    read(
        library::accept(case),
        |number, place| Verdict::Refused { number, place },
        |numbers| match numbers {
            Numbers { answer: 1, first: 0, second: 0, .. } => Some(Verdict::Accepted),
            _ => None,
        },
    )
}

/// Writes the constraints of the case to `table`, six numbers for each. Refusals 1 to 10.
pub fn encode(case: &[u8], table: &mut [u16]) -> Encoded {
    read(
        library::encode(case, table),
        |number, place| Encoded::Refused { number, place },
        |numbers| match numbers {
            Numbers { answer: 1, first, second, .. } => Some(Encoded::Table { constraints: first, variables: second }),
            _ => None,
        },
    )
}

/// Whether the assignment, one number for each variable, meets every constraint of the case. Refusals 1 to 9 and 11.
pub fn check(case: &[u8], assignment: &[u16]) -> Checked {
    read(
        library::check(case, assignment),
        |number, place| Checked::Refused { number, place },
        |numbers| match numbers {
            Numbers { answer: 1, first: 0, second: 0, .. } => Some(Checked::Meets),
            Numbers { answer: 2, first: 1.., second: 0, .. } => Some(Checked::Fails(numbers.first)),
            _ => None,
        },
    )
}

/// Writes the schedule that the assignment stands for: n + 1 block lengths, then a value for each input line, by thread and
/// then by chain. A line with block number n + 1 was not run, and counts in no block. Assignments that meet the constraints and the
/// violating schedules that keep the rule stand for each other, one for one: [`fill`] is the way back. A schedule keeps the rule when
/// no invisible line (compute, input, assert, assume) is run in a later block than the line before it in its thread. Refusals 1 to 11
/// and 15.
pub fn decode(case: &[u8], assignment: &[u16], schedule: &mut [u16]) -> Decoded {
    read(
        library::decode(case, assignment, schedule),
        |number, place| Decoded::Refused { number, place },
        |numbers| match numbers {
            Numbers { answer: 1, first, second: 0, .. } => Some(Decoded::Schedule { numbers: first }),
            _ => None,
        },
    )
}

/// Runs the schedule, and writes the items' values at the end of the run, or at the cut-off with the failed line not run:
/// globals first, then mutexes. A mutex has 0 where it is free, and t + 1 where thread t holds it. A thread whose block lengths add
/// up to less than its lines stops there; an input line that is not run has value 0. Every schedule is taken, whether it keeps the
/// rule of [`decode`] or not. Refusals 1 to 10 and 12 to 14.
pub fn replay(case: &[u8], schedule: &[u16], items: &mut [u16]) -> Replayed {
    read(
        library::replay(case, schedule, items),
        |number, place| Replayed::Refused { number, place },
        |numbers| match numbers {
            Numbers { answer: 1, first: 1.., second: 0, .. } => Some(Replayed::Violated(numbers.first)),
            Numbers { answer: 2, first: 0, second: 0, .. } => Some(Replayed::Clean),
            Numbers { answer: 3, first: 1.., second: 0, .. } => Some(Replayed::CutOff(numbers.first)),
            _ => None,
        },
    )
}

/// Writes the assignment that stands for the schedule: of each record its block number and its value, and then the items' values at
/// the end of each block but the last. A line that is not run has block number n + 1, and value 1 where it is an assert or an assume,
/// else 0. The schedule must violate, and keep the rule of [`decode`]. Decoding what is written gives the schedule back, and filling
/// what [`decode`] wrote gives the assignment back. Refusals 1 to 10, 12 to 14, where [`replay`] gives them too, then 16 and 17. A
/// schedule that violates and breaks the rule meets 17: with each such line in the block of the line before it, it is one that
/// violates too and is taken.
pub fn fill(case: &[u8], schedule: &[u16], assignment: &mut [u16]) -> Filled {
    read(
        library::fill(case, schedule, assignment),
        |number, place| Filled::Refused { number, place },
        |numbers| match numbers {
            Numbers { answer: 1, first, second: 0, .. } => Some(Filled::Assignment { numbers: first }),
            _ => None,
        },
    )
}

/// Writes the listing of the case, in ASCII: the counts of constraints and of variables, then one constraint a line. Of a case
/// that the other calls refuse it is one line with the number and place of the refusal. Refusal 10.
pub fn listing(case: &[u8], text: &mut [u8]) -> Listed {
    read(
        library::listing(case, text),
        |number, place| Listed::Refused { number, place },
        |numbers| match numbers {
            Numbers { answer: 1, first, second: 0, .. } => Some(Listed::Text { bytes: first }),
            _ => None,
        },
    )
}

/// How many bytes the SMT-LIB text of the case has: the room that [`smt_text`] needs. Refusals 1 to 9.
pub fn smt_length(case: &[u8]) -> Result<usize, Refusal> {
    read_text(library::smt_length(case), usize::MAX)
}

/// Writes the constraints of the case as SMT-LIB 2, logic QF_BV: the one text that `docs/SMT-TEXT.md` spells byte for byte, in
/// ASCII. The first assertion that an assignment makes false is the first constraint that it fails. The answer is how many bytes
/// were written. Refusals 1 to 10.
pub fn smt_text(case: &[u8], text: &mut [u8]) -> Result<usize, Refusal> {
    let numbers = library::smt_text(case, text);
    read_text(numbers, text.len())
}

/// Takes one more line of a thread, for a builder that makes the lines of a case as it goes: each thread's front to back, each line
/// once. It answers with the copies of the line's names before it, the four numbers that its constraint 4 has after the line.
///
/// `globals` and `mutexes` are G and M of the case that is built, `number` is the line's record number, and `record` has the eight
/// fields of its record: next, kind, guard, target, op, a, b, c. The field next is not looked at.
///
/// `held` has a record number for each name of the thread: local x at x, global g at 16 + g, mutex m at 16 + G + m. Each thread
/// has its own, all 0 before its first line. Afterwards it has `number` for the line's target, guarded or not, and is else as it
/// was. So after any line it has for each name the latest line up to there with this target, or 0, and after the thread's last
/// line, for each item, the last copy that the 6s have. What it has before is not tested.
///
/// Refusals 4 (G is over 8 or M over 4), then 6 (`number` is not 1 to 256), then 9 (the fields; the place is `number`).
pub fn take_line(globals: u16, mutexes: u16, number: u16, record: &[u16; 8], held: &mut [u16; NAMES]) -> Taken {
    read_copies(library::take_line(globals, mutexes, number, record, held), number)
}
