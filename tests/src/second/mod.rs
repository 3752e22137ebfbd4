//! The second implementation: accept, encode, check, decode, replay, fill, listing
//! and taking a line, written from documents 01 and 02 alone and kept as plain as
//! can be; and the constraints as text, written from `docs/SMT-TEXT.md` as well.

mod case;
mod check;
mod decode;
mod encode;
mod fill;
mod listing;
mod read;
mod replay;
mod smt;
pub mod source;
mod take;
mod wrong;

pub use wrong::Wrong;

use crate::calls::{Calls, Checked, Decoded, Encoded, Filled, Listed, Refusal, Replayed, Spelled, Taken, Verdict};
use case::Case;
use check::Assigned;
use fill::Ran;
use read::{read, refusal};
use replay::Machine;
use take::{Handed, Held};

/// The second implementation, with at most one deliberate mistake.
pub struct Second {
    pub wrong: Wrong,
}

/// The second implementation as it should be.
pub const RIGHT: Second = Second { wrong: Wrong::Nothing };

pub fn accept(case: &[u8]) -> Verdict {
    RIGHT.accept(case)
}

pub fn encode(case: &[u8], table: &mut [u16]) -> Encoded {
    RIGHT.encode(case, table)
}

pub fn check(case: &[u8], assignment: &[u16]) -> Checked {
    RIGHT.check(case, assignment)
}

pub fn decode(case: &[u8], assignment: &[u16], schedule: &mut [u16]) -> Decoded {
    RIGHT.decode(case, assignment, schedule)
}

pub fn replay(case: &[u8], schedule: &[u16], items: &mut [u16]) -> Replayed {
    RIGHT.replay(case, schedule, items)
}

pub fn fill(case: &[u8], schedule: &[u16], assignment: &mut [u16]) -> Filled {
    RIGHT.fill(case, schedule, assignment)
}

pub fn listing(case: &[u8], text: &mut [u8]) -> Listed {
    RIGHT.listing(case, text)
}

pub fn smt_length(case: &[u8]) -> Spelled {
    RIGHT.smt_length(case)
}

pub fn smt_text(case: &[u8], text: &mut [u8]) -> Spelled {
    RIGHT.smt_text(case, text)
}

pub fn take_line(globals: u16, mutexes: u16, number: u16, record: &[u16; 8], held: &mut Held) -> Taken {
    RIGHT.take_line(globals, mutexes, number, record, held)
}

impl Calls for Second {
    fn accept(&self, case: &[u8]) -> Verdict {
        read(case, self.wrong).map_or_else(Verdict::from, |_| Verdict::Accepted)
    }

    fn encode(&self, case: &[u8], table: &mut [u16]) -> Encoded {
        self.try_encode(case, table).unwrap_or_else(Encoded::from)
    }

    fn check(&self, case: &[u8], assignment: &[u16]) -> Checked {
        self.try_check(case, assignment).unwrap_or_else(Checked::from)
    }

    fn decode(&self, case: &[u8], assignment: &[u16], schedule: &mut [u16]) -> Decoded {
        self.try_decode(case, assignment, schedule).unwrap_or_else(Decoded::from)
    }

    fn replay(&self, case: &[u8], schedule: &[u16], items: &mut [u16]) -> Replayed {
        self.try_replay(case, schedule, items).unwrap_or_else(Replayed::from)
    }

    fn fill(&self, case: &[u8], schedule: &[u16], assignment: &mut [u16]) -> Filled {
        self.try_fill(case, schedule, assignment).unwrap_or_else(Filled::from)
    }

    fn listing(&self, case: &[u8], text: &mut [u8]) -> Listed {
        self.try_listing(case, text).unwrap_or_else(Listed::from)
    }

    fn smt_length(&self, case: &[u8]) -> Spelled {
        self.spelled(case).map_or_else(Spelled::from, |text| Spelled::Text { bytes: text.len() })
    }

    fn smt_text(&self, case: &[u8], text: &mut [u8]) -> Spelled {
        self.try_smt_text(case, text).unwrap_or_else(Spelled::from)
    }

    fn take_line(&self, globals: u16, mutexes: u16, number: u16, record: &[u16; 8], held: &mut Held) -> Taken {
        let handed = Handed::new(globals, mutexes, number, record, self.wrong);
        handed.take(held).unwrap_or_else(Taken::from)
    }
}

impl Second {
    fn try_encode(&self, bytes: &[u8], table: &mut [u16]) -> Result<Encoded, Refusal> {
        let case = read(bytes, self.wrong)?;
        let rows = encode::rows(&case);
        room_for(6 * rows.len(), table)?;
        self.write(&rows.concat(), table);
        Ok(Encoded::Table { constraints: rows.len() as u16, variables: case.variables() as u16 })
    }

    fn try_check(&self, bytes: &[u8], assignment: &[u16]) -> Result<Checked, Refusal> {
        let case = read(bytes, self.wrong)?;
        fits_variables(&case, assignment)?;
        let assigned = Assigned { case: &case, rows: &encode::rows(&case), numbers: assignment };
        let failed = assigned.first_failed();
        Ok(failed.map_or(Checked::Meets, Checked::Fails))
    }

    fn try_decode(&self, bytes: &[u8], assignment: &[u16], schedule: &mut [u16]) -> Result<Decoded, Refusal> {
        let case = read(bytes, self.wrong)?;
        if self.wrong == Wrong::LengthBeforeRoom {
            fits_variables(&case, assignment)?;
        }
        room_for(case.schedule_numbers(), schedule)?;
        fits_variables(&case, assignment)?;
        let assigned = Assigned { case: &case, rows: &encode::rows(&case), numbers: assignment };
        if let Some(place) = assigned.first_failed() {
            return Err(Refusal { number: 15, place });
        }
        let decoded = decode::schedule(&assigned);
        self.write(&decoded, schedule);
        Ok(Decoded::Schedule { numbers: decoded.len() as u16 })
    }

    fn try_replay(&self, bytes: &[u8], schedule: &[u16], items: &mut [u16]) -> Result<Replayed, Refusal> {
        let case = read(bytes, self.wrong)?;
        room_for(case.items(), items)?;
        fits_blocks_and_inputs(&case, schedule)?;
        block_lengths_fit(&case, schedule)?;
        if self.wrong == Wrong::LateRefused && Ran::of(&case, schedule).first_late().is_some() {
            return Err(refusal(13));
        }
        let mut machine = Machine::new(&case, schedule);
        let stop = machine.run();
        let answer = machine.answer(stop);
        if answer.is_ok() || self.wrong == Wrong::WritesThoughRefused {
            self.write(&machine.items(), items);
        }
        answer
    }

    fn try_fill(&self, bytes: &[u8], schedule: &[u16], assignment: &mut [u16]) -> Result<Filled, Refusal> {
        let case = read(bytes, self.wrong)?;
        if self.wrong == Wrong::LengthBeforeRoom {
            fits_blocks_and_inputs(&case, schedule)?;
        }
        room_for(case.variables(), assignment)?;
        fits_blocks_and_inputs(&case, schedule)?;
        block_lengths_fit(&case, schedule)?;
        let ran = Ran::of(&case, schedule);
        if self.wrong == Wrong::WrittenBeforeKnown {
            self.write(&ran.assignment(), assignment);
        }
        ran.refuse()?;
        let filled = ran.assignment();
        self.write(&filled, assignment);
        Ok(Filled::Assignment { numbers: filled.len() as u16 })
    }

    /// A refused case is no refusal of this call: its line is the text.
    fn try_listing(&self, bytes: &[u8], output: &mut [u8]) -> Result<Listed, Refusal> {
        let text = match read(bytes, self.wrong) {
            Ok(case) => listing::of_table(&encode::rows(&case), case.variables()),
            Err(refusal) => listing::of_refusal(refusal, self.wrong),
        };
        let text = text.as_bytes();
        if self.wrong == Wrong::WritesThoughShort && output.len() + 1 == text.len() {
            self.write(&text[..output.len()], output);
        }
        room_for(text.len(), output)?;
        self.write(text, output);
        Ok(Listed::Text { bytes: text.len() as u16 })
    }

    /// The text of a case, as `docs/SMT-TEXT.md` has it.
    fn spelled(&self, bytes: &[u8]) -> Result<String, Refusal> {
        let case = read(bytes, self.wrong)?;
        Ok(smt::text(&case, &encode::rows(&case)))
    }

    fn try_smt_text(&self, bytes: &[u8], output: &mut [u8]) -> Result<Spelled, Refusal> {
        let text = self.spelled(bytes)?;
        let text = text.as_bytes();
        if self.wrong == Wrong::WritesThoughShort && output.len() + 1 == text.len() {
            self.write(&text[..output.len()], output);
        }
        room_for(text.len(), output)?;
        self.write(text, output);
        Ok(Spelled::Text { bytes: text.len() })
    }

    /// "An output slice is written from its start; numbers beyond the result
    /// keep their values."
    fn write<T: Copy + Default>(&self, result: &[T], output: &mut [T]) {
        let (start, tail) = output.split_at_mut(result.len());
        start.copy_from_slice(result);
        if self.wrong == Wrong::ClearsTheTail {
            tail.fill(T::default());
        }
    }
}

/// "10. An output slice is shorter than what would be written", measured
/// against what would be written if nothing else refused.
fn room_for<T>(needed: usize, output: &[T]) -> Result<(), Refusal> {
    if output.len() < needed {
        return Err(refusal(10));
    }
    Ok(())
}

/// "11. The assignment does not have exactly 2R + n × (G + M) numbers."
fn fits_variables(case: &Case, assignment: &[u16]) -> Result<(), Refusal> {
    if assignment.len() != case.variables() {
        return Err(refusal(11));
    }
    Ok(())
}

/// "12. The schedule does not have exactly n + 1 numbers and one for each
/// input line."
fn fits_blocks_and_inputs(case: &Case, schedule: &[u16]) -> Result<(), Refusal> {
    if schedule.len() != case.schedule_numbers() {
        return Err(refusal(12));
    }
    Ok(())
}

/// "Block lengths may add up to less than a thread's lines, so refusal 13 is
/// only for more." The sum is a number as on paper: it does not wrap at 65,536.
fn block_lengths_fit(case: &Case, schedule: &[u16]) -> Result<(), Refusal> {
    let mut sums = vec![0u32; case.threads];
    for block in 0..=case.switches {
        sums[case.thread_of_block(block)] += u32::from(schedule[block]);
    }
    if case.wrong == Wrong::LengthsWrap {
        sums.iter_mut().for_each(|sum| *sum %= 65_536);
    }
    let fits = |lines: u32, sum: u32| match case.wrong {
        Wrong::NoThreadStops => sum == lines,
        Wrong::MoreThanLines => true,
        _ => sum <= lines,
    };
    let mut threads = case.chains.iter().zip(sums);
    if !threads.all(|(chain, sum)| fits(chain.len() as u32, sum)) {
        return Err(refusal(13));
    }
    Ok(())
}
