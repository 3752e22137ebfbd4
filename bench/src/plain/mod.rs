//! The ten calls in plain Rust, for speed: what the proved library is measured against. Fixed-size arrays, ordinary checked
//! indexing, no unsafe code, no heap.
//!
//! The calls do what documents 01 and 02 ask of them, each by itself: checks 1 to 9 come first in every call on a case, and the
//! decoder checks its assignment. Their answers have the types of the bindings, so that they can be compared.

pub mod case;
mod check;
mod decode;
pub mod encode;
mod fill;
mod listing;
pub mod record;
mod replay;
mod smt;
mod take;

use case::{refuse_if, Case, Refusal};
use fill::Filling;
use menduvo::{Checked, Decoded, Encoded, Filled, Listed, Replayed, Taken, Verdict, NAMES};
use replay::Stop;

// A call of the library is never inlined, so none of these is.

#[inline(never)]
pub fn accept(case: &[u8]) -> Verdict {
    match Case::accept(case) {
        Ok(_) => Verdict::Accepted,
        Err(Refusal { number, place }) => Verdict::Refused { number, place },
    }
}

#[inline(never)]
pub fn encode(case: &[u8], table: &mut [u16]) -> Encoded {
    encoded(case, table).unwrap_or_else(|Refusal { number, place }| Encoded::Refused { number, place })
}

#[inline(never)]
pub fn check(case: &[u8], assignment: &[u16]) -> Checked {
    checked(case, assignment).unwrap_or_else(|Refusal { number, place }| Checked::Refused { number, place })
}

#[inline(never)]
pub fn decode(case: &[u8], assignment: &[u16], schedule: &mut [u16]) -> Decoded {
    decoded(case, assignment, schedule).unwrap_or_else(|Refusal { number, place }| Decoded::Refused { number, place })
}

#[inline(never)]
pub fn replay(case: &[u8], schedule: &[u16], items: &mut [u16]) -> Replayed {
    replayed(case, schedule, items).unwrap_or_else(|Refusal { number, place }| Replayed::Refused { number, place })
}

#[inline(never)]
pub fn fill(case: &[u8], schedule: &[u16], assignment: &mut [u16]) -> Filled {
    filled(case, schedule, assignment).unwrap_or_else(|Refusal { number, place }| Filled::Refused { number, place })
}

#[inline(never)]
pub fn listing(case: &[u8], text: &mut [u8]) -> Listed {
    listed(case, text).unwrap_or_else(|Refusal { number, place }| Listed::Refused { number, place })
}

#[inline(never)]
pub fn smt_length(case: &[u8]) -> Result<usize, menduvo::Refusal> {
    measured(case).map_err(|Refusal { number, place }| menduvo::Refusal { number, place })
}

#[inline(never)]
pub fn smt_text(case: &[u8], text: &mut [u8]) -> Result<usize, menduvo::Refusal> {
    texted(case, text).map_err(|Refusal { number, place }| menduvo::Refusal { number, place })
}

#[inline(never)]
pub fn take_line(globals: u16, mutexes: u16, number: u16, record: &[u16; 8], held: &mut [u16; NAMES]) -> Taken {
    let taken = take::take(globals, mutexes, number, record, held);
    taken.unwrap_or_else(|Refusal { number, place }| Taken::Refused { number, place })
}

fn encoded(case: &[u8], table: &mut [u16]) -> Result<Encoded, Refusal> {
    let case = Case::accept(case)?;
    let constraints = case.constraints();
    refuse_if(table.len() < 6 * constraints, 10)?;
    encode::write_table(&case, table);
    Ok(Encoded::Table { constraints: constraints as u16, variables: case.variables() as u16 })
}

fn checked(case: &[u8], assignment: &[u16]) -> Result<Checked, Refusal> {
    let case = Case::accept(case)?;
    refuse_if(assignment.len() != case.variables(), 11)?;
    Ok(match check::check(&case, assignment) {
        Ok(()) => Checked::Meets,
        Err(constraint) => Checked::Fails(constraint),
    })
}

fn decoded(case: &[u8], assignment: &[u16], schedule: &mut [u16]) -> Result<Decoded, Refusal> {
    let case = Case::accept(case)?;
    let numbers = case.schedule_numbers();
    refuse_if(schedule.len() < numbers, 10)?;
    refuse_if(assignment.len() != case.variables(), 11)?;
    check::check(&case, assignment).map_err(|place| Refusal { number: 15, place })?;
    decode::write_schedule(&case, assignment, &mut schedule[..numbers]);
    Ok(Decoded::Schedule { numbers: numbers as u16 })
}

fn replayed(case: &[u8], schedule: &[u16], items: &mut [u16]) -> Result<Replayed, Refusal> {
    let case = Case::accept(case)?;
    refuse_if(items.len() < case.items(), 10)?;
    refuse_if(schedule.len() != case.schedule_numbers(), 12)?;
    refuse_if(!replay::lengths_fit(&case, schedule), 13)?;
    let run = replay::run(&case, schedule, &mut ());
    if let Some(Stop::FalseInput(place)) = run.stop {
        return Err(Refusal { number: 14, place });
    }
    items[..case.items()].copy_from_slice(&run.items[..case.items()]);
    Ok(match (run.stop, run.violation) {
        (Some(Stop::CutOff(line)), _) => Replayed::CutOff(line),
        (_, Some(line)) => Replayed::Violated(line),
        _ => Replayed::Clean,
    })
}

fn filled(case: &[u8], schedule: &[u16], assignment: &mut [u16]) -> Result<Filled, Refusal> {
    let case = Case::accept(case)?;
    let numbers = case.variables();
    refuse_if(assignment.len() < numbers, 10)?;
    refuse_if(schedule.len() != case.schedule_numbers(), 12)?;
    refuse_if(!replay::lengths_fit(&case, schedule), 13)?;
    Filling::of(&case, schedule)?.write(&mut assignment[..numbers]);
    Ok(Filled::Assignment { numbers: numbers as u16 })
}

fn listed(case: &[u8], text: &mut [u8]) -> Result<Listed, Refusal> {
    let case = Case::accept(case);
    refuse_if(!listing::fits(&case, text.len()), 10)?;
    Ok(Listed::Text { bytes: listing::write_text(&case, text) as u16 })
}

fn measured(case: &[u8]) -> Result<usize, Refusal> {
    let case = Case::accept(case)?;
    Ok(smt::length(&case))
}

fn texted(case: &[u8], text: &mut [u8]) -> Result<usize, Refusal> {
    let case = Case::accept(case)?;
    let bytes = smt::length(&case);
    refuse_if(text.len() < bytes, 10)?;
    smt::write_text(&case, text);
    Ok(bytes)
}
