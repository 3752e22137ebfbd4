//! Taking one line of a thread whose case is being built.

use super::case::{refuse_if, Refusal};
use super::encode::{guard_name, operand_names, target_name};
use super::record::Record;
use menduvo::{Taken, NAMES};

/// The line's copies are those that were held before it; then it is held for its target.
pub fn take(globals: u16, mutexes: u16, number: u16, fields: &[u16; 8], held: &mut [u16; NAMES]) -> Result<Taken, Refusal> {
    refuse_if(globals > 8 || mutexes > 4, 4)?;
    refuse_if(!(1..=256).contains(&number), 6)?;
    let record = Record::of(fields);
    if !record.keeps_the_rules(globals, mutexes) {
        return Err(Refusal { number: 9, place: number });
    }
    let (a, b) = operand_names(&record);
    let target = target_name(&record, usize::from(globals));
    // What stands for no name is the place after the last one.
    let copy = |name: usize| held.get(name).copied().unwrap_or(0);
    let copies = Taken::Copies { guard: copy(guard_name(&record)), a: copy(a), b: copy(b), target: copy(target) };
    if let Some(latest) = held.get_mut(target) {
        *latest = number;
    }
    Ok(copies)
}
