//! The schedule of an assignment that meets the constraints of an accepted case.

use super::case::Case;
use super::check::numbers_of;
use super::record::{COMPUTE, INPUT, LOAD};

/// Writes the schedule to a slice of its length.
pub fn write_schedule(case: &Case, assignment: &[u16], schedule: &mut [u16]) {
    let (lengths, inputs) = schedule.split_at_mut(case.switches + 1);
    let mut inputs = inputs.iter_mut();
    lengths.fill(0);
    for thread in 0..case.threads {
        let mut locals = [0; 16];
        for (line, record) in case.chain(thread) {
            let (block, value) = numbers_of(assignment, line);
            let was_run = case.was_run(block);
            if was_run {
                lengths[usize::from(block)] += 1;
            }
            if record.kind == INPUT {
                let input = inputs.next().expect("there is room for every input");
                *input = if was_run && record.guard_is_true(&locals) { value } else { 0 };
            }
            if matches!(record.kind, COMPUTE | LOAD | INPUT) {
                locals[usize::from(record.target)] = value;
            }
        }
    }
}
