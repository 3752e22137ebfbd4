//! The assignment of a run, written down as it goes. The run is known to violate only at its end, so the numbers stand in a buffer
//! until then.

use super::case::{refuse_if, Case, Refusal};
use super::record::{ASSERT, ASSUME};
use super::replay::{run, Stop, Watch};

pub struct Filling<'a> {
    case: &'a Case<'a>,
    /// The block number and the value of each record.
    lines: [[u16; 2]; 256],
    /// The items' values where a block ended, and how many of these numbers there are.
    block_values: [u16; 15 * 12],
    ended: usize,
    /// For each thread its first line that is invisible and run in a later block than the line before it; 0 if there is none.
    late: [u16; 4],
}

impl<'a> Filling<'a> {
    /// Runs a schedule that checks 12 and 13 pass; then checks 14, 16 and 17.
    pub fn of(case: &'a Case, schedule: &[u16]) -> Result<Filling<'a>, Refusal> {
        let mut filling = Filling { case, lines: [[0; 2]; 256], block_values: [0; 15 * 12], ended: 0, late: [0; 4] };
        let run = run(case, schedule, &mut filling);
        if let Some(Stop::FalseInput(place)) = run.stop {
            return Err(Refusal { number: 14, place });
        }
        refuse_if(run.stop.is_some() || run.violation.is_none(), 16)?;
        if let Some(&place) = filling.late.iter().find(|&&line| line != 0) {
            return Err(Refusal { number: 17, place });
        }
        run.next_lines.iter().for_each(|&line| filling.leave_from(line));
        Ok(filling)
    }

    /// A line and those that follow in its thread were not run.
    fn leave_from(&mut self, line: u16) {
        for (line, record) in self.case.lines_from(line) {
            let value = u16::from(matches!(record.kind, ASSERT | ASSUME));
            self.lines[usize::from(line) - 1] = [self.case.unrun_block(), value];
        }
    }

    /// Writes the assignment to a slice of its length.
    pub fn write(&self, assignment: &mut [u16]) {
        let (lines, block_values) = assignment.split_at_mut(self.case.first_block_value());
        lines.copy_from_slice(self.lines[..self.case.records()].as_flattened());
        block_values.copy_from_slice(&self.block_values[..block_values.len()]);
    }
}

impl Watch for Filling<'_> {
    fn block_begins(&mut self, thread: usize, line: u16) {
        let is_later = line != self.case.first(thread) && !self.case.record(line).is_visible();
        if is_later && self.late[thread] == 0 {
            self.late[thread] = line;
        }
    }

    fn line_is_run(&mut self, line: u16, block: usize, value: impl FnOnce() -> u16) {
        self.lines[usize::from(line) - 1] = [block as u16, value()];
    }

    fn block_ends(&mut self, block: usize, items: &[u16; 12]) {
        if block < self.case.switches {
            let end = self.ended + self.case.items();
            self.block_values[self.ended..end].copy_from_slice(&items[..self.case.items()]);
            self.ended = end;
        }
    }
}
