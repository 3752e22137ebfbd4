//! From a schedule to the assignment that decodes to it. The machine that replays
//! runs it, and what stands for a line is what that line left.

use super::case::{Case, INPUT};
use super::read::refusal;
use super::replay::{Machine, Stop};
use super::wrong::Wrong;
use crate::calls::{Refusal, Replayed};

/// A schedule that refusals 12 and 13 do not meet, and its run.
pub struct Ran<'a> {
    case: &'a Case,
    machine: Machine<'a>,
    stop: Option<Stop>,
}

impl<'a> Ran<'a> {
    pub fn of(case: &'a Case, schedule: &'a [u16]) -> Self {
        let mut machine = Machine::new(case, schedule);
        let stop = machine.run();
        Ran { case, machine, stop }
    }

    /// What the replayer refuses with 14 comes first. "It refuses with 16, place 0, a
    /// schedule whose run does not violate, and then with 17 one that runs an invisible
    /// line in a later block than the line before it".
    pub fn refuse(&self) -> Result<(), Refusal> {
        if self.case.wrong == Wrong::LateBeforeClean {
            self.refuse_late()?;
        }
        let violates = match self.answer()? {
            Replayed::Violated(_) => true,
            Replayed::Clean => self.case.wrong == Wrong::CleanIsFilled,
            _ => self.case.wrong == Wrong::CutOffIsFilled,
        };
        if !violates {
            return Err(refusal(16));
        }
        self.refuse_late()
    }

    /// What the replayer says of it.
    fn answer(&self) -> Result<Replayed, Refusal> {
        let is_stray_left = matches!(self.stop, Some(Stop::StrayInput(_))) && self.machine.is_done();
        match self.case.wrong {
            Wrong::UnrunInputCopied if is_stray_left => self.machine.answer(None),
            Wrong::StrayAfterClean if is_stray_left && self.machine.violation().is_none() => Ok(Replayed::Clean),
            _ => self.machine.answer(self.stop),
        }
    }

    fn refuse_late(&self) -> Result<(), Refusal> {
        self.first_late().map_or(Ok(()), |place| Err(Refusal { number: 17, place }))
    }

    /// "place the first such record by thread and chain"
    pub fn first_late(&self) -> Option<u16> {
        let pairs = self.case.chains.iter().flat_map(|chain| chain.windows(2));
        let mut late: Vec<(u16, u16)> = pairs.map(|pair| (pair[0], pair[1])).filter(|&pair| self.is_late(pair)).collect();
        match self.case.wrong {
            Wrong::LateByRun => late.sort_by_key(|&(_, line)| self.machine.steps.iter().position(|step| step.line == line)),
            Wrong::LateByRecord => late.sort_by_key(|&(_, line)| line),
            _ => {}
        }
        let &(before, line) = late.first()?;
        Some(if self.case.wrong == Wrong::LineBeforeNamed { before } else { line })
    }

    /// Whether the second of two lines that follow each other is run, "in a later
    /// block than the line before it", and no other thread sees it.
    fn is_late(&self, (before, line): (u16, u16)) -> bool {
        let (Some(block_before), Some(block)) = (self.block(before), self.block(line)) else { return false };
        let is_seen = self.case.is_visible(line) && self.case.wrong != Wrong::VisibleLate;
        block > block_before && !is_seen
    }

    fn block(&self, line: u16) -> Option<u16> {
        let step = self.machine.steps.iter().find(|step| step.line == line);
        let unrun = (self.case.wrong == Wrong::UnrunLate).then_some(self.case.unrun_block());
        step.map(|step| step.block).or(unrun)
    }

    /// For each record its block number and its value, then the block values: what
    /// the items have where block i ends, "0 ≤ i < n".
    pub fn assignment(&self) -> Vec<u16> {
        let case = self.case;
        let records = (1..=case.records.len() as u16).flat_map(|line| self.unrun_numbers(line));
        let mut numbers: Vec<u16> = records.collect();
        for step in &self.machine.steps {
            let place = 2 * (usize::from(step.line) - 1);
            numbers[place] = step.block;
            numbers[place + 1] = step.value;
        }
        let at_start = (0..case.items()).map(|item| case.initial_value(item)).collect();
        let late = (case.wrong == Wrong::BlockValuesLate).then_some(&at_start);
        let block_values = late.into_iter().chain(&self.machine.block_ends).take(case.switches);
        numbers.extend(block_values.flatten());
        numbers
    }

    /// "A line with block number n + 1 was not run [...], and the value is 0, or 1
    /// for assert and assume."
    fn unrun_numbers(&self, line: u16) -> [u16; 2] {
        let case = self.case;
        let record = case.record(line);
        match case.wrong {
            Wrong::UnrunInBlockN => [case.switches as u16, case.unrun_value(record)],
            Wrong::UnrunFilledWith0 => [case.unrun_block(), 0],
            Wrong::UnrunInputCopied if record.kind == INPUT => [case.unrun_block(), self.machine.input_value(line)],
            _ => [case.unrun_block(), case.unrun_value(record)],
        }
    }
}
