//! A run by hand: each next line is of the thread that is picked. It goes from block to block as a schedule does, round robin,
//! and has a schedule wherever it stops. What it shows is the display's own walk; what it comes to is the library's word.

use crate::case::{Case, Kind, Record};
use crate::walk::{is_cut_off, Event, Machine, Step, Walk};
use crate::words::{count, enumeration};

#[derive(Clone)]
pub struct ByHand<'a> {
    case: &'a Case,
    pub machine: Machine<'a>,
    /// The block that is open. It may have no line yet.
    pub block: usize,
    pub lengths: Vec<u16>,
    pub steps: Vec<Step>,
}

impl<'a> ByHand<'a> {
    pub fn new(case: &'a Case) -> ByHand<'a> {
        let machine = Machine::new(case, vec![0; case.inputs().len()]);
        ByHand { case, machine, block: 0, lengths: vec![0; case.switches + 1], steps: Vec::new() }
    }

    /// The block in which the thread's next line runs: the open one where it is the thread's, or else its first after that.
    pub fn turn(&self, thread: usize) -> Option<usize> {
        (self.block..=self.case.switches).find(|&block| self.case.thread_of_block(block) == thread)
    }

    /// The thread's next line, and its block; or why it cannot run.
    pub fn next(&self, thread: usize) -> Result<(&'a Record, usize), String> {
        if thread >= self.case.threads {
            let threads: Vec<usize> = (0..self.case.threads).collect();
            return Err(format!("there is no thread {thread}; the threads are {}", enumeration(&threads)));
        }
        if is_cut_off(&self.steps) {
            return Err("the run is cut off, so no line can run; 'undo' goes back".to_string());
        }
        let &record = self.machine.left(thread).first().ok_or_else(|| is_done(thread))?;
        match self.turn(thread) {
            Some(block) => Ok((self.case.record(record), block)),
            None => Err(format!(
                "thread {thread} has no block left: with {} the last is block {}, and this is block {}; 'undo' goes back",
                count(self.case.switches, "switch", "switches"),
                self.case.switches,
                self.block
            )),
        }
    }

    /// Whether a line takes a value of the schedule. An input line that is skipped takes none, and has 0 there.
    pub fn takes_value(&self, record: &Record) -> bool {
        record.kind == Kind::Input && self.machine.guard_is_true(record)
    }

    /// Runs the thread's next line, with this value where it takes one.
    pub fn run(&mut self, thread: usize, value: u16) -> Result<Step, String> {
        let (record, block) = self.next(thread)?;
        if self.takes_value(record) {
            let place = self.case.inputs().iter().position(|&input| input == record.number);
            place.into_iter().for_each(|place| self.machine.inputs[place] = value);
        }
        let step = self.machine.step(block).ok_or_else(|| is_done(thread))?;
        self.block = block;
        self.lengths[block] += 1;
        self.steps.push(step.clone());
        Ok(step)
    }

    /// Ends the open block, so that a later one of the same thread can be used.
    pub fn switch(&mut self) -> Result<(), String> {
        if is_cut_off(&self.steps) {
            return Err("the run is cut off; 'undo' goes back".to_string());
        }
        if self.block == self.case.switches {
            return Err(format!("no switch is left: block {} is the last", self.block));
        }
        self.block += 1;
        Ok(())
    }

    /// The schedule of the run so far: every thread stops where it is.
    pub fn schedule(&self) -> Vec<u16> {
        [self.lengths.clone(), self.machine.inputs.clone()].concat()
    }

    /// Whether no line can run any more, in whatever block.
    pub fn is_over(&self) -> bool {
        is_cut_off(&self.steps) || (0..self.case.threads).all(|thread| self.machine.left(thread).is_empty())
    }

    /// Whether the thread's next line can run, and does not cut the run off. No input's value has a say in it.
    pub fn goes_on(&self, thread: usize) -> bool {
        let block = self.next(thread).map(|(_, block)| block);
        let step = block.ok().and_then(|block| self.machine.clone().step(block));
        step.is_some_and(|step| !matches!(step.event, Event::CutOff(_)))
    }

    /// The steps so far as a walk, to be compared with the library.
    pub fn walk(&self) -> Walk {
        Walk::of(self.case, self.steps.clone())
    }
}

fn is_done(thread: usize) -> String {
    format!("thread {thread} has run all its lines")
}
