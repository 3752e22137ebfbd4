//! "The run of a schedule is what this machine does. It is fed the case and
//! the schedule and knows nothing else."

use super::case::{Case, Name, Record, ASSERT, ASSUME, COMPUTE, INPUT, LOAD, LOCK, STORE, UNLOCK};
use super::wrong::Wrong;
use crate::calls::{Refusal, Replayed};

/// What a run ends with, where it does not end well.
#[derive(Clone, Copy)]
pub enum Stop {
    /// "an assume that is zero or a lock whose mutex is not 0 ends the run"
    CutOff(u16),
    /// "an input's schedule value must be 0 (else refusal 14)", of one with a
    /// false guard and of one that was not run
    StrayInput(u16),
}

/// "It holds for each thread its next line, at first the thread's first
/// record, and 16 locals at 0".
struct Thread {
    next_line: u16,
    locals: [u16; 16],
}

/// A line that was run, its block, and what stands for it in an assignment.
pub struct Step {
    pub line: u16,
    pub block: u16,
    pub value: u16,
}

pub struct Machine<'a> {
    case: &'a Case,
    schedule: &'a [u16],
    threads: Vec<Thread>,
    /// "globals are at their initial values and mutexes at 0"
    globals: Vec<u16>,
    mutexes: Vec<u16>,
    /// The lines that violate, in running order.
    violations: Vec<u16>,
    /// All lines that were run, in running order.
    pub steps: Vec<Step>,
    /// The items' values where each block ended.
    pub block_ends: Vec<Vec<u16>>,
}

impl<'a> Machine<'a> {
    pub fn new(case: &'a Case, schedule: &'a [u16]) -> Self {
        let firsts = &case.firsts[..case.threads];
        let at_start = |&first: &u16| Thread { next_line: first, locals: [0; 16] };
        Machine {
            case,
            schedule,
            threads: firsts.iter().map(at_start).collect(),
            globals: case.initial[..case.globals].to_vec(),
            mutexes: vec![0; case.mutexes],
            violations: Vec::new(),
            steps: Vec::new(),
            block_ends: Vec::new(),
        }
    }

    /// "For i from 0 to n it steps the thread of block i as often as the
    /// length of block i says".
    pub fn run(&mut self) -> Option<Stop> {
        if self.case.wrong == Wrong::StrayLeftFirst {
            let stray = self.first_stray(self.lines_left_by_lengths());
            if stray.is_some() {
                return stray;
            }
        }
        for block in 0..=self.case.switches {
            for _ in 0..self.schedule[block] {
                let stop = self.step(block);
                if stop.is_some() {
                    return stop;
                }
            }
            self.block_ends.push(self.items());
        }
        if self.case.wrong == Wrong::UnrunUnlockViolates {
            self.note_unlocks_left();
        }
        // "An unrun input has value 0, otherwise 14 [...], looked for after the
        // last step."
        self.first_stray(self.lines_left())
    }

    /// Whether all blocks came to their end.
    pub fn is_done(&self) -> bool {
        self.block_ends.len() == self.case.switches + 1
    }

    /// What replay says of a run that ended so. "After a zero assert it goes on; a
    /// later cut-off is then the reply", and so after an unlock by a stranger.
    pub fn answer(&self, stop: Option<Stop>) -> Result<Replayed, Refusal> {
        let violation_decides = self.case.wrong == Wrong::ViolatedThoughCutOff;
        match (stop, self.violation()) {
            (Some(Stop::StrayInput(place)), _) => Err(Refusal { number: 14, place }),
            (_, Some(line)) if violation_decides => Ok(Replayed::Violated(line)),
            (Some(Stop::CutOff(line)), _) => Ok(Replayed::CutOff(line)),
            (_, Some(line)) => Ok(Replayed::Violated(line)),
            (_, None) => Ok(Replayed::Clean),
        }
    }

    /// "replay names the first of either sort" in running order.
    pub fn violation(&self) -> Option<u16> {
        let is_assert = |line: &&u16| self.case.record(**line).kind == ASSERT;
        let first = match self.case.wrong {
            Wrong::AssertNamedFirst => self.violations.iter().find(is_assert).or(self.violations.first()),
            Wrong::LastNamed => self.violations.last(),
            _ => self.violations.first(),
        };
        first.copied()
    }

    /// A mistake: the unlocks that the threads come to next.
    fn note_unlocks_left(&mut self) {
        for thread in 0..self.threads.len() {
            let line = self.threads[thread].next_line;
            if line != 0 && self.case.record(line).kind == UNLOCK && self.is_stranger(thread, line) {
                self.violations.push(line);
            }
        }
    }

    /// "at the first such record by thread and chain"
    fn first_stray(&self, mut left: Vec<u16>) -> Option<Stop> {
        match self.case.wrong {
            Wrong::StrayLeftUnseen => left.clear(),
            Wrong::StrayLeftByRecord => left.sort(),
            _ => {}
        }
        left.into_iter().find(|&line| self.is_stray(line)).map(Stop::StrayInput)
    }

    /// The lines that the threads have left, by thread and chain.
    fn lines_left(&self) -> Vec<u16> {
        let mut left = Vec::new();
        for thread in &self.threads {
            let mut line = thread.next_line;
            while line != 0 {
                left.push(line);
                line = self.case.record(line).next;
            }
        }
        left
    }

    /// The lines that a run to its end would leave.
    fn lines_left_by_lengths(&self) -> Vec<u16> {
        let mut left = self.case.chains.clone();
        for block in 0..=self.case.switches {
            left[self.case.thread_of_block(block)].drain(..usize::from(self.schedule[block]));
        }
        left.concat()
    }

    /// The items' values, "globals first, then mutexes".
    pub fn items(&self) -> Vec<u16> {
        [self.globals.as_slice(), self.mutexes.as_slice()].concat()
    }

    /// "A step takes the thread's next line."
    fn step(&mut self, block: usize) -> Option<Stop> {
        let case = self.case;
        let thread = case.thread_of_block(block);
        let line = self.threads[thread].next_line;
        if line == 0 {
            // "no thread has more steps than lines", unless sums are mistaken
            return None;
        }
        let record = case.record(line);
        let stop =
            if self.guard_is_true(thread, record) { self.run_line(thread, line, record) } else { self.pass_line(thread, line) };
        if stop.is_none() {
            // "After any other step the record that follows becomes the next
            // line."
            self.threads[thread].next_line = record.next;
            self.steps.push(Step { line, block: block as u16, value: self.value_after(thread, record) });
        }
        stop
    }

    /// What stands for a line that was run: what its target then has, whether its
    /// guard was true or not; "assert and assume give 1 if the expression is not zero,
    /// else 0", and 1 where the guard is false.
    fn value_after(&self, thread: usize, record: &Record) -> u16 {
        let passed = !self.guard_is_true(thread, record);
        match (record.target_name(), self.case.wrong) {
            (_, Wrong::PassedLine0) if passed => 0,
            (Some(_), Wrong::PassedInputCopied) if passed && record.kind == INPUT => 0,
            (None, Wrong::TestHasItsExpression) if !passed => self.expression(thread, record),
            (Some(Name::Local(local)), _) => self.threads[thread].locals[usize::from(local)],
            (Some(Name::Global(global)), _) => self.globals[usize::from(global)],
            (Some(Name::Mutex(mutex)), _) => self.mutexes[usize::from(mutex)],
            (None, _) => u16::from(passed || self.expression(thread, record) != 0),
        }
    }

    fn guard_is_true(&self, thread: usize, record: &Record) -> bool {
        let local = record.guard_local().unwrap_or(0);
        record.guard_is_true(self.threads[thread].locals[usize::from(local)])
    }

    /// "Guard false: no local, global or mutex changes, and an input's
    /// schedule value must be 0".
    fn pass_line(&mut self, thread: usize, line: u16) -> Option<Stop> {
        let passes_unlock = self.case.record(line).kind == UNLOCK && self.is_stranger(thread, line);
        if passes_unlock && self.case.wrong == Wrong::PassedUnlockViolates {
            self.violations.push(line);
        }
        self.is_stray(line).then_some(Stop::StrayInput(line))
    }

    /// Whether the line is an input with a value other than 0.
    fn is_stray(&self, line: u16) -> bool {
        self.case.record(line).kind == INPUT && self.input_value(line) != 0
    }

    /// "Guard true: compute, store, load, lock and unlock do what Kinds says,
    /// an input puts its schedule value in its target, an assert that is zero
    /// is noted and changes nothing." An unlock by a stranger "is a violation,
    /// though it still frees the mutex".
    fn run_line(&mut self, thread: usize, line: u16, record: &Record) -> Option<Stop> {
        let target = usize::from(record.target);
        let expression = self.expression(thread, record);
        match record.kind {
            COMPUTE => self.threads[thread].locals[target] = expression,
            STORE => self.globals[target] = expression,
            LOAD => self.threads[thread].locals[target] = self.globals[usize::from(record.a)],
            INPUT => self.threads[thread].locals[target] = self.input_value(line),
            ASSERT if expression == 0 => self.violations.push(line),
            ASSUME if expression == 0 => return self.cut_off(line),
            LOCK if self.mutexes[target] != 0 => return Some(Stop::CutOff(line)),
            LOCK => self.mutexes[target] = self.case.holder(thread),
            UNLOCK => {
                if self.is_stranger(thread, line) {
                    self.violations.push(line);
                }
                self.mutexes[target] = self.case.unlocked(thread, self.mutexes[target]);
            }
            _ => {}
        }
        None
    }

    /// Whether "the mutex does not read t + 1" where thread t comes to an unlock.
    fn is_stranger(&self, thread: usize, unlock: u16) -> bool {
        let mutex = self.mutexes[usize::from(self.case.record(unlock).target)];
        !self.case.is_holder(thread, mutex)
    }

    fn cut_off(&self, line: u16) -> Option<Stop> {
        (self.case.wrong != Wrong::GoesOnAfterAssume).then_some(Stop::CutOff(line))
    }

    /// The line's expression; 0 for a kind that has none, where it is not
    /// looked at.
    fn expression(&self, thread: usize, record: &Record) -> u16 {
        if !record.has_expression() {
            return 0;
        }
        let operand = |operand: u16| match operand {
            16 => record.c,
            local => self.threads[thread].locals[usize::from(local)],
        };
        record.expression(operand(record.a), operand(record.b))
    }

    /// The schedule has "one value for each input line, by thread and then by
    /// chain", after the n + 1 block lengths.
    pub fn input_value(&self, line: u16) -> u16 {
        let inputs = self.case.inputs();
        let place = inputs.iter().position(|&input| input == line);
        self.schedule[self.case.switches + 1 + place.expect("the line is an input")]
    }
}
