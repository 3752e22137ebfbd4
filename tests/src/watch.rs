//! From a schedule to its assignment, by running it and writing down what is
//! seen. This is neither the machine of the second implementation nor the
//! meaning of its constraints: a line's value is what its target holds right
//! after the line, and a block value is what the item holds when the block
//! ends. A line that is not run stays as it was written down beforehand. The
//! lines that violate are written down too, and what unlocks found.
//!
//! The call `fill` takes fewer schedules: here also those are run that do not
//! violate, or do not keep the rule of the 8s.

use crate::draft::Draft;
use crate::line::*;
use crate::report::Tally;

const OWN: &str = "unlock by the holder";
const FREE: &str = "unlock of a free mutex";
const ANOTHERS: &str = "unlock of another's mutex";
const PASSED: &str = "unlock with a false guard";
const LEFT: &str = "unlock not run";

/// What is noted of unlocks.
pub const UNLOCKS: [&str; 5] = [OWN, FREE, ANOTHERS, PASSED, LEFT];

/// What is noted of runs that violate.
pub const VIOLATIONS: [&str; 4] =
    ["asserts violate", "unlocks violate", "an assert violates, then an unlock", "an unlock violates, then an assert"];

/// What is noted instead where there is more than one mutex.
pub fn of_several(unlock: &str) -> String {
    format!("{unlock}, of several")
}

pub struct Watched<'a> {
    draft: &'a Draft,
    schedule: &'a [u16],
    /// For each thread the lines that are still to run.
    left: Vec<Vec<u16>>,
    locals: Vec<[u16; 16]>,
    items: Vec<u16>,
    pub assignment: Vec<u16>,
    /// The lines that violate, in running order.
    pub violations: Vec<u16>,
    /// The asserts and unlocks that were run with a true guard.
    pub reached: Vec<u16>,
    /// What is noted of the unlocks so far.
    unlocks: Vec<&'static str>,
}

/// The assignment of a schedule that refusals 12 and 13 do not meet.
pub fn written_down(draft: &Draft, schedule: &[u16]) -> Vec<u16> {
    watch(draft, schedule).assignment
}

/// The run of such a schedule.
///
/// A run that would be cut off is taken to its end here, as though nothing
/// were demanded of assumes and locks. So the assignment meets all 1s,
/// 2s, 3s, 4s and 6s; it fails a 5 exactly when the run is cut off, and else
/// the 7 exactly when the run is clean. The 8s it meets exactly when the schedule
/// keeps their rule.
pub fn watch<'a>(draft: &'a Draft, schedule: &'a [u16]) -> Watched<'a> {
    let mut left = draft.chains();
    left.iter_mut().for_each(|chain| chain.reverse());
    let mut run = Watched {
        draft,
        schedule,
        left,
        locals: vec![[0; 16]; usize::from(draft.threads)],
        items: draft.items_at_start(),
        assignment: nothing_run(draft),
        violations: Vec::new(),
        reached: Vec::new(),
        unlocks: Vec::new(),
    };
    for (block, &length) in schedule[..draft.blocks()].iter().enumerate() {
        for _ in 0..length {
            run.step(block);
        }
        run.end_block(block);
    }
    run
}

/// No line was run, and no block has ended.
fn nothing_run(draft: &Draft) -> Vec<u16> {
    let lines = draft.records.iter().flat_map(|line| [draft.unrun_block(), line.unrun_value()]);
    let mut assignment: Vec<u16> = lines.collect();
    assignment.resize(draft.variables(), 0);
    assignment
}

impl Watched<'_> {
    /// Notes the unlocks of a run that is not cut off, and how it violates.
    pub fn note(&self, tally: &mut Tally) {
        let is = |kind: u16| move |line: &&u16| self.draft.line(**line).kind == kind;
        let left = self.left.iter().flatten().filter(is(UNLOCK)).map(|_| LEFT);
        for unlock in self.unlocks.iter().copied().chain(left) {
            tally.saw(if self.draft.mutexes > 1 { of_several(unlock) } else { unlock.into() });
        }
        let assert = self.violations.iter().position(|line| is(ASSERT)(&line));
        let unlock = self.violations.iter().position(|line| is(UNLOCK)(&line));
        match (assert, unlock) {
            (None, None) => {}
            (Some(_), None) => tally.saw(VIOLATIONS[0]),
            (None, Some(_)) => tally.saw(VIOLATIONS[1]),
            (assert, unlock) if assert < unlock => tally.saw(VIOLATIONS[2]),
            _ => tally.saw(VIOLATIONS[3]),
        }
    }

    fn step(&mut self, block: usize) {
        let thread = block % usize::from(self.draft.threads);
        let number = self.left[thread].pop().expect("the lengths are not more than the lines");
        let value = self.run_line(thread, number);
        let place = 2 * (usize::from(number) - 1);
        self.assignment[place] = block as u16;
        self.assignment[place + 1] = value;
    }

    /// Runs one line and gives the value that stands for it.
    fn run_line(&mut self, thread: usize, number: u16) -> u16 {
        let line = *self.draft.line(number);
        let locals = &self.locals[thread];
        let guarded_in = line.guard_is_true(line.guard_local().map_or(0, |local| locals[local]));
        let new_value = self.new_value(thread, number, &line);
        if guarded_in && line.can_violate() {
            self.reached.push(number);
        }
        if matches!(line.kind, ASSERT | ASSUME) {
            let holds = !guarded_in || new_value != 0;
            if line.kind == ASSERT && !holds {
                self.violations.push(number);
            }
            return u16::from(holds);
        }
        if line.kind == UNLOCK {
            self.note_unlock(thread, number, guarded_in);
        }
        let target = self.target(thread, &line);
        if guarded_in {
            *target = new_value;
        }
        *target
    }

    fn note_unlock(&mut self, thread: usize, number: u16, guarded_in: bool) {
        let line = *self.draft.line(number);
        let found = match *self.target(thread, &line) {
            _ if !guarded_in => PASSED,
            0 => FREE,
            mutex if mutex == holder(thread) => OWN,
            _ => ANOTHERS,
        };
        if [FREE, ANOTHERS].contains(&found) {
            self.violations.push(number);
        }
        self.unlocks.push(found);
    }

    fn target(&mut self, thread: usize, line: &Line) -> &mut u16 {
        let target = usize::from(line.target);
        match line.kind {
            STORE => &mut self.items[target],
            LOCK | UNLOCK => &mut self.items[usize::from(self.draft.globals) + target],
            _ => &mut self.locals[thread][target],
        }
    }

    /// What the line gives when its guard is true.
    fn new_value(&self, thread: usize, number: u16, line: &Line) -> u16 {
        let operand = |operand: u16| match operand {
            CONSTANT => line.c,
            local => self.locals[thread][usize::from(local)],
        };
        match line.kind {
            LOAD => self.items[usize::from(line.a)],
            INPUT => self.input_value(number),
            LOCK => holder(thread),
            UNLOCK => 0,
            _ => apply(line.op, operand(line.a), operand(line.b)),
        }
    }

    fn input_value(&self, number: u16) -> u16 {
        let place = self.draft.inputs().iter().position(|&input| input == number);
        self.schedule[self.draft.blocks() + place.expect("the line is an input")]
    }

    fn end_block(&mut self, block: usize) {
        if block < usize::from(self.draft.switches) {
            let start = 2 * self.draft.records.len() + block * self.items.len();
            self.assignment[start..start + self.items.len()].copy_from_slice(&self.items);
        }
    }
}
