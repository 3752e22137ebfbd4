//! Makes a case along a run: each line is chosen as its turn comes, knowing the state of the run, so that the run is legal, comes to
//! a thread's later blocks with visible lines, and its last line violates. The assignment is written down on the way, and the first
//! line that violates. Lines that the run leaves come last.
//!
//! All that is random comes from a fixed seed. Records are numbered as the run meets them.

use crate::plain::case::holder;
use crate::plain::record::{Record, ASSERT, ASSUME, COMPUTE, CONSTANT, INPUT, LOAD, LOCK, STORE, UNLOCK};
use crate::sample::{Faults, Shape};

const OPS: usize = 7;
const EQUAL: u16 = 5;
const LESS: u16 = 6;

/// The case file, its assignment, its schedule, and the first line that violates.
pub fn made(shape: Shape) -> (Vec<u8>, Vec<u16>, Vec<u16>, u16) {
    let mut run = Run::new(shape);
    let lengths = block_lengths(shape);
    let lines: usize = lengths.iter().sum();
    for (block, &length) in lengths.iter().enumerate() {
        for turn in 0..length {
            let is_last = run.records.len() + 1 == lines;
            run.add_line(block, turn == 0, is_last);
        }
        if block < shape.switches {
            run.block_values.extend(&run.items);
        }
    }
    for thread in 0..shape.lines.len() {
        (0..shape.left).for_each(|_| run.leave_line(thread));
    }
    let mut schedule: Vec<u16> = lengths.iter().map(|&length| length as u16).collect();
    schedule.extend(run.inputs.iter().flatten());
    let violation = run.violation.expect("the last line violates");
    (run.case(), [run.line_numbers, run.block_values].concat(), schedule, violation)
}

/// The lines that a thread runs, spread evenly over its blocks.
fn block_lengths(shape: Shape) -> Vec<usize> {
    let threads = shape.lines.len();
    let length = |block: usize| {
        let thread = block % threads;
        let blocks = (shape.switches - thread) / threads + 1;
        let (lines, turn) = (shape.lines[thread], block / threads);
        lines / blocks + usize::from(turn < lines % blocks)
    };
    (0..=shape.switches).map(length).collect()
}

struct Run {
    shape: Shape,
    random: Random,
    initial: Vec<u16>,
    records: Vec<Record>,
    firsts: [u16; 4],
    /// The latest line of each thread.
    latest: [u16; 4],
    locals: [[u16; 16]; 4],
    items: Vec<u16>,
    /// For each thread the values of its inputs.
    inputs: [Vec<u16>; 4],
    /// The block number and the value of each record.
    line_numbers: Vec<u16>,
    block_values: Vec<u16>,
    /// The first line that violates.
    violation: Option<u16>,
}

impl Run {
    fn new(shape: Shape) -> Run {
        let mut random = Random(0x9E37_79B9_7F4A_7C15);
        let initial: Vec<u16> = (0..shape.globals).map(|_| random.below(4) as u16).collect();
        let mut items = initial.clone();
        items.resize(shape.globals + shape.mutexes, 0);
        Run {
            shape,
            random,
            initial,
            records: Vec::new(),
            firsts: [0; 4],
            latest: [0; 4],
            locals: [[0; 16]; 4],
            items,
            inputs: [const { Vec::new() }; 4],
            line_numbers: Vec::new(),
            block_values: Vec::new(),
            violation: None,
        }
    }

    /// Adds a line to the thread of a block, and runs it. The first of a block is visible.
    fn add_line(&mut self, block: usize, is_first: bool, is_last: bool) {
        let thread = block % self.shape.lines.len();
        let record = match (is_last, self.shape.faults) {
            (false, _) if is_first => self.visible_line(thread),
            (false, _) => self.line(thread),
            (true, Faults::LastUnlock) => self.stray_unlock(thread),
            (true, _) => self.test(thread, ASSERT, false),
        };
        self.link(thread, record);
        let value = self.run_line(thread, &record);
        self.line_numbers.extend([block as u16, value]);
    }

    /// Adds a line to a thread that was not run.
    fn leave_line(&mut self, thread: usize) {
        let record = self.line(thread);
        self.link(thread, record);
        if record.kind == INPUT {
            self.inputs[thread].push(0);
        }
        let value = u16::from(matches!(record.kind, ASSERT | ASSUME));
        self.line_numbers.extend([self.shape.switches as u16 + 1, value]);
    }

    /// Puts a record at the end of a thread's chain.
    fn link(&mut self, thread: usize, record: Record) {
        self.records.push(record);
        let line = self.records.len() as u16;
        match self.latest[thread] {
            0 => self.firsts[thread] = line,
            before => self.records[usize::from(before) - 1].next = line,
        }
        self.latest[thread] = line;
    }

    /// A line that may run now: no assume fails, no lock finds its mutex taken, unless the guard is false.
    fn line(&mut self, thread: usize) -> Record {
        let guard = self.guard();
        let guarded_in = Record { guard, ..Record::default() }.guard_is_true(&self.locals[thread]);
        let local = self.local();
        let global = self.random.below(self.shape.globals) as u16;
        let record = match self.random.below(20) {
            0..=4 => self.expression(COMPUTE, local),
            5..=8 => self.expression(STORE, global),
            9..=12 => Record { kind: LOAD, target: local, a: global, ..Record::default() },
            13 => Record { kind: INPUT, target: local, ..Record::default() },
            14..=15 => self.test(thread, ASSERT, true),
            16..=17 => self.test(thread, ASSUME, guarded_in),
            _ => self.lock_or_unlock(thread),
        };
        Record { guard, ..record }
    }

    /// The same, of a line that is visible.
    fn visible_line(&mut self, thread: usize) -> Record {
        loop {
            let record = self.line(thread);
            if record.is_visible() {
                return record;
            }
        }
    }

    /// Two lines in five have a guard.
    fn guard(&mut self) -> u16 {
        let local = self.local();
        match self.random.below(10) {
            0..=1 => 1 + local,
            2..=3 => 17 + local,
            _ => 0,
        }
    }

    /// One of the first locals: then most names have several copies.
    fn local(&mut self) -> u16 {
        self.random.below(10) as u16
    }

    /// A compute or a store with any op.
    fn expression(&mut self, kind: u16, target: u16) -> Record {
        let op = self.random.below(OPS) as u16;
        let (a, other) = (self.local(), self.local());
        let b = match (op, self.random.below(3)) {
            (0, _) => 0,
            (_, 0) => CONSTANT,
            _ => other,
        };
        let c = if b == CONSTANT { self.random.below(8) as u16 } else { 0 };
        Record { kind, target, op, a, b, c, ..Record::default() }
    }

    /// An assert or assume about a local that holds now, or does not.
    fn test(&mut self, thread: usize, kind: u16, holds: bool) -> Record {
        let a = self.local();
        let value = self.locals[thread][usize::from(a)];
        let op = if self.random.below(2) == 0 && value < u16::MAX { LESS } else { EQUAL };
        let c = match (op, holds) {
            (LESS, true) => value + 1,
            (LESS, false) | (EQUAL, true) => value,
            _ => value.wrapping_add(1),
        };
        Record { kind, op, a, b: CONSTANT, c, ..Record::default() }
    }

    /// A mutex that is free is locked. One that another thread holds is unlocked only where strangers may.
    fn lock_or_unlock(&mut self, thread: usize) -> Record {
        let mutex = self.random.below(self.shape.mutexes);
        let kind = match self.mutex(mutex) {
            0 => LOCK,
            held if held == holder(thread) || self.shape.faults == Faults::Strangers => UNLOCK,
            _ => return self.test(thread, ASSERT, true),
        };
        Record { kind, target: mutex as u16, ..Record::default() }
    }

    /// The unlock of a mutex that the thread does not hold.
    fn stray_unlock(&self, thread: usize) -> Record {
        let stray = (0..self.shape.mutexes).find(|&mutex| self.mutex(mutex) != holder(thread));
        let target = stray.expect("no thread holds all mutexes at the end") as u16;
        Record { kind: UNLOCK, target, ..Record::default() }
    }

    fn mutex(&self, mutex: usize) -> u16 {
        self.items[self.shape.globals + mutex]
    }

    /// Runs a line, and gives the value that stands for it.
    fn run_line(&mut self, thread: usize, record: &Record) -> u16 {
        let locals = &self.locals[thread];
        let guarded_in = record.guard_is_true(locals);
        let violates = match record.kind {
            ASSERT => record.expression(locals) == 0,
            UNLOCK => self.mutex(record.target.into()) != holder(thread),
            _ => false,
        };
        if guarded_in && violates {
            self.violation.get_or_insert(self.records.len() as u16);
        }
        let new = match record.kind {
            ASSERT | ASSUME => return u16::from(!guarded_in || record.expression(locals) != 0),
            LOAD => self.items[usize::from(record.a)],
            INPUT => self.input(thread, guarded_in),
            LOCK => holder(thread),
            UNLOCK => 0,
            _ => record.expression(locals),
        };
        let target = usize::from(record.target);
        let place = match record.kind {
            STORE => &mut self.items[target],
            LOCK | UNLOCK => &mut self.items[self.shape.globals + target],
            _ => &mut self.locals[thread][target],
        };
        if guarded_in {
            *place = new;
        }
        *place
    }

    /// The value of an input line, for the schedule too.
    fn input(&mut self, thread: usize, guarded_in: bool) -> u16 {
        let value = if guarded_in { self.random.below(1000) as u16 } else { 0 };
        self.inputs[thread].push(value);
        value
    }

    /// The case file.
    fn case(&self) -> Vec<u8> {
        let Shape { lines, switches, globals, mutexes, .. } = self.shape;
        let mut fields: Vec<u16> = [lines.len(), switches, globals, mutexes].map(|number| number as u16).to_vec();
        fields.extend(self.firsts);
        fields.extend(&self.initial);
        fields.resize(16, 0);
        fields.extend(self.records.iter().flat_map(Record::fields));
        fields.into_iter().flat_map(u16::to_le_bytes).collect()
    }
}

/// Xorshift, from a fixed seed.
struct Random(u64);

impl Random {
    fn below(&mut self, limit: usize) -> usize {
        self.0 ^= self.0 << 13;
        self.0 ^= self.0 >> 7;
        self.0 ^= self.0 << 17;
        (self.0 >> 33) as usize % limit
    }
}
