//! The run of a schedule of an accepted case.

use super::case::{holder, Case};
use super::record::{Locals, Record, ASSERT, ASSUME, COMPUTE, INPUT, LOAD, LOCK, STORE};

/// What ends a run before its last step, and the line where.
#[derive(Clone, Copy)]
pub enum Stop {
    CutOff(u16),
    FalseInput(u16),
}

/// What a run came to.
pub struct Run {
    pub items: [u16; 12],
    /// The first line that violates.
    pub violation: Option<u16>,
    pub stop: Option<Stop>,
    /// For each thread the line that it would run next; 0 if it has none left.
    pub next_lines: [u16; 4],
}

/// Who is told of a run as it goes.
pub trait Watch {
    /// A block that has lines begins with this one.
    fn block_begins(&mut self, thread: usize, line: u16);
    /// A line was run; the value, if it is asked for, stands for it in an assignment.
    fn line_is_run(&mut self, line: u16, block: usize, value: impl FnOnce() -> u16);
    fn block_ends(&mut self, block: usize, items: &[u16; 12]);
}

/// Nobody.
impl Watch for () {
    fn block_begins(&mut self, _: usize, _: u16) {}
    fn line_is_run(&mut self, _: u16, _: usize, _: impl FnOnce() -> u16) {}
    fn block_ends(&mut self, _: usize, _: &[u16; 12]) {}
}

#[derive(Clone, Copy, Default)]
struct Thread {
    /// What a mutex has that the thread holds.
    holder: u16,
    next_line: u16,
    /// Where the schedule has the value of the thread's next input line, and where those of its inputs end.
    next_input: usize,
    inputs_end: usize,
    locals: Locals,
}

/// Whether check 13 passes.
pub fn lengths_fit(case: &Case, schedule: &[u16]) -> bool {
    let mut sums = [0; 4];
    for (block, &length) in schedule[..=case.switches].iter().enumerate() {
        sums[block % case.threads] += usize::from(length);
    }
    sums.iter().zip(&case.lines).all(|(sum, lines)| sum <= lines)
}

/// Runs a schedule that checks 12 and 13 pass.
pub fn run(case: &Case, schedule: &[u16], watch: &mut impl Watch) -> Run {
    let mut threads = threads_at_start(case);
    let mut run = Run { items: case.items_at_start(), violation: None, stop: None, next_lines: [0; 4] };
    for (block, &length) in schedule[..=case.switches].iter().enumerate() {
        let thread = &mut threads[block % case.threads];
        if length > 0 {
            watch.block_begins(block % case.threads, thread.next_line);
        }
        for _ in 0..length {
            let line = thread.next_line;
            let (record, value) = run.step(case, schedule, thread);
            if run.stop.is_some() {
                return run;
            }
            watch.line_is_run(line, block, || value.unwrap_or_else(|| run.old_value(case, &record, &thread.locals)));
        }
        watch.block_ends(block, &run.items);
    }
    run.stop = threads[..case.threads].iter().find_map(|thread| unrun_input(case, schedule, thread)).map(Stop::FalseInput);
    run.next_lines = threads.map(|thread| thread.next_line);
    run
}

/// The first input line that a thread has left and that has a value other than 0.
fn unrun_input(case: &Case, schedule: &[u16], thread: &Thread) -> Option<u16> {
    let left = &schedule[thread.next_input..thread.inputs_end];
    let before = left.iter().position(|&value| value != 0)?;
    case.lines_from(thread.next_line).filter(|(_, record)| record.kind == INPUT).nth(before).map(|(line, _)| line)
}

fn threads_at_start(case: &Case) -> [Thread; 4] {
    let mut threads = [Thread::default(); 4];
    let mut next_input = case.switches + 1;
    for (number, thread) in threads[..case.threads].iter_mut().enumerate() {
        thread.holder = holder(number);
        thread.next_line = case.first(number);
        thread.next_input = next_input;
        next_input += case.inputs[number];
        thread.inputs_end = next_input;
    }
    threads
}

// Inlined in both runs, the one that is watched and the one that nobody watches, so that this does nothing for the other.
impl Run {
    /// One line of a thread, which has one left. Gives its record and, if its guard is true, the value that stands for it.
    #[inline(always)]
    fn step(&mut self, case: &Case, schedule: &[u16], thread: &mut Thread) -> (Record, Option<u16>) {
        let line = thread.next_line;
        let record = case.record(line);
        let guarded_in = record.guard_is_true(&thread.locals);
        let mut value = None;
        if record.kind == INPUT {
            let input = schedule[thread.next_input];
            thread.next_input += 1;
            if guarded_in {
                thread.locals[usize::from(record.target)] = input;
                value = Some(input);
            } else if input != 0 {
                self.stop = Some(Stop::FalseInput(line));
            }
        } else if guarded_in {
            value = Some(self.run_line(case, line, &record, thread.holder, &mut thread.locals));
        }
        thread.next_line = record.next;
        (record, value)
    }

    /// The value that stands for a line whose guard is false: what its target has.
    #[inline(always)]
    fn old_value(&self, case: &Case, record: &Record, locals: &Locals) -> u16 {
        let target = usize::from(record.target);
        match record.kind {
            COMPUTE | LOAD | INPUT => locals[target],
            STORE => self.items[target],
            ASSERT | ASSUME => 1,
            _ => self.items[case.globals + target],
        }
    }

    /// A line with a true guard that is no input. Gives the value that stands for it.
    #[inline(always)]
    fn run_line(&mut self, case: &Case, line: u16, record: &Record, holder: u16, locals: &mut Locals) -> u16 {
        let target = usize::from(record.target);
        match record.kind {
            COMPUTE => {
                locals[target] = record.expression(locals);
                locals[target]
            }
            STORE => {
                self.items[target] = record.expression(locals);
                self.items[target]
            }
            LOAD => {
                locals[target] = self.items[usize::from(record.a)];
                locals[target]
            }
            ASSERT => {
                let holds = record.expression(locals) != 0;
                if !holds {
                    self.violation.get_or_insert(line);
                }
                u16::from(holds)
            }
            ASSUME => {
                if record.expression(locals) == 0 {
                    self.stop = Some(Stop::CutOff(line));
                }
                1
            }
            LOCK => {
                let mutex = &mut self.items[case.globals + target];
                if *mutex == 0 {
                    *mutex = holder;
                } else {
                    self.stop = Some(Stop::CutOff(line));
                }
                holder
            }
            _ => {
                if std::mem::take(&mut self.items[case.globals + target]) != holder {
                    self.violation.get_or_insert(line);
                }
                0
            }
        }
    }
}
