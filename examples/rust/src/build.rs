//! Builds a case line by line, with Menduvo's proved calls, and writes it to a file:
//!
//! ```text
//! builder CASE
//! ```
//!
//! Each thread's lines are handed on front to back, as they are made. [`menduvo::take_line`] says at once on which earlier lines a
//! line stands, and so its constraint 4 is printed before the next line is made. After a thread's last line stands what is held
//! for each item: the last copies that the 6s have. The case is that of mended.source in README.md. The exit status is 2 where a
//! line is refused, 3 where something else failed.
#![forbid(unsafe_code)]

use menduvo::{Refusal, Taken, NAMES};
use std::process::ExitCode;

// The case: two globals, a mutex, and what the threads call their locals.
const THREADS: u16 = 2;
const SWITCHES: u16 = 3;
const GLOBALS: u16 = 2;
const MUTEXES: u16 = 1;
const COMMAND: u16 = 0;
const TAKEN: u16 = 1;
const COMMANDS: u16 = 0;
const SEEN: u16 = 0;
const WAITS: u16 = 0;
const WAS_TAKEN: u16 = 1;
const KEPT: u16 = 2;

/// The fields of a record: next, kind, guard, target, op, a, b, c.
type Record = [u16; 8];

/// A thread: its first record, the latest one so far, and what is held for each of its names. All are 0 at first.
#[derive(Default)]
struct Thread {
    first: u16,
    last: u16,
    held: [u16; NAMES],
}

/// What was refused or failed, in words, and the exit status.
struct Failure(String, u8);

fn main() -> ExitCode {
    let arguments: Vec<String> = std::env::args().skip(1).collect();
    match build(&arguments) {
        Ok(()) => ExitCode::SUCCESS,
        Err(Failure(message, status)) => {
            eprintln!("builder: {message}");
            ExitCode::from(status)
        }
    }
}

fn build(arguments: &[String]) -> Result<(), Failure> {
    let [file] = arguments else { return Err(Failure("usage: builder CASE".to_string(), 3)) };
    let (mut controller, mut panel) = (Thread::default(), Thread::default());
    let mut records = Vec::new();
    build_controller(&mut controller, &mut records)?;
    controller.tell_items();
    build_panel(&mut panel, &mut records)?;
    panel.tell_items();

    // Both globals are 0 at the start, and two threads are absent.
    let mut header = [0; 16];
    header[..6].copy_from_slice(&[THREADS, SWITCHES, GLOBALS, MUTEXES, controller.first, panel.first]);
    let fields = header.iter().chain(records.iter().flatten());
    let bytes: Vec<u8> = fields.flat_map(|field| field.to_le_bytes()).collect();
    std::fs::write(file, bytes).map_err(|error| Failure(format!("{file}: {error}"), 3))
}

impl Thread {
    /// Adds a line to the end of the thread, and prints its constraint 4. Record k stands at k − 1.
    fn add(&mut self, records: &mut Vec<Record>, line: Record) -> Result<(), Failure> {
        let number = records.len() as u16 + 1;
        match menduvo::take_line(GLOBALS, MUTEXES, number, &line, &mut self.held) {
            Taken::Copies { guard, a, b, target } => println!("4 {number} {guard} {a} {b} {target}"),
            Taken::Refused { number: refusal, place } => {
                return Err(Failure(format!("record {number}: {}", Refusal { number: refusal, place }), 2));
            }
        }
        records.push(line);
        // Only now the line before it has its next number.
        match self.last {
            0 => self.first = number,
            last => records[usize::from(last) - 1][0] = number,
        }
        self.last = number;
        Ok(())
    }

    /// Prints what is held for the items, which stand after the 16 locals.
    fn tell_items(&self) {
        let items = &self.held[16..][..usize::from(GLOBALS + MUTEXES)];
        println!("held for the items:{}", items.iter().map(|copy| format!(" {copy}")).collect::<String>());
    }
}

/// Takes the command, and clears it.
fn build_controller(thread: &mut Thread, records: &mut Vec<Record>) -> Result<(), Failure> {
    let mut add = |line| thread.add(records, line);
    add(lock(COMMANDS))?;
    add(load(SEEN, COMMAND))?;
    add(store(TAKEN, local(SEEN)))?;
    add(store(COMMAND, constant(0)))?;
    add(unlock(COMMANDS))
}

/// Gives the command, and asserts that it waits or was taken.
fn build_panel(thread: &mut Thread, records: &mut Vec<Record>) -> Result<(), Failure> {
    let mut add = |line| thread.add(records, line);
    add(lock(COMMANDS))?;
    add(store(COMMAND, constant(2)))?;
    add(unlock(COMMANDS))?;
    add(load(WAITS, COMMAND))?;
    add(compute(WAITS, equal(WAITS, 2)))?;
    add(load(WAS_TAKEN, TAKEN))?;
    add(compute(WAS_TAKEN, equal(WAS_TAKEN, 2)))?;
    add(compute(KEPT, or(WAITS, WAS_TAKEN)))?;
    add(assert(local(KEPT)))
}

/// An expression: op, a, b, c. Operand 16 is the constant c.
type Expression = [u16; 4];

fn local(a: u16) -> Expression {
    [0, a, 0, 0]
}

fn constant(c: u16) -> Expression {
    [0, 16, 0, c]
}

fn or(a: u16, b: u16) -> Expression {
    [4, a, b, 0]
}

fn equal(a: u16, c: u16) -> Expression {
    [5, a, 16, c]
}

/// A line without a guard, whose next one is not known yet.
fn line(kind: u16, target: u16, [op, a, b, c]: Expression) -> Record {
    [0, kind, 0, target, op, a, b, c]
}

fn compute(to: u16, expression: Expression) -> Record {
    line(1, to, expression)
}

fn store(global: u16, expression: Expression) -> Record {
    line(2, global, expression)
}

fn load(to: u16, global: u16) -> Record {
    line(3, to, [0, global, 0, 0])
}

fn assert(expression: Expression) -> Record {
    line(5, 0, expression)
}

fn lock(mutex: u16) -> Record {
    line(7, mutex, [0; 4])
}

fn unlock(mutex: u16) -> Record {
    line(8, mutex, [0; 4])
}
