//! The table of an accepted case.

use super::case::Case;
use super::record::{Record, ASSERT, ASSUME, COMPUTE, INPUT, LOAD, LOCK, STORE};

/// Names are locals (0 to 15), then items; this one stands for none, and has no copy.
const NO_NAME: usize = menduvo::NAMES;
const FIRST_ITEM: usize = 16;

/// The latest copy of each name in a thread.
type Copies = [u16; NO_NAME + 1];

/// Writes the table to a slice that has room for it.
pub fn write_table(case: &Case, table: &mut [u16]) {
    let (rows, _) = table.as_chunks_mut::<6>();
    let mut rows = rows.iter_mut();
    put_rows(case, |row| *rows.next().expect("there is room for every constraint") = row);
}

/// Gives `put` the constraints, in the order of the table.
pub fn put_rows(case: &Case, mut put: impl FnMut([u16; 6])) {
    for thread in 0..case.threads {
        let mut before = 0;
        for (line, record) in case.chain(thread) {
            put([3, line, case.threads as u16, thread as u16, 0, 0]);
            if before != 0 && !record.is_visible() {
                put([8, line, before, 0, 0, 0]);
            }
            put(match record.next {
                0 => [2, line, case.switches as u16, 0, 0, 0],
                next => [1, line, next, 0, 0, 0],
            });
            before = line;
        }
    }
    let mut copies: [Copies; 4] = [[0; NO_NAME + 1]; 4];
    for (thread, latest) in copies[..case.threads].iter_mut().enumerate() {
        for (line, record) in case.chain(thread) {
            put_values(line, &record, case.globals, latest, &mut put);
        }
    }
    for block in 0..case.switches {
        let latest = &copies[block % case.threads];
        for item in 0..case.items() {
            put([6, item as u16, block as u16, latest[FIRST_ITEM + item], 0, 0]);
        }
    }
    put([7, 0, 0, 0, 0, 0]);
}

/// The 4 of a line, and its 5 if it has one; then the line is the latest copy of its target.
fn put_values(line: u16, record: &Record, globals: usize, latest: &mut Copies, put: &mut impl FnMut([u16; 6])) {
    let (a, b) = operand_names(record);
    let target = target_name(record, globals);
    let (guard, old) = (latest[guard_name(record)], latest[target]);
    put([4, line, guard, latest[a], latest[b], old]);
    match record.kind {
        ASSUME => put([5, line, 0, 0, 0, 0]),
        LOCK => put([5, line, guard, old, 0, 0]),
        _ => {}
    }
    if target != NO_NAME {
        latest[target] = line;
    }
}

pub fn guard_name(record: &Record) -> usize {
    match record.guard {
        0 => NO_NAME,
        1..=16 => usize::from(record.guard - 1),
        _ => usize::from(record.guard - 17),
    }
}

pub fn operand_names(record: &Record) -> (usize, usize) {
    let local = |operand: u16| if operand < 16 { usize::from(operand) } else { NO_NAME };
    match record.kind {
        LOAD => (FIRST_ITEM + usize::from(record.a), NO_NAME),
        COMPUTE | STORE | ASSERT | ASSUME if record.op == 0 => (local(record.a), NO_NAME),
        COMPUTE | STORE | ASSERT | ASSUME => (local(record.a), local(record.b)),
        _ => (NO_NAME, NO_NAME),
    }
}

pub fn target_name(record: &Record, globals: usize) -> usize {
    let target = usize::from(record.target);
    match record.kind {
        COMPUTE | LOAD | INPUT => target,
        STORE => FIRST_ITEM + target,
        ASSERT | ASSUME => NO_NAME,
        _ => FIRST_ITEM + globals + target,
    }
}
