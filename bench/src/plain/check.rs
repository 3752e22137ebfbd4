//! Whether an assignment meets the constraints of an accepted case. No table is made: the constraints are gone through in its
//! order, and counted.

use super::case::{holder, Case};
use super::record::{Locals, Record, ASSERT, ASSUME, COMPUTE, INPUT, LOAD, LOCK, STORE};

/// For each block the values of the items, as far as its lines have been gone through: first what the block begins with, then
/// the value of the latest copy in the block. So it has what a line reads, and in the end what the 6s ask for.
type Items = [[u16; 12]; 16];

/// How many constraints were gone through.
struct Count(u16);

impl Count {
    /// One constraint more: goes on if it holds, else gives its number.
    fn next(&mut self, holds: bool) -> Result<(), u16> {
        self.0 += 1;
        if holds {
            Ok(())
        } else {
            Err(self.0)
        }
    }
}

/// The first constraint that fails, if one does.
pub fn check(case: &Case, assignment: &[u16]) -> Result<(), u16> {
    let mut count = Count(0);
    check_order(case, assignment, &mut count)?;
    // No block number of a line that was run is over n from here on.
    let mut items = items_at_start(case, assignment);
    let mut some_line_violates = false;
    for thread in 0..case.threads {
        let mut locals = [0; 16];
        for (line, record) in case.chain(thread) {
            let (block, value) = numbers_of(assignment, line);
            if case.was_run(block) {
                let items = &mut items[usize::from(block)];
                some_line_violates |= check_line(&record, value, case.globals, holder(thread), &mut locals, items, &mut count)?;
            } else {
                check_unrun(&record, value, &mut count)?;
            }
        }
    }
    for (block, items) in items[..case.switches].iter().enumerate() {
        for (number, item) in block_values(case, assignment, block).iter().zip(items) {
            count.next(number == item)?;
        }
    }
    count.next(some_line_violates)
}

/// A line's block number and value.
pub fn numbers_of(assignment: &[u16], line: u16) -> (u16, u16) {
    let at = 2 * (usize::from(line) - 1);
    (assignment[at], assignment[at + 1])
}

/// The block values of the items at a block.
fn block_values<'a>(case: &Case, assignment: &'a [u16], block: usize) -> &'a [u16] {
    let first = case.first_block_value() + block * case.items();
    &assignment[first..first + case.items()]
}

/// The 3s, 8s, 1s and 2s.
fn check_order(case: &Case, assignment: &[u16], count: &mut Count) -> Result<(), u16> {
    for thread in 0..case.threads {
        let mut block_before = None;
        for (line, record) in case.chain(thread) {
            let (block, _) = numbers_of(assignment, line);
            count.next(!case.was_run(block) || usize::from(block) % case.threads == thread)?;
            if let (Some(before), false) = (block_before, record.is_visible()) {
                count.next(!case.was_run(block) || block == before)?;
            }
            block_before = Some(block);
            let most = match record.next {
                0 => case.unrun_block(),
                next => numbers_of(assignment, next).0,
            };
            count.next(block <= most)?;
        }
    }
    Ok(())
}

/// What each block begins with: the initial values, or the block values of the block before.
fn items_at_start(case: &Case, assignment: &[u16]) -> Items {
    let mut items = [[0; 12]; 16];
    items[0] = case.items_at_start();
    for block in 0..case.switches {
        items[block + 1][..case.items()].copy_from_slice(block_values(case, assignment, block));
    }
    items
}

/// The 4 of a line that was not run, and its 5 if it has one, which holds. With it no assert has value 0, so none meets the 7.
fn check_unrun(record: &Record, value: u16, count: &mut Count) -> Result<(), u16> {
    count.next(value == u16::from(matches!(record.kind, ASSERT | ASSUME)))?;
    if matches!(record.kind, ASSUME | LOCK) {
        count.next(true)?;
    }
    Ok(())
}

/// The 4 of a line, and its 5 if it has one; then its target has its value. Whether the line meets the 7.
fn check_line(
    record: &Record,
    value: u16,
    globals: usize,
    holder: u16,
    locals: &mut Locals,
    items: &mut [u16; 12],
    count: &mut Count,
) -> Result<bool, u16> {
    let guarded_in = record.guard_is_true(locals);
    let target = usize::from(record.target);
    match record.kind {
        COMPUTE | LOAD | INPUT => {
            let wanted = match record.kind {
                _ if !guarded_in => locals[target],
                COMPUTE => record.expression(locals),
                LOAD => items[usize::from(record.a)],
                _ => value,
            };
            locals[target] = value;
            count.next(value == wanted)?;
            Ok(false)
        }
        STORE => {
            let wanted = if guarded_in { record.expression(locals) } else { items[target] };
            items[target] = value;
            count.next(value == wanted)?;
            Ok(false)
        }
        ASSERT | ASSUME => {
            let wanted = !guarded_in || record.expression(locals) != 0;
            count.next(value == u16::from(wanted))?;
            if record.kind == ASSUME {
                count.next(value == 1)?;
            }
            Ok(value == 0)
        }
        LOCK => {
            let old = std::mem::replace(&mut items[globals + target], value);
            count.next(value == if guarded_in { holder } else { old })?;
            count.next(!guarded_in || old == 0)?;
            Ok(false)
        }
        _ => {
            let old = std::mem::replace(&mut items[globals + target], value);
            count.next(value == if guarded_in { 0 } else { old })?;
            Ok(guarded_in && old != holder)
        }
    }
}
