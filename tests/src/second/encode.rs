//! The table of constraints of an accepted case.

use super::case::{Case, Name, Record, ASSUME, LOAD, LOCK, STORE};
use super::wrong::Wrong;

/// "A constraint is six 16-bit numbers; unused ones are 0."
pub type Row = [u16; 6];

/// "Order: for each thread and line a 3, then a 1 or (last line) a 2; then for
/// each thread and line a 4, and a 5 for assume and lock; then the 6s by block
/// and item; then the 7." An 8 stands "after that line's 3".
pub fn rows(case: &Case) -> Vec<Row> {
    let mut rows = order_rows(case);
    rows.extend(value_rows(case));
    rows.extend(block_value_rows(case));
    rows.push([7, 0, 0, 0, 0, 0]);
    rows
}

/// The 3s, 8s, 1s and 2s.
fn order_rows(case: &Case) -> Vec<Row> {
    let mut rows = Vec::new();
    for (thread, chain) in case.chains.iter().enumerate() {
        for (position, &line) in chain.iter().enumerate() {
            let three = [3, line, case.threads as u16, thread as u16, 0, 0];
            let eight = stay_row(case, &chain[..position], line);
            let last = match case.record(line).next {
                0 => [2, line, case.switches as u16, 0, 0, 0],
                next => [1, line, next, 0, 0, 0],
            };
            let eight = eight.as_slice();
            rows.extend(match case.wrong {
                Wrong::EightBefore3 => [eight, &[three], &[last]].concat(),
                Wrong::EightLast => [&[three], &[last], eight].concat(),
                _ => [&[three], eight, &[last]].concat(),
            });
        }
    }
    rows
}

/// "An invisible line that is not its thread's first takes the block number of
/// the line before it, or n + 1. Put this as constraint 8 (line, line before)".
fn stay_row(case: &Case, earlier: &[u16], line: u16) -> Option<Row> {
    let before = earlier.last().copied();
    let before = match case.wrong {
        Wrong::EightOfFirst => Some(before.unwrap_or(0)),
        Wrong::LineAfter => before.map(|_| case.record(line).next).filter(|&next| next != 0),
        Wrong::RecordBefore => before.map(|_| line - 1).filter(|&number| number != 0),
        Wrong::FirstStays => earlier.first().copied(),
        Wrong::VisibleBefore => earlier.iter().rev().copied().find(|&line| case.is_visible(line)),
        _ => before,
    };
    let seen = case.is_visible(line) && case.wrong != Wrong::EightOfVisible;
    let free = case.wrong == Wrong::GuardedMayMove && case.record(line).guard != 0;
    before.filter(|_| !seen && !free).map(|before| [8, line, before, 0, 0, 0])
}

/// The 4s, each followed by its line's 5 if it has one.
fn value_rows(case: &Case) -> Vec<Row> {
    let mut rows = Vec::new();
    for chain in &case.chains {
        for (position, &line) in chain.iter().enumerate() {
            let earlier = &chain[..position];
            let value_row = value_row(case, earlier, line);
            rows.push(value_row);
            rows.extend(demand_row(case, value_row));
        }
    }
    if case.wrong == Wrong::FivesLast {
        rows.sort_by_key(|row| row[0]);
    }
    rows
}

/// "4, line, guard copy, a copy, b copy, target copy".
fn value_row(case: &Case, earlier: &[u16], line: u16) -> Row {
    let record = case.record(line);
    let copy = |name: Name| latest_copy(case, earlier, name);
    let guard = record.guard_local().map_or(0, |local| copy(Name::Local(local)));
    let (a, b) = operand_names(record);
    let target = record.target_name();
    [4, line, guard, a.map_or(0, copy), b.map_or(0, copy), target.map_or(0, copy)]
}

/// The names that a line reads as a and as b. "A copy for a constant is 0",
/// so a constant has no name here; op 0 and a load use no b.
pub fn operand_names(record: &Record) -> (Option<Name>, Option<Name>) {
    let local = |operand: u16| (operand < 16).then_some(Name::Local(operand));
    if record.kind == LOAD {
        (Some(Name::Global(record.a)), None)
    } else if !record.has_expression() {
        (None, None)
    } else if record.op == 0 {
        (local(record.a), None)
    } else {
        (local(record.a), local(record.b))
    }
}

/// "5, line, guard copy, target copy: an assume's value is 1 (both copies then
/// 0); a lock whose guard is true reads 0."
fn demand_row(case: &Case, value_row: Row) -> Option<Row> {
    let [_, line, guard_copy, _, _, target_copy] = value_row;
    match case.record(line).kind {
        ASSUME => Some([5, line, 0, 0, 0, 0]),
        LOCK => Some([5, line, guard_copy, target_copy, 0, 0]),
        _ => None,
    }
}

/// "6, item, block i, last copy in thread i modulo T", for 0 ≤ i < n.
fn block_value_rows(case: &Case) -> Vec<Row> {
    let mut rows = Vec::new();
    for block in 0..case.switches {
        let chain = &case.chains[case.thread_of_block(block)];
        for item in 0..case.items() {
            let last = latest_copy(case, chain, case.item_name(item));
            rows.push([6, item as u16, block as u16, last, 0, 0]);
        }
    }
    if case.wrong == Wrong::DropsA6 {
        rows.pop();
    }
    rows
}

/// "The copy of a name at a line is the latest earlier line of the same thread
/// that has it as target, guarded or not; 0 if none."
fn latest_copy(case: &Case, earlier: &[u16], name: Name) -> u16 {
    earlier.iter().rev().copied().find(|&line| is_copy(case, line, name)).unwrap_or(0)
}

/// Whether the line has the name as target.
pub fn is_copy(case: &Case, line: u16, name: Name) -> bool {
    let record = case.record(line);
    let left_out = case.wrong == Wrong::GuardedStoreIsNoCopy && record.kind == STORE && record.guard != 0;
    record.target_name() == Some(name) && !left_out
}

/// The 4 of a line, which has the copies of its names.
pub fn value_row_of(rows: &[Row], line: u16) -> Row {
    let row = rows.iter().find(|row| row[0] == 4 && row[1] == line);
    *row.expect("each line has a 4")
}
