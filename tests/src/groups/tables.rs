//! Tables worked out by hand.

use crate::calls::Calls;
use crate::draft::Draft;
use crate::line::*;
use crate::report::{Outcome, Report, Tally};
use crate::samples::{guarded_counter, GUARDED_COUNTER_VALUE_ROWS};
use crate::table::{table_of, Row};

pub fn run(calls: &dyn Calls, report: &mut Report) {
    report.check("guarded counter", |tally| counter_table(calls, tally));
    report.check("no lines, but blocks and items", |tally| {
        let draft = Draft::new(4, 2).with_globals(&[5]).with_mutexes(1);
        let rows = vec![[6, 0, 0, 0, 0, 0], [6, 1, 0, 0, 0, 0], [6, 0, 1, 0, 0, 0], [6, 1, 1, 0, 0, 0], [7, 0, 0, 0, 0, 0]];
        let table = table_of(calls, &draft.bytes())?;
        tally.same(table.variables, 4, || "variables".into())?;
        tally.same(table.rows, rows, || "the table".into())
    });
    report.check("target copies without guard", |tally| {
        // Local 0 twice, then an op 0 with local 0 as its unused b.
        let lines = [compute(0, constant(1)), compute(0, constant(2)), store(0, local(3))];
        let rows = [[4, 1, 0, 0, 0, 0], [4, 2, 0, 0, 0, 1], [4, 3, 0, 0, 0, 0]];
        same_value_rows(calls, &one_thread(&lines), &rows, tally)
    });
    report.check("a store with a false guard is a copy", |tally| {
        // Local 5 is never written, so the store never happens; it is still
        // the copy that the load and the next store look at.
        let lines = [store(0, constant(1)).guarded(6), load(0, 0), store(0, local(0))];
        let rows = [[4, 1, 0, 0, 0, 0], [4, 2, 0, 1, 0, 0], [4, 3, 0, 2, 0, 1]];
        same_value_rows(calls, &one_thread(&lines), &rows, tally)
    });
    report.check("both operands, and guards of both sorts", |tally| {
        let lines = [
            input(3),
            input(4).guarded(4),
            compute(5, [SUM, 4, 3, 0]).guarded(21),
            assert([LESS, CONSTANT, 5, 9]).guarded(20),
            compute(5, [AND, 5, 5, 0]),
        ];
        let rows = [[4, 1, 0, 0, 0, 0], [4, 2, 1, 0, 0, 0], [4, 3, 2, 2, 1, 0], [4, 4, 1, 0, 3, 0], [4, 5, 0, 3, 3, 3]];
        same_value_rows(calls, &one_thread(&lines), &rows, tally)
    });
    report.check("a 5 follows its line's 4", |tally| {
        let lines = [input(0), assume(local(0)).guarded(1), lock(1).guarded(17), unlock(1), lock(1)];
        let rows = [
            [4, 1, 0, 0, 0, 0],
            [4, 2, 1, 1, 0, 0],
            // "both copies then 0"
            [5, 2, 0, 0, 0, 0],
            [4, 3, 1, 0, 0, 0],
            [5, 3, 1, 0, 0, 0],
            [4, 4, 0, 0, 0, 3],
            [4, 5, 0, 0, 0, 4],
            [5, 5, 0, 4, 0, 0],
        ];
        same_value_rows(calls, &one_thread(&lines), &rows, tally)
    });
    report.check("copies go by chain, not by record number", |tally| {
        let lines = [compute(0, constant(1)), compute(0, [SUM, 0, 0, 0]), assert(local(0))];
        let draft = one_thread(&lines).renumbered(&[3, 1, 2]);
        let rows = [[4, 3, 0, 0, 0, 0], [4, 1, 0, 3, 3, 3], [4, 2, 0, 1, 0, 0]];
        same_value_rows(calls, &draft, &rows, tally)
    });
    report.check("names of different sorts are kept apart", |tally| {
        // Local 0, global 0 and mutex 0 have copies of their own.
        let lines = [compute(0, constant(1)), store(0, local(0)), lock(0), load(0, 0), unlock(0)];
        let rows = [
            [4, 1, 0, 0, 0, 0],
            [4, 2, 0, 1, 0, 0],
            [4, 3, 0, 0, 0, 0],
            [5, 3, 0, 0, 0, 0],
            [4, 4, 0, 2, 0, 1],
            [4, 5, 0, 0, 0, 3],
        ];
        same_value_rows(calls, &one_thread(&lines), &rows, tally)
    });
}

/// A case whose thread 0 has these lines and whose thread 1 has none.
fn one_thread(lines: &[Line]) -> Draft {
    Draft::new(2, 1).with_globals(&[0]).with_mutexes(2).with_thread(0, lines)
}

/// Demands the 4s and 5s of a table.
fn same_value_rows(calls: &dyn Calls, draft: &Draft, wanted: &[Row], tally: &mut Tally) -> Outcome {
    let table = table_of(calls, &draft.bytes())?;
    let rows: Vec<Row> = table.rows.into_iter().filter(|row| matches!(row[0], 4 | 5)).collect();
    tally.same(rows.as_slice(), wanted, || "the 4s and 5s".into())
}

/// The whole table of `guarded_counter`: T 3, n 7, two globals and a mutex. Of its
/// lines the last two, an assume and an assert, are invisible.
fn counter_table(calls: &dyn Calls, tally: &mut Tally) -> Outcome {
    let mut wanted: Vec<Row> = Vec::new();
    for (thread, lines) in [(0, 1..=5), (1, 6..=10), (2, 11..=13)] {
        let last = *lines.end();
        for line in lines {
            wanted.push([3, line, 3, thread, 0, 0]);
            if line >= 12 {
                wanted.push([8, line, line - 1, 0, 0, 0]);
            }
            let next = [1, line, line + 1, 0, 0, 0];
            wanted.push(if line == last { [2, line, 7, 0, 0, 0] } else { next });
        }
    }
    wanted.extend(GUARDED_COUNTER_VALUE_ROWS);
    // The last copies of global 0, global 1 and the mutex, by thread.
    let last_copies = [[4, 0, 5], [9, 0, 10], [0, 0, 0]];
    for block in 0..7 {
        for (item, last) in (0..).zip(last_copies[block % 3]) {
            wanted.push([6, item, block as u16, last, 0, 0]);
        }
    }
    wanted.push([7, 0, 0, 0, 0, 0]);
    let table = table_of(calls, &guarded_counter().bytes())?;
    tally.same(table.variables, 2 * 13 + 7 * 3, || "variables".into())?;
    tally.same(table.rows, wanted, || "the table".into())
}
