//! Checks worked out by hand: each kind of constraint fails first.

use crate::ask::check;
use crate::calls::{Calls, Checked};
use crate::draft::Draft;
use crate::line::*;
use crate::report::Report;

/// Thread 0 stores 4 under the mutex; thread 1 loads under it, and asserts
/// that it loads 0. Global 0 begins at 0.
///
/// The table: constraints 1 to 18 are the 3s, 8s, 1s and 2s of lines 1 to 8, among
/// them 12 and 15, the 8s of lines 6 and 7; then come 19 and 20 (line 1), 21, 22, 23
/// and 24 (line 4), 25, 26 and 27 (line 6), 28, 29; then 30 to 35 are the 6s, and 36
/// is the 7.
fn shared() -> Draft {
    storing(4)
}

fn storing(number: u16) -> Draft {
    let first = [lock(0), store(0, constant(number)), unlock(0)];
    let second = [lock(0), load(0, 0), assume([LESS, 0, CONSTANT, 9]), assert([EQUAL, 0, CONSTANT, 0]), unlock(0)];
    let draft = Draft::new(2, 3).with_globals(&[0]).with_mutexes(1);
    draft.with_thread(0, &first).with_thread(1, &second)
}

/// Thread 0 in block 0, then thread 1 in block 1: the assert is zero. Block
/// number and value of each line, then global and mutex after blocks 0 to 2.
const MEETS: [u16; 22] = [0, 1, 0, 4, 0, 0, 1, 2, 1, 4, 1, 1, 1, 0, 1, 0, 4, 0, 4, 0, 4, 0];

pub fn run(calls: &dyn Calls, report: &mut Report) {
    let mut fails = |name: &str, draft: Draft, numbers: [u16; 22], constraint: u16| {
        report.check(name, |tally| {
            let wanted = Checked::Fails(constraint);
            tally.same(check(calls, &draft, &numbers), wanted, || draft.to_string())
        });
    };
    let with = |changes: &[(usize, u16)]| {
        let mut numbers = MEETS;
        for &(variable, number) in changes {
            numbers[variable] = number;
        }
        numbers
    };
    // Line 1 goes to block 2, after line 2.
    fails("a 1 fails first", shared(), with(&[(0, 2)]), 2);
    // Line 3 goes past block 3, and line 8 as little past it as it can.
    fails("a 2 fails first", shared(), with(&[(4, 6)]), 6);
    fails("a 2 fails far out", shared(), with(&[(4, 65_534)]), 6);
    fails("a 2 fails at n + 2", shared(), with(&[(14, 5)]), 18);
    // Line 4 of thread 1 goes to a block of thread 0.
    fails("a 3 fails first", shared(), with(&[(6, 2)]), 7);
    fails("a 4 fails first", shared(), with(&[(3, 5)]), 21);
    // The unlock goes to block 2, so that block 1 finds the mutex at 1.
    let held = with(&[(4, 2), (17, 1)]);
    fails("the 5 of a lock fails first", shared(), held, 24);
    // Thread 1 loads 20, which is not less than 9.
    let large = with(&[(3, 20), (9, 20), (11, 0), (16, 20), (18, 20), (20, 20)]);
    fails("the 5 of an assume fails first", storing(20), large, 27);
    // Nothing reads the global after block 2 but its own 6.
    fails("a 6 fails first", shared(), with(&[(20, 5)]), 34);
    // Thread 0 comes after thread 1, in block 2: the assert holds.
    let after = [2, 1, 2, 4, 2, 0, 1, 2, 1, 0, 1, 1, 1, 1, 1, 0, 0, 0, 0, 0, 4, 0];
    fails("the 7 fails first", shared(), after, 36);
    // Line 6 goes to block 3, after line 5, and then line 7 goes there alone; both
    // with what comes after them.
    fails("an 8 fails first", shared(), with(&[(10, 3), (12, 3), (14, 3)]), 12);
    fails("a later 8 fails first", shared(), with(&[(12, 3), (14, 3)]), 15);
    // Line 7 was not run, but line 8 after it was.
    fails("a line is run after one that was not", shared(), with(&[(12, 4), (13, 1)]), 16);
    // Line 8 was not run; the mutex stays at 2 from block 1 on.
    let last_left = with(&[(14, 4), (19, 2), (21, 2)]);
    fails("an unlock that was not run is no 0 in a 6", shared(), with(&[(14, 4)]), 33);
    let mut not_zero = last_left;
    not_zero[15] = 1;
    fails("an unlock that was not run has 0", shared(), not_zero, 29);
    // Nor were lines 6 and 7, an assume and an assert; they have 1.
    let tests_left = [(10, 4), (12, 4), (13, 1), (14, 4), (19, 2), (21, 2)];
    let tests_left = |changes: &[(usize, u16)]| with(&[&tests_left[..], changes].concat());
    fails("an assert that was not run is not broken", shared(), tests_left(&[]), 36);
    fails("an assert that was not run has 1", shared(), tests_left(&[(13, 0)]), 28);
    fails("an assume that was not run has 1", shared(), tests_left(&[(11, 0)]), 26);
    // Thread 0 holds the mutex at the end, and thread 1 was not run: its lock
    // and its assume demand nothing.
    let held = [0, 1, 0, 4, 4, 0, 4, 0, 4, 0, 4, 1, 4, 1, 4, 0, 4, 1, 4, 1, 4, 1];
    fails("the 5s of lines that were not run are met", shared(), held, 36);
    let mut lock_is_2 = held;
    lock_is_2[7] = 2;
    fails("a lock that was not run has 0", shared(), lock_is_2, 23);
    for (name, numbers) in [("all are met", MEETS), ("all are met, and the last line was not run", last_left)] {
        report.check(name, |tally| {
            let checked = check(calls, &shared(), &numbers);
            tally.same(checked, Checked::Meets, || shared().to_string())
        });
    }
}
