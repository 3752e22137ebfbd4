//! Decodings worked out by hand.

use crate::ask::{check, decode, fills, marks, reply};
use crate::calls::{Calls, Checked, Decoded, Replayed};
use crate::draft::Draft;
use crate::line::*;
use crate::report::{Outcome, Report, Tally};

pub fn run(calls: &dyn Calls, report: &mut Report) {
    report.check("inputs with true and false guards", |tally| {
        // Local 0 gets 7 and local 1 gets 9, so the guard of line 4 is false: its
        // value is what local 0 had, but the schedule has 0 for it.
        let numbers = [0, 7, 0, 9, 2, 8, 2, 7, 2, 0, 1, 65_535, 8, 8];
        decodes(calls, &guarded_inputs(), &numbers, &[2, 1, 3, 7, 9, 0, 65_535], tally)?;
        // Local 0 gets 0, so the guard of line 2 is false and that of line 4 is true.
        let numbers = [2, 0, 2, 0, 2, 8, 2, 5, 2, 0, 1, 3, 8, 8];
        decodes(calls, &guarded_inputs(), &numbers, &[0, 1, 5, 0, 0, 5, 3], tally)
    });
    report.check("an input with a false guard keeps the old value", |tally| {
        // As the first one above, but for the value of line 4: its 4 is the
        // nineteenth constraint, after the 3s, 1s and 2 of six lines, the 8s of
        // lines 2, 4 and 5, and three 4s.
        for value in [0, 1, 6, 8, 9, 65_535] {
            let numbers = [0, 7, 0, 9, 2, 8, 2, value, 2, 0, 1, 65_535, 8, 8];
            let mut schedule = marks(7);
            let case = guarded_inputs().bytes();
            let refused = Decoded::Refused { number: 15, place: 19 };
            tally.same(calls.decode(&case, &numbers, &mut schedule), refused, || format!("value {value}"))?;
            tally.same(schedule, marks(7), || "the slice".into())?;
        }
        Ok(())
    });
    report.check("inputs in the order of chains", |tally| {
        // Record k becomes 7 − k: variables move, the schedule does not.
        let draft = guarded_inputs().renumbered(&[6, 5, 4, 3, 2, 1]);
        let numbers = [1, 65_535, 2, 0, 2, 7, 2, 8, 0, 9, 0, 7, 8, 8];
        decodes(calls, &draft, &numbers, &[2, 1, 3, 7, 9, 0, 65_535], tally)
    });
    report.check("lines that were not run are in no block", |tally| {
        // Line 4 was not run: block 2, the last, has lines 2 and 3 alone.
        decodes(calls, &late_inputs(), &[0, 0, 2, 8, 2, 5, 3, 0, 1, 6, 8, 8], &[1, 1, 2, 5, 0, 6], tally)?;
        // Nor was line 3, nor line 2, or line 5 of thread 1.
        decodes(calls, &late_inputs(), &[0, 0, 2, 8, 3, 0, 3, 0, 1, 6, 8, 8], &[1, 1, 1, 0, 0, 6], tally)?;
        decodes(calls, &late_inputs(), &[2, 0, 3, 0, 3, 0, 3, 0, 1, 6, 8, 8], &[0, 1, 1, 0, 0, 6], tally)?;
        decodes(calls, &late_inputs(), &[0, 0, 2, 8, 2, 5, 2, 4, 3, 0, 8, 8], &[1, 0, 3, 5, 4, 0], tally)?;
        decodes(calls, &late_inputs(), &[0, 0, 3, 0, 3, 0, 3, 0, 3, 0, 8, 8], &[1, 0, 0, 0, 0, 0], tally)
    });
    report.check("an input that was not run has 0", |tally| {
        // The 4s of lines 3, 4 and 5 are constraints 15, 16 and 17.
        for (line, place) in [(3, 15), (4, 16), (5, 17)] {
            let mut numbers = [0, 0, 3, 0, 3, 0, 3, 0, 3, 0, 8, 8];
            numbers[2 * line - 1] = 1;
            let mut schedule = marks(6);
            let refused = Decoded::Refused { number: 15, place };
            tally.same(calls.decode(&late_inputs().bytes(), &numbers, &mut schedule), refused, || format!("line {line}"))?;
            tally.same(schedule, marks(6), || "the slice".into())?;
        }
        Ok(())
    });
    report.check("blocks of four threads, two without lines", |tally| {
        let lines = [assert(constant(0)), load(0, 0), assert(constant(0))];
        let draft = Draft::new(4, 9).with_globals(&[8]).with_thread(1, &lines).with_thread(3, &lines);
        // Blocks 1, 5 and 9 are thread 1's, blocks 3 and 7 thread 3's.
        let numbers = [&[1, 0, 9, 8, 9, 0, 3, 0, 7, 8, 7, 0][..], &[8; 9]].concat();
        decodes(calls, &draft, &numbers, &[0, 1, 0, 1, 0, 0, 0, 2, 0, 2], tally)
    });
}

/// Lines 1 to 5 in thread 0: local 0 is read; if it is not 0, local 1 is read; the
/// global is loaded, which is always 8; if local 1 is 0, local 0 is read again; an
/// assert fails. Line 6 in thread 1 reads.
fn guarded_inputs() -> Draft {
    let lines = [input(0), input(1).guarded(1), load(2, 0), input(0).guarded(18), assert(constant(0))];
    Draft::new(2, 2).with_globals(&[8]).with_thread(0, &lines).with_thread(1, &[input(3)])
}

/// Lines 1 to 4 in thread 0: an assert fails, the global is loaded, which is always
/// 8, then two locals are read. Line 5 in thread 1 reads.
fn late_inputs() -> Draft {
    let lines = [assert(constant(0)), load(2, 0), input(0), input(1)];
    Draft::new(2, 2).with_globals(&[8]).with_thread(0, &lines).with_thread(1, &[input(0)])
}

/// Demands that the assignment meets the table and decodes to the schedule, and
/// that the schedule violates and is filled to the assignment.
fn decodes(calls: &dyn Calls, draft: &Draft, numbers: &[u16], schedule: &[u16], tally: &mut Tally) -> Outcome {
    tally.same(check(calls, draft, numbers), Checked::Meets, || format!("{numbers:?}"))?;
    let decoded = decode(calls, draft, numbers)?;
    tally.same(decoded.as_slice(), schedule, || format!("{numbers:?}"))?;
    let reply = reply(calls, draft, schedule);
    tally.holds(matches!(reply, Replayed::Violated(_)), || format!("{schedule:?}: {reply:?}"))?;
    fills(calls, draft, schedule, Ok(numbers), tally)
}
