//! Holders in the constraints, worked out by hand: which assignments end at the 7
//! and which meet it, and how the text says so.

use super::holders::held_by;
use crate::ask::{check, decode, reply};
use crate::calls::{Calls, Checked, Replayed};
use crate::compare_text::text_of;
use crate::draft::Draft;
use crate::line::*;
use crate::report::{Outcome, Tally};

/// Thread 0 locks and unlocks (records 1 and 2), thread 1 unlocks (record 3).
///
/// The table: constraints 1 to 6 are the 3s, 1s and 2s; 7 and 8 are record 1's 4
/// and 5, 9 and 10 the 4s of records 2 and 3; 11 and 12 are the 6s; 13 is the 7.
/// Variables 6 and 7 are the mutex after blocks 0 and 1.
fn three_lines() -> Draft {
    Draft::new(2, 2).with_mutexes(1).with_thread(0, &[lock(0), unlock(0)]).with_thread(1, &[unlock(0)])
}

pub fn at_the_7(calls: &dyn Calls, tally: &mut Tally) -> Outcome {
    let draft = three_lines();
    // Thread 1 was not run; thread 0 was run in block 0, in blocks 0 and 2, in
    // block 2, and no farther than its lock.
    let clean = [[0, 1, 0, 0, 3, 0, 0, 0], [0, 1, 2, 0, 3, 0, 1, 1], [2, 1, 2, 0, 3, 0, 0, 0], [0, 1, 3, 0, 3, 0, 1, 1]];
    for numbers in clean {
        tally.same(check(calls, &draft, &numbers), Checked::Fails(13), || format!("{numbers:?}"))?;
    }
    // Thread 1 unlocks in block 1: what thread 0 holds, what it has freed, and
    // what it has not locked yet.
    let violating = [
        ([0, 1, 2, 0, 1, 0, 1, 0], [1, 1, 1]),
        ([0, 1, 3, 0, 1, 0, 1, 0], [1, 1, 0]),
        ([0, 1, 0, 0, 1, 0, 0, 0], [2, 1, 0]),
        ([2, 1, 2, 0, 1, 0, 0, 0], [0, 1, 2]),
        ([3, 0, 3, 0, 1, 0, 0, 0], [0, 1, 0]),
    ];
    for (numbers, schedule) in violating {
        tally.same(check(calls, &draft, &numbers), Checked::Meets, || format!("{numbers:?}"))?;
        tally.same(decode(calls, &draft, &numbers)?, schedule.to_vec(), || format!("{numbers:?}"))?;
        let reply = reply(calls, &draft, &schedule);
        tally.same(reply, Replayed::Violated(3), || format!("schedule {schedule:?}"))?;
    }
    // One number of the first is another: the lock is in nobody's name, or in
    // thread 1's; the mutex after block 0 is; a stranger's unlock does not free.
    for (variable, number, first) in [(1, 0, 7), (1, 2, 7), (6, 0, 11), (6, 2, 11), (5, 1, 10), (5, 2, 10), (7, 1, 12)] {
        let mut numbers = violating[0].0;
        numbers[variable] = number;
        tally.same(check(calls, &draft, &numbers), Checked::Fails(first), || format!("{numbers:?}"))?;
    }
    Ok(())
}

/// One lock, run in its thread's first block: its 4 is constraint 3, and the last
/// is the 7.
pub fn values_of_locks(calls: &dyn Calls, tally: &mut Tally) -> Outcome {
    for threads in 2..=4 {
        for thread in 0..threads {
            let draft = Draft::new(threads as u16, 3).with_mutexes(1).with_thread(thread, &[lock(0)]);
            for value in [0, 1, 2, 3, 4, 5, 256, 65_535] {
                let after = (0..3).map(|block| if block < thread { 0 } else { value });
                let numbers: Vec<u16> = [thread as u16, value].into_iter().chain(after).collect();
                let first = if value == held_by(thread) { 8 } else { 3 };
                tally.same(check(calls, &draft, &numbers), Checked::Fails(first), || format!("{numbers:?} of {draft}"))?;
            }
        }
    }
    Ok(())
}

/// Block number n + 1, with its lock run and not run, of a stranger and of a
/// thread that would unlock its own; also with a guard that would be true.
pub fn unrun_at_the_7(calls: &dyn Calls, tally: &mut Tally) -> Outcome {
    // Record 1 is thread 0's lock, record 2 thread 1's unlock; the 7 is the ninth.
    for guard in [0, 17, 32] {
        let draft = Draft::new(2, 1).with_mutexes(1).with_thread(0, &[lock(0)]).with_thread(1, &[unlock(0).guarded(guard)]);
        for (numbers, wanted) in [
            ([0, 1, 2, 0, 1], Checked::Fails(9)),
            ([2, 0, 2, 0, 0], Checked::Fails(9)),
            ([0, 1, 1, 0, 1], Checked::Meets),
            ([2, 0, 1, 0, 0], Checked::Meets),
        ] {
            tally.same(check(calls, &draft, &numbers), wanted, || format!("{numbers:?} of {draft}"))?;
        }
    }
    // Both are thread 1's; its lock may be run without its unlock. There are nine
    // constraints here too, and a copy with the unlock's own block number n + 1.
    let draft = Draft::new(2, 1).with_mutexes(1).with_thread(1, &[lock(0), unlock(0)]);
    for numbers in [[1, 2, 2, 0, 0], [2, 0, 2, 0, 0], [1, 2, 1, 0, 0]] {
        tally.same(check(calls, &draft, &numbers), Checked::Fails(9), || format!("{numbers:?} of {draft}"))?;
    }
    // An assert is asked by its value alone: one that was not run has 1 by its 4,
    // which comes before the 7.
    let draft = Draft::new(2, 0).with_mutexes(1).with_thread(0, &[assert(constant(0)), unlock(0)]);
    for (numbers, wanted) in [
        ([1, 1, 1, 0], Checked::Fails(7)),
        ([1, 0, 1, 0], Checked::Fails(5)),
        ([0, 0, 1, 0], Checked::Meets),
        ([0, 0, 0, 0], Checked::Meets),
    ] {
        tally.same(check(calls, &draft, &numbers), wanted, || format!("{numbers:?} of {draft}"))?;
    }
    Ok(())
}

/// The assertions of a text from this one on, counted from 1.
pub fn same_assertions(calls: &dyn Calls, draft: &Draft, first: usize, wanted: &[&str], tally: &mut Tally) -> Outcome {
    let text = text_of(calls, &draft.bytes())?;
    let text = String::from_utf8_lossy(&text);
    let lines: Vec<&str> = text.lines().skip(draft.variables() + first).take(wanted.len()).collect();
    let wanted: Vec<String> = wanted.iter().map(|formula| format!("(assert {formula})")).collect();
    tally.same(lines, wanted.iter().map(String::as_str).collect(), || draft.to_string())
}

pub fn text_of_three_lines(calls: &dyn Calls, tally: &mut Tally) -> Outcome {
    let wanted = [
        "(ite (= v0 #x0003) (= v1 #x0000) (= v1 #x0001))",
        "(or (= v0 #x0003) (ite (= v0 #x0000) (= #x0000 #x0000) (ite (= v0 #x0002) (= #x0000 v7) true)))",
        "(ite (= v2 #x0003) (= v3 #x0000) (= v3 #x0000))",
        "(ite (= v4 #x0003) (= v5 #x0000) (= v5 #x0000))",
        "(ite (= v2 #x0000) (= v6 v3) (ite (= v0 #x0000) (= v6 v1) (= v6 #x0000)))",
        "(ite (= v4 #x0001) (= v7 v5) (= v7 v6))",
        "(or (not (or (= v2 #x0003) (ite (= v0 v2) (= #x0001 v1) (ite (= v2 #x0000) (= #x0001 #x0000) \
         (ite (= v2 #x0002) (= #x0001 v7) true))))) (or (not (or (= v4 #x0003) (ite (= v4 #x0001) (= #x0002 v6) true))) false))",
    ];
    same_assertions(calls, &three_lines(), 7, &wanted, tally)
}

/// Thread 3 of four, whose only own block is 3. Its lock may be passed over, so
/// that it has what it reads; the input is a source. The lock's 4 is constraint 11,
/// behind nine for the order and the input's 4; the 7 is the last of 18.
pub fn text_of_guarded_lines(calls: &dyn Calls, tally: &mut Tally) -> Outcome {
    let lines = [input(0), lock(0).guarded(1), assert(local(0)), unlock(0).guarded(17)];
    let draft = Draft::new(4, 3).with_mutexes(1).with_thread(3, &lines);
    let wanted = [
        "(ite (= v2 #x0004) (= v3 #x0000) (ite (not (= v1 #x0000)) (= v3 #x0004) \
         (ite (= v2 #x0003) (and (not (xor (= v3 v1) (= v10 v1))) (= v3 v10)) true)))",
        "(or (= v2 #x0004) (=> (not (= v1 #x0000)) (ite (= v2 #x0003) (= #x0000 v10) true)))",
    ];
    same_assertions(calls, &draft, 11, &wanted, tally)?;
    let seven = "(or (= v5 #x0000) (or (not (or (= v6 #x0004) (=> (= v1 #x0000) \
                 (ite (= v2 v6) (= #x0004 v3) (ite (= v6 #x0003) (= #x0004 v10) true))))) false))";
    same_assertions(calls, &draft, draft.constraints(), &[seven], tally)
}

pub fn text_of_the_7(calls: &dyn Calls, tally: &mut Tally) -> Outcome {
    let zero = assert(local(0));
    let draft = Draft::new(2, 1).with_mutexes(1).with_thread(0, &[unlock(0)]).with_thread(1, &[zero]);
    let part = "(not (or (= v0 #x0002) (ite (= v0 #x0000) (= #x0001 #x0000) true)))";
    let seven = format!("(or {part} (or (= v3 #x0000) false))");
    same_assertions(calls, &draft, draft.constraints(), &[&seven], tally)?;
    // The unlock has record 2 now.
    let draft = draft.renumbered(&[2, 1]);
    let part = part.replace("v0", "v2");
    let seven = format!("(or {part} (or (= v1 #x0000) false))");
    same_assertions(calls, &draft, draft.constraints(), &[&seven], tally)
}
