//! Runs worked out by hand: what each kind, op and guard does.

use crate::ask::{replay, reply};
use crate::calls::{Calls, Replayed};
use crate::demand3::{seen_alike, Written};
use crate::draft::Draft;
use crate::enumerate::{block_lengths, runs_all_lines};
use crate::line::*;
use crate::report::{Outcome, Report, Tally};
use crate::samples::handshake;

pub fn run(calls: &dyn Calls, report: &mut Report) {
    report.check("ops", |tally| ops(calls, tally));
    report.check("guards", |tally| guards(calls, tally));
    report.check("false guards change and demand nothing", |tally| passed_lines(calls, tally));
    report.check("a zero assert is noted, and the run goes on", |tally| {
        let lines = [assert(constant(0)), store(0, constant(8)), assert(constant(0))];
        runs(calls, &one_thread(&lines), &[3, 0], Replayed::Violated(1), &[8, 7, 0, 0], tally)
    });
    report.check("a failed assume in the last line means no violation", |tally| {
        let lines = [assert(constant(0)), store(0, constant(8)), assume(constant(0))];
        runs(calls, &one_thread(&lines), &[3, 0], Replayed::CutOff(3), &[8, 7, 0, 0], tally)
    });
    report.check("a cut-off leaves what stood before it", |tally| {
        let lines = [store(1, constant(3)), assume(constant(0)), store(0, constant(8))];
        runs(calls, &one_thread(&lines), &[3, 0], Replayed::CutOff(2), &[6, 3, 0, 0], tally)
    });
    report.check("a mutex that is not 0 cuts off", |tally| {
        let lines = [lock(1), lock(0), lock(1), unlock(1)];
        runs(calls, &one_thread(&lines), &[4, 0], Replayed::CutOff(3), &[6, 7, 1, 1], tally)
    });
    report.check("the first failed line cuts off", |tally| {
        // Thread 1 runs its assume before thread 0 comes to its own.
        let draft = two_threads(&[compute(0, constant(0)), assume(local(0))], &[assume(local(1))]);
        runs(calls, &draft, &[1, 1, 1], Replayed::CutOff(3), &[6, 7, 0, 0], tally)
    });
    report.check("the first zero assert in running order", |tally| {
        let draft = two_threads(&[load(0, 0), assert(local(5))], &[assert(local(6))]);
        runs(calls, &draft, &[1, 1, 1], Replayed::Violated(3), &[6, 7, 0, 0], tally)?;
        runs(calls, &draft, &[2, 1, 0], Replayed::Violated(2), &[6, 7, 0, 0], tally)
    });
    report.check("each thread has locals of its own", |tally| {
        let draft = two_threads(
            &[compute(0, constant(4)), store(0, local(0))],
            &[compute(0, [SUM, 0, CONSTANT, 1]), store(1, local(0))],
        );
        runs(calls, &draft, &[1, 2, 1], Replayed::Clean, &[4, 1, 0, 0], tally)
    });
    report.check("inputs go by thread and chain", |tally| inputs_in_order(calls, tally));
    report.check("after a cut-off no input is looked at", |tally| {
        // The input's guard is false, but the run does not come to it.
        let lines = [assume(constant(0)), input(0).guarded(2)];
        runs(calls, &one_thread(&lines), &[2, 0, 9], Replayed::CutOff(1), &[6, 7, 0, 0], tally)
    });
    report.check("a thread may stop", |tally| {
        let lines = [store(0, constant(8)), store(1, constant(9)), assert(constant(0))];
        runs(calls, &one_thread(&lines), &[0, 0], Replayed::Clean, &[6, 7, 0, 0], tally)?;
        runs(calls, &one_thread(&lines), &[1, 0], Replayed::Clean, &[8, 7, 0, 0], tally)?;
        runs(calls, &one_thread(&lines), &[2, 0], Replayed::Clean, &[8, 9, 0, 0], tally)?;
        runs(calls, &one_thread(&lines), &[3, 0], Replayed::Violated(3), &[8, 9, 0, 0], tally)
    });
    report.check("a run that stops before what would cut it off violates", |tally| {
        let lines = [assert(constant(0)), assume(constant(0)), store(0, constant(8))];
        runs(calls, &one_thread(&lines), &[1, 0], Replayed::Violated(1), &[6, 7, 0, 0], tally)?;
        runs(calls, &one_thread(&lines), &[2, 0], Replayed::CutOff(2), &[6, 7, 0, 0], tally)?;
        let lines = [lock(0), assert(constant(0)), lock(0)];
        runs(calls, &one_thread(&lines), &[2, 0], Replayed::Violated(2), &[6, 7, 1, 0], tally)?;
        runs(calls, &one_thread(&lines), &[3, 0], Replayed::CutOff(3), &[6, 7, 1, 0], tally)
    });
    report.check("a thread that stops keeps its mutex", |tally| {
        let draft = two_threads(&[lock(0), unlock(0)], &[lock(0), assert(constant(0))]);
        runs(calls, &draft, &[1, 0, 0], Replayed::Clean, &[6, 7, 1, 0], tally)?;
        runs(calls, &draft, &[1, 1, 0], Replayed::CutOff(3), &[6, 7, 1, 0], tally)?;
        runs(calls, &draft, &[2, 2, 0], Replayed::Violated(4), &[6, 7, 2, 0], tally)?;
        runs(calls, &draft, &[0, 2, 0], Replayed::Violated(4), &[6, 7, 2, 0], tally)
    });
    report.check("handshake: a fault at the third line", |tally| handshake_violates(calls, tally));
    report.check("handshake: no run finishes within the bound", |tally| handshake_is_cut_off(calls, tally));
    report.check("handshake: other bounds", |tally| handshake_with_other_bounds(calls, tally));
    report.check("block 0 is thread 0's, also without lines", |tally| {
        let draft = two_threads(&[], &[store(0, constant(1))]);
        runs(calls, &draft, &[0, 1, 0], Replayed::Clean, &[1, 7, 0, 0], tally)?;
        let refused = Replayed::Refused { number: 13, place: 0 };
        tally.same(replay(calls, &draft, &[1, 0, 0]).0, refused, || "block 0".into())
    });
}

/// Globals begin at 6 and 7; there are two mutexes; thread 1 has no lines.
fn one_thread(lines: &[Line]) -> Draft {
    Draft::new(2, 1).with_globals(&[6, 7]).with_mutexes(2).with_thread(0, lines)
}

fn two_threads(first: &[Line], second: &[Line]) -> Draft {
    let draft = Draft::new(2, 2).with_globals(&[6, 7]).with_mutexes(2);
    draft.with_thread(0, first).with_thread(1, second)
}

/// Demands the reply and the items at the end, and that checker and decoder
/// see the run in the same way.
pub fn runs(calls: &dyn Calls, draft: &Draft, schedule: &[u16], reply: Replayed, items: &[u16], tally: &mut Tally) -> Outcome {
    let about = || format!("schedule {schedule:?} of {draft}");
    let wanted = (reply, items.to_vec());
    tally.same(replay(calls, draft, schedule), wanted, about)?;
    let written = Written::of(calls, draft, tally)?;
    seen_alike(calls, draft, &written, schedule, tally).map(|_| ())
}

/// Op, a, b and what the op gives.
const OPS: [(u16, u16, u16, u16); 20] = [
    (COPY, 7, 0, 7),
    (COPY, 65_535, 0, 65_535),
    (SUM, 2, 3, 5),
    (SUM, 65_535, 1, 0),
    (SUM, 40_000, 40_000, 14_464),
    (DIFFERENCE, 5, 3, 2),
    (DIFFERENCE, 0, 1, 65_535),
    (DIFFERENCE, 1, 65_535, 2),
    (AND, 0b1100, 0b1010, 0b1000),
    (AND, 65_535, 32_768, 32_768),
    (OR, 0b1100, 0b1010, 0b1110),
    (OR, 0, 0, 0),
    (EQUAL, 3, 3, 1),
    (EQUAL, 3, 4, 0),
    (EQUAL, 65_535, 65_535, 1),
    (LESS, 1, 2, 1),
    (LESS, 2, 2, 0),
    (LESS, 2, 1, 0),
    // unsigned
    (LESS, 1, 65_535, 1),
    (LESS, 32_768, 1, 0),
];

/// Each op with its operands as locals, and with one of them the constant.
fn ops(calls: &dyn Calls, tally: &mut Tally) -> Outcome {
    for (op, a, b, result) in OPS {
        let second = if op == COPY { 0 } else { 2 };
        let set = [compute(1, constant(a)), compute(2, constant(b))];
        let mut expressions = vec![[op, 1, second, 0], [op, CONSTANT, second, a]];
        if op != COPY {
            expressions.push([op, 1, CONSTANT, b]);
        }
        for expression in expressions {
            let lines = [set[0], set[1], store(0, expression), compute(3, expression)];
            let lines = [&lines[..], &[store(1, local(3))]].concat();
            let items = [result, result, 0, 0];
            runs(calls, &one_thread(&lines), &[5, 0], Replayed::Clean, &items, tally)?;
            // "assert: the expression must not be zero"
            let tested = [set[0], set[1], assert(expression)];
            let reply = if result == 0 { Replayed::Violated(3) } else { Replayed::Clean };
            runs(calls, &one_thread(&tested), &[3, 0], reply, &[6, 7, 0, 0], tally)?;
        }
    }
    Ok(())
}

/// "1 to 16 means local (guard − 1) is not zero; 17 to 32 means local
/// (guard − 17) is zero", for each local and for zero, one and a high bit.
fn guards(calls: &dyn Calls, tally: &mut Tally) -> Outcome {
    for number in 0..16 {
        for value in [0, 1, 32_768] {
            for (guard, is_true) in [(1 + number, value != 0), (17 + number, value == 0)] {
                // All other locals say the contrary.
                let others = (0..16).filter(|&other| other != number);
                let contrary = u16::from(value == 0);
                let mut lines: Vec<Line> = others.map(|other| compute(other, constant(contrary))).collect();
                lines.push(compute(number, constant(value)));
                lines.push(store(0, constant(9)).guarded(guard));
                let global = if is_true { 9 } else { 6 };
                let items = [global, 7, 0, 0];
                runs(calls, &one_thread(&lines), &[17, 0], Replayed::Clean, &items, tally)?;
            }
        }
    }
    Ok(())
}

/// "A line whose guard is false changes nothing and demands nothing", kind by
/// kind; local 9 is never written.
fn passed_lines(calls: &dyn Calls, tally: &mut Tally) -> Outcome {
    let kinds = [
        compute(0, constant(5)),
        store(0, constant(5)),
        load(0, 1),
        input(0),
        assert(constant(0)),
        assume(constant(0)),
        lock(0),
        lock(1),
        unlock(0),
    ];
    for line in kinds {
        // Mutex 0 is held; local 0 has 3, and goes to global 1 at the end.
        let held = [lock(0), compute(0, constant(3)), line.guarded(10), store(1, local(0))];
        let mut schedule = vec![4, 0];
        if line.kind == INPUT {
            schedule.push(0);
        }
        let items = [6, 3, 1, 0];
        runs(calls, &one_thread(&held), &schedule, Replayed::Clean, &items, tally)?;
    }
    Ok(())
}

/// The run that stops: the assert is reached in block 2, and is broken. The case is the one that is shipped.
fn handshake_violates(calls: &dyn Calls, tally: &mut Tally) -> Outcome {
    let shipped = include_bytes!("../../../cases/handshake.case");
    tally.same_numbers(&handshake().bytes(), shipped, || "cases/handshake.case".into())?;
    runs(calls, &handshake(), &[1, 3, 2, 0, 0], Replayed::Violated(3), &[1, 0, 1], tally)?;
    // One line less of either thread, and nothing is broken.
    runs(calls, &handshake(), &[1, 3, 1, 0, 0], Replayed::Clean, &[1, 0, 1], tally)?;
    runs(calls, &handshake(), &[1, 2, 2, 0, 0], Replayed::Clean, &[1, 0, 0], tally)
}

/// Every schedule that runs all lines is cut off.
fn handshake_is_cut_off(calls: &dyn Calls, tally: &mut Tally) -> Outcome {
    let mut all = block_lengths(&handshake());
    all.retain(|schedule| runs_all_lines(&handshake(), schedule));
    // 11 lines in three blocks, 12 lines in two.
    tally.same(all.len(), 78 * 13, || "schedules".into())?;
    for schedule in all {
        let reply = reply(calls, &handshake(), &schedule);
        tally.holds(matches!(reply, Replayed::CutOff(_)), || format!("{schedule:?}: {reply:?}"))?;
    }
    Ok(())
}

/// With two switches there is a run that violates, with one there is none; with
/// six there is one that runs all lines.
fn handshake_with_other_bounds(calls: &dyn Calls, tally: &mut Tally) -> Outcome {
    let with_switches = |switches: u16| Draft { switches, ..handshake() };
    runs(calls, &with_switches(2), &[1, 3, 2], Replayed::Violated(3), &[1, 0, 1], tally)?;
    for schedule in block_lengths(&with_switches(1)) {
        let reply = reply(calls, &with_switches(1), &schedule);
        tally.holds(!matches!(reply, Replayed::Violated(_)), || format!("{schedule:?}: {reply:?}"))?;
    }
    let all_lines = [1, 4, 5, 4, 3, 4, 2];
    tally.holds(runs_all_lines(&with_switches(6), &all_lines), || "all lines".into())?;
    runs(calls, &with_switches(6), &all_lines, Replayed::Violated(3), &[3, 3, 0], tally)
}

/// Records are numbered against the chains, so that an order by record number
/// would be found out.
fn inputs_in_order(calls: &dyn Calls, tally: &mut Tally) -> Outcome {
    let first = [input(0), input(1), store(0, [DIFFERENCE, 0, 1, 0])];
    let second = [input(0), store(1, local(0))];
    let draft = two_threads(&first, &second).renumbered(&[5, 4, 3, 2, 1]);
    let schedule = [1, 2, 2, 30, 10, 4];
    runs(calls, &draft, &schedule, Replayed::Clean, &[20, 4, 0, 0], tally)
}
