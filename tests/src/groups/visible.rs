//! Visible lines, worked out by hand: which lines have an 8 and where it stands, what
//! it says, and which schedules keep its rule. The replayer takes all.

use super::holders_in_constraints::same_assertions;
use super::runs::runs;
use crate::ask::{check, decode, marks};
use crate::calls::{Calls, Checked, Decoded, Replayed};
use crate::compare_text::{same_truth, script_of};
use crate::draft::Draft;
use crate::enumerate::block_lengths;
use crate::line::*;
use crate::report::{Outcome, Report, Tally};
use crate::rule::{first_late, keeps_rule, moved};
use crate::samples::case_a;
use crate::table::{table_of, Row};
use crate::watch::written_down;
use Replayed::{Clean, CutOff, Refused, Violated};

type Check = fn(&dyn Calls, &mut Tally) -> Outcome;

const CHECKS: [(&str, Check); 16] = [
    ("a thread's first line has no 8", first_lines),
    ("each kind after each kind", each_kind),
    ("an 8 stands after its line's 3", place_in_table),
    ("guards do not matter", guarded_lines),
    ("the line before goes by chain, not by record number", by_chain),
    ("threads without lines and with one", empty_threads),
    ("what an 8 says", what_it_says),
    ("what it says at n + 1", at_n_plus_1),
    ("a stretch stops anywhere and moves nowhere", stretches),
    ("a thread without visible lines", nothing_visible),
    ("case A: P4 alone of P1 to P5 does not keep the rule", schedules_of_case_a),
    ("schedules that keep the rule, and that do not", keeping_schedules),
    ("the replayer takes all", all_are_replayed),
    ("another line violates first", another_is_first),
    ("the decoder names the 8", refused_by_decoder),
    ("the text of an 8", texts_of_8s),
];

pub fn run(calls: &dyn Calls, report: &mut Report) {
    for (name, body) in CHECKS {
        report.check(name, |tally| body(calls, tally));
    }
}

/// All of them, one after the other.
pub fn all(calls: &dyn Calls, tally: &mut Tally) -> Outcome {
    CHECKS.iter().try_for_each(|(name, body)| body(calls, tally).map_err(|message| format!("{name}: {message}")))
}

/// A line of each kind, and whether it is visible.
fn kinds() -> [(Line, bool); 8] {
    [
        (compute(1, constant(5)), false),
        (store(0, constant(5)), true),
        (load(1, 0), true),
        (input(1), false),
        (assert(constant(1)), false),
        (assume(constant(1)), false),
        (lock(0), true),
        (unlock(0), true),
    ]
}

/// A case without lines, with a global that has 8 and a mutex.
fn empty(threads: u16, switches: u16) -> Draft {
    Draft::new(threads, switches).with_globals(&[8]).with_mutexes(1)
}

/// The 3s, 8s, 1s and 2s, which are the first in the table.
fn order_rows(calls: &dyn Calls, draft: &Draft) -> Result<Vec<Row>, String> {
    let rows = table_of(calls, &draft.bytes())?.rows;
    Ok(rows.into_iter().take_while(|row| row[0] != 4 && row[0] != 6).collect())
}

/// The lines that have an 8, each with the line before it, in the order of the table.
fn eights(calls: &dyn Calls, draft: &Draft) -> Result<Vec<[u16; 2]>, String> {
    let rows = table_of(calls, &draft.bytes())?.rows;
    rows.iter()
        .filter(|row| row[0] == 8)
        .map(|&row| match row {
            [8, line, before, 0, 0, 0] => Ok([line, before]),
            _ => Err(format!("{row:?} of {draft}")),
        })
        .collect()
}

fn same_eights(calls: &dyn Calls, draft: &Draft, wanted: &[[u16; 2]], tally: &mut Tally) -> Outcome {
    tally.same(eights(calls, draft)?.as_slice(), wanted, || format!("the 8s of {draft}"))
}

/// Whatever its kind, and in whichever thread it is.
fn first_lines(calls: &dyn Calls, tally: &mut Tally) -> Outcome {
    for (line, _) in kinds() {
        for threads in 2..=4 {
            for thread in 0..threads {
                let alone = empty(threads, 3).with_thread(thread.into(), &[line]);
                same_eights(calls, &alone, &[], tally)?;
            }
            // The last line of the thread before is no line before.
            let all = (0..threads).fold(empty(threads, 3), |draft, thread| draft.with_thread(thread.into(), &[line]));
            same_eights(calls, &all, &[], tally)?;
        }
    }
    Ok(())
}

/// What the line before is does not matter.
fn each_kind(calls: &dyn Calls, tally: &mut Tally) -> Outcome {
    for (before, _) in kinds() {
        for (line, is_visible) in kinds() {
            for thread in 0..3 {
                let draft = empty(3, 3).with_thread(thread, &[before, line]);
                let wanted: &[[u16; 2]] = if is_visible { &[] } else { &[[2, 1]] };
                same_eights(calls, &draft, wanted, tally)?;
            }
        }
    }
    // All kinds in one thread, records 1 to 8, behind a load or not.
    let lines = kinds().map(|(line, _)| line);
    same_eights(calls, &empty(2, 3).with_thread(1, &lines), &[[4, 3], [5, 4], [6, 5]], tally)?;
    let behind = [&[load(0, 0)], &lines[..]].concat();
    same_eights(calls, &empty(2, 3).with_thread(1, &behind), &[[2, 1], [5, 4], [6, 5], [7, 6]], tally)
}

/// Two threads of four, with invisible lines in their first, middle and last places.
fn place_in_table(calls: &dyn Calls, tally: &mut Tally) -> Outcome {
    let first = [input(0), compute(1, local(0)), store(0, local(1)), assert(local(1))];
    let second = [lock(0), assume(local(3)), unlock(0)];
    let draft = empty(4, 9).with_thread(1, &first).with_thread(3, &second);
    let wanted = [
        [3, 1, 4, 1, 0, 0],
        [1, 1, 2, 0, 0, 0],
        [3, 2, 4, 1, 0, 0],
        [8, 2, 1, 0, 0, 0],
        [1, 2, 3, 0, 0, 0],
        [3, 3, 4, 1, 0, 0],
        [1, 3, 4, 0, 0, 0],
        [3, 4, 4, 1, 0, 0],
        [8, 4, 3, 0, 0, 0],
        [2, 4, 9, 0, 0, 0],
        [3, 5, 4, 3, 0, 0],
        [1, 5, 6, 0, 0, 0],
        [3, 6, 4, 3, 0, 0],
        [8, 6, 5, 0, 0, 0],
        [1, 6, 7, 0, 0, 0],
        [3, 7, 4, 3, 0, 0],
        [2, 7, 9, 0, 0, 0],
    ];
    tally.same(order_rows(calls, &draft)?.as_slice(), &wanted, || "3s, 8s, 1s and 2s".into())
}

/// Be the guard of the line, or of the line before it, true or not.
fn guarded_lines(calls: &dyn Calls, tally: &mut Tally) -> Outcome {
    for guard in [1, 16, 17, 32] {
        for (line, is_visible) in kinds() {
            let wanted: &[[u16; 2]] = if is_visible { &[] } else { &[[2, 1]] };
            for lines in [[load(0, 0), line.guarded(guard)], [store(0, constant(1)).guarded(guard), line]] {
                same_eights(calls, &empty(2, 2).with_thread(0, &lines), wanted, tally)?;
            }
        }
    }
    Ok(())
}

/// Lines load, compute, assert, store, assert; their record numbers in three orders.
fn by_chain(calls: &dyn Calls, tally: &mut Tally) -> Outcome {
    let lines = [load(0, 0), compute(0, constant(1)), assert(local(0)), store(0, local(0)), assert(local(0))];
    let draft = empty(2, 2).with_thread(0, &lines);
    same_eights(calls, &draft, &[[2, 1], [3, 2], [5, 4]], tally)?;
    same_eights(calls, &draft.renumbered(&[5, 4, 3, 2, 1]), &[[4, 5], [3, 4], [1, 2]], tally)?;
    same_eights(calls, &draft.renumbered(&[3, 1, 5, 2, 4]), &[[1, 3], [5, 1], [4, 2]], tally)?;
    // Two threads whose records alternate.
    let pair = empty(2, 2).with_thread(0, &[load(0, 0), input(0), input(1)]).with_thread(1, &[lock(0), input(0), input(1)]);
    let alternating = pair.renumbered(&[1, 3, 5, 2, 4, 6]);
    same_eights(calls, &alternating, &[[3, 1], [5, 3], [4, 2], [6, 4]], tally)
}

fn empty_threads(calls: &dyn Calls, tally: &mut Tally) -> Outcome {
    same_eights(calls, &Draft::new(2, 0), &[], tally)?;
    same_eights(calls, &empty(4, 15), &[], tally)?;
    let two = [assert(local(0)), assert(local(0))];
    for thread in 0..4 {
        // Alone, and after and before threads with one line.
        same_eights(calls, &empty(4, 2).with_thread(thread, &two), &[[2, 1]], tally)?;
        let others = (0..4).filter(|&other| other != thread);
        let draft = others.fold(empty(4, 2).with_thread(thread, &two), |draft, other| draft.with_thread(other, &two[..1]));
        same_eights(calls, &draft, &[[2, 1]], tally)?;
    }
    Ok(())
}

/// Lines 1 to 3 in thread 0: a load, a compute that puts 5 in local 1, a store of it.
/// Line 4 in thread 1 is an assert that fails. There are five blocks.
///
/// The table: 1 and 2 are line 1's 3 and 1; 3, 4 and 5 line 2's 3, 8 and 1; 6 and 7
/// line 3's 3 and 2; 8 and 9 line 4's.
fn three_lines() -> Draft {
    let lines = [load(0, 0), compute(1, constant(5)), store(0, local(1))];
    Draft::new(2, 4).with_globals(&[8]).with_thread(0, &lines).with_thread(1, &[assert(constant(0))])
}

/// The assignment in which line 3 is not run, line 4 is run in block 1, and lines 1
/// and 2 have these block numbers and the values that they then have.
fn with_blocks(first: u16, second: u16) -> [u16; 12] {
    let value = |block: u16, value: u16| if block == 5 { 0 } else { value };
    [first, value(first, 8), second, value(second, 5), 5, 0, 1, 0, 8, 8, 8, 8]
}

fn what_it_says(calls: &dyn Calls, tally: &mut Tally) -> Outcome {
    let draft = three_lines();
    let script = script_of(calls, &draft, tally)?;
    for (first, second, wanted) in [
        // The same block.
        (0, 0, Checked::Meets),
        (2, 2, Checked::Meets),
        (4, 4, Checked::Meets),
        // Not run: n + 1, whatever the line before has.
        (0, 5, Checked::Meets),
        (2, 5, Checked::Meets),
        (4, 5, Checked::Meets),
        (5, 5, Checked::Meets),
        // A later block of the same thread, up to n and past it.
        (0, 2, Checked::Fails(4)),
        (0, 4, Checked::Fails(4)),
        (2, 4, Checked::Fails(4)),
        (4, 6, Checked::Fails(4)),
        (0, 6, Checked::Fails(4)),
        (0, 65_534, Checked::Fails(4)),
        (5, 6, Checked::Fails(4)),
        // A block of the other thread: the 3 comes first.
        (0, 1, Checked::Fails(3)),
        (2, 3, Checked::Fails(3)),
        (0, 7, Checked::Fails(3)),
        // An earlier block: the 1 of the line before comes first.
        (2, 0, Checked::Fails(2)),
        (4, 2, Checked::Fails(2)),
        (4, 0, Checked::Fails(2)),
        (5, 4, Checked::Fails(2)),
        // Past n + 1, both: the 8 holds, and the 1 that comes next fails.
        (6, 6, Checked::Fails(5)),
    ] {
        let numbers = with_blocks(first, second);
        tally.same(check(calls, &draft, &numbers), wanted, || format!("lines 1 and 2 in blocks {first} and {second}"))?;
        same_truth(calls, &draft, &script, &numbers, tally)?;
        let mut lengths = vec![0, 1, 0, 0, 0];
        for block in [first, second].into_iter().filter(|&block| block < 5) {
            lengths[usize::from(block)] += 1;
        }
        if wanted == Checked::Meets {
            tally.same(decode(calls, &draft, &numbers)?, lengths, || format!("{numbers:?} decoded"))?;
        }
    }
    // The store is visible: it may be in each later block, where it puts 5.
    for (block, after) in [(0, [5, 5, 5, 5]), (2, [8, 8, 5, 5]), (4, [8, 8, 8, 8])] {
        let numbers = [&[0, 8, 0, 5, block, 5, 1, 0], &after[..]].concat();
        tally.same(check(calls, &draft, &numbers), Checked::Meets, || format!("the store in block {block}"))?;
    }
    Ok(())
}

/// n + 1 is the number of a line that was not run, also where a later block with that
/// number would be the thread's own, or another's.
fn at_n_plus_1(calls: &dyn Calls, tally: &mut Tally) -> Outcome {
    for threads in 2..=4 {
        for switches in [0, 1, 2, 3, 14, 15] {
            let unrun = switches + 1;
            // An assert that fails, in block 0, and two computes.
            let lines = [assert(constant(0)), compute(0, constant(3)), compute(1, constant(3))];
            let draft = Draft::new(threads, switches).with_thread(0, &lines);
            // The 8s are the fourth and the seventh, the 4s the ninth to eleventh.
            for (numbers, wanted) in [
                ([0, 0, 0, 3, 0, 3], Checked::Meets),
                ([0, 0, 0, 3, unrun, 0], Checked::Meets),
                ([0, 0, unrun, 0, unrun, 0], Checked::Meets),
                ([0, 0, 0, 3, unrun, 3], Checked::Fails(11)),
                ([0, 0, unrun, 3, unrun, 0], Checked::Fails(10)),
                // Nothing is run, so nothing violates: the 7 is the twelfth.
                ([unrun, 1, unrun, 0, unrun, 0], Checked::Fails(12)),
                // Line 3 is run after one that is not: the 1 of line 2.
                ([0, 0, unrun, 0, 0, 3], Checked::Fails(5)),
            ] {
                tally.same(check(calls, &draft, &numbers), wanted, || format!("{numbers:?} of {draft}"))?;
            }
            // n + 2 is no n + 1.
            let past = [0, 0, 0, 3, switches + 2, 0];
            let fails = if (switches + 2) % threads == 0 { 7 } else { 6 };
            tally.same(check(calls, &draft, &past), Checked::Fails(fails), || format!("{past:?} of {draft}"))?;
        }
    }
    Ok(())
}

/// Thread 0 loads, computes twice and asserts what fails. Its own blocks are 0 and 2,
/// and 3 is n + 1. The 8s of lines 2, 3 and 4 are constraints 4, 7 and 10.
fn stretches(calls: &dyn Calls, tally: &mut Tally) -> Outcome {
    let lines = [load(0, 0), compute(1, constant(5)), compute(2, constant(6)), assert(constant(0))];
    let draft = Draft::new(2, 2).with_globals(&[8]).with_thread(0, &lines);
    let numbers = |blocks: [u16; 4]| {
        let values = [8, 5, 6, 0].into_iter().zip([0, 0, 0, 1]);
        let lines = blocks.into_iter().zip(values);
        let mut numbers: Vec<u16> =
            lines.flat_map(|(block, (run, unrun))| [block, if block == 3 { unrun } else { run }]).collect();
        numbers.extend([8, 8]);
        numbers
    };
    // 3s, 8s, 1s and the 2 are 11, then come four 4s and two 6s; the 7 is the 18th.
    for (blocks, wanted) in [
        ([0, 0, 0, 0], Checked::Meets),
        ([2, 2, 2, 2], Checked::Meets),
        ([0, 2, 2, 2], Checked::Fails(4)),
        ([0, 0, 2, 2], Checked::Fails(7)),
        ([0, 0, 0, 2], Checked::Fails(10)),
        ([0, 0, 0, 3], Checked::Fails(18)),
        ([0, 0, 3, 3], Checked::Fails(18)),
        ([2, 3, 3, 3], Checked::Fails(18)),
        ([3, 3, 3, 3], Checked::Fails(18)),
        ([0, 2, 3, 3], Checked::Fails(4)),
        ([0, 0, 2, 3], Checked::Fails(7)),
    ] {
        tally.same(check(calls, &draft, &numbers(blocks)), wanted, || format!("blocks {blocks:?}"))?;
    }
    // Five schedules run all lines, and violate; the first and the last keep the rule.
    for first in 0..=4 {
        let schedule = [first, 0, 4 - first];
        runs(calls, &draft, &schedule, Violated(4), &[8], tally)?;
        tally.same(keeps_rule(&draft, &schedule), [0, 4].contains(&first), || format!("{schedule:?}"))?;
    }
    Ok(())
}

/// Its first line may be in each of its blocks; the others are where that is.
fn nothing_visible(calls: &dyn Calls, tally: &mut Tally) -> Outcome {
    let lines = [input(0), compute(1, [SUM, 0, CONSTANT, 1]), assume(local(1)), assert(local(0))];
    let draft = Draft::new(3, 8).with_thread(1, &lines);
    same_eights(calls, &draft, &[[2, 1], [3, 2], [4, 3]], tally)?;
    for block in [1, 4, 7] {
        let numbers = [block, 0, block, 1, block, 1, block, 0];
        tally.same(check(calls, &draft, &numbers), Checked::Meets, || format!("all in block {block}"))?;
        let mut schedule = vec![0; 10];
        schedule[usize::from(block)] = 4;
        tally.same(decode(calls, &draft, &numbers)?, schedule.clone(), || format!("all in block {block}"))?;
        runs(calls, &draft, &schedule, Violated(4), &[], tally)?;
    }
    // Every other schedule that runs all lines violates too, and moves to one of them.
    for (schedule, wanted) in
        [([0, 1, 0, 0, 1, 0, 0, 2, 0, 0], 1), ([0, 3, 0, 0, 0, 0, 0, 1, 0, 0], 1), ([0, 0, 0, 0, 1, 0, 0, 3, 0, 0], 4)]
    {
        runs(calls, &draft, &schedule, Violated(4), &[], tally)?;
        let mut all_there = [0; 10];
        all_there[wanted] = 4;
        tally.same(moved(&draft, &schedule), all_there.to_vec(), || format!("{schedule:?} moved"))?;
    }
    Ok(())
}

/// Of its 30 schedules two have line 3 in block 0 and line 4, the assert, in block 2.
/// One of these is P4, which moves to P5.
fn schedules_of_case_a(calls: &dyn Calls, tally: &mut Tally) -> Outcome {
    let draft = case_a();
    let all = block_lengths(&draft);
    tally.same(all.len(), 30, || "schedules".into())?;
    let others: Vec<&Vec<u16>> = all.iter().filter(|schedule| !keeps_rule(&draft, schedule)).collect();
    tally.same(others, vec![&vec![3, 0, 1], &vec![3, 1, 1]], || "schedules that do not keep the rule".into())?;
    tally.same(first_late(&draft, &[3, 1, 1]), Some(4), || "P4".into())?;
    tally.same(moved(&draft, &[3, 1, 1]), vec![4, 1, 0], || "P4 moved".into())?;
    tally.same(moved(&draft, &[3, 0, 1]), vec![4, 0, 0], || "moved".into())?;
    // The assignment of P4 fails at the 8 of line 4, the eighth; that of P5 at the 7.
    let p4 = [0, 0, 0, 1, 0, 1, 2, 1, 1, 5, 1, 5];
    let p5 = [0, 0, 0, 1, 0, 1, 0, 1, 1, 5, 1, 5];
    for (schedule, numbers, first) in [([3, 1, 1], p4, 8), ([4, 1, 0], p5, 19)] {
        tally.same(written_down(&draft, &schedule), numbers.to_vec(), || format!("{schedule:?} written down"))?;
        tally.same(check(calls, &draft, &numbers), Checked::Fails(first), || format!("{numbers:?}"))?;
        runs(calls, &draft, &schedule, Clean, &[5], tally)?;
    }
    Ok(())
}

/// Thread 0: compute, load, assume, store, assert. Thread 1: lock, input, unlock.
/// Records 1 to 5 and 6 to 8; blocks 0, 2 and 4, and 1 and 3.
pub fn mixed() -> Draft {
    let first = [compute(0, constant(1)), load(1, 0), assume(local(0)), store(0, constant(2)), assert(local(5))];
    empty(2, 4).with_thread(0, &first).with_thread(1, &[lock(0), input(0), unlock(0)])
}

/// Block lengths, the first record that is late, and the block lengths that keep the
/// rule instead.
pub const SCHEDULES: [([u16; 5], Option<u16>, [u16; 5]); 16] = [
    ([0, 0, 0, 0, 0], None, [0, 0, 0, 0, 0]),
    ([5, 3, 0, 0, 0], None, [5, 3, 0, 0, 0]),
    ([0, 0, 5, 3, 0], None, [0, 0, 5, 3, 0]),
    ([1, 0, 0, 0, 4], None, [1, 0, 0, 0, 4]),
    ([1, 0, 2, 0, 2], None, [1, 0, 2, 0, 2]),
    ([3, 2, 0, 1, 2], None, [3, 2, 0, 1, 2]),
    ([0, 2, 1, 0, 0], None, [0, 2, 1, 0, 0]),
    ([1, 0, 1, 0, 0], None, [1, 0, 1, 0, 0]),
    ([2, 0, 1, 0, 0], Some(3), [3, 0, 0, 0, 0]),
    ([2, 0, 3, 0, 0], Some(3), [3, 0, 2, 0, 0]),
    ([4, 0, 1, 0, 0], Some(5), [5, 0, 0, 0, 0]),
    ([1, 0, 3, 0, 1], Some(5), [1, 0, 4, 0, 0]),
    ([2, 0, 2, 0, 1], Some(3), [3, 0, 2, 0, 0]),
    ([0, 1, 0, 2, 0], Some(7), [0, 2, 0, 1, 0]),
    ([4, 1, 0, 1, 1], Some(5), [5, 2, 0, 0, 0]),
    ([1, 1, 4, 2, 0], Some(7), [1, 2, 4, 1, 0]),
];

fn keeping_schedules(calls: &dyn Calls, tally: &mut Tally) -> Outcome {
    let draft = mixed();
    for (lengths, late, kept) in SCHEDULES {
        // The input is run where thread 1 has two steps.
        let value = if lengths[1] + lengths[3] >= 2 { 9 } else { 0 };
        let (schedule, kept) = ([&lengths[..], &[value]].concat(), [&kept[..], &[value]].concat());
        let about = || format!("schedule {schedule:?}");
        tally.same(first_late(&draft, &schedule), late, about)?;
        tally.same(moved(&draft, &schedule), kept.clone(), about)?;
        for schedule in [&schedule, &kept] {
            let steps = lengths[0] + lengths[2] + lengths[4];
            let reply = if steps == 5 { Violated(5) } else { Clean };
            let global = if steps >= 4 { 2 } else { 8 };
            let mutex = if [1, 2].contains(&(lengths[1] + lengths[3])) { 2 } else { 0 };
            runs(calls, &draft, schedule, reply, &[global, mutex], tally)?;
        }
    }
    Ok(())
}

/// Whatever comes of them: violated, clean, cut off or refused by 14.
fn all_are_replayed(calls: &dyn Calls, tally: &mut Tally) -> Outcome {
    let two = |line: Line| empty(2, 2).with_thread(0, &[load(0, 0), line, store(0, constant(3))]);
    for (line, reply, global) in [
        (compute(0, constant(1)), Clean, 3),
        (assert(constant(1)), Clean, 3),
        (assert(constant(0)), Violated(2), 3),
        (assume(constant(1)), Clean, 3),
        (assume(constant(0)), CutOff(2), 8),
        (lock(0), Clean, 3),
    ] {
        let draft = two(line);
        for schedule in [[1, 0, 2], [2, 0, 1], [3, 0, 0], [0, 0, 3]] {
            let late = !line.is_visible() && schedule == [1, 0, 2];
            tally.same(first_late(&draft, &schedule), late.then_some(2), || format!("{schedule:?} of {draft}"))?;
            let mutex = if line.kind == LOCK { 1 } else { 0 };
            runs(calls, &draft, &schedule, reply, &[global, mutex], tally)?;
        }
    }
    // An input in a later block has its value, or has to have 0.
    let read = two(input(0));
    runs(calls, &read, &[1, 0, 2, 7], Clean, &[3, 0], tally)?;
    let passed = two(input(0).guarded(16));
    runs(calls, &passed, &[1, 0, 2, 0], Clean, &[3, 0], tally)?;
    runs(calls, &passed, &[1, 0, 2, 7], Refused { number: 14, place: 2 }, &marks(2), tally)
}

/// Thread 0 loads and asserts, thread 1 asserts; both asserts fail. Moved, the one of
/// thread 0 comes first.
fn another_is_first(calls: &dyn Calls, tally: &mut Tally) -> Outcome {
    let fails = assert(constant(0));
    let draft = empty(2, 2).with_thread(0, &[load(0, 0), fails]).with_thread(1, &[fails]);
    runs(calls, &draft, &[1, 1, 1], Violated(3), &[8, 0], tally)?;
    tally.same(moved(&draft, &[1, 1, 1]), vec![2, 1, 0], || "moved".into())?;
    runs(calls, &draft, &[2, 1, 0], Violated(2), &[8, 0], tally)
}

/// Refusal 15 has the place of the 8, and the slice stays as it was.
fn refused_by_decoder(calls: &dyn Calls, tally: &mut Tally) -> Outcome {
    let draft = three_lines();
    for second in [2, 4, 6] {
        let mut schedule = marks(6);
        let decoded = calls.decode(&draft.bytes(), &with_blocks(0, second), &mut schedule);
        tally.same(decoded, Decoded::Refused { number: 15, place: 4 }, || format!("line 2 in block {second}"))?;
        tally.same(schedule, marks(6), || "the slice".into())?;
    }
    Ok(())
}

/// The assertion of an 8 stands where the 8 stands in the table, and has its line's
/// block first.
fn texts_of_8s(calls: &dyn Calls, tally: &mut Tally) -> Outcome {
    same_assertions(calls, &case_a(), 8, &["(or (= v6 #x0003) (= v6 v4))", "(bvule v6 #x0003)"], tally)?;
    let wanted = [
        "(or (= v2 #x0005) (= (bvurem v2 #x0002) #x0000))",
        "(or (= v2 #x0005) (= v2 v0))",
        "(bvule v2 v4)",
        "(or (= v4 #x0005) (= (bvurem v4 #x0002) #x0000))",
        "(bvule v4 #x0005)",
    ];
    same_assertions(calls, &three_lines(), 3, &wanted, tally)?;
    let reversed = three_lines().renumbered(&[4, 3, 2, 1]);
    same_assertions(calls, &reversed, 4, &["(or (= v4 #x0005) (= v4 v6))"], tally)?;
    let most = Draft { switches: 15, ..three_lines() };
    same_assertions(calls, &most, 4, &["(or (= v2 #x0010) (= v2 v0))"], tally)?;
    let least = Draft { switches: 0, ..three_lines() };
    same_assertions(calls, &least, 4, &["(or (= v2 #x0001) (= v2 v0))"], tally)
}
