//! Schedules filled, worked out by hand: what stands for each line and each block; and
//! everything that tiny cases have.

use std::collections::BTreeSet;

use super::fill_refusals as refusals;
use crate::ask::{check, decode, fill, fills, fills_in, replay};
use crate::calls::{Calls, Checked, Refusal, Replayed};
use crate::demand3::filled_or_refused;
use crate::draft::Draft;
use crate::enumerate::with_each;
use crate::line::*;
use crate::report::{Outcome, Report, Tally};
use crate::rule::keeps_rule;
use crate::samples::case_a;

type Check = fn(&dyn Calls, &mut Tally) -> Outcome;

const CHECKS: [(&str, Check); 20] = [
    ("case A: P1 and P2 are filled to P6 and P7", filled_case_a),
    ("values of each kind", each_kind),
    ("false guards keep the old value", passed_lines),
    ("lines that are not run", lines_left),
    ("an input that is run, passed or left", inputs),
    ("block values are those at the end of the block", block_values),
    ("records in any order", by_record),
    ("threads without lines, and without a block", empty_threads),
    ("no switch and no item", no_switch),
    ("no record", no_record),
    ("the largest case", largest_case),
    ("16: clean, or cut off", refusals::not_violating),
    ("17: schedules that do not keep the rule", refusals::late_schedules),
    ("17: the first by thread, then by chain", refusals::first_by_thread),
    ("17: lines that are not run are not late", refusals::left_is_not_late),
    ("each refusal before those after it", refusals::in_order),
    ("1 to 9 before all", refusals::case_before_all),
    ("10: both sides of the slice's length", refusals::lengths_of_slice),
    ("every assignment of tiny cases", every_assignment),
    ("every schedule of tiny cases", every_schedule),
];

pub fn run(calls: &dyn Calls, report: &mut Report) {
    for (name, body) in CHECKS {
        report.check(name, |tally| body(calls, tally));
    }
}

/// All of them, one after the other.
pub fn all(calls: &dyn Calls, tally: &mut Tally) -> Outcome {
    CHECKS.iter().try_for_each(|(name, body)| body(calls, tally).map_err(|message| format!("{name}: {message}")))
}

/// Demands that a schedule is filled to this assignment, that the checker says yes to
/// it, and that it is decoded to the schedule.
pub fn goes_round(calls: &dyn Calls, draft: &Draft, schedule: &[u16], numbers: &[u16], tally: &mut Tally) -> Outcome {
    fills(calls, draft, schedule, Ok(numbers), tally)?;
    tally.same(check(calls, draft, numbers), Checked::Meets, || format!("{schedule:?} filled"))?;
    tally.same(decode(calls, draft, numbers)?.as_slice(), schedule, || format!("{schedule:?} filled, decoded"))
}

/// Demands that a schedule meets the refusal with this number and place.
pub fn refused(calls: &dyn Calls, draft: &Draft, schedule: &[u16], (number, place): (u16, u16), tally: &mut Tally) -> Outcome {
    fills(calls, draft, schedule, Err(Refusal { number, place }), tally)
}

/// P3, P4 and P5 are clean, and P4 does not keep the rule either.
fn filled_case_a(calls: &dyn Calls, tally: &mut Tally) -> Outcome {
    let draft = case_a();
    goes_round(calls, &draft, &[2, 1, 2], &[0, 0, 0, 1, 2, 5, 2, 0, 1, 5, 1, 5], tally)?;
    goes_round(calls, &draft, &[0, 1, 4], &[2, 5, 2, 6, 2, 6, 2, 0, 1, 5, 0, 5], tally)?;
    for clean in [[1, 1, 3], [3, 1, 1], [4, 1, 0], [0, 0, 0], [2, 1, 1]] {
        refused(calls, &draft, &clean, (16, 0), tally)?;
    }
    Ok(())
}

/// With two switches, globals that begin with 8 and 9, and two mutexes.
pub fn empty() -> Draft {
    Draft::new(2, 2).with_globals(&[8, 9]).with_mutexes(2)
}

/// What each kind leaves in its target; a test has 1 or 0, whatever its expression has.
fn each_kind(calls: &dyn Calls, tally: &mut Tally) -> Outcome {
    let lines = [
        load(3, 1),
        compute(3, [SUM, 3, CONSTANT, 65_530]),
        store(0, [DIFFERENCE, 3, CONSTANT, 5]),
        input(2),
        assume(local(2)),
        assert(local(2)),
        lock(1),
        unlock(1),
        assert([EQUAL, 2, CONSTANT, 1]),
    ];
    let draft = empty().with_thread(1, &lines);
    // Thread 1 has block 1 alone, and holds with 2.
    let numbers = [1, 9, 1, 3, 1, 65_534, 1, 700, 1, 1, 1, 1, 1, 2, 1, 0, 1, 0, 8, 9, 0, 0, 65_534, 9, 0, 0];
    goes_round(calls, &draft, &[0, 9, 0, 700], &numbers, tally)?;
    // It stops before the unlock. The input has 0, so that the assert of it fails.
    let numbers = [1, 9, 1, 3, 1, 65_534, 1, 0, 1, 1, 1, 0, 1, 2, 3, 0, 3, 1, 8, 9, 0, 0, 65_534, 9, 0, 2];
    let without_demand = [&lines[..4], &[assert(constant(1)), assert(local(2)), lock(1)], &lines[7..]].concat();
    goes_round(calls, &empty().with_thread(1, &without_demand), &[0, 7, 0, 0], &numbers, tally)
}

/// A line of each kind.
fn kinds() -> [Line; 8] {
    [
        compute(0, constant(6)),
        load(0, 1),
        input(0),
        store(1, constant(7)),
        lock(0),
        unlock(0),
        assert(constant(0)),
        assume(constant(0)),
    ]
}

/// Each kind with a guard on local 15, which has 0, after lines that give its target
/// another value.
fn passed_lines(calls: &dyn Calls, tally: &mut Tally) -> Outcome {
    let never = kinds().map(|line| line.guarded(16));
    let before = [compute(0, constant(5)), store(1, constant(3)), lock(0)];
    let lines = [&before[..], &never, &[assert(constant(0))]].concat();
    let draft = empty().with_thread(0, &lines);
    let values = [5, 3, 1, 5, 5, 5, 3, 1, 1, 1, 1, 0];
    let numbers = |block: u16| values.into_iter().flat_map(|value| [block, value]).collect::<Vec<u16>>();
    let first = [numbers(0), [8, 3, 1, 0].repeat(2)].concat();
    goes_round(calls, &draft, &[12, 0, 0, 0], &first, tally)?;
    let last = [numbers(2), [8, 9, 0, 0].repeat(2)].concat();
    goes_round(calls, &draft, &[0, 0, 12, 0], &last, tally)?;
    // Without a line before, a local has 0 and an item its initial value.
    let lines = [&never[..], &[assert(constant(0))]].concat();
    let values = [0, 0, 0, 9, 0, 0, 1, 1, 0];
    let numbers = values.into_iter().flat_map(|value| [0, value]).chain([8, 9, 0, 0, 8, 9, 0, 0]);
    goes_round(calls, &empty().with_thread(0, &lines), &[9, 0, 0, 0], &numbers.collect::<Vec<u16>>(), tally)
}

/// A line that is not run has block number n + 1 and 0, or 1 for a test.
fn lines_left(calls: &dyn Calls, tally: &mut Tally) -> Outcome {
    let left = kinds();
    let values = [0, 0, 0, 0, 0, 0, 1, 1];
    for switches in [0, 1, 2, 15] {
        let draft = Draft { switches, ..empty() };
        let draft = draft.with_thread(0, &[&[assert(constant(0))], &left[..]].concat()).with_thread(1, &left);
        let unrun: Vec<u16> = values.into_iter().flat_map(|value| [switches + 1, value]).collect();
        let block_values = [8, 9, 0, 0].repeat(switches.into());
        let numbers = [&[0, 0], &unrun[..], &unrun, &block_values].concat();
        let schedule = [&[1], vec![0; usize::from(switches) + 2].as_slice()].concat();
        goes_round(calls, &draft, &schedule, &numbers, tally)?;
    }
    Ok(())
}

/// Three lines read: the first is run, the second passed, the third left. What is
/// passed keeps the local's 7, and what is left has 0.
fn inputs(calls: &dyn Calls, tally: &mut Tally) -> Outcome {
    let lines = [input(0), input(0).guarded(17), assert([LESS, 0, CONSTANT, 7]), input(0)];
    let draft = empty().with_thread(0, &lines);
    let ends = [8, 9, 0, 0].repeat(2);
    let numbers = [&[0, 7, 0, 7, 0, 0, 3, 0], ends.as_slice()].concat();
    goes_round(calls, &draft, &[3, 0, 0, 7, 0, 0], &numbers, tally)?;
    let numbers = [&[0, 65_535, 0, 65_535, 0, 0, 0, 12], ends.as_slice()].concat();
    goes_round(calls, &draft, &[4, 0, 0, 65_535, 0, 12], &numbers, tally)?;
    // The guard is true where the first has 0.
    let numbers = [&[2, 0, 2, 9, 2, 0, 2, 0], ends.as_slice()].concat();
    goes_round(calls, &draft, &[0, 0, 4, 0, 9, 0], &numbers, tally)?;
    refused(calls, &draft, &[3, 0, 0, 7, 1, 0], (14, 2), tally)?;
    refused(calls, &draft, &[3, 0, 0, 7, 0, 1], (14, 4), tally)?;
    // Two are left: the first by chain is named, not by record.
    refused(calls, &draft.renumbered(&[4, 3, 2, 1]), &[1, 0, 0, 7, 1, 1], (14, 3), tally)
}

/// Thread 0 stores, locks, stores and fails; thread 1 stores and unlocks.
fn block_values(calls: &dyn Calls, tally: &mut Tally) -> Outcome {
    let first = [store(0, constant(10)), lock(0), store(1, constant(20)), assert(constant(0))];
    let draft = Draft::new(2, 3).with_globals(&[3, 4]).with_mutexes(1).with_thread(0, &first);
    let draft = draft.with_thread(1, &[store(0, constant(30)), unlock(0)]);
    for (schedule, numbers) in [
        ([1, 1, 3, 1], [0, 10, 2, 1, 2, 20, 2, 0, 1, 30, 3, 0, 10, 4, 0, 30, 4, 0, 30, 20, 1]),
        ([2, 1, 2, 1], [0, 10, 0, 1, 2, 20, 2, 0, 1, 30, 3, 0, 10, 4, 1, 30, 4, 1, 30, 20, 1]),
        // What a block without lines begins with is what it ends with.
        ([0, 0, 4, 2], [2, 10, 2, 1, 2, 20, 2, 0, 3, 30, 3, 0, 3, 4, 0, 3, 4, 0, 10, 20, 1]),
        ([4, 0, 0, 2], [0, 10, 0, 1, 0, 20, 0, 0, 3, 30, 3, 0, 10, 20, 1, 10, 20, 1, 10, 20, 1]),
        ([4, 2, 0, 0], [0, 10, 0, 1, 0, 20, 0, 0, 1, 30, 1, 0, 10, 20, 1, 30, 20, 0, 30, 20, 0]),
        // The unlock alone violates, of a mutex that thread 0 holds, and of a free one.
        ([2, 2, 0, 0], [0, 10, 0, 1, 4, 0, 4, 1, 1, 30, 1, 0, 10, 4, 1, 30, 4, 0, 30, 4, 0]),
        ([0, 2, 1, 0], [2, 10, 4, 0, 4, 0, 4, 1, 1, 30, 1, 0, 3, 4, 0, 30, 4, 0, 10, 4, 0]),
    ] {
        goes_round(calls, &draft, &schedule, &numbers, tally)?;
    }
    Ok(())
}

/// The same lines with other record numbers: variables move, the schedule does not.
fn by_record(calls: &dyn Calls, tally: &mut Tally) -> Outcome {
    let draft = case_a().renumbered(&[3, 5, 1, 4, 2]);
    goes_round(calls, &draft, &[2, 1, 2], &[2, 5, 1, 5, 0, 0, 2, 0, 0, 1, 1, 5], tally)?;
    goes_round(calls, &draft, &[0, 1, 4], &[2, 6, 1, 5, 2, 5, 2, 0, 2, 6, 0, 5], tally)
}

fn empty_threads(calls: &dyn Calls, tally: &mut Tally) -> Outcome {
    // Threads 2 and 3 have no block, threads 0 and 2 no lines.
    let lines = [assert(constant(0)), assume(constant(0))];
    let draft = Draft::new(4, 1).with_mutexes(1).with_thread(1, &lines).with_thread(3, &lines);
    goes_round(calls, &draft, &[0, 1], &[1, 0, 2, 1, 2, 1, 2, 1, 0], tally)?;
    refused(calls, &draft, &[0, 2], (16, 0), tally)?;
    refused(calls, &draft, &[1, 1], (13, 0), tally)
}

fn no_switch(calls: &dyn Calls, tally: &mut Tally) -> Outcome {
    let bare = Draft::new(2, 0).with_thread(0, &[compute(0, constant(4)), assert(constant(0))]).with_thread(1, &[input(0)]);
    let with_items = bare.clone().with_globals(&[1; 8]).with_mutexes(4);
    for draft in [&bare, &with_items] {
        goes_round(calls, draft, &[2, 0], &[0, 4, 0, 0, 1, 0], tally)?;
        refused(calls, draft, &[1, 0], (16, 0), tally)?;
        refused(calls, draft, &[2, 1], (14, 3), tally)?;
    }
    let without_items = Draft { switches: 3, ..bare };
    goes_round(calls, &without_items, &[0, 0, 2, 1, 70], &[2, 4, 2, 0, 3, 70], tally)
}

/// Nothing can violate, and nothing is short where nothing would be written.
fn no_record(calls: &dyn Calls, tally: &mut Tally) -> Outcome {
    for (switches, globals, mutexes) in [(0, 0, 0), (0, 8, 4), (15, 0, 0), (1, 1, 0), (15, 8, 4)] {
        let draft = Draft::new(2, switches).with_globals(&vec![7; globals]).with_mutexes(mutexes);
        let needed = usize::from(switches) * (globals + usize::from(mutexes));
        let schedule = vec![0; draft.blocks()];
        for room in [0, needed.saturating_sub(1), needed, needed + 1] {
            let number = if room < needed { 10 } else { 16 };
            fills_in(room, calls, &draft, &schedule, Err(Refusal { number, place: 0 }), tally)?;
        }
        let mut longer = schedule.clone();
        longer[0] = 1;
        refused(calls, &draft, &longer, (13, 0), tally)?;
        refused(calls, &draft, &[], (12, 0), tally)?;
    }
    Ok(())
}

/// Four threads of 63 stores and an assert that fails, in sixteen blocks of 16 lines; or
/// of inputs.
fn largest_case(calls: &dyn Calls, tally: &mut Tally) -> Outcome {
    let most = Draft::new(4, 15).with_globals(&[1, 2, 3, 4, 5, 6, 7, 8]).with_mutexes(4);
    let full = |lines: [Line; 64]| (0..4).fold(most.clone(), |draft, thread| draft.with_thread(thread, &lines));
    let mut lines = [store(7, constant(9)); 64];
    lines[63] = assert(local(0));
    let numbers = |line: u16| {
        let (thread, place) = (line / 64, line % 64);
        [thread + 4 * (place / 16), if place == 63 { 0 } else { 9 }]
    };
    let block_values = [1, 2, 3, 4, 5, 6, 7, 9, 0, 0, 0, 0].repeat(15);
    let numbers: Vec<u16> = (0..256).flat_map(numbers).chain(block_values).collect();
    tally.same(numbers.len(), 692, || "variables".into())?;
    goes_round(calls, &full(lines), &[16; 16], &numbers, tally)?;
    for room in [0, 691, 692, 693] {
        let wanted = if room < 692 { Err(Refusal { number: 10, place: 0 }) } else { Ok(numbers.as_slice()) };
        fills_in(room, calls, &full(lines), &[16; 16], wanted, tally)?;
    }
    // Of invisible lines the seventeenth of thread 0 is late.
    refused(calls, &full([assert(local(0)); 64]), &[16; 16], (17, 17), tally)?;
    refused(calls, &full([assert(constant(1)); 64]), &[16; 16], (16, 0), tally)?;
    // Each thread reads 63 times, in its first block: record 64t + k has the value 1,000 × t + k.
    let mut lines = [input(3); 64];
    lines[63] = assert(local(0));
    let value = |line: u16| 1_000 * (line / 64) + line % 64 + 1;
    let inputs = (0..256).filter(|line| line % 64 < 63).map(value);
    let schedule: Vec<u16> = [64; 4].into_iter().chain([0; 12]).chain(inputs).collect();
    let of_lines = (0..256).flat_map(|line| [line / 64, if line % 64 < 63 { value(line) } else { 0 }]);
    let block_values = [1, 2, 3, 4, 5, 6, 7, 8, 0, 0, 0, 0].repeat(15);
    goes_round(calls, &full(lines), &schedule, &of_lines.chain(block_values).collect::<Vec<u16>>(), tally)
}

/// Cases with few variables, and the largest value that is tried in each of them.
fn tiny_cases() -> [(Draft, u16); 5] {
    let fails = assert(constant(0));
    let stored_before = |switches| {
        let draft = Draft::new(2, switches).with_globals(&[1]).with_thread(0, &[store(0, constant(0))]);
        draft.with_thread(1, &[load(0, 0), assert(local(0))])
    };
    [
        (stored_before(1), 2),
        (stored_before(2), 3),
        (Draft::new(2, 2).with_thread(0, &[input(0), fails, input(0).guarded(17)]), 3),
        (Draft::new(2, 2).with_mutexes(1).with_thread(0, &[lock(0), unlock(0)]).with_thread(1, &[unlock(0)]), 3),
        (Draft::new(3, 1).with_thread(0, &[fails, fails]).with_thread(2, &[assume(constant(0))]), 3),
    ]
}

/// Each vector of so many numbers from 0 to the given one.
fn vectors(length: usize, most: u16) -> Vec<Vec<u16>> {
    let numbers: Vec<u16> = (0..=most).collect();
    (0..length).fold(vec![Vec::new()], |vectors, _| with_each(&vectors, &numbers))
}

/// "filling a decoded one restores the assignment", of every one that gets yes; and
/// what is decoded are the schedules that are filled, each once.
fn every_assignment(calls: &dyn Calls, tally: &mut Tally) -> Outcome {
    for (draft, most) in tiny_cases() {
        let mut decoded = BTreeSet::new();
        for numbers in vectors(draft.variables(), most) {
            if check(calls, &draft, &numbers) != Checked::Meets {
                continue;
            }
            let schedule = decode(calls, &draft, &numbers)?;
            fills(calls, &draft, &schedule, Ok(&numbers), tally)?;
            tally.holds(decoded.insert(schedule), || format!("{numbers:?} of {draft}: decoded twice"))?;
        }
        let all = vectors(draft.schedule_numbers(), most);
        let filled: BTreeSet<Vec<u16>> = all.into_iter().filter(|schedule| fill(calls, &draft, schedule).is_ok()).collect();
        tally.holds(!filled.is_empty(), || format!("no schedule of {draft} is filled"))?;
        tally.same(decoded, filled, || format!("what is decoded and what is filled, of {draft}"))?;
    }
    Ok(())
}

/// Every schedule, of every length up to one more than needed: the replayer's refusal,
/// or 16 or 17, or an assignment that gets yes and is decoded to the schedule.
fn every_schedule(calls: &dyn Calls, tally: &mut Tally) -> Outcome {
    for (draft, most) in tiny_cases() {
        for schedule in (0..=draft.schedule_numbers() + 1).flat_map(|length| vectors(length, most)) {
            let reply = replay(calls, &draft, &schedule).0;
            if matches!(reply, Replayed::Violated(_)) && keeps_rule(&draft, &schedule) {
                tally.saw("filled");
                goes_round(calls, &draft, &schedule, &fill(calls, &draft, &schedule)?, tally)?;
            } else {
                let refusal = filled_or_refused(&draft, &schedule, reply, &[]);
                tally.saw(format!("{:?}", refusal.map_err(|refusal| refusal.number)));
                fills(calls, &draft, &schedule, refusal, tally)?;
            }
        }
    }
    ["filled", "Err(12)", "Err(13)", "Err(14)", "Err(16)", "Err(17)"].iter().try_for_each(|reply| tally.saw_often(reply, 5))
}
