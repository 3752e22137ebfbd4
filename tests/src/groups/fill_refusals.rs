//! Schedules that are not filled, worked out by hand: with which refusal and which
//! place, and what comes before what.

use super::fill::{empty, goes_round, refused};
use super::visible::{mixed, SCHEDULES};
use crate::ask::{fill, fills_in, refused_by_all};
use crate::calls::{Calls, Refusal};
use crate::draft::Draft;
use crate::line::*;
use crate::report::{Outcome, Tally};

pub fn not_violating(calls: &dyn Calls, tally: &mut Tally) -> Outcome {
    let lines = [assert(constant(0)), store(0, constant(1)), assume(constant(0)), assert(constant(0))];
    let draft = empty().with_thread(0, &lines).with_thread(1, &[lock(0), lock(0), assert(constant(0))]);
    for (schedule, violates) in [
        ([0, 0, 0], false),
        ([1, 0, 0], true),
        ([2, 0, 0], true),
        ([0, 1, 0], false),
        ([0, 1, 2], true),
        ([2, 1, 0], true),
        // Cut off, by an assume or a lock, after the violation or before it.
        ([3, 0, 0], false),
        ([4, 0, 0], false),
        ([1, 2, 0], false),
        ([1, 3, 0], false),
        ([0, 3, 0], false),
        ([0, 2, 1], false),
    ] {
        match violates {
            true => goes_round(calls, &draft, &schedule, &fill(calls, &draft, &schedule)?, tally)?,
            false => refused(calls, &draft, &schedule, (16, 0), tally)?,
        }
    }
    Ok(())
}

/// The schedules of `visible` with their late lines, which violate where thread 0 runs
/// its five lines.
pub fn late_schedules(calls: &dyn Calls, tally: &mut Tally) -> Outcome {
    let draft = mixed();
    for (lengths, late, kept) in SCHEDULES {
        let value = if lengths[1] + lengths[3] >= 2 { 9 } else { 0 };
        let (schedule, kept) = ([&lengths[..], &[value]].concat(), [&kept[..], &[value]].concat());
        match (lengths[0] + lengths[2] + lengths[4], late) {
            (5, Some(late)) => {
                refused(calls, &draft, &schedule, (17, late), tally)?;
                goes_round(calls, &draft, &kept, &fill(calls, &draft, &kept)?, tally)?;
            }
            (5, None) => goes_round(calls, &draft, &schedule, &fill(calls, &draft, &schedule)?, tally)?,
            _ => refused(calls, &draft, &schedule, (16, 0), tally)?,
        }
    }
    Ok(())
}

/// Two threads load, compute, compute and fail, with five blocks.
fn two_stretches() -> Draft {
    let lines = [load(0, 0), compute(0, constant(1)), compute(1, constant(1)), assert(local(5))];
    Draft::new(2, 4).with_globals(&[8]).with_thread(0, &lines).with_thread(1, &lines)
}

pub fn first_by_thread(calls: &dyn Calls, tally: &mut Tally) -> Outcome {
    // Lines that are late by their places in the chains, from 0 to 7.
    let turned = [8, 7, 6, 5, 4, 3, 2, 1];
    let mixed_up = [3, 6, 1, 8, 2, 5, 4, 7];
    for numbers in [[1, 2, 3, 4, 5, 6, 7, 8], turned, mixed_up] {
        let draft = two_stretches().renumbered(&numbers);
        for (schedule, late) in [
            ([1, 4, 3, 0, 0], 1),
            ([2, 4, 2, 0, 0], 2),
            ([3, 4, 1, 0, 0], 3),
            ([1, 4, 1, 0, 2], 1),
            ([2, 4, 1, 0, 1], 2),
            ([4, 1, 0, 3, 0], 5),
            ([4, 2, 0, 2, 0], 6),
            ([4, 3, 0, 1, 0], 7),
            // Thread 1's late line is run before thread 0's.
            ([1, 1, 0, 3, 3], 1),
            ([3, 1, 0, 3, 1], 3),
            ([0, 1, 2, 3, 2], 2),
        ] {
            refused(calls, &draft, &schedule, (17, numbers[late]), tally)?;
        }
        for schedule in [[4, 4, 0, 0, 0], [0, 0, 4, 4, 0], [0, 4, 0, 0, 4], [4, 1, 0, 0, 0], [3, 4, 0, 0, 0]] {
            goes_round(calls, &draft, &schedule, &fill(calls, &draft, &schedule)?, tally)?;
        }
    }
    Ok(())
}

/// A thread stops after a visible line, or within a stretch; what follows is not run.
pub fn left_is_not_late(calls: &dyn Calls, tally: &mut Tally) -> Outcome {
    let draft = two_stretches();
    let left = |places: [u16; 2]| [places[0], 4, places[1], 0, 0];
    for first in 0..=4 {
        goes_round(calls, &draft, &left([first, 0]), &fill(calls, &draft, &left([first, 0]))?, tally)?;
    }
    // The second line is late, and the others are left.
    refused(calls, &draft, &left([1, 1]), (17, 2), tally)?;
    refused(calls, &draft, &left([2, 1]), (17, 3), tally)?;
    // A first line may be in any block, visible or not.
    let alone = Draft::new(2, 4).with_thread(0, &[assert(constant(0))]).with_thread(1, &[compute(0, constant(1))]);
    for block in [0, 2, 4] {
        let mut schedule = [0, 0, 0, 1, 0];
        schedule[block] += 1;
        goes_round(calls, &alone, &schedule, &[block as u16, 0, 3, 1], tally)?;
    }
    Ok(())
}

/// Thread 0 loads, fails, passes an input and reads; thread 1 loads, computes and is
/// cut off.
fn all_faults() -> Draft {
    let first = [load(0, 0), assert(local(5)), input(1).guarded(16), input(2)];
    let second = [load(0, 0), compute(0, constant(1)), assume(constant(0))];
    Draft::new(2, 4).with_globals(&[8]).with_thread(0, &first).with_thread(1, &second)
}

/// Schedules of `all_faults`, each with its refusal and place.
const FAULTS: [([u16; 7], (u16, u16)); 20] = [
    // 14 of an input with a false guard: alone, before 17, before what is left.
    ([3, 0, 0, 0, 0, 7, 0], (14, 3)),
    ([1, 0, 2, 0, 0, 7, 0], (14, 3)),
    ([3, 0, 0, 0, 0, 7, 7], (14, 3)),
    // 14 of an input that is not run: alone, before 16 and 17, and both at once.
    ([2, 0, 0, 0, 0, 0, 7], (14, 4)),
    ([2, 0, 0, 0, 0, 7, 0], (14, 3)),
    ([2, 0, 0, 0, 0, 7, 7], (14, 3)),
    ([1, 0, 0, 0, 0, 0, 7], (14, 4)),
    ([0, 0, 0, 0, 0, 0, 1], (14, 4)),
    ([1, 0, 1, 0, 0, 0, 7], (14, 4)),
    ([1, 1, 0, 1, 0, 0, 7], (14, 4)),
    // 16: clean, cut off, with a late line, and a cut-off before 14 is met.
    ([1, 0, 0, 0, 0, 0, 0], (16, 0)),
    ([2, 3, 0, 0, 0, 0, 0], (16, 0)),
    ([0, 1, 0, 1, 0, 0, 0], (16, 0)),
    ([1, 1, 0, 1, 0, 0, 0], (16, 0)),
    ([1, 0, 1, 3, 0, 0, 0], (16, 0)),
    ([2, 3, 0, 0, 0, 0, 7], (16, 0)),
    ([2, 3, 1, 0, 0, 7, 0], (16, 0)),
    // 17 alone.
    ([1, 0, 1, 0, 0, 0, 0], (17, 2)),
    ([2, 1, 0, 1, 0, 0, 0], (17, 6)),
    ([1, 1, 1, 1, 0, 0, 0], (17, 2)),
];

/// Each of them alone, then with a sum that is too large, a wrong length and too
/// little room.
pub fn in_order(calls: &dyn Calls, tally: &mut Tally) -> Outcome {
    let draft = all_faults();
    let needed = draft.variables();
    goes_round(calls, &draft, &[2, 0, 0, 0, 0, 0, 0], &[0, 8, 0, 0, 5, 0, 5, 0, 5, 0, 5, 0, 5, 1, 8, 8, 8, 8], tally)?;
    for (schedule, refusal) in FAULTS {
        refused(calls, &draft, &schedule, refusal, tally)?;
        let (mut more, mut wrapping) = (schedule, schedule);
        more[3] += 4;
        wrapping[0] += 32_768;
        wrapping[4] += 32_768;
        refused(calls, &draft, &more, (13, 0), tally)?;
        refused(calls, &draft, &wrapping, (13, 0), tally)?;
        for right in [schedule, more] {
            for length in [0, 4, 5, 6] {
                refused(calls, &draft, &right[..length], (12, 0), tally)?;
            }
            let longer = [&right[..], &[0]].concat();
            refused(calls, &draft, &longer, (12, 0), tally)?;
            for given in [&right[..], &right[..6], &longer] {
                for room in [0, 1, needed - 1] {
                    fills_in(room, calls, &draft, given, Err(Refusal { number: 10, place: 0 }), tally)?;
                }
            }
        }
    }
    Ok(())
}

/// A case with a wrong header, or a wrong record, whatever schedule and slice it comes
/// with.
pub fn case_before_all(calls: &dyn Calls, tally: &mut Tally) -> Outcome {
    let mut no_such_kind = all_faults();
    no_such_kind.records[3].kind = 9;
    let too_many_switches = Draft { switches: 16, ..all_faults() };
    for (draft, number, place) in [(no_such_kind, 9, 4), (too_many_switches, 3, 0)] {
        let refusal = Refusal { number, place };
        refused_by_all(calls, &draft.bytes(), refusal, tally)?;
        for (schedule, _) in FAULTS {
            for given in [&schedule[..], &schedule[..5], &[]] {
                for room in [0, 17, 18, 19] {
                    fills_in(room, calls, &draft, given, Err(refusal), tally)?;
                }
            }
        }
    }
    Ok(())
}

/// Every length of the slice from 0 on, for a schedule that is filled and for each
/// refusal that comes later than 10.
pub fn lengths_of_slice(calls: &dyn Calls, tally: &mut Tally) -> Outcome {
    let draft = all_faults();
    let needed = draft.variables();
    let numbers = [0, 8, 0, 0, 5, 0, 5, 0, 1, 8, 1, 1, 5, 1, 8, 8, 8, 8];
    let filled: (&[u16], _) = (&[2, 2, 0, 0, 0, 0, 0], Ok(&numbers[..]));
    let too_many: (&[u16], _) = (&[9; 7], Err(Refusal { number: 13, place: 0 }));
    let too_short: (&[u16], _) = (&[2; 6], Err(Refusal { number: 12, place: 0 }));
    let faults = FAULTS.iter().map(|(schedule, (number, place))| {
        let refusal = Refusal { number: *number, place: *place };
        (&schedule[..], Err(refusal))
    });
    for (schedule, wanted) in faults.chain([filled, too_many, too_short]) {
        for room in 0..needed {
            fills_in(room, calls, &draft, schedule, Err(Refusal { number: 10, place: 0 }), tally)?;
        }
        for room in needed..=needed + 3 {
            fills_in(room, calls, &draft, schedule, wanted, tally)?;
        }
    }
    Ok(())
}
