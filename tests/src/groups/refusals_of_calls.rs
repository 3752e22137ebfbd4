//! Refusals 10 to 15 with their places, and the order between them.

use crate::ask::{byte_marks, marks, replay, reply};
use crate::calls::{Calls, Checked, Decoded, Encoded, Listed, Replayed};
use crate::draft::Draft;
use crate::line::*;
use crate::report::{Outcome, Report, Tally};
use crate::samples::{case_a, CASE_A_LISTING};

/// P6: meets case A's table.
const GOOD: [u16; 12] = [0, 0, 0, 1, 2, 5, 2, 0, 1, 5, 1, 5];
/// Fails first at the 8 of line 4, the eighth constraint.
const BAD: [u16; 12] = [0, 0, 0, 1, 2, 5, 4, 0, 1, 5, 1, 5];

pub fn run(calls: &dyn Calls, report: &mut Report) {
    report.check("10: encoding", |tally| short_table(calls, tally));
    report.check("10: decoding", |tally| short_schedule(calls, tally));
    report.check("10: replaying", |tally| short_items(calls, tally));
    report.check("10: listing", |tally| short_text(calls, tally));
    report.check("11: checking and decoding", |tally| wrong_assignment(calls, tally));
    report.check("12: replaying", |tally| wrong_schedule(calls, tally));
    report.check("13: lengths add up to more", |tally| wrong_sums(calls, tally));
    report.check("no 13: lengths add up to less", |tally| smaller_sums(calls, tally));
    report.check("14: an input with a false guard", |tally| false_inputs(calls, tally));
    report.check("14: an input that was not run", |tally| inputs_left(calls, tally));
    report.check("14 and cut-off: the one met first", |tally| met_first(calls, tally));
    report.check("14 of inputs that were not run comes last", |tally| looked_for_last(calls, tally));
    report.check("15: the first failed constraint", |tally| failed_decoding(calls, tally));
}

/// Case A's table has 19 × 6 numbers.
fn short_table(calls: &dyn Calls, tally: &mut Tally) -> Outcome {
    for room in 0..=115 {
        let mut table = marks(room);
        let wanted = match room {
            0..=113 => Encoded::Refused { number: 10, place: 0 },
            _ => Encoded::Table { constraints: 19, variables: 12 },
        };
        let reply = calls.encode(&case_a().bytes(), &mut table);
        tally.same(reply, wanted, || format!("room for {room}"))?;
        let from = if room < 114 { 0 } else { 114 };
        let kept = table[from..] == marks(room)[from..];
        tally.holds(kept, || format!("room for {room}: more was touched"))?;
    }
    Ok(())
}

/// Case A's schedules have 3 numbers. Too little room comes before a wrong
/// assignment, be it of the wrong length or one that fails.
fn short_schedule(calls: &dyn Calls, tally: &mut Tally) -> Outcome {
    for assignment in [&GOOD[..], &BAD[..], &GOOD[..11], &[]] {
        for room in 0..3 {
            let mut schedule = marks(room);
            let reply = calls.decode(&case_a().bytes(), assignment, &mut schedule);
            let refused = Decoded::Refused { number: 10, place: 0 };
            tally.same(reply, refused, || format!("room for {room}"))?;
            tally.same(schedule, marks(room), || "the slice".into())?;
        }
    }
    let mut schedule = marks(5);
    let reply = calls.decode(&case_a().bytes(), &GOOD, &mut schedule);
    tally.same(reply, Decoded::Schedule { numbers: 3 }, || "room for 5".into())?;
    let wanted = [&[2, 1, 2], &marks(5)[3..]].concat();
    tally.same(schedule, wanted, || "the slice".into())
}

/// Case A has one item. Too little room comes before whatever is wrong with
/// the schedule, and before what the run would meet.
fn short_items(calls: &dyn Calls, tally: &mut Tally) -> Outcome {
    for schedule in [&[2, 1, 2][..], &[2, 1, 3], &[2, 1], &[], &[2, 1, 2, 0]] {
        let reply = calls.replay(&case_a().bytes(), schedule, &mut []);
        let refused = Replayed::Refused { number: 10, place: 0 };
        tally.same(reply, refused, || format!("schedule {schedule:?}"))?;
    }
    let draft = false_input_case();
    let reply = calls.replay(&draft.bytes(), &[2, 0, 1], &mut []);
    tally.same(reply, Replayed::Refused { number: 10, place: 0 }, || "before 14".into())?;
    // Nothing is written for a case without items, so nothing is short.
    let bare = Draft::new(2, 0).with_thread(0, &[assert(local(3))]);
    let reply = calls.replay(&bare.bytes(), &[1], &mut []);
    tally.same(reply, Replayed::Violated(1), || "no items".into())
}

/// Case A's listing has 6 bytes for the counts and 12 for each constraint. Of a
/// refused case the text is four bytes here, and 10 is the only refusal.
fn short_text(calls: &dyn Calls, tally: &mut Tally) -> Outcome {
    let files = [(case_a().bytes(), CASE_A_LISTING, 234), (vec![], "1 0\n", 4)];
    for (case, text, bytes) in files {
        for room in 0..=bytes + 1 {
            let mut slice = byte_marks(usize::from(room));
            let mut wanted = slice.clone();
            let wanted_reply = if room < bytes {
                Listed::Refused { number: 10, place: 0 }
            } else {
                wanted[..text.len()].copy_from_slice(text.as_bytes());
                Listed::Text { bytes }
            };
            let reply = calls.listing(&case, &mut slice);
            tally.same(reply, wanted_reply, || format!("room for {room}"))?;
            tally.same_numbers(&slice, &wanted, || format!("room for {room}"))?;
        }
    }
    Ok(())
}

fn wrong_assignment(calls: &dyn Calls, tally: &mut Tally) -> Outcome {
    let case = case_a().bytes();
    let longest = [&GOOD[..], &[0; 700]].concat();
    for length in (0..30).chain([692, 712]).filter(|&length| length != 12) {
        let assignment = &longest[..length];
        let about = || format!("{length} numbers");
        let refused = Checked::Refused { number: 11, place: 0 };
        tally.same(calls.check(&case, assignment), refused, about)?;
        let mut schedule = marks(4);
        let refused = Decoded::Refused { number: 11, place: 0 };
        tally.same(calls.decode(&case, assignment, &mut schedule), refused, about)?;
        tally.same(schedule, marks(4), about)?;
    }
    Ok(())
}

/// "exactly n + 1 numbers and one for each input line"; before 13, so the sums
/// do not matter.
fn wrong_schedule(calls: &dyn Calls, tally: &mut Tally) -> Outcome {
    let with_inputs = Draft::new(2, 2).with_thread(0, &[input(0), input(1)]).with_thread(1, &[input(0)]);
    for (draft, right) in [(case_a(), 3), (with_inputs, 6)] {
        for length in (0..12).filter(|&length| length != right) {
            for number in [0, 1, 65_535] {
                let (reply, items) = replay(calls, &draft, &vec![number; length]);
                let refused = Replayed::Refused { number: 12, place: 0 };
                tally.same(reply, refused, || format!("{length} numbers"))?;
                tally.same(items, marks(draft.items()), || "the items".into())?;
            }
        }
    }
    Ok(())
}

/// Sums are not taken modulo 65,536; 13 comes before anything in the run.
fn wrong_sums(calls: &dyn Calls, tally: &mut Tally) -> Outcome {
    let refused = Replayed::Refused { number: 13, place: 0 };
    for schedule in [
        [5, 0, 0],
        [2, 1, 3],
        [0, 2, 0],
        [2, 2, 2],
        [4, 1, 65_535],
        [0, 65_535, 0],
        // These sums are 65,536, and 65,536 + 4.
        [1, 1, 65_535],
        [5, 1, 65_535],
        [65_535, 1, 5],
        [32_770, 1, 32_770],
    ] {
        let (reply, items) = replay(calls, &case_a(), &schedule);
        tally.same(reply, refused, || format!("schedule {schedule:?}"))?;
        tally.same(items, marks(1), || "the items".into())?;
    }
    // Thread 1 has no line: 65,536 is more.
    let draft = Draft::new(2, 3).with_thread(0, &[assert(constant(0))]);
    for schedule in [[1, 32_768, 0, 32_768], [1, 1, 0, 0], [0, 0, 0, 1]] {
        tally.same(reply(calls, &draft, &schedule), refused, || format!("{schedule:?}"))?;
    }
    // An input with a false guard, or one that is not run, comes later.
    let draft = false_input_case();
    tally.same(reply(calls, &draft, &[3, 0, 1]), refused, || "before 14".into())?;
    tally.same(reply(calls, &draft, &[0, 1, 1]), refused, || "before 14, not run".into())
}

/// "Block lengths may add up to less than a thread's lines": the schedules of
/// case A that stop early, and the global at the end.
fn smaller_sums(calls: &dyn Calls, tally: &mut Tally) -> Outcome {
    for (schedule, global) in [
        ([0, 0, 0], 0),
        ([1, 0, 0], 0),
        ([2, 0, 0], 1),
        ([0, 1, 0], 5),
        ([1, 1, 1], 1),
        ([0, 1, 2], 6),
        // One line before the assert of P1 and of P2.
        ([2, 1, 1], 5),
        ([0, 1, 3], 6),
        // The assert holds, as thread 1 stops.
        ([2, 0, 2], 1),
        ([4, 0, 0], 1),
    ] {
        let wanted = (Replayed::Clean, vec![global]);
        tally.same(replay(calls, &case_a(), &schedule), wanted, || format!("schedule {schedule:?}"))?;
    }
    Ok(())
}

/// Record 2 is an input whose guard is false, since local 4 has 0.
fn false_input_case() -> Draft {
    let lines = [store(0, constant(9)), input(0).guarded(5)];
    Draft::new(2, 1).with_globals(&[3]).with_thread(0, &lines)
}

fn false_inputs(calls: &dyn Calls, tally: &mut Tally) -> Outcome {
    let draft = false_input_case();
    let wanted = (Replayed::Clean, vec![9]);
    tally.same(replay(calls, &draft, &[2, 0, 0]), wanted, || "value 0".into())?;
    for value in [1, 2, 256, 65_535] {
        let wanted = (Replayed::Refused { number: 14, place: 2 }, marks(1));
        let got = replay(calls, &draft, &[2, 0, value]);
        tally.same(got, wanted, || format!("value {value}"))?;
    }
    // A zero assert before it does not matter, and the first one met counts,
    // which is thread 1's here.
    let draft =
        Draft::new(2, 2).with_thread(0, &[assert(constant(0)), input(0).guarded(5)]).with_thread(1, &[input(0).guarded(5)]);
    let refused = |place: u16| Replayed::Refused { number: 14, place };
    tally.same(reply(calls, &draft, &[1, 1, 1, 7, 7]), refused(3), || "thread 1".into())?;
    tally.same(reply(calls, &draft, &[2, 1, 0, 7, 7]), refused(2), || "thread 0".into())?;
    tally.same(reply(calls, &draft, &[1, 1, 1, 7, 0]), refused(2), || "later".into())?;
    let violated = Replayed::Violated(1);
    tally.same(reply(calls, &draft, &[1, 1, 1, 0, 0]), violated, || "both 0".into())
}

/// Thread 0 stores and reads, with record numbers 4 and 3; thread 1 reads twice,
/// with 2 and 1. The guard is that of its first input, and local 5 is 0: guard 6
/// is false, and guards 0 and 22 are true.
fn late_inputs(guard: u16) -> Draft {
    let second = [input(0).guarded(guard), input(1)];
    let draft = Draft::new(2, 2).with_globals(&[3]).with_thread(0, &[store(0, constant(9)), input(0)]);
    draft.with_thread(1, &second).renumbered(&[4, 3, 2, 1])
}

/// "An unrun input has value 0, otherwise 14 at the first such record by thread
/// and chain", whatever its guard would be.
fn inputs_left(calls: &dyn Calls, tally: &mut Tally) -> Outcome {
    let refused = |place: u16| (Replayed::Refused { number: 14, place }, marks(1));
    let clean = |global: u16| (Replayed::Clean, vec![global]);
    for guard in [0, 6, 22] {
        for (schedule, wanted) in [
            ([0, 0, 0, 0, 0, 0], clean(3)),
            ([1, 0, 0, 0, 0, 0], clean(9)),
            ([1, 0, 0, 7, 0, 0], refused(3)),
            ([1, 0, 0, 0, 7, 0], refused(2)),
            ([1, 0, 0, 0, 0, 65_535], refused(1)),
            // The first by thread, then by chain, and not by record.
            ([0, 0, 0, 1, 1, 1], refused(3)),
            ([1, 0, 0, 0, 1, 1], refused(2)),
            ([1, 0, 1, 8, 1, 1], refused(2)),
            ([2, 0, 0, 8, 0, 1], refused(1)),
            // Thread 0 stops later than its last block.
            ([0, 0, 1, 1, 0, 0], refused(3)),
            ([1, 0, 1, 8, 0, 0], clean(9)),
        ] {
            let got = replay(calls, &late_inputs(guard), &schedule);
            tally.same(got, wanted, || format!("guard {guard}, schedule {schedule:?}"))?;
        }
    }
    // One input of thread 1 is run, the other not.
    tally.same(replay(calls, &late_inputs(0), &[2, 1, 0, 8, 8, 0]), clean(9), || "run".into())?;
    tally.same(replay(calls, &late_inputs(0), &[2, 1, 0, 8, 8, 8]), refused(1), || "the second".into())?;
    // A zero assert before it does not matter, nor how many switches there are.
    for switches in [0, 1, 15] {
        let draft = Draft::new(2, switches).with_thread(0, &[assert(constant(0)), input(0)]);
        let schedule = |value: u16| [&[1], vec![0; usize::from(switches)].as_slice(), &[value]].concat();
        tally.same(reply(calls, &draft, &schedule(0)), Replayed::Violated(1), || format!("n {switches}"))?;
        let refused = Replayed::Refused { number: 14, place: 2 };
        tally.same(reply(calls, &draft, &schedule(1)), refused, || format!("n {switches}"))?;
    }
    // A thread without a block has an input.
    let draft = Draft::new(3, 1).with_thread(2, &[input(0)]);
    tally.same(reply(calls, &draft, &[0, 0, 0]), Replayed::Clean, || "no block".into())?;
    let refused = Replayed::Refused { number: 14, place: 1 };
    tally.same(reply(calls, &draft, &[0, 0, 4]), refused, || "no block".into())
}

/// "looked for after the last step": a cut-off comes first, and so does an input
/// with a false guard that the run meets, though it stands in a later thread.
fn looked_for_last(calls: &dyn Calls, tally: &mut Tally) -> Outcome {
    let stray = Replayed::Refused { number: 14, place: 3 };
    let on_the_way = Replayed::Refused { number: 14, place: 2 };
    for (schedule, wanted) in [
        ([1, 0, 0, 7, 7, 0], stray),
        ([1, 1, 0, 7, 7, 0], on_the_way),
        ([1, 1, 0, 7, 0, 0], stray),
        ([0, 2, 0, 7, 7, 7], on_the_way),
    ] {
        tally.same(reply(calls, &late_inputs(6), &schedule), wanted, || format!("schedule {schedule:?}"))?;
    }
    for cut in [[assume(constant(0)), unlock(0)], [lock(1), lock(1)]] {
        let draft = Draft::new(2, 1).with_globals(&[3]).with_mutexes(2);
        let draft = draft.with_thread(0, &[store(0, constant(9)), input(0)]).with_thread(1, &cut);
        let steps = if cut[0].kind == ASSUME { 1 } else { 2 };
        // Thread 1 holds what it locked.
        let items = vec![9, 0, 2 * (steps - 1)];
        let wanted = (Replayed::CutOff(2 + steps), items);
        tally.same(replay(calls, &draft, &[1, steps, 7]), wanted, || format!("{cut:?}"))?;
        let refused = (Replayed::Refused { number: 14, place: 2 }, marks(3));
        tally.same(replay(calls, &draft, &[1, steps - 1, 7]), refused, || format!("not as far as {cut:?}"))?;
    }
    Ok(())
}

/// "Refusal 14 and a cut-off exclude each other: the one met first is given."
fn met_first(calls: &dyn Calls, tally: &mut Tally) -> Outcome {
    let cutting = [assume(constant(0)), lock(0), lock(0)];
    for cut in [&cutting[..1], &cutting[1..]] {
        let draft = Draft::new(2, 2).with_mutexes(1).with_thread(0, cut).with_thread(1, &[input(0).guarded(1)]);
        let lines = cut.len() as u16;
        let cut_first = reply(calls, &draft, &[lines, 1, 0, 8]);
        tally.same(cut_first, Replayed::CutOff(lines), || format!("{cut:?} first"))?;
        let (input_first, items) = replay(calls, &draft, &[0, 1, lines, 8]);
        let refused = Replayed::Refused { number: 14, place: lines + 1 };
        tally.same(input_first, refused, || format!("{cut:?} later"))?;
        tally.same(items, marks(1), || "the items".into())?;
    }
    Ok(())
}

/// The place is "the first failed constraint, from 1".
fn failed_decoding(calls: &dyn Calls, tally: &mut Tally) -> Outcome {
    let clean = [0, 0, 2, 1, 2, 1, 2, 1, 1, 5, 0, 5];
    // Lines 3 and 4 are in block 4, and the 2 of line 4 fails.
    let too_late = [0, 0, 0, 1, 4, 5, 4, 0, 1, 5, 1, 5];
    for (assignment, place) in [(BAD, 8), (too_late, 9), ([0; 12], 10), ([65_535; 12], 1), (clean, 19)] {
        let mut schedule = marks(4);
        let reply = calls.decode(&case_a().bytes(), &assignment, &mut schedule);
        let refused = Decoded::Refused { number: 15, place };
        tally.same(reply, refused, || format!("{assignment:?}"))?;
        tally.same(schedule, marks(4), || "the slice".into())?;
        let checked = calls.check(&case_a().bytes(), &assignment);
        tally.same(checked, Checked::Fails(place), || format!("{assignment:?}"))?;
    }
    Ok(())
}
