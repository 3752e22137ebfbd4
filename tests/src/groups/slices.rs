//! What calls leave in the slices they were lent.

use std::fmt::Debug;
use std::ops::Not;

use crate::ask::{byte_marks, marks};
use crate::calls::{Calls, Decoded, Encoded, Filled, Listed, Replayed};
use crate::damage::damaged;
use crate::demand3::small_case;
use crate::draft::Draft;
use crate::generate::SMALL_WITH_INPUTS;
use crate::random::Random;
use crate::report::{Outcome, Report, Tally};
use crate::table::table_of;
use crate::vary::schedule;
use crate::watch::written_down;

const CASES: u64 = 120;

pub fn run(calls: &dyn Calls, report: &mut Report) {
    report.check("encoding", |tally| each_case(|draft, _| encoding(calls, draft, tally)));
    report.check("decoding", |tally| each_case(|draft, random| decoding(calls, draft, random, tally)));
    report.check("replaying", |tally| each_case(|draft, random| replaying(calls, draft, random, tally)));
    report.check("filling", |tally| {
        each_case(|draft, random| filling(calls, draft, random, tally))?;
        ["filled", "refused"].iter().try_for_each(|reply| tally.saw_often(reply, CASES))
    });
    report.check("listing an accepted case", |tally| {
        each_case(|draft, _| {
            let case = draft.bytes();
            let text = table_of(calls, &case)?.listing();
            listing(calls, &case, &text, tally)
        })
    });
    report.check("listing a refused case", |tally| {
        each_case(|_, random| {
            let number = random.between(1, 9);
            let damaged = damaged(random, number, None);
            let line = format!("{number} {}\n", damaged.refusal.place);
            listing(calls, &damaged.bytes, &line, tally)
        })
    });
}

fn each_case(mut body: impl FnMut(&Draft, &mut Random) -> Outcome) -> Outcome {
    for seed in 40_000_000..40_000_000 + CASES {
        let mut random = Random::from_seed(seed);
        let draft = small_case(&mut random, SMALL_WITH_INPUTS);
        body(&draft, &mut random).map_err(|message| format!("seed {seed}: {message}"))?;
    }
    Ok(())
}

/// Lends a slice twice, with the marks in it and with the marks inverted. What
/// was written must be the same both times, so that every number of the result
/// was written; what stands beyond must be as before. The call says how long its
/// result is. Gives the result.
fn written<T: Copy + PartialEq + Not<Output = T>>(
    marks: Vec<T>,
    call: impl Fn(&mut [T]) -> usize,
    tally: &mut Tally,
) -> Result<Vec<T>, String> {
    let room = marks.len();
    let inverted: Vec<T> = marks.iter().map(|&mark| !mark).collect();
    let (mut first, mut second) = (marks.clone(), inverted.clone());
    let lengths = (call(&mut first), call(&mut second));
    tally.same(lengths.0, lengths.1, || format!("lengths, room for {room}"))?;
    let length = lengths.0;
    let kept = first[length..] == marks[length..] && second[length..] == inverted[length..];
    tally.holds(kept, || format!("room for {room}: more was touched"))?;
    let same = first[..length] == second[..length];
    tally.holds(same, || format!("room for {room}: not all was written"))?;
    first.truncate(length);
    Ok(first)
}

fn encoding(calls: &dyn Calls, draft: &Draft, tally: &mut Tally) -> Outcome {
    let case = draft.bytes();
    let needed = 6 * draft.constraints();
    let call = |slice: &mut [u16]| match calls.encode(&case, slice) {
        Encoded::Table { constraints, .. } => 6 * usize::from(constraints),
        Encoded::Refused { .. } => 0,
    };
    let table = written(marks(needed), call, tally)?;
    tally.same(table.len(), needed, || "numbers in the table".into())?;
    all_or_nothing(&table, marks, call, tally)
}

/// Demands that a call writes the whole result where there is room for it, and
/// nothing where there is less.
fn all_or_nothing<T: Copy + Debug + PartialEq + Not<Output = T>>(
    whole: &[T],
    marks: fn(usize) -> Vec<T>,
    call: impl Fn(&mut [T]) -> usize,
    tally: &mut Tally,
) -> Outcome {
    for room in 0..=whole.len() + 1 {
        let result = written(marks(room), &call, tally)?;
        let wanted = if room < whole.len() { &[] } else { whole };
        tally.same(result.as_slice(), wanted, || format!("room for {room}"))?;
    }
    Ok(())
}

/// Decodes the assignments of random runs; most of them fail.
fn decoding(calls: &dyn Calls, draft: &Draft, random: &mut Random, tally: &mut Tally) -> Outcome {
    let case = draft.bytes();
    for _ in 0..20 {
        let schedule = schedule(random, draft);
        let numbers = written_down(draft, &schedule);
        let call = |slice: &mut [u16]| match calls.decode(&case, &numbers, slice) {
            Decoded::Schedule { numbers } => usize::from(numbers),
            Decoded::Refused { .. } => 0,
        };
        for room in 0..=draft.schedule_numbers() + 1 {
            written(marks(room), call, tally)?;
        }
    }
    Ok(())
}

/// Replays random schedules, some of which refusal 14 meets.
fn replaying(calls: &dyn Calls, draft: &Draft, random: &mut Random, tally: &mut Tally) -> Outcome {
    let case = draft.bytes();
    for _ in 0..20 {
        let schedule = schedule(random, draft);
        let call = |slice: &mut [u16]| match calls.replay(&case, &schedule, slice) {
            Replayed::Refused { .. } => 0,
            _ => draft.items(),
        };
        for room in 0..=draft.items() + 1 {
            written(marks(room), call, tally)?;
        }
    }
    Ok(())
}

/// Fills random schedules; most of them do not violate.
fn filling(calls: &dyn Calls, draft: &Draft, random: &mut Random, tally: &mut Tally) -> Outcome {
    let case = draft.bytes();
    for _ in 0..20 {
        let schedule = schedule(random, draft);
        let call = |slice: &mut [u16]| match calls.fill(&case, &schedule, slice) {
            Filled::Assignment { numbers } => usize::from(numbers),
            Filled::Refused { .. } => 0,
        };
        let whole = written(marks(draft.variables()), call, tally)?;
        tally.saw(if whole.is_empty() { "refused" } else { "filled" });
        for room in 0..=draft.variables() + 1 {
            let wanted: &[u16] = if room < draft.variables() { &[] } else { &whole };
            let result = written(marks(room), call, tally)?;
            tally.same(result.as_slice(), wanted, || format!("{schedule:?}, room for {room}"))?;
        }
    }
    Ok(())
}

fn listing(calls: &dyn Calls, case: &[u8], text: &str, tally: &mut Tally) -> Outcome {
    let call = |slice: &mut [u8]| match calls.listing(case, slice) {
        Listed::Text { bytes } => usize::from(bytes),
        Listed::Refused { .. } => 0,
    };
    all_or_nothing(text.as_bytes(), byte_marks, call, tally)
}
