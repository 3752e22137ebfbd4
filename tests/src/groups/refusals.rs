//! Refusals 1 to 9 with their places, by hand and at random, and the order
//! between them.

use crate::ask::refused_by_all;
use crate::calls::{Calls, Refusal};
use crate::damage::{damaged, random_bytes, scratched};
use crate::draft::Draft;
use crate::generate::{accepted, ANY};
use crate::line::*;
use crate::random::Random;
use crate::report::{Outcome, Report, Tally};
use crate::samples::case_a;

/// Random cases for each refusal, for each pair of refusals, and of bytes.
const FOR_EACH: u64 = 60;
const FOR_EACH_PAIR: u64 = 12;
const OF_BYTES: u64 = 3_000;

pub fn run(calls: &dyn Calls, report: &mut Report) {
    for (name, drafts, refusal) in by_hand() {
        report.check(name, |tally| {
            let mut drafts = drafts.iter();
            drafts.try_for_each(|draft| refused_by_all(calls, &draft.bytes(), refusal, tally))
        });
    }
    for number in 1..=9 {
        report.check(&format!("{number} at random"), |tally| at_random(calls, number, None, tally));
    }
    for number in 1..=8 {
        report.check(&format!("{number} before higher ones"), |tally| {
            (number + 1..=9).try_for_each(|later| at_random(calls, number, Some(later), tally))
        });
    }
    report.check("random bytes", |tally| any_bytes(calls, tally));
}

/// Drafts for each refusal from 5 on; the others stand under limits.
fn by_hand() -> Vec<(&'static str, Vec<Draft>, Refusal)> {
    let refusal = |number: u16| Refusal { number, place: 0 };
    vec![
        ("5: fields of absent threads and globals", absent_fields(), refusal(5)),
        ("6: a link over R", links_over(), refusal(6)),
        ("6: reached twice", reached_twice(), refusal(6)),
        ("7: in no chain", strays(), refusal(7)),
        ("9: the place is the lowest", broken_third(), Refusal { number: 9, place: 3 }),
    ]
}

/// Case A with a change.
fn changed(change: impl FnOnce(&mut Draft)) -> Draft {
    let mut draft = case_a();
    change(&mut draft);
    draft
}

fn absent_fields() -> Vec<Draft> {
    let mut drafts = Vec::new();
    for value in [1, 5, 6, 256, 65_535] {
        drafts.extend([2, 3].map(|thread| changed(|draft| draft.firsts[thread] = value)));
        drafts.extend([1, 4, 7].map(|global| changed(|draft| draft.initial[global] = value)));
    }
    // The record of an absent thread is nobody's; 5 comes before 7.
    drafts.push(changed(|draft| {
        draft.firsts[2] = draft.firsts[1];
        draft.firsts[1] = 0;
    }));
    drafts
}

fn links_over() -> Vec<Draft> {
    let mut drafts = Vec::new();
    for link in [6, 7, 256, 257, 65_535] {
        drafts.push(changed(|draft| draft.firsts[0] = link));
        drafts.push(changed(|draft| draft.firsts[1] = link));
        drafts.extend((0..5).map(|record| changed(|draft| draft.records[record].next = link)));
    }
    // The next number of a record that no chain reaches counts too.
    drafts.push(changed(|draft| {
        draft.records.push(Line { next: 7, ..unlock(0) });
    }));
    // Without records every first number but 0 is over R.
    drafts.push(Draft { firsts: [0, 1, 0, 0], ..Draft::new(2, 0) });
    drafts
}

fn reached_twice() -> Vec<Draft> {
    let mut drafts = Vec::new();
    // Thread 0 runs back into itself, from its last line and from the middle.
    for next in 1..=4 {
        drafts.push(changed(|draft| draft.records[3].next = next));
    }
    drafts.push(changed(|draft| draft.records[1].next = 2));
    drafts.push(changed(|draft| draft.records[1].next = 1));
    // Thread 0 runs into thread 1, and the other way round.
    drafts.push(changed(|draft| draft.records[3].next = 5));
    drafts.push(changed(|draft| draft.records[4].next = 3));
    // Both threads begin at the same record; record 5 is then in no chain, but
    // 6 comes before 7.
    drafts.push(changed(|draft| draft.firsts[1] = 1));
    drafts.push(changed(|draft| draft.firsts[1] = 4));
    drafts
}

/// Reached means reached from a first record, so none of these meets a 6.
fn strays() -> Vec<Draft> {
    let stray = |next: u16| changed(|draft| draft.records.push(Line { next, ..compute(0, constant(1)) }));
    let mut drafts = vec![
        // It ends, it points into a chain, it points at itself.
        stray(0),
        stray(1),
        stray(4),
        stray(6),
        // A thread's first record is taken away, or its chain is cut.
        changed(|draft| draft.firsts[1] = 0),
        changed(|draft| draft.records[1].next = 0),
        changed(|draft| draft.records[0].next = 3),
        // A stray record that breaks its rules: 7 comes before 9.
        changed(|draft| draft.records.push([0, 99, 0, 0, 0, 0, 0, 0].into())),
    ];
    // Two records that point at each other.
    drafts.push(changed(|draft| {
        draft.records.push(Line { next: 7, ..compute(0, constant(1)) });
        draft.records.push(Line { next: 6, ..compute(0, constant(1)) });
    }));
    drafts
}

/// Record 3 is broken, and later ones too; chain order does not count.
fn broken_third() -> Vec<Draft> {
    let broken = |draft: &mut Draft, records: &[usize]| {
        for &record in records {
            draft.records[record - 1].guard = 33;
        }
    };
    let straight = |records: &[usize]| changed(|draft| broken(draft, records));
    let backwards = |records: &[usize]| {
        let mut draft = case_a().renumbered(&[5, 4, 3, 2, 1]);
        broken(&mut draft, records);
        draft
    };
    vec![straight(&[3]), straight(&[3, 4]), straight(&[5, 3]), backwards(&[3]), backwards(&[3, 5]), backwards(&[3, 4, 5])]
}

/// Random cases with the fault, or with it and a later one.
fn at_random(calls: &dyn Calls, number: u16, later: Option<u16>, tally: &mut Tally) -> Outcome {
    let count = if later.is_none() { FOR_EACH } else { FOR_EACH_PAIR };
    for round in 0..count {
        let seed = 1_000_000 * u64::from(number) + 10_000 * u64::from(later.unwrap_or(0)) + round;
        let damaged = damaged(&mut Random::from_seed(seed), number, later);
        refused_by_all(calls, &damaged.bytes, damaged.refusal, tally)
            .map_err(|message| format!("seed {seed}, faults {number} and {later:?}: {message}"))?;
    }
    Ok(())
}

/// What a random file meets is not known, but all calls must say the same.
fn any_bytes(calls: &dyn Calls, tally: &mut Tally) -> Outcome {
    for seed in 0..OF_BYTES {
        let mut random = Random::from_seed(77_000_000 + seed);
        let bytes = if random.chance(50) {
            random_bytes(&mut random)
        } else {
            let draft = accepted(&mut random, ANY);
            scratched(&mut random, &draft)
        };
        if let Some(refusal) = calls.accept(&bytes).refusal() {
            refused_by_all(calls, &bytes, refusal, tally).map_err(|message| format!("seed {seed}: {message}"))?;
        }
    }
    Ok(())
}
