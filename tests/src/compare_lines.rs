//! Lines that are taken one by one: single ones beside the second
//! implementation, and whole threads beside the table of their case.

use crate::calls::{Calls, Taken, NAMES};
use crate::compare::{rounds_of, SHAPES};
use crate::damage::broken_line;
use crate::draft::Draft;
use crate::line::*;
use crate::random::Random;
use crate::report::{Outcome, Tally};
use crate::second;
use crate::table::{table_of, Table};

/// What is held for a thread.
pub type Held = [u16; NAMES];

/// Single lines in a round.
const LINES: usize = 8;

/// Good, broken and random lines, at times with too many items or a number that no
/// record has, whatever is held.
pub fn single_lines(calls: &dyn Calls, count: u64, tally: &mut Tally) -> Outcome {
    rounds_of(&SHAPES, 10_000_000, count, |random, draft| {
        for _ in 0..LINES {
            let line = some_line(random, draft);
            let (globals, mutexes) = some_sizes(random, draft);
            let number = some_number(random);
            same_taking(calls, [globals, mutexes, number], &line, some_held(random), tally)?;
        }
        Ok(())
    })
}

fn some_line(random: &mut Random, draft: &Draft) -> Line {
    let small = random.chance(50);
    let random_fields = std::array::from_fn(|_| if small { random.between(0, 9) } else { random.word() });
    let line = match draft.records.len() {
        0 => random_fields.into(),
        records => draft.records[random.below(records)],
    };
    let line = match random.below(10) {
        0 => random_fields.into(),
        1..=2 => broken_line(random, draft, &line),
        _ => line,
    };
    Line { next: random.word(), ..line }
}

fn some_sizes(random: &mut Random, draft: &Draft) -> (u16, u16) {
    match random.below(20) {
        0 => (random.pick(&[9, 10, 256, 65_535]), draft.mutexes),
        1 => (draft.globals, random.pick(&[5, 6, 256, 65_535])),
        2..=4 => (random.between(0, 8), random.between(0, 4)),
        _ => (draft.globals, draft.mutexes),
    }
}

fn some_number(random: &mut Random) -> u16 {
    match random.below(10) {
        0 => random.pick(&[0, 257, 258, 512, 65_535]),
        1 => random.pick(&[1, 256]),
        _ => random.between(1, 256),
    }
}

/// Record numbers, or any numbers: "any numbers are taken as they are".
fn some_held(random: &mut Random) -> Held {
    let any = random.chance(30);
    std::array::from_fn(|_| if any { random.any() } else { random.between(0, 256) })
}

fn same_taking(calls: &dyn Calls, [globals, mutexes, number]: [u16; 3], line: &Line, held: Held, tally: &mut Tally) -> Outcome {
    let (mut got, mut wanted) = (held, held);
    let reply = calls.take_line(globals, mutexes, number, &line.fields(), &mut got);
    let wanted_reply = second::take_line(globals, mutexes, number, &line.fields(), &mut wanted);
    match wanted_reply {
        Taken::Copies { .. } => tally.saw(format!("kind {} taken", line.kind)),
        Taken::Refused { number, .. } => tally.saw(format!("refused {number}")),
    }
    let about = || format!("record {number} with G {globals}, M {mutexes}: {line:?}; held {held:?}");
    tally.same(reply, wanted_reply, about)?;
    tally.same_numbers(&got, &wanted, about)
}

/// The lines of random cases.
pub fn whole_threads(calls: &dyn Calls, count: u64, tally: &mut Tally) -> Outcome {
    rounds_of(&SHAPES, 11_000_000, count, |random, draft| hand_on(calls, random, draft, tally))
}

/// Hands on each thread's lines front to back. Each is answered with the copies
/// that its 4 has in the table; "after any of a thread's lines, what it holds for
/// each name is the latest line up to there that has it as target, or 0"; and
/// after the last one the items have the last copies of the 6s.
pub fn hand_on(calls: &dyn Calls, random: &mut Random, draft: &Draft, tally: &mut Tally) -> Outcome {
    let table = table_of(calls, &draft.bytes())?;
    for thread in 0..usize::from(draft.threads) {
        let chain = draft.chain(thread);
        let mut held = [0; NAMES];
        for (position, &number) in chain.iter().enumerate() {
            let about = || format!("record {number} of {draft}");
            // A builder does not know yet which record is next.
            let line = Line { next: random.word(), ..*draft.line(number) };
            let reply = calls.take_line(draft.globals, draft.mutexes, number, &line.fields(), &mut held);
            let [_, _, guard, a, b, target] = table.value_row(number)?;
            tally.same(reply, Taken::Copies { guard, a, b, target }, about)?;
            tally.same_numbers(&held, &latest_lines(draft, &chain[..=position]), about)?;
        }
        last_copies(draft, &table, thread, &held, tally)?;
    }
    Ok(())
}

/// Of these lines the latest that has each name as target, or 0; each by a search
/// of its own.
fn latest_lines(draft: &Draft, lines: &[u16]) -> Held {
    std::array::from_fn(|name| {
        let has_target = |number: &u16| target_place(draft.globals, draft.line(*number)) == Some(name);
        lines.iter().copied().rfind(has_target).unwrap_or(0)
    })
}

/// Where the name stands that the line has as target: locals, globals, mutexes.
pub fn target_place(globals: u16, line: &Line) -> Option<usize> {
    let (globals, target) = (usize::from(globals), usize::from(line.target));
    match line.kind {
        COMPUTE | LOAD | INPUT => Some(target),
        STORE => Some(16 + target),
        LOCK | UNLOCK => Some(16 + globals + target),
        _ => None,
    }
}

/// "6, item, block i, last copy in thread i modulo T".
fn last_copies(draft: &Draft, table: &Table, thread: usize, held: &Held, tally: &mut Tally) -> Outcome {
    for &[kind, item, block, last, ..] in &table.rows {
        if kind == 6 && block % draft.threads == thread as u16 {
            tally.saw(if last == 0 { "no last copy" } else { "last copy" });
            tally.same(held[16 + usize::from(item)], last, || format!("item {item} after thread {thread} of {draft}"))?;
        }
    }
    Ok(())
}
