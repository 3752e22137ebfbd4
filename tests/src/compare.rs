//! The library under test beside the second implementation: the same calls
//! with the same slices must give the same replies and leave the same numbers
//! or bytes in every slice.
//!
//! Each comparison takes a number of rounds, so that it can be run at length
//! on the library and in short on each deliberate mistake.

use crate::ask::{byte_marks, listing, marks};
use crate::calls::{Calls, Checked, Decoded, Encoded, Filled, Listed, Replayed, Verdict};
use crate::damage::{damaged, random_bytes, scratched};
use crate::draft::Draft;
use crate::generate::{
    accepted, Shape, ANY, BUSY, FULL, HOLDERS, HOLDERS_WITH_INPUTS, LONG, LONG_STRETCHES, MANY_HOLDERS, SMALL,
    SMALL_WITH_INPUTS, STRETCHES_WITH_INPUTS,
};
use crate::line::ASSERT;
use crate::random::Random;
use crate::report::{Outcome, Tally};
use crate::second;
use crate::table::{MOST_NUMBERS, MOST_VARIABLES};
use crate::vary::{assignments, damage_schedule, schedule, seen, some_room};

/// A comparison: the library under test, the number of rounds, the count.
pub type Comparison = fn(&dyn Calls, u64, &mut Tally) -> Outcome;

/// The shapes of random cases, taken in turn.
pub const SHAPES: [Shape; 11] = [
    SMALL,
    SMALL_WITH_INPUTS,
    ANY,
    LONG,
    BUSY,
    FULL,
    HOLDERS,
    HOLDERS_WITH_INPUTS,
    MANY_HOLDERS,
    STRETCHES_WITH_INPUTS,
    LONG_STRETCHES,
];

/// Verdicts on accepted, damaged and random files.
pub fn verdicts(calls: &dyn Calls, count: u64, tally: &mut Tally) -> Outcome {
    rounds(1_000_000, count, |random, draft| files(random, draft).iter().try_for_each(|file| same_verdict(calls, file, tally)))
}

/// Tables number for number, with room to spare.
pub fn tables(calls: &dyn Calls, count: u64, tally: &mut Tally) -> Outcome {
    rounds(2_000_000, count, |random, draft| {
        same_encoding(calls, &draft.bytes(), MOST_NUMBERS + 1, tally)?;
        let scratched = scratched(random, draft);
        same_encoding(calls, &scratched, MOST_NUMBERS, tally)
    })
}

/// The checker's answers on assignments of runs, on random and damaged ones.
pub fn checks(calls: &dyn Calls, count: u64, tally: &mut Tally) -> Outcome {
    rounds(3_000_000, count, |random, draft| {
        let case = draft.bytes();
        for assignment in assignments(random, draft) {
            same_check(calls, &case, &assignment, tally)?;
        }
        Ok(())
    })
}

/// Decodings of such assignments, at times with too little room.
pub fn decodings(calls: &dyn Calls, count: u64, tally: &mut Tally) -> Outcome {
    rounds(4_000_000, count, |random, draft| {
        for assignment in assignments(random, draft) {
            let room = some_room(random, draft.schedule_numbers());
            same_decoding(calls, &draft.bytes(), &assignment, room, tally)?;
        }
        Ok(())
    })
}

/// Replays of random schedules, with inputs, and of damaged ones.
pub fn replays(calls: &dyn Calls, count: u64, tally: &mut Tally) -> Outcome {
    rounds(5_000_000, count, |random, draft| {
        for _ in 0..6 {
            let schedule = schedule_or_damaged(random, draft);
            let room = some_room(random, draft.items());
            same_replay(calls, &draft.bytes(), &schedule, room, tally)?;
        }
        Ok(())
    })
}

/// Fillings of such schedules, at times with too little room; and of damaged and random
/// files.
pub fn fillings(calls: &dyn Calls, count: u64, tally: &mut Tally) -> Outcome {
    rounds(13_000_000, count, |random, draft| {
        for _ in 0..6 {
            let schedule = schedule_or_damaged(random, draft);
            let room = some_room(random, draft.variables());
            same_filling(calls, &draft.bytes(), &schedule, room, tally)?;
        }
        let schedule = schedule(random, draft);
        files(random, draft).iter().try_for_each(|file| same_filling(calls, file, &schedule, MOST_VARIABLES, tally))
    })
}

fn schedule_or_damaged(random: &mut Random, draft: &Draft) -> Vec<u16> {
    let mut schedule = schedule(random, draft);
    if random.chance(25) {
        damage_schedule(random, draft, &mut schedule);
    }
    schedule
}

/// Listings of accepted, damaged and random files, with too little room, one
/// byte too little, just enough, and some to spare.
pub fn listings(calls: &dyn Calls, count: u64, tally: &mut Tally) -> Outcome {
    rounds(7_000_000, count, |random, draft| {
        for file in files(random, draft) {
            let needed = listing(&second::RIGHT, &file)?.len();
            let (short, spare) = (random.below(needed), 1 + random.below(100));
            for room in [short, needed - 1, needed, needed + spare] {
                same_listing(calls, &file, room, tally)?;
            }
        }
        Ok(())
    })
}

/// Every length of every slice from 0 to one more than needed, on small cases.
pub fn lengths(calls: &dyn Calls, count: u64, tally: &mut Tally) -> Outcome {
    for seed in 6_000_000..6_000_000 + count {
        let mut random = Random::from_seed(seed);
        let draft = accepted(&mut random, SMALL_WITH_INPUTS);
        every_length(calls, &mut random, &draft, tally).map_err(|message| format!("seed {seed}: {message}"))?;
    }
    Ok(())
}

/// Runs the rounds, each with a random generator and a case of its own, and
/// names the seed if one fails.
fn rounds(base: u64, count: u64, round: impl FnMut(&mut Random, &Draft) -> Outcome) -> Outcome {
    rounds_of(&SHAPES, base, count, round)
}

/// The same with other shapes, taken in turn.
pub fn rounds_of(shapes: &[Shape], base: u64, count: u64, mut round: impl FnMut(&mut Random, &Draft) -> Outcome) -> Outcome {
    for seed in base..base + count {
        let mut random = Random::from_seed(seed);
        let draft = accepted(&mut random, shapes[seed as usize % shapes.len()]);
        round(&mut random, &draft).map_err(|message| format!("seed {seed}: {message}"))?;
    }
    Ok(())
}

/// An accepted file, two damaged ones, a random one and a scratched one.
pub fn files(random: &mut Random, draft: &Draft) -> [Vec<u8>; 5] {
    let number = random.between(1, 9);
    let later = (number < 9).then(|| random.between(number + 1, 9));
    [
        draft.bytes(),
        damaged(random, number, None).bytes,
        damaged(random, number, later).bytes,
        random_bytes(random),
        scratched(random, draft),
    ]
}

fn same_verdict(calls: &dyn Calls, case: &[u8], tally: &mut Tally) -> Outcome {
    let wanted = second::accept(case);
    match wanted {
        Verdict::Accepted => tally.saw("accepted"),
        Verdict::Refused { number, .. } => tally.saw(format!("refused {number}")),
    }
    tally.same(calls.accept(case), wanted, || format!("verdict on {case:?}"))
}

fn same_encoding(calls: &dyn Calls, case: &[u8], room: usize, tally: &mut Tally) -> Outcome {
    let (mut got, mut wanted) = (marks(room), marks(room));
    let replies = (calls.encode(case, &mut got), second::encode(case, &mut wanted));
    match replies.1 {
        Encoded::Table { .. } => tally.saw("encoded"),
        Encoded::Refused { number, .. } => tally.saw(format!("refused {number}")),
    }
    tally.same(replies.0, replies.1, || format!("encoding, room for {room}"))?;
    tally.same_numbers(&got, &wanted, || format!("table, room for {room}"))
}

fn same_check(calls: &dyn Calls, case: &[u8], assignment: &[u16], tally: &mut Tally) -> Outcome {
    let wanted = second::check(case, assignment);
    match wanted {
        Checked::Meets => tally.saw("met"),
        Checked::Fails(constraint) => {
            tally.saw(format!("constraint {} failed first", kind_of(case, constraint)));
        }
        Checked::Refused { number, .. } => tally.saw(format!("refused {number}")),
    }
    tally.same(calls.check(case, assignment), wanted, || format!("checking {assignment:?}"))
}

/// The kind of a constraint of an accepted case.
fn kind_of(case: &[u8], constraint: u16) -> u16 {
    let mut table = [0; MOST_NUMBERS];
    second::encode(case, &mut table);
    table[6 * (usize::from(constraint) - 1)]
}

/// The kind of a line of an accepted case.
fn kind_of_line(case: &[u8], line: u16) -> u16 {
    let at = 32 + 16 * (usize::from(line) - 1) + 2;
    u16::from_le_bytes([case[at], case[at + 1]])
}

fn same_decoding(calls: &dyn Calls, case: &[u8], assignment: &[u16], room: usize, tally: &mut Tally) -> Outcome {
    let (mut got, mut wanted) = (marks(room), marks(room));
    let reply = calls.decode(case, assignment, &mut got);
    let wanted_reply = second::decode(case, assignment, &mut wanted);
    match wanted_reply {
        Decoded::Schedule { .. } => tally.saw("decoded"),
        Decoded::Refused { number, .. } => tally.saw(format!("refused {number}")),
    }
    let about = || format!("decoding with room for {room} of {assignment:?}");
    tally.same(reply, wanted_reply, about)?;
    tally.same_numbers(&got, &wanted, || format!("schedule, room for {room}"))
}

fn same_replay(calls: &dyn Calls, case: &[u8], schedule: &[u16], room: usize, tally: &mut Tally) -> Outcome {
    let (mut got, mut wanted) = (marks(room), marks(room));
    let reply = calls.replay(case, schedule, &mut got);
    let wanted_reply = second::replay(case, schedule, &mut wanted);
    match wanted_reply {
        Replayed::Violated(line) if kind_of_line(case, line) == ASSERT => tally.saw("violated by an assert"),
        Replayed::Violated(_) => tally.saw("violated by an unlock"),
        Replayed::Clean => tally.saw("clean"),
        Replayed::CutOff(_) => tally.saw("cut off"),
        Replayed::Refused { number, .. } => tally.saw(format!("refused {number}")),
    }
    let about = || format!("replaying with room for {room} of {schedule:?}");
    tally.same(reply, wanted_reply, about)?;
    tally.same_numbers(&got, &wanted, || format!("items, room for {room}"))
}

fn same_filling(calls: &dyn Calls, case: &[u8], schedule: &[u16], room: usize, tally: &mut Tally) -> Outcome {
    let (mut got, mut wanted) = (marks(room), marks(room));
    let reply = calls.fill(case, schedule, &mut got);
    let wanted_reply = second::fill(case, schedule, &mut wanted);
    match wanted_reply {
        Filled::Assignment { .. } => tally.saw("filled"),
        Filled::Refused { number, .. } => tally.saw(format!("refused {number}")),
    }
    let about = || format!("filling with room for {room} of {schedule:?}");
    tally.same(reply, wanted_reply, about)?;
    tally.same_numbers(&got, &wanted, || format!("assignment, room for {room}"))
}

fn same_listing(calls: &dyn Calls, case: &[u8], room: usize, tally: &mut Tally) -> Outcome {
    let (mut got, mut wanted) = (byte_marks(room), byte_marks(room));
    let reply = calls.listing(case, &mut got);
    let wanted_reply = second::listing(case, &mut wanted);
    match (wanted_reply, second::accept(case)) {
        (Listed::Refused { number, .. }, _) => tally.saw(format!("refused {number}")),
        (_, Verdict::Accepted) => tally.saw("listed"),
        (_, Verdict::Refused { number, .. }) => tally.saw(format!("refusal {number} listed")),
    }
    let about = || format!("listing with room for {room} of {case:?}");
    tally.same(reply, wanted_reply, about)?;
    tally.same_numbers(&got, &wanted, about)
}

fn every_length(calls: &dyn Calls, random: &mut Random, draft: &Draft, tally: &mut Tally) -> Outcome {
    let case = draft.bytes();
    for room in 0..=6 * draft.constraints() + 1 {
        same_encoding(calls, &case, room, tally)?;
    }
    let needed = draft.schedule_numbers();
    let longest = [seen(random, draft), vec![0]].concat();
    for length in 0..=longest.len() {
        same_check(calls, &case, &longest[..length], tally)?;
        for room in [0, needed.saturating_sub(1), needed, needed + 1] {
            same_decoding(calls, &case, &longest[..length], room, tally)?;
        }
    }
    for room in 0..=needed + 1 {
        same_decoding(calls, &case, &longest[..draft.variables()], room, tally)?;
    }
    let longest = [schedule(random, draft), vec![0]].concat();
    for room in 0..=draft.items() + 1 {
        for length in 0..=longest.len() {
            same_replay(calls, &case, &longest[..length], room, tally)?;
        }
    }
    let needed = draft.variables();
    for length in 0..=longest.len() {
        for room in [0, needed.saturating_sub(1), needed, needed + 1] {
            same_filling(calls, &case, &longest[..length], room, tally)?;
        }
    }
    for room in 0..=needed + 1 {
        same_filling(calls, &case, &longest[..draft.schedule_numbers()], room, tally)?;
    }
    let number = random.between(1, 9);
    let refused = damaged(random, number, None).bytes;
    every_length_of_text(calls, &refused, tally)?;
    every_length_of_text(calls, &case, tally)
}

fn every_length_of_text(calls: &dyn Calls, case: &[u8], tally: &mut Tally) -> Outcome {
    let needed = listing(&second::RIGHT, case)?.len();
    for room in 0..=needed + 1 {
        same_listing(calls, case, room, tally)?;
    }
    Ok(())
}
