//! Both sides of every limit.

use crate::ask::{byte_marks, fills, listing, marks, refused_by_all, replay};
use crate::calls::{Calls, Checked, Encoded, Listed, Refusal, Replayed, Verdict};
use crate::draft::Draft;
use crate::enumerate::block_lengths;
use crate::line::*;
use crate::report::{Outcome, Report, Tally};
use crate::table::{table_of, MOST_LISTING_BYTES, MOST_NUMBERS};
use crate::watch::written_down;

pub fn run(calls: &dyn Calls, report: &mut Report) {
    report.check("lengths of the file", |tally| file_lengths(calls, tally));
    report.check("threads 1, 2, 4, 5", |tally| {
        for (threads, number) in [(0, 2), (1, 2), (2, 0), (3, 0), (4, 0), (5, 2), (65_535, 2)] {
            stands(calls, &Draft::new(threads, 1), number, tally)?;
        }
        Ok(())
    });
    report.check("switches 15, 16", |tally| {
        for (switches, number) in [(0, 0), (15, 0), (16, 3), (256, 3), (65_535, 3)] {
            stands(calls, &Draft::new(2, switches), number, tally)?;
        }
        Ok(())
    });
    report.check("globals 8, 9", |tally| {
        for (globals, number) in [(0, 0), (8, 0), (9, 4), (256, 4), (65_535, 4)] {
            stands(calls, &Draft { globals, ..Draft::new(2, 1) }, number, tally)?;
        }
        Ok(())
    });
    report.check("mutexes 4, 5", |tally| {
        for (mutexes, number) in [(0, 0), (4, 0), (5, 4), (256, 4), (65_535, 4)] {
            stands(calls, &Draft { mutexes, ..Draft::new(2, 1) }, number, tally)?;
        }
        Ok(())
    });
    report.check("lines 64, 65", |tally| {
        for (lines, number) in [(63, 0), (64, 0), (65, 8), (66, 8), (256, 8)] {
            for thread in [0, 1] {
                let lines = vec![compute(0, constant(1)); lines];
                stands(calls, &Draft::new(2, 3).with_thread(thread, &lines), number, tally)?;
            }
        }
        Ok(())
    });
    report.check("records 256, 257", |tally| records(calls, tally));
    report.check("the largest case", |tally| largest_case(calls, tally));
    report.check("the longest tables", |tally| longest_tables(calls, tally));
    report.check("15 switches are all used", |tally| all_switches_used(calls, tally));
    report.check("fewer blocks than threads", |tally| fewer_blocks(calls, tally));
    report.check("lengths that add up to 63, 64 and 65", |tally| steps_and_lines(calls, tally));
    report.check("block numbers 15, 16 and 17", |tally| last_block_numbers(calls, tally));
}

/// Demands that the draft meets the refusal in each call, or none for 0.
fn stands(calls: &dyn Calls, draft: &Draft, number: u16, tally: &mut Tally) -> Outcome {
    if number == 0 {
        let verdict = calls.accept(&draft.bytes());
        return tally.same(verdict, Verdict::Accepted, || draft.to_string());
    }
    refused_by_all(calls, &draft.bytes(), Refusal { number, place: 0 }, tally)
}

/// "The case is not 32 + 16R bytes with R from 0 to 256."
fn file_lengths(calls: &dyn Calls, tally: &mut Tally) -> Outcome {
    let whole = Draft::new(2, 0).with_thread(0, &[compute(0, constant(1))]).bytes();
    let refusal = Refusal { number: 1, place: 0 };
    for length in (0..48).filter(|&length| length != 32) {
        refused_by_all(calls, &whole[..length], refusal, tally)?;
    }
    for length in 49..64 {
        let longer = [&whole[..], &vec![0; length - 48]].concat();
        refused_by_all(calls, &longer, refusal, tally)?;
    }
    tally.same(calls.accept(&whole), Verdict::Accepted, || "48 bytes".into())?;
    let header = Draft::new(2, 0).bytes();
    tally.same(calls.accept(&header), Verdict::Accepted, || "32 bytes".into())?;
    // 32 bytes of 0 have no threads.
    refused_by_all(calls, &[0; 32], Refusal { number: 2, place: 0 }, tally)?;
    // 48 bytes of which the record is in no chain.
    let stray = [&header[..], &[0; 16]].concat();
    refused_by_all(calls, &stray, Refusal { number: 7, place: 0 }, tally)
}

/// Four threads of 64 lines are 256 records.
fn full(lines: &[Line]) -> Draft {
    let most = Draft::new(4, 15).with_globals(&[1, 2, 3, 4, 5, 6, 7, 8]).with_mutexes(4);
    (0..4).fold(most, |draft, thread| draft.with_thread(thread, lines))
}

fn records(calls: &dyn Calls, tally: &mut Tally) -> Outcome {
    let draft = full(&[compute(0, constant(1)); 64]);
    stands(calls, &draft, 0, tally)?;
    for more in [1, 2, 256, 4_000] {
        let mut longer = draft.bytes();
        longer.extend(vec![0; 16 * more]);
        refused_by_all(calls, &longer, Refusal { number: 1, place: 0 }, tally)?;
    }
    Ok(())
}

/// 256 assumes with all items: the largest table, 1,457 constraints, 4 for each line
/// and an 8 for all but four, 180 6s and the 7.
fn largest_case(calls: &dyn Calls, tally: &mut Tally) -> Outcome {
    let mut lines = [assume(constant(1)); 64];
    lines[0] = assume(local(0)).guarded(1);
    let draft = full(&lines);
    let table = table_of(calls, &draft.bytes())?;
    tally.same(table.rows.len(), 1_457, || "constraints".into())?;
    tally.same(table.variables, 692, || "variables".into())?;
    let text = listing(calls, &draft.bytes())?;
    tally.same(text, table.listing(), || "the listing".into())?;
    let at_end = vec![1, 2, 3, 4, 5, 6, 7, 8, 0, 0, 0, 0];
    let in_first_blocks = [[64; 4].as_slice(), &[0; 12]].concat();
    // With line 17 a thread comes to its second block. Its 8 stands behind two order
    // constraints of line 1, three of each line up to 16, and its own 3.
    for (schedule, first) in [(in_first_blocks, 1_457), (vec![16; 16], 2 + 3 * 15 + 2)] {
        let checked = calls.check(&draft.bytes(), &written_down(&draft, &schedule));
        tally.same(checked, Checked::Fails(first), || format!("{schedule:?} written down"))?;
        let wanted = (Replayed::Clean, at_end.clone());
        tally.same(replay(calls, &draft, &schedule), wanted, || format!("{schedule:?}"))?;
    }
    // 256 inputs: the longest schedule has 272 numbers.
    let inputs = full(&[input(3); 64]);
    tally.same(inputs.schedule_numbers(), 272, || "schedule numbers".into())?;
    let schedule = [[16; 16].as_slice(), &[65_535; 256]].concat();
    tally.same(replay(calls, &inputs, &schedule).0, Replayed::Clean, || "inputs".into())
}

/// "a table has at most 8,742 numbers and a listing at most 52,464 bytes". A lock in
/// the place of one assume has no 8, unless it is a thread's first line, where neither
/// has one; a load has no 5 either.
fn longest_tables(calls: &dyn Calls, tally: &mut Tally) -> Outcome {
    tally.same((MOST_NUMBERS, MOST_LISTING_BYTES), (8_742, 52_464), || "the most".into())?;
    let with = |place: usize, line: Line| {
        let mut draft = full(&[assume(constant(1)); 64]);
        draft.records[place] = Line { next: draft.records[place].next, ..line };
        draft
    };
    for (draft, constraints) in [
        (full(&[assume(constant(1)); 64]), 1_457),
        (with(0, lock(3)), 1_457),
        (with(128, lock(3)), 1_457),
        (with(0, load(0, 7)), 1_456),
        (with(1, lock(3)), 1_456),
        (with(255, lock(3)), 1_456),
        (with(255, unlock(3)), 1_455),
        (with(64, compute(0, constant(1))), 1_456),
        (with(65, compute(0, constant(1))), 1_456),
        (with(65, load(0, 7)), 1_455),
    ] {
        let (case, needed) = (draft.bytes(), 6 * usize::from(constraints));
        for room in [needed - 1, needed, needed + 1] {
            let mut table = marks(room);
            let wanted = match room < needed {
                true => Encoded::Refused { number: 10, place: 0 },
                false => Encoded::Table { constraints, variables: 692 },
            };
            tally.same(calls.encode(&case, &mut table), wanted, || format!("room for {room} numbers"))?;
            let from = if room < needed { 0 } else { needed };
            tally.holds(table[from..] == marks(room)[from..], || format!("room for {room} numbers: more was touched"))?;
        }
        let needed = listing(calls, &case)?.len();
        tally.holds(needed <= MOST_LISTING_BYTES, || format!("a listing of {needed} bytes"))?;
        for room in [needed - 1, needed, needed + 1] {
            let wanted = match room < needed {
                true => Listed::Refused { number: 10, place: 0 },
                false => Listed::Text { bytes: needed as u16 },
            };
            tally.same(calls.listing(&case, &mut byte_marks(room)), wanted, || format!("room for {room} bytes"))?;
        }
    }
    Ok(())
}

/// Threads that must take turns sixteen times to violate.
fn all_switches_used(calls: &dyn Calls, tally: &mut Tally) -> Outcome {
    // Thread 0 puts odd numbers, thread 1 even ones, each after the other's.
    let turn = |number: u16| [load(0, 0), compute(1, [EQUAL, 0, CONSTANT, number]), store(0, [SUM, 0, CONSTANT, 1]).guarded(2)];
    let turns = |first: u16| (0..8).flat_map(|round| turn(first + 2 * round)).collect::<Vec<_>>();
    let last = [load(2, 0), assert([LESS, 2, CONSTANT, 16])];
    let draft =
        Draft::new(2, 15).with_globals(&[0]).with_thread(0, &turns(0)).with_thread(1, &[turns(1), last.to_vec()].concat());
    let mut schedule = [3; 16];
    schedule[15] = 5;
    let wanted = (Replayed::Violated(draft.records.len() as u16), vec![16]);
    tally.same(replay(calls, &draft, &schedule), wanted, || "in turn".into())?;
    let numbers = written_down(&draft, &schedule);
    let checked = calls.check(&draft.bytes(), &numbers);
    tally.same(checked, Checked::Meets, || "the assignment".into())?;
    fills(calls, &draft, &schedule, Ok(&numbers), tally)?;
    let mut decoded = vec![0; 16];
    calls.decode(&draft.bytes(), &numbers, &mut decoded);
    tally.same(decoded, schedule.to_vec(), || "decoded".into())
}

/// With n + 1 < T some threads have no block: they run no line.
fn fewer_blocks(calls: &dyn Calls, tally: &mut Tally) -> Outcome {
    let line = [assert(constant(0))];
    let lines_in = |thread: usize| Draft::new(4, 1).with_thread(thread, &line);
    for (thread, violating) in [(0, 1), (1, 1), (2, 0), (3, 0)] {
        let draft = lines_in(thread);
        let schedules = block_lengths(&draft);
        tally.same(schedules.len(), violating + 1, || format!("thread {thread}"))?;
        for schedule in schedules {
            let reply = replay(calls, &draft, &schedule).0;
            let wanted = if schedule == [0, 0] { Replayed::Clean } else { Replayed::Violated(1) };
            tally.same(reply, wanted, || format!("thread {thread}"))?;
        }
        for schedule in [[2, 0], [0, 2], [1, 1]] {
            let reply = replay(calls, &draft, &schedule).0;
            let refused = Replayed::Refused { number: 13, place: 0 };
            tally.same(reply, refused, || format!("thread {thread}, {schedule:?}"))?;
        }
    }
    Ok(())
}

/// Four threads of 64 lines, each in one block: as many steps as lines, and one
/// less, and one more.
fn steps_and_lines(calls: &dyn Calls, tally: &mut Tally) -> Outcome {
    let draft = full(&[store(0, [SUM, CONSTANT, 0, 9]); 64]);
    for thread in 0..4 {
        for steps in [0, 1, 63, 64, 65, 66, 65_535] {
            let mut schedule = [0; 16];
            schedule[thread + 4] = steps;
            let (reply, items) = replay(calls, &draft, &schedule);
            let about = || format!("{steps} steps of thread {thread}");
            match steps {
                0..=64 => {
                    tally.same(reply, Replayed::Clean, about)?;
                    tally.same(items[0], if steps == 0 { 1 } else { 9 }, about)?;
                }
                _ => tally.same(reply, Replayed::Refused { number: 13, place: 0 }, about)?,
            }
        }
    }
    Ok(())
}

/// With 15 switches a line of thread 1 may stand in block 15, or be left out by
/// 16, but 17, which is thread 1's as well, is too much.
fn last_block_numbers(calls: &dyn Calls, tally: &mut Tally) -> Outcome {
    let draft = Draft::new(2, 15).with_thread(0, &[assert(constant(0))]).with_thread(1, &[compute(0, constant(7))]);
    // The 2 of line 2 is the fourth constraint, its 4 the sixth.
    for (block, value, wanted) in [
        (15, 7, Checked::Meets),
        (15, 0, Checked::Fails(6)),
        (16, 0, Checked::Meets),
        (16, 7, Checked::Fails(6)),
        (17, 0, Checked::Fails(4)),
        (17, 7, Checked::Fails(4)),
        (18, 0, Checked::Fails(3)),
    ] {
        let checked = calls.check(&draft.bytes(), &[14, 0, block, value]);
        tally.same(checked, wanted, || format!("value {value} in block {block}"))?;
    }
    Ok(())
}
