//! Taking lines one by one: by hand, refusals and their order, both sides of
//! every limit, what is touched of what is held, and whole threads beside the
//! table of their case.

use crate::ask::marks;
use crate::calls::{Calls, Taken, NAMES};
use crate::compare_lines::{hand_on, target_place, whole_threads, Held};
use crate::groups::fields::{self, lines_of_no_kind, lines_with_items, tried_lines};
use crate::line::*;
use crate::random::Random;
use crate::report::{Outcome, Report, Tally};
use crate::samples::{case_a, filled_up, guarded_counter, handshake, largest, GUARDED_COUNTER_VALUE_ROWS};
use crate::second;

/// Random cases whose threads are handed on.
const CASES: u64 = 1_500;

pub fn run(calls: &dyn Calls, report: &mut Report) {
    report.check("every kind", |tally| every_kind(calls, tally));
    report.check("guarded lines are copies", |tally| guarded_lines(calls, tally));
    report.check("constants and unused operands have no copy", |tally| no_names(calls, tally));
    report.check("a line reads what was held before it", |tally| own_target(calls, tally));
    report.check("the guarded counter", |tally| counter(calls, tally));
    report.check("where each target stands", |tally| each_target(calls, tally));
    report.check("where each operand stands", |tally| each_operand(calls, tally));
    report.check("where each guard looks", |tally| each_guard(calls, tally));
    report.check("assert and assume change nothing", |tally| no_target(calls, tally));
    report.check("next is not looked at", |tally| any_next(calls, tally));
    report.check("globals 8, 9 and mutexes 4, 5", |tally| sizes(calls, tally));
    report.check("numbers 0, 1, 256, 257", |tally| numbers(calls, tally));
    report.check("4 before 6 before 9", |tally| order(calls, tally));
    for kind in fields::KINDS {
        report.check(&format!("fields of {kind}"), |tally| {
            let mut lines = tried_lines(kind).into_iter();
            lines.try_for_each(|(line, is_good)| stands(calls, FIELDS, &line, is_good, tally))
        });
    }
    report.check("no other kind", |tally| {
        let mut lines = lines_of_no_kind().into_iter();
        lines.try_for_each(|line| stands(calls, FIELDS, &line, false, tally))
    });
    report.check("no globals, no mutexes", |tally| {
        let mut lines = lines_with_items().into_iter();
        lines.try_for_each(|line| stands(calls, [0, 0, 1], &line, false, tally))
    });
    report.check("whole threads by hand", |tally| {
        let lines = [store(0, [LESS, 0, 0, 0]), lock(3), unlock(3), load(1, 7), input(1), assume([LESS, 0, 0, 0])];
        let drafts = [case_a(), guarded_counter(), handshake(), largest()].into_iter().chain(lines.map(filled_up));
        let random = &mut Random::from_seed(12_000_000);
        drafts.into_iter().try_for_each(|draft| hand_on(calls, random, &draft, tally))
    });
    report.check("whole threads at random", |tally| {
        whole_threads(calls, CASES, tally)?;
        ["last copy", "no last copy"].iter().try_for_each(|what| tally.saw_often(what, 1_000))
    });
}

/// G, M and the number with which fields are tried.
const FIELDS: [u16; 3] = [fields::GLOBALS, fields::MUTEXES, 77];

const NOTHING: Held = [0; NAMES];

/// So many numbers stand before and after what is held.
const AROUND: usize = 64;

fn copies([guard, a, b, target]: [u16; 4]) -> Taken {
    Taken::Copies { guard, a, b, target }
}

fn refused(number: u16, place: u16) -> Taken {
    Taken::Refused { number, place }
}

/// Different numbers for all names.
fn marked() -> Held {
    marks(NAMES).try_into().expect("a mark for each name")
}

/// What is held, with the line of this number at the place.
fn with(held: Held, place: usize, number: u16) -> Held {
    let mut held = held;
    held[place] = number;
    held
}

/// What is held, between other numbers that no call may touch.
fn surrounded(held: &Held) -> Vec<u16> {
    let mut numbers = marks(AROUND + NAMES + AROUND);
    numbers[AROUND..][..NAMES].copy_from_slice(held);
    numbers
}

/// Demands the reply to a line, and what is held after it.
fn takes(
    calls: &dyn Calls,
    [globals, mutexes, number]: [u16; 3],
    line: &Line,
    before: Held,
    (reply, after): (Taken, Held),
    tally: &mut Tally,
) -> Outcome {
    let mut numbers = surrounded(&before);
    let held = (&mut numbers[AROUND..][..NAMES]).try_into().expect("as many as there are names");
    let got = calls.take_line(globals, mutexes, number, &line.fields(), held);
    let about = || format!("G {globals}, M {mutexes}, record {number}: {line:?}");
    tally.same(got, reply, about)?;
    tally.same_numbers(&numbers, &surrounded(&after), about)
}

/// Demands that a line is taken, and no number but its target's touched; or that
/// it is refused with 9, and none touched.
fn stands(calls: &dyn Calls, handed: [u16; 3], line: &Line, is_good: bool, tally: &mut Tally) -> Outcome {
    let [globals, mutexes, number] = handed;
    for held in [marked(), marked().map(|mark| !mark)] {
        let mut wanted = (refused(9, number), held);
        if is_good {
            // The copies are those of the second implementation.
            let reply = second::take_line(globals, mutexes, number, &line.fields(), &mut held.clone());
            tally.holds(matches!(reply, Taken::Copies { .. }), || format!("{line:?} is good"))?;
            let target = target_place(globals, line);
            wanted = (reply, target.map_or(held, |place| with(held, place, number)));
        }
        takes(calls, handed, line, held, wanted, tally)?;
    }
    Ok(())
}

/// A thread's lines with their record numbers, and the copies of each.
type Thread = [(u16, Line, [u16; 4])];

/// Demands the copies of a thread's lines, handed on from nothing, and what is
/// held after the last.
fn thread(
    calls: &dyn Calls,
    [globals, mutexes]: [u16; 2],
    lines: &Thread,
    after: &[(usize, u16)],
    tally: &mut Tally,
) -> Outcome {
    let mut held = NOTHING;
    for (number, line, wanted) in lines {
        let reply = calls.take_line(globals, mutexes, *number, &line.fields(), &mut held);
        tally.same(reply, copies(*wanted), || format!("record {number}: {line:?}"))?;
    }
    let wanted = after.iter().fold(NOTHING, |held, &(place, number)| with(held, place, number));
    tally.same(held, wanted, || "what is held at the end".into())
}

/// Two globals at 16 and 17, two mutexes at 18 and 19. Record numbers need not
/// rise along a thread.
fn every_kind(calls: &dyn Calls, tally: &mut Tally) -> Outcome {
    let lines = [
        (5, input(3), [0, 0, 0, 0]),
        (9, compute(4, [SUM, 3, CONSTANT, 7]), [0, 5, 0, 0]),
        (2, store(1, [LESS, CONSTANT, 4, 1]), [0, 0, 9, 0]),
        (7, load(3, 1), [0, 2, 0, 5]),
        (1, lock(1).guarded(4), [7, 0, 0, 0]),
        (8, assert([EQUAL, 3, 4, 0]).guarded(21), [9, 7, 9, 0]),
        (3, assume(local(3)), [0, 7, 0, 0]),
        (6, unlock(1), [0, 0, 0, 1]),
        (4, store(1, local(4)).guarded(20), [7, 9, 0, 2]),
        (256, compute(4, [AND, 4, 4, 0]), [0, 9, 9, 9]),
    ];
    thread(calls, [2, 2], &lines, &[(3, 7), (4, 256), (17, 4), (19, 6)], tally)
}

/// "guarded or not": a line is the copy even where its guard is never true.
fn guarded_lines(calls: &dyn Calls, tally: &mut Tally) -> Outcome {
    let lines = [
        (1, store(0, constant(1)), [0, 0, 0, 0]),
        (2, store(0, constant(2)).guarded(6), [0, 0, 0, 1]),
        (3, load(0, 0), [0, 2, 0, 0]),
        (4, compute(0, constant(3)).guarded(17), [3, 0, 0, 3]),
        (5, load(0, 0).guarded(1), [4, 2, 0, 4]),
        (6, input(0).guarded(32), [0, 0, 0, 5]),
        (7, lock(0).guarded(1), [6, 0, 0, 0]),
        (8, unlock(0).guarded(17), [6, 0, 0, 7]),
        (9, assert(local(0)), [0, 6, 0, 0]),
    ];
    thread(calls, [1, 1], &lines, &[(0, 6), (16, 2), (17, 8)], tally)
}

/// "A copy for a constant is 0", and so is that of the b of op 0, though local 0,
/// global 0 at 16 and mutex 0 have copies.
fn no_names(calls: &dyn Calls, tally: &mut Tally) -> Outcome {
    let lines = [
        (1, compute(0, constant(1)), [0, 0, 0, 0]),
        (2, store(0, local(0)), [0, 1, 0, 0]),
        (3, lock(0), [0, 0, 0, 0]),
        (4, store(0, constant(5)), [0, 0, 0, 2]),
        (5, compute(1, [SUM, CONSTANT, CONSTANT, 5]), [0, 0, 0, 0]),
        (6, compute(1, [SUM, 0, CONSTANT, 5]), [0, 1, 0, 5]),
        (7, compute(1, [SUM, CONSTANT, 0, 5]), [0, 0, 1, 6]),
        (8, assert(local(2)), [0, 0, 0, 0]),
        (9, assume(constant(1)), [0, 0, 0, 0]),
        (10, input(1), [0, 0, 0, 7]),
        (11, load(2, 1), [0, 0, 0, 0]),
        (12, unlock(0), [0, 0, 0, 3]),
        (13, assert([EQUAL, 2, 1, 0]), [0, 11, 10, 0]),
    ];
    thread(calls, [2, 1], &lines, &[(0, 1), (1, 10), (2, 11), (16, 4), (18, 12)], tally)
}

/// A line that reads its own target, and guards itself with it.
fn own_target(calls: &dyn Calls, tally: &mut Tally) -> Outcome {
    let own = compute(15, [SUM, 15, 15, 0]).guarded(16);
    let lines = [(7, own, [0, 0, 0, 0]), (8, own, [7, 7, 7, 7]), (6, own.guarded(32), [8, 8, 8, 8])];
    thread(calls, [8, 4], &lines, &[(15, 6)], tally)?;
    // The same number again: nothing asks for numbers that were not there yet.
    thread(calls, [8, 4], &[(7, own, [0; 4]), (7, own, [7; 4])], &[(15, 7)], tally)
}

/// The 4s of the three threads, which were worked out for the table.
fn counter(calls: &dyn Calls, tally: &mut Tally) -> Outcome {
    let draft = guarded_counter();
    let mut rows = GUARDED_COUNTER_VALUE_ROWS.iter().filter(|row| row[0] == 4);
    for chain in draft.chains() {
        let mut held = NOTHING;
        for number in chain {
            let reply = calls.take_line(2, 1, number, &draft.line(number).fields(), &mut held);
            let &[_, line, guard, a, b, target] = rows.next().ok_or("more lines than 4s")?;
            tally.same((number, reply), (line, copies([guard, a, b, target])), || "the counter".into())?;
        }
    }
    tally.same(rows.next(), None, || "more 4s than lines".into())
}

/// Every G and M, and every target of every kind.
fn each_target(calls: &dyn Calls, tally: &mut Tally) -> Outcome {
    for globals in 0..=8 {
        for mutexes in 0..=4 {
            let locals = (0..16).flat_map(|x| [compute(x, constant(1)), input(x)].map(|line| (usize::from(x), line)));
            let stores = (0..globals).map(|g| (usize::from(16 + g), store(g, constant(1))));
            let locks = (0..mutexes).flat_map(|m| [lock(m), unlock(m)].map(|line| (usize::from(16 + globals + m), line)));
            for (place, line) in locals.chain(stores).chain(locks) {
                let before = marked();
                let wanted = (copies([0, 0, 0, before[place]]), with(before, place, 200));
                takes(calls, [globals, mutexes, 200], &line, before, wanted, tally)?;
            }
        }
    }
    Ok(())
}

/// Every local as a and as b, and every global that is loaded.
fn each_operand(calls: &dyn Calls, tally: &mut Tally) -> Outcome {
    let held = marked();
    for a in 0..=CONSTANT {
        for b in 0..=CONSTANT {
            let copy = |operand: u16| if operand == CONSTANT { 0 } else { held[usize::from(operand)] };
            for op in SUM..=LESS {
                let wanted = (copies([0, copy(a), copy(b), 0]), held);
                takes(calls, [8, 4, 3], &assert([op, a, b, 0]), held, wanted, tally)?;
            }
        }
    }
    for globals in 1..=8 {
        for global in 0..globals {
            let read = held[usize::from(16 + global)];
            let wanted = (copies([0, read, 0, held[9]]), with(held, 9, 3));
            takes(calls, [globals, 0, 3], &load(9, global), held, wanted, tally)?;
        }
    }
    Ok(())
}

/// "1 to 16 means local (guard − 1) is not zero; 17 to 32 means local
/// (guard − 17) is zero."
fn each_guard(calls: &dyn Calls, tally: &mut Tally) -> Outcome {
    let held = marked();
    for local in 0..16 {
        for guard in [local + 1, local + 17] {
            let copy = held[usize::from(local)];
            let wanted = (copies([copy, 0, 0, held[27]]), with(held, 27, 12));
            takes(calls, [8, 4, 12], &unlock(3).guarded(guard), held, wanted, tally)?;
        }
    }
    Ok(())
}

/// Whatever is held, and whatever they test.
fn no_target(calls: &dyn Calls, tally: &mut Tally) -> Outcome {
    for held in [NOTHING, marked(), [65_535; NAMES]] {
        for line in [assert, assume].map(|kind| kind([OR, 0, 0, 0]).guarded(1)) {
            takes(calls, [1, 1, 9], &line, held, (copies([held[0], held[0], held[0], 0]), held), tally)?;
            takes(calls, [1, 1, 9], &Line { target: 1, ..line }, held, (refused(9, 9), held), tally)?;
        }
    }
    Ok(())
}

/// Not even where the record would come after itself.
fn any_next(calls: &dyn Calls, tally: &mut Tally) -> Outcome {
    let held = marked();
    for next in [0, 1, 40, 255, 256, 257, 32_768, 65_535] {
        let line = Line { next, ..load(2, 0) };
        let wanted = (copies([0, held[16], 0, held[2]]), with(held, 2, 40));
        takes(calls, [1, 0, 40], &line, held, wanted, tally)?;
        takes(calls, [0, 0, 40], &line, held, (refused(9, 40), held), tally)?;
    }
    Ok(())
}

/// "G is over 8 or M is over 4."
fn sizes(calls: &dyn Calls, tally: &mut Tally) -> Outcome {
    let held = marked();
    let line = compute(1, constant(1));
    let taken = (copies([0, 0, 0, held[1]]), with(held, 1, 5));
    for globals in [0, 1, 7, 8, 9, 10, 255, 256, 65_535] {
        for mutexes in [0, 1, 3, 4, 5, 6, 255, 256, 65_535] {
            let wanted = if globals <= 8 && mutexes <= 4 { taken } else { (refused(4, 0), held) };
            takes(calls, [globals, mutexes, 5], &line, held, wanted, tally)?;
        }
    }
    Ok(())
}

/// A record has a number from 1 to 256.
fn numbers(calls: &dyn Calls, tally: &mut Tally) -> Outcome {
    let held = marked();
    for number in (0..=260).chain([511, 512, 513, 32_768, 65_535]) {
        let wanted = match number {
            1..=256 => (copies([0, 0, 0, held[27]]), with(held, 27, number)),
            _ => (refused(6, 0), held),
        };
        takes(calls, [8, 4, number], &lock(3), held, wanted, tally)?;
    }
    Ok(())
}

/// Every fault with and without the others; the place of a 9 is the number.
fn order(calls: &dyn Calls, tally: &mut Tally) -> Outcome {
    let held = marked();
    let broken = [compute(16, constant(1)), lock(0).guarded(33), store(9, local(0)), Line { kind: 9, ..lock(0) }];
    for line in broken {
        for [globals, mutexes] in [[9, 4], [8, 5], [65_535, 65_535]] {
            for number in [0, 1, 256, 257] {
                for line in [line, input(0)] {
                    takes(calls, [globals, mutexes, number], &line, held, (refused(4, 0), held), tally)?;
                }
            }
        }
        for number in [0, 257, 65_535] {
            for line in [line, input(0)] {
                takes(calls, [8, 4, number], &line, held, (refused(6, 0), held), tally)?;
            }
        }
        for number in [1, 2, 255, 256] {
            takes(calls, [8, 4, number], &line, held, (refused(9, number), held), tally)?;
        }
    }
    Ok(())
}
