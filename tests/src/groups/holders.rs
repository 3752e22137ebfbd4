//! Mutexes and their holders, worked out by hand: what a lock puts, which unlocks
//! violate, and which line is named.

use super::holders_in_constraints as in_constraints;
use super::runs::runs;
use crate::ask::reply;
use crate::calls::{Calls, Replayed};
use crate::compare_text::{same_truth, script_of};
use crate::draft::Draft;
use crate::enumerate::block_lengths;
use crate::line::*;
use crate::report::{Outcome, Report, Tally};
use crate::samples::{right_release, wrong_release};
use crate::watch::written_down;
use Replayed::{Clean, CutOff, Violated};

type Check = fn(&dyn Calls, &mut Tally) -> Outcome;

const CHECKS: [(&str, Check); 22] = [
    ("a lock puts t + 1", locks),
    ("an unlock by the holder", by_the_holder),
    ("an unlock by a stranger", by_a_stranger),
    ("an unlock of a free mutex", of_a_free_mutex),
    ("one mutex is held, another is unlocked", of_another_mutex),
    ("a mutex that is held cuts off, also one's own", held_mutexes),
    ("guards of an unlock by a stranger", guarded_strangers),
    ("guards of the holder's unlock", guarded_holders),
    ("guards of the lock before an unlock", guarded_locks),
    ("an unlock that is not run", not_run),
    ("a later cut-off is the reply", cut_off_later),
    ("the first of either sort", first_of_either_sort),
    ("two strangers", two_strangers),
    ("what comes after a stranger", after_a_stranger),
    ("an input decides whether a stranger unlocks", by_an_input),
    ("assignments that end at the 7, or meet it", in_constraints::at_the_7),
    ("the value of a lock, thread by thread", in_constraints::values_of_locks),
    ("an unlock that was not run fails at the 7 alone", in_constraints::unrun_at_the_7),
    ("the text of three lines", in_constraints::text_of_three_lines),
    ("the text of guarded lines, with an input and an assert", in_constraints::text_of_guarded_lines),
    ("the parts of a 7 go by thread and chain", in_constraints::text_of_the_7),
    ("releases: right and wrong ones", releases),
];

pub fn run(calls: &dyn Calls, report: &mut Report) {
    for (name, body) in CHECKS {
        report.check(name, |tally| body(calls, tally));
    }
}

/// All of them, one after the other.
pub fn all(calls: &dyn Calls, tally: &mut Tally) -> Outcome {
    CHECKS.iter().try_for_each(|(name, body)| body(calls, tally).map_err(|message| format!("{name}: {message}")))
}

/// A thread's turn: so many steps.
type Turn = (usize, u16);

/// Demands the reply to these turns, and the mutexes at the end; that checker and
/// decoder see the run in the same way, and the text as the checker does.
fn in_turns(calls: &dyn Calls, draft: &Draft, turns: &[Turn], reply: Replayed, mutexes: &[u16], tally: &mut Tally) -> Outcome {
    by_schedule(calls, draft, &schedule(draft, turns), reply, mutexes, tally)
}

fn by_schedule(
    calls: &dyn Calls,
    draft: &Draft,
    schedule: &[u16],
    reply: Replayed,
    mutexes: &[u16],
    tally: &mut Tally,
) -> Outcome {
    // The global is never written.
    let items = [&[7], mutexes].concat();
    runs(calls, draft, schedule, reply, &items, tally)?;
    let script = script_of(calls, draft, tally)?;
    same_truth(calls, draft, &script, &written_down(draft, schedule), tally)
}

/// A case without lines: a global, so that the first mutex is item 1, and blocks
/// for three turns of each thread.
fn empty(threads: usize, mutexes: u16) -> Draft {
    let threads = threads as u16;
    Draft::new(threads, 3 * threads - 1).with_globals(&[7]).with_mutexes(mutexes)
}

/// Each turn in the block where the turn before it ended, or in the first block of
/// its thread behind it.
fn schedule(draft: &Draft, turns: &[Turn]) -> Vec<u16> {
    let mut schedule = vec![0; draft.blocks()];
    let mut block = 0;
    for &(thread, steps) in turns {
        while block % usize::from(draft.threads) != thread {
            block += 1;
        }
        schedule[block] += steps;
    }
    schedule
}

/// The numbers of a case: 2 to 4 threads, one of them; 1 to 4 mutexes, and of
/// these the first, the last, and one between.
fn each(mut body: impl FnMut(usize, usize, u16, u16) -> Outcome) -> Outcome {
    for threads in 2..=4 {
        for thread in 0..threads {
            for (mutexes, mutex) in [(1, 0), (2, 0), (2, 1), (3, 0), (3, 2), (4, 0), (4, 1), (4, 3)] {
                body(threads, thread, mutexes, mutex)?;
            }
        }
    }
    Ok(())
}

/// The same, with each other thread.
fn each_pair(mut body: impl FnMut(usize, [usize; 2], u16, u16) -> Outcome) -> Outcome {
    each(|threads, thread, mutexes, mutex| {
        let mut others = (0..threads).filter(|&other| other != thread);
        others.try_for_each(|other| body(threads, [thread, other], mutexes, mutex))
    })
}

/// All mutexes are free.
fn free(mutexes: u16) -> Vec<u16> {
    vec![0; usize::from(mutexes)]
}

/// This one alone has this number.
fn only(mutexes: u16, mutex: u16, number: u16) -> Vec<u16> {
    let mut all = free(mutexes);
    all[usize::from(mutex)] = number;
    all
}

/// What a mutex has that a thread holds: 1 to 4 for threads 0 to 3.
pub fn held_by(thread: usize) -> u16 {
    [1, 2, 3, 4][thread]
}

fn locks(calls: &dyn Calls, tally: &mut Tally) -> Outcome {
    each(|threads, thread, mutexes, mutex| {
        let draft = empty(threads, mutexes).with_thread(thread, &[lock(mutex)]);
        in_turns(calls, &draft, &[(thread, 0)], Clean, &free(mutexes), tally)?;
        in_turns(calls, &draft, &[(thread, 1)], Clean, &only(mutexes, mutex, held_by(thread)), tally)
    })
}

/// In one block, and in two.
fn by_the_holder(calls: &dyn Calls, tally: &mut Tally) -> Outcome {
    each_pair(|threads, [thread, other], mutexes, mutex| {
        let draft = empty(threads, mutexes).with_thread(thread, &[lock(mutex), unlock(mutex), lock(mutex)]);
        in_turns(calls, &draft, &[(thread, 2)], Clean, &free(mutexes), tally)?;
        in_turns(calls, &draft, &[(thread, 3)], Clean, &only(mutexes, mutex, held_by(thread)), tally)?;
        let between = [(thread, 1), (other, 0), (thread, 1)];
        in_turns(calls, &draft, &between, Clean, &free(mutexes), tally)
    })
}

/// It violates at its record, and frees the mutex; the holder's own unlock then
/// violates too, and is not named.
fn by_a_stranger(calls: &dyn Calls, tally: &mut Tally) -> Outcome {
    each_pair(|threads, [holder, stranger], mutexes, mutex| {
        // Records 1 and 2, and 3.
        let draft = empty(threads, mutexes).with_thread(holder, &[lock(mutex), unlock(mutex)]);
        let draft = draft.with_thread(stranger, &[unlock(mutex)]);
        let held = only(mutexes, mutex, held_by(holder));
        in_turns(calls, &draft, &[(holder, 1)], Clean, &held, tally)?;
        in_turns(calls, &draft, &[(holder, 1), (stranger, 1)], Violated(3), &free(mutexes), tally)?;
        in_turns(calls, &draft, &[(holder, 1), (stranger, 1), (holder, 1)], Violated(3), &free(mutexes), tally)?;
        // The stranger comes before the lock: the mutex is free.
        in_turns(calls, &draft, &[(stranger, 1), (holder, 1)], Violated(3), &held, tally)?;
        in_turns(calls, &draft, &[(stranger, 1), (holder, 2)], Violated(3), &free(mutexes), tally)
    })
}

fn of_a_free_mutex(calls: &dyn Calls, tally: &mut Tally) -> Outcome {
    each_pair(|threads, [thread, other], mutexes, mutex| {
        let draft = empty(threads, mutexes).with_thread(thread, &[unlock(mutex), lock(mutex)]);
        in_turns(calls, &draft, &[(thread, 1)], Violated(1), &free(mutexes), tally)?;
        in_turns(calls, &draft, &[(thread, 2)], Violated(1), &only(mutexes, mutex, held_by(thread)), tally)?;
        // The second unlock is one too many.
        let twice = empty(threads, mutexes).with_thread(thread, &[lock(mutex), unlock(mutex), unlock(mutex)]);
        in_turns(calls, &twice, &[(thread, 2)], Clean, &free(mutexes), tally)?;
        in_turns(calls, &twice, &[(thread, 3)], Violated(3), &free(mutexes), tally)?;
        in_turns(calls, &twice, &[(thread, 2), (other, 0), (thread, 1)], Violated(3), &free(mutexes), tally)?;
        // What another thread held and freed is nobody's.
        let freed = empty(threads, mutexes).with_thread(other, &[lock(mutex), unlock(mutex)]);
        let freed = freed.with_thread(thread, &[unlock(mutex)]);
        in_turns(calls, &freed, &[(other, 2), (thread, 1)], Violated(3), &free(mutexes), tally)
    })
}

/// Mutex 3 is held, and mutex 1 unlocked, and the other way round.
fn of_another_mutex(calls: &dyn Calls, tally: &mut Tally) -> Outcome {
    for threads in 2..=4 {
        for thread in 0..threads {
            for (held, other) in [(3, 1), (1, 3), (0, 2), (2, 0)] {
                let draft = empty(threads, 4).with_thread(thread, &[lock(held), unlock(other), unlock(held)]);
                in_turns(calls, &draft, &[(thread, 2)], Violated(2), &only(4, held, held_by(thread)), tally)?;
                in_turns(calls, &draft, &[(thread, 3)], Violated(2), &free(4), tally)?;
                let both = empty(threads, 4).with_thread(thread, &[lock(held), lock(other), unlock(held), unlock(other)]);
                in_turns(calls, &both, &[(thread, 3)], Clean, &only(4, other, held_by(thread)), tally)?;
                in_turns(calls, &both, &[(thread, 4)], Clean, &free(4), tally)?;
            }
        }
    }
    Ok(())
}

fn held_mutexes(calls: &dyn Calls, tally: &mut Tally) -> Outcome {
    each_pair(|threads, [thread, other], mutexes, mutex| {
        let own = empty(threads, mutexes).with_thread(thread, &[lock(mutex), lock(mutex), unlock(mutex)]);
        let held = only(mutexes, mutex, held_by(thread));
        in_turns(calls, &own, &[(thread, 2)], CutOff(2), &held, tally)?;
        in_turns(calls, &own, &[(thread, 3)], CutOff(2), &held, tally)?;
        let others = empty(threads, mutexes).with_thread(thread, &[lock(mutex)]);
        let others = others.with_thread(other, &[lock(mutex), unlock(mutex)]);
        in_turns(calls, &others, &[(thread, 1), (other, 1)], CutOff(2), &held, tally)?;
        in_turns(calls, &others, &[(thread, 1), (other, 2)], CutOff(2), &held, tally)?;
        in_turns(calls, &others, &[(other, 2), (thread, 1)], Clean, &held, tally)
    })
}

/// Guards at their limits, the local that each looks at, and whether the guard is
/// true where the local has 0.
const GUARDS: [(u16, u16, bool); 4] = [(1, 0, false), (16, 15, false), (17, 0, true), (32, 15, true)];

/// The guard of the same local that is true where this one is false.
fn contrary(guard: u16) -> u16 {
    match guard {
        1..=16 => guard + 16,
        _ => guard - 16,
    }
}

/// Each guard with its local at 0, 1 and a high bit, and whether it is then true.
fn each_guard(mut body: impl FnMut(u16, Line, bool) -> Outcome) -> Outcome {
    for (guard, local, true_of_0) in GUARDS {
        body(guard, compute(local, constant(0)), true_of_0)?;
        body(guard, compute(local, constant(1)), !true_of_0)?;
        body(guard, compute(local, constant(32_768)), !true_of_0)?;
    }
    Ok(())
}

/// "A line whose guard is false changes nothing and demands nothing", nor does it
/// violate.
fn guarded_strangers(calls: &dyn Calls, tally: &mut Tally) -> Outcome {
    each_guard(|guard, set, is_true| {
        for (threads, holder, stranger) in [(2, 0, 1), (2, 1, 0), (3, 2, 1), (4, 1, 3), (4, 3, 0)] {
            let draft = empty(threads, 2).with_thread(holder, &[lock(1)]);
            let draft = draft.with_thread(stranger, &[set, unlock(1).guarded(guard), unlock(0).guarded(guard)]);
            let turns = |steps: u16| [(holder, 1), (stranger, steps)];
            let held = only(2, 1, held_by(holder));
            in_turns(calls, &draft, &turns(1), Clean, &held, tally)?;
            let (reply, mutexes) = if is_true { (Violated(3), free(2)) } else { (Clean, held) };
            in_turns(calls, &draft, &turns(2), reply, &mutexes, tally)?;
            in_turns(calls, &draft, &turns(3), reply, &mutexes, tally)?;
        }
        Ok(())
    })?;
    // Locals that no line writes have 0.
    for (guard, _, true_of_0) in GUARDS {
        let draft = empty(3, 1).with_thread(2, &[unlock(0).guarded(guard)]);
        let reply = if true_of_0 { Violated(1) } else { Clean };
        in_turns(calls, &draft, &[(2, 1)], reply, &[0], tally)?;
    }
    Ok(())
}

/// The mutex stays with its holder where the guard is false.
fn guarded_holders(calls: &dyn Calls, tally: &mut Tally) -> Outcome {
    each_guard(|guard, set, is_true| {
        for thread in 0..4 {
            let draft = empty(4, 2).with_thread(thread, &[set, lock(1), unlock(1).guarded(guard), lock(1)]);
            let held = only(2, 1, held_by(thread));
            let (freed, reply) = if is_true { (free(2), Clean) } else { (held.clone(), CutOff(4)) };
            in_turns(calls, &draft, &[(thread, 3)], Clean, &freed, tally)?;
            in_turns(calls, &draft, &[(thread, 4)], reply, &held, tally)?;
        }
        Ok(())
    })
}

/// A lock with a false guard makes nobody the holder.
fn guarded_locks(calls: &dyn Calls, tally: &mut Tally) -> Outcome {
    each_guard(|guard, set, is_true| {
        for thread in 0..4 {
            let held = only(2, 1, held_by(thread));
            let lines = |last: Line| empty(4, 2).with_thread(thread, &[set, lock(1).guarded(guard), last]);
            let reply = if is_true { Clean } else { Violated(3) };
            in_turns(calls, &lines(unlock(1)), &[(thread, 3)], reply, &free(2), tally)?;
            in_turns(calls, &lines(unlock(1).guarded(guard)), &[(thread, 3)], Clean, &free(2), tally)?;
            let mutexes = if is_true { held } else { free(2) };
            in_turns(calls, &lines(unlock(1).guarded(contrary(guard))), &[(thread, 3)], reply, &mutexes, tally)?;
            // Another thread holds the mutex, which the lock then leaves to it.
            let other = (thread + 1) % 4;
            let draft = lines(unlock(1).guarded(contrary(guard))).with_thread(other, &[lock(1)]);
            let (reply, mutexes) = if is_true { (CutOff(2), only(2, 1, held_by(other))) } else { (Violated(3), free(2)) };
            in_turns(calls, &draft, &[(other, 1), (thread, 3)], reply, &mutexes, tally)?;
            if !is_true {
                in_turns(calls, &draft, &[(other, 1), (thread, 2)], Clean, &only(2, 1, held_by(other)), tally)?;
            }
        }
        Ok(())
    })
}

/// The run stops before it, or its thread has no block.
fn not_run(calls: &dyn Calls, tally: &mut Tally) -> Outcome {
    each_pair(|threads, [thread, other], mutexes, mutex| {
        let draft = empty(threads, mutexes).with_thread(other, &[lock(mutex)]);
        let draft = draft.with_thread(thread, &[compute(0, constant(1)), unlock(mutex)]);
        let held = only(mutexes, mutex, held_by(other));
        in_turns(calls, &draft, &[(other, 1), (thread, 0)], Clean, &held, tally)?;
        in_turns(calls, &draft, &[(other, 1), (thread, 1)], Clean, &held, tally)?;
        in_turns(calls, &draft, &[(other, 1), (thread, 2)], Violated(3), &free(mutexes), tally)?;
        // Neither its lock nor its unlock is run.
        let own = empty(threads, mutexes).with_thread(thread, &[lock(mutex), unlock(mutex)]);
        in_turns(calls, &own, &[(thread, 0)], Clean, &free(mutexes), tally)
    })?;
    let no_block = Draft { switches: 1, ..empty(3, 1) }.with_thread(2, &[unlock(0)]);
    by_schedule(calls, &no_block, &[0, 0], Clean, &[0], tally)
}

fn cut_off_later(calls: &dyn Calls, tally: &mut Tally) -> Outcome {
    each_pair(|threads, [thread, other], mutexes, mutex| {
        let fails = assume(constant(0));
        let draft = empty(threads, mutexes).with_thread(thread, &[unlock(mutex), fails]);
        in_turns(calls, &draft, &[(thread, 1)], Violated(1), &free(mutexes), tally)?;
        in_turns(calls, &draft, &[(thread, 2)], CutOff(2), &free(mutexes), tally)?;
        let draft = empty(threads, mutexes).with_thread(other, &[lock(mutex), fails]).with_thread(thread, &[unlock(mutex)]);
        in_turns(calls, &draft, &[(other, 1), (thread, 1)], Violated(3), &free(mutexes), tally)?;
        in_turns(calls, &draft, &[(other, 1), (thread, 1), (other, 1)], CutOff(2), &free(mutexes), tally)?;
        // The lock of a mutex that is held, after the unlock of a free one.
        let draft = empty(threads, mutexes).with_thread(thread, &[unlock(mutex), lock(mutex), lock(mutex)]);
        let held = only(mutexes, mutex, held_by(thread));
        in_turns(calls, &draft, &[(thread, 2)], Violated(1), &held, tally)?;
        in_turns(calls, &draft, &[(thread, 3)], CutOff(3), &held, tally)
    })
}

/// "replay names the first of either sort": in running order, and not by record
/// or thread.
fn first_of_either_sort(calls: &dyn Calls, tally: &mut Tally) -> Outcome {
    let fails = assert(constant(0));
    each_pair(|threads, [first, second], mutexes, mutex| {
        let (unlocks, asserts) = ([unlock(mutex)], [fails]);
        for (lines, other_lines) in [(&unlocks, &asserts), (&asserts, &unlocks)] {
            let draft = empty(threads, mutexes).with_thread(first, lines).with_thread(second, other_lines);
            for (draft, named) in [(draft.clone(), [1, 2]), (draft.renumbered(&[2, 1]), [2, 1])] {
                in_turns(calls, &draft, &[(first, 1), (second, 1)], Violated(named[0]), &free(mutexes), tally)?;
                in_turns(calls, &draft, &[(second, 1), (first, 1)], Violated(named[1]), &free(mutexes), tally)?;
            }
        }
        // In one thread.
        for lines in [[unlock(mutex), fails], [fails, unlock(mutex)]] {
            let draft = empty(threads, mutexes).with_thread(first, &lines);
            in_turns(calls, &draft, &[(first, 2)], Violated(1), &free(mutexes), tally)?;
            in_turns(calls, &draft.renumbered(&[2, 1]), &[(first, 2)], Violated(2), &free(mutexes), tally)?;
        }
        // An assert that holds, and an unlock by the holder, are passed over.
        let lines = [lock(mutex), assert(constant(1)), unlock(mutex), unlock(mutex), fails];
        let draft = empty(threads, mutexes).with_thread(first, &lines);
        in_turns(calls, &draft, &[(first, 3)], Clean, &free(mutexes), tally)?;
        in_turns(calls, &draft, &[(first, 5)], Violated(4), &free(mutexes), tally)
    })
}

fn two_strangers(calls: &dyn Calls, tally: &mut Tally) -> Outcome {
    for threads in 3..=4 {
        for holder in 0..threads {
            let strangers: Vec<usize> = (0..threads).filter(|&thread| thread != holder).collect();
            let draft = empty(threads, 2).with_thread(holder, &[lock(0), lock(1)]);
            // The one with the higher thread has the lower record.
            let draft = draft.with_thread(strangers[1], &[unlock(0), unlock(1)]);
            let draft = draft.with_thread(strangers[0], &[unlock(1), unlock(0)]);
            let turns = |one: usize, other: usize| [(holder, 2), (strangers[one], 1), (strangers[other], 1)];
            in_turns(calls, &draft, &turns(1, 0), Violated(3), &[0, 0], tally)?;
            in_turns(calls, &draft, &turns(0, 1), Violated(5), &[0, 0], tally)?;
            // The second one finds a mutex that is free.
            let turns = |one: usize, other: usize| [(holder, 2), (strangers[one], 2), (strangers[other], 2)];
            in_turns(calls, &draft, &turns(1, 0), Violated(3), &[0, 0], tally)?;
            in_turns(calls, &draft, &turns(0, 1), Violated(5), &[0, 0], tally)?;
        }
    }
    Ok(())
}

/// The mutex is free for a third thread, and its holder of before is a stranger.
fn after_a_stranger(calls: &dyn Calls, tally: &mut Tally) -> Outcome {
    for threads in 3..=4 {
        for [holder, stranger, third] in [[0, 1, 2], [1, 2, 0], [2, 0, 1], [2, 1, 0]] {
            let draft = empty(threads, 1).with_thread(holder, &[lock(0), unlock(0)]);
            let draft = draft.with_thread(stranger, &[unlock(0)]).with_thread(third, &[lock(0), unlock(0)]);
            // Without the stranger the third thread has to wait.
            in_turns(calls, &draft, &[(holder, 1), (third, 1)], CutOff(4), &[held_by(holder)], tally)?;
            let turns = |rest: &[Turn]| [&[(holder, 1), (stranger, 1), (third, 1)], rest].concat();
            in_turns(calls, &draft, &turns(&[]), Violated(3), &[held_by(third)], tally)?;
            in_turns(calls, &draft, &turns(&[(third, 1)]), Violated(3), &[0], tally)?;
            in_turns(calls, &draft, &turns(&[(holder, 1)]), Violated(3), &[0], tally)?;
        }
    }
    Ok(())
}

/// Local 0 of thread 1 is read; it unlocks what thread 0 holds where that is not 0,
/// and what nobody holds where it is.
fn by_an_input(calls: &dyn Calls, tally: &mut Tally) -> Outcome {
    let lines = [input(0), unlock(0).guarded(1), unlock(1).guarded(17)];
    let draft = empty(2, 2).with_thread(0, &[lock(0)]).with_thread(1, &lines);
    for (value, two, three) in [(0, Clean, Violated(4)), (1, Violated(3), Violated(3)), (65_535, Violated(3), Violated(3))] {
        let schedule = |steps: u16| [1, steps, 0, 0, 0, 0, value];
        let held = if value == 0 { [1, 0] } else { [0, 0] };
        by_schedule(calls, &draft, &schedule(1), Clean, &[1, 0], tally)?;
        by_schedule(calls, &draft, &schedule(2), two, &held, tally)?;
        by_schedule(calls, &draft, &schedule(3), three, &held, tally)?;
    }
    Ok(())
}

/// Of all schedules just the one violates that stops the holder between its stores
/// and runs the other after that, at its last record.
fn releases(calls: &dyn Calls, tally: &mut Tally) -> Outcome {
    for (threads, [holder, other], mutex) in [(2, [0, 1], 0), (2, [1, 0], 1), (3, [2, 1], 2), (4, [1, 3], 3), (4, [3, 0], 0)] {
        let wrong = wrong_release(threads, [holder, other], mutex);
        let last = wrong.records.len() as u16;
        let mut violating = vec![0; wrong.blocks()];
        (violating[usize::from(holder)], violating[wrong.blocks() - 1]) = (2, 2);
        for schedule in block_lengths(&wrong) {
            let wanted = if schedule == violating { Violated(last) } else { Clean };
            tally.same(reply(calls, &wrong, &schedule), wanted, || format!("{schedule:?} of {wrong}"))?;
        }
        // The other one's lock has this record here.
        let right = right_release(threads, [holder, other], mutex);
        let waiting = [violating.clone(), [&violating[..right.blocks() - 1], &[3]].concat()];
        for schedule in block_lengths(&right) {
            let wanted = if waiting.contains(&schedule) { CutOff(last) } else { Clean };
            tally.same(reply(calls, &right, &schedule), wanted, || format!("{schedule:?} of {right}"))?;
        }
    }
    Ok(())
}
