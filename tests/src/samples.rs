//! Cases written down by hand.

use crate::draft::Draft;
use crate::line::*;

/// Case A of document 01.
pub fn case_a() -> Draft {
    Draft {
        firsts: [1, 5, 0, 0],
        records: vec![
            [2, 3, 0, 0, 0, 0, 0, 0].into(),
            [3, 2, 0, 0, 1, 0, 16, 1].into(),
            [4, 3, 0, 1, 0, 0, 0, 0].into(),
            [0, 5, 0, 0, 5, 1, 16, 1].into(),
            [0, 2, 0, 0, 0, 16, 0, 5].into(),
        ],
        ..Draft::new(2, 2).with_globals(&[0])
    }
}

/// The listing of case A, as documents 01 and 02 have it.
pub const CASE_A_LISTING: &str = "\
19 12
3 1 2 0 0 0
1 1 2 0 0 0
3 2 2 0 0 0
1 2 3 0 0 0
3 3 2 0 0 0
1 3 4 0 0 0
3 4 2 0 0 0
8 4 3 0 0 0
2 4 2 0 0 0
3 5 2 1 0 0
2 5 2 0 0 0
4 1 0 0 0 0
4 2 0 1 0 0
4 3 0 2 0 0
4 4 0 3 0 0
4 5 0 0 0 0
6 0 0 2 0 0
6 0 1 5 0 0
7 0 0 0 0 0
";

/// Two threads that add to one global under a mutex, and a third that looks
/// at the sum; the lock of thread 1 is guarded, so it may be forgotten.
pub fn guarded_counter() -> Draft {
    let add = |guard: u16| {
        [load(0, 1), lock(0).guarded(guard), load(1, 0), store(0, [SUM, 1, CONSTANT, 1]), unlock(0).guarded(guard)]
    };
    let look = [load(2, 0), assume([COPY, 2, 0, 0]), assert([EQUAL, 2, CONSTANT, 2])];
    Draft::new(3, 7).with_globals(&[0, 0]).with_mutexes(1).with_thread(0, &add(0)).with_thread(1, &add(1)).with_thread(2, &look)
}

/// The table of `guarded_counter`, worked out by hand: the copies of each
/// name are marked in the comments.
pub const GUARDED_COUNTER_VALUE_ROWS: [[u16; 6]; 16] = [
    // Thread 0: records 1 to 5.
    [4, 1, 0, 0, 0, 0],
    [4, 2, 0, 0, 0, 0],
    [5, 2, 0, 0, 0, 0],
    [4, 3, 0, 0, 0, 0],
    // local 1 was loaded in record 3
    [4, 4, 0, 3, 0, 0],
    // the mutex was locked in record 2
    [4, 5, 0, 0, 0, 2],
    // Thread 1: records 6 to 10; the guards look at local 0 of record 6.
    [4, 6, 0, 0, 0, 0],
    [4, 7, 6, 0, 0, 0],
    [5, 7, 6, 0, 0, 0],
    [4, 8, 0, 0, 0, 0],
    [4, 9, 0, 8, 0, 0],
    [4, 10, 6, 0, 0, 7],
    // Thread 2: records 11 to 13.
    [4, 11, 0, 0, 0, 0],
    [4, 12, 0, 11, 0, 0],
    [5, 12, 0, 0, 0, 0],
    [4, 13, 0, 11, 0, 0],
];

/// Two threads that wait for each other three times, with fewer switches than
/// that takes: thread 0 says in global 0 how far it is, thread 1 in global 1, and
/// thread 1 puts something in global 2 that thread 0 should not see.
pub fn handshake() -> Draft {
    let say = |global: u16, number: u16| store(global, constant(number));
    let wait = |local: u16, global: u16, number: u16| [load(local, global), assume([EQUAL, local, CONSTANT, number])];
    let first = [
        &[say(0, 1), load(0, 2), assert([EQUAL, 0, CONSTANT, 0])][..],
        &wait(1, 1, 1),
        &[say(0, 2)],
        &wait(1, 1, 2),
        &[say(0, 3)],
        &wait(1, 1, 3),
    ];
    let second = [
        &wait(0, 0, 1)[..],
        &[say(2, 1), say(1, 1)],
        &wait(0, 0, 2),
        &[say(2, 2), say(1, 2)],
        &wait(0, 0, 3),
        &[say(2, 0), say(1, 3)],
    ];
    Draft::new(2, 4).with_globals(&[0, 0, 0]).with_thread(0, &first.concat()).with_thread(1, &second.concat())
}

/// A thread holds a mutex and has global 0 at 1 meanwhile; another unlocks the mutex
/// where it finds the global at 1. That is the last record, and the only fault.
pub fn wrong_release(threads: u16, [holder, other]: [u16; 2], mutex: u16) -> Draft {
    released(threads, [holder, other], mutex, &[load(0, 0), unlock(mutex).guarded(1)])
}

/// The same, but that the other locks the mutex before it unlocks it.
pub fn right_release(threads: u16, [holder, other]: [u16; 2], mutex: u16) -> Draft {
    let lines = [load(0, 0), lock(mutex).guarded(1), unlock(mutex).guarded(1)];
    released(threads, [holder, other], mutex, &lines)
}

/// The holder and the other have a block each, in this order.
fn released(threads: u16, [holder, other]: [u16; 2], mutex: u16, lines: &[Line]) -> Draft {
    let switches = if holder < other { other } else { other + threads };
    let draft = Draft::new(threads, switches).with_globals(&[0]).with_mutexes(mutex + 1);
    let held = [lock(mutex), store(0, constant(1)), store(0, constant(0)), unlock(mutex)];
    draft.with_thread(holder.into(), &held).with_thread(other.into(), lines)
}

/// Four threads of 64 lines, as many switches and items as there can be: six
/// inputs with the highest record numbers, so that their names are long, and 250
/// times the same line, guarded.
pub fn filled_up(line: Line) -> Draft {
    let inputs = |count: usize| vec![input(0); count];
    let lines = |count: usize| [inputs(count), vec![line.guarded(1); 64 - count]].concat();
    let most = Draft::new(4, 15).with_globals(&[0xffff; 8]).with_mutexes(4);
    let counts = [2, 1, 1, 2].into_iter().enumerate();
    let draft = counts.fold(most, |draft, (thread, count)| draft.with_thread(thread, &lines(count)));
    let (mut number, mut last) = (0, 250);
    let renumber = |line: &Line| {
        let next = if line.guard == 0 { &mut last } else { &mut number };
        *next += 1;
        *next
    };
    draft.renumbered(&draft.records.iter().map(renumber).collect::<Vec<u16>>())
}

/// The largest text that was found: a guarded store of a comparison has the facts
/// of the comparison, and what it reads where its guard is false.
pub fn largest() -> Draft {
    filled_up(store(0, [LESS, 0, 0, 0]))
}
