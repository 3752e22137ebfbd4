//! Random cases that are accepted.

use crate::draft::Draft;
use crate::line::*;
use crate::random::Random;

/// How large a random case may be; each pair is the least and the most.
#[derive(Clone, Copy)]
pub struct Shape {
    pub threads: (u16, u16),
    pub switches: (u16, u16),
    pub globals: (u16, u16),
    pub mutexes: (u16, u16),
    pub lines: (u16, u16),
    /// Most lines name locals below this one.
    pub locals: u16,
    /// How often, in a hundred, a line is an input.
    pub inputs: usize,
    /// How often, in a hundred, a line is an assume or a lock.
    pub cutting: usize,
    /// How often, in a hundred, lines that belong together are made: such that
    /// read a global and then use it.
    pub together: usize,
    /// How often, in a hundred, such lines are about a mutex instead.
    pub holding: usize,
    /// How often, in a hundred, any other line is a compute or an assert.
    pub computing: usize,
}

/// Everything that is allowed.
pub const ANY: Shape = Shape {
    threads: (2, 4),
    switches: (0, 15),
    globals: (0, 8),
    mutexes: (0, 4),
    lines: (0, 64),
    locals: 16,
    inputs: 8,
    cutting: 12,
    together: 10,
    holding: 0,
    computing: 0,
};

/// Long threads whose runs are seldom cut off, so that violations are met.
pub const LONG: Shape = Shape { locals: 6, inputs: 3, cutting: 1, switches: (3, 15), ..ANY };

/// As many lines as there can be.
pub const FULL: Shape = Shape { threads: (4, 4), lines: (64, 64), ..LONG };

/// Few enough schedules to try them all; no inputs.
pub const SMALL: Shape = Shape {
    threads: (2, 3),
    switches: (0, 5),
    globals: (0, 2),
    mutexes: (0, 1),
    lines: (0, 4),
    locals: 2,
    inputs: 0,
    cutting: 15,
    together: 45,
    holding: 0,
    computing: 0,
};

/// As small, with inputs.
pub const SMALL_WITH_INPUTS: Shape = Shape { inputs: 25, switches: (1, 4), ..SMALL };

/// A little larger; every thread has lines and there is always a global, so
/// that much depends on the order of the blocks.
pub const BUSY: Shape = Shape {
    threads: (2, 3),
    switches: (2, 5),
    globals: (1, 2),
    mutexes: (0, 1),
    lines: (2, 4),
    locals: 2,
    inputs: 0,
    cutting: 25,
    together: 75,
    holding: 0,
    computing: 0,
};

/// As busy, with inputs.
pub const BUSY_WITH_INPUTS: Shape = Shape { inputs: 40, switches: (2, 4), ..BUSY };

/// So few runs that a solver can be asked for every one that violates.
pub const TINY: Shape = Shape { threads: (2, 2), switches: (1, 3), lines: (1, 3), ..BUSY };

/// As few, with inputs, so that each can have every value.
pub const TINY_WITH_INPUTS: Shape = Shape { inputs: 40, switches: (1, 2), ..TINY };

/// Stretches of lines that are not visible, between some that are.
pub const STRETCHES: Shape =
    Shape { threads: (2, 2), switches: (2, 4), lines: (3, 5), cutting: 15, together: 25, computing: 60, ..BUSY };

/// The same, with inputs.
pub const STRETCHES_WITH_INPUTS: Shape = Shape { inputs: 25, switches: (2, 3), lines: (2, 5), ..STRETCHES };

/// Long stretches, in long threads.
pub const LONG_STRETCHES: Shape = Shape { together: 20, computing: 70, ..LONG };

/// More inputs than a text has sources, and comparisons of them.
pub const MANY_INPUTS: Shape = Shape { inputs: 30, globals: (1, 3), mutexes: (0, 2), lines: (3, 12), locals: 3, ..BUSY };

/// Four threads, most of them short.
pub const FOUR_THREADS: Shape = Shape { threads: (4, 4), switches: (4, 6), lines: (0, 3), ..BUSY };

/// No mutex at all.
pub const NO_MUTEX: Shape = Shape { mutexes: (0, 0), ..ANY };

/// Several mutexes, which are unlocked by their holders and by others.
pub const HOLDERS: Shape = Shape { globals: (1, 1), mutexes: (1, 3), cutting: 10, together: 90, holding: 75, ..BUSY };

/// As many, with inputs.
pub const HOLDERS_WITH_INPUTS: Shape = Shape { inputs: 40, switches: (2, 4), together: 70, ..HOLDERS };

/// So few runs that a solver can be asked for every one that violates.
pub const TINY_HOLDERS: Shape = Shape { threads: (2, 2), switches: (1, 3), mutexes: (1, 2), lines: (1, 3), ..HOLDERS };

/// Four threads, most of them short.
pub const FOUR_HOLDERS: Shape = Shape { mutexes: (2, 4), holding: 85, ..FOUR_THREADS };

/// Longer threads, with many mutexes.
pub const MANY_HOLDERS: Shape = Shape {
    threads: (2, 4),
    switches: (3, 15),
    mutexes: (2, 4),
    lines: (4, 24),
    locals: 4,
    cutting: 1,
    together: 60,
    ..HOLDERS
};

/// An accepted case with shuffled record numbers.
pub fn accepted(random: &mut Random, shape: Shape) -> Draft {
    let threads = random.between(shape.threads.0, shape.threads.1);
    let switches = random.between(shape.switches.0, shape.switches.1);
    let globals = random.between(shape.globals.0, shape.globals.1);
    let initial = random.words(usize::from(globals));
    let mut draft =
        Draft::new(threads, switches).with_globals(&initial).with_mutexes(random.between(shape.mutexes.0, shape.mutexes.1));
    for thread in 0..threads {
        let lines = thread_lines(random, shape, &draft, thread);
        draft = draft.with_thread(thread.into(), &lines);
    }
    shuffled(random, &draft)
}

/// The same case with its record numbers in another order.
pub fn shuffled(random: &mut Random, draft: &Draft) -> Draft {
    let mut numbers: Vec<u16> = (1..=draft.records.len() as u16).collect();
    random.shuffle(&mut numbers);
    draft.renumbered(&numbers)
}

fn thread_lines(random: &mut Random, shape: Shape, draft: &Draft, thread: u16) -> Vec<Line> {
    let count = usize::from(line_count(random, shape));
    let mut lines = Vec::new();
    while lines.len() < count {
        if draft.globals > 0 && random.chance(shape.together) {
            // No number is drawn for a shape without them, so that it keeps its cases.
            let of_mutex = shape.holding > 0 && random.chance(shape.holding);
            lines.extend(match of_mutex {
                true => lines_of_mutex(random, shape, draft, thread),
                false => lines_together(random, shape, draft),
            });
        } else {
            lines.push(line(random, shape, draft));
        }
    }
    lines.truncate(count);
    let freed = if shape.holding > 0 { 25 } else { 75 };
    for place in 0..lines.len() {
        if lines[place].kind == LOCK && random.chance(freed) {
            free_later(random, &mut lines, place);
        }
    }
    lines
}

/// Long threads are rarer than short ones; a thread may have no lines.
fn line_count(random: &mut Random, shape: Shape) -> u16 {
    let (least, most) = shape.lines;
    match random.below(10) {
        0 => least,
        1..=6 => random.between(least, most.min(least + 8)),
        7 => most,
        _ => random.between(least, most),
    }
}

/// Turns a later line into the unlock of the lock at `place`, since runs with
/// locks that are never freed seldom come to an end.
fn free_later(random: &mut Random, lines: &mut [Line], place: usize) {
    if place + 1 < lines.len() {
        let later = place + 1 + random.below(lines.len() - place - 1);
        lines[later] = Line { kind: UNLOCK, ..lines[place] };
    }
}

/// A global is loaded and then tested, changed or used as a guard, or it gets
/// a new value. Tests look for the initial value, so that they fail only when
/// another thread was there first.
fn lines_together(random: &mut Random, shape: Shape, draft: &Draft) -> Vec<Line> {
    let (mine, global) = (some_local(random, shape), some_global(random, draft));
    let initial = draft.initial[usize::from(global)];
    let other = some_global(random, draft);
    let first = load(mine, global);
    let is_initial = [EQUAL, mine, CONSTANT, initial];
    match random.below(16) {
        0..=4 => vec![first, assert(is_initial)],
        5..=6 => vec![first, assert([LESS, mine, CONSTANT, initial.saturating_add(2)])],
        7 => vec![first, assume(is_initial)],
        8..=9 => vec![first, store(other, [SUM, mine, CONSTANT, 1])],
        10..=11 => vec![first, store(other, expression(random, shape)).guarded(mine + 1)],
        12 if draft.mutexes > 0 => {
            let mutex = some_mutex(random, draft);
            vec![lock(mutex), store(global, expression(random, shape)), unlock(mutex)]
        }
        _ => vec![store(global, constant(random.word()))],
    }
}

/// A mutex is locked, and mostly unlocked, both under one guard or only one of
/// them; or one is unlocked that the thread did not lock, often just where a global
/// says so, and with a test before or behind.
fn lines_of_mutex(random: &mut Random, shape: Shape, draft: &Draft, thread: u16) -> Vec<Line> {
    let (mine, global) = (some_local(random, shape), some_global(random, draft));
    let guard = random.pick(&[1, 17]) + mine;
    let first = load(mine, global);
    let holds = assert(test(random, shape));
    // Each mutex has a thread that mostly locks it, so that few locks fail.
    let (own, others): (Vec<u16>, Vec<u16>) = (0..draft.mutexes).partition(|mutex| mutex % draft.threads == thread);
    let (mutex, other) = (mostly(random, &own, draft), mostly(random, &others, draft));
    match random.below(18) {
        0..=2 => vec![lock(mutex), line(random, shape, draft), unlock(mutex)],
        3 => vec![lock(mutex), holds, unlock(mutex)],
        4 => vec![first, lock(mutex).guarded(guard), unlock(mutex).guarded(guard)],
        5 => vec![first, lock(mutex).guarded(guard), unlock(mutex)],
        6 => vec![lock(mutex), unlock(mutex).guarded(guard)],
        7..=10 => vec![lock(mutex), store(global, constant(random.word()))],
        11..=12 => vec![first, unlock(other).guarded(guard)],
        13 => vec![first, holds, unlock(other).guarded(guard)],
        14 => vec![unlock(other)],
        15 => vec![unlock(other), holds],
        16 => vec![holds, unlock(other)],
        _ => vec![unlock(other).guarded(guard), assume(test(random, shape))],
    }
}

/// Mostly one of these mutexes, at times any.
fn mostly(random: &mut Random, mutexes: &[u16], draft: &Draft) -> u16 {
    match mutexes.is_empty() || random.chance(20) {
        true => some_mutex(random, draft),
        false => random.pick(mutexes),
    }
}

fn line(random: &mut Random, shape: Shape, draft: &Draft) -> Line {
    let line = unguarded_line(random, shape, draft);
    match random.below(10) {
        0..=6 => line,
        7..=8 => line.guarded(1 + some_local(random, shape)),
        _ => line.guarded(17 + some_local(random, shape)),
    }
}

fn unguarded_line(random: &mut Random, shape: Shape, draft: &Draft) -> Line {
    if random.chance(shape.inputs) {
        return input(some_local(random, shape));
    }
    if shape.computing > 0 && random.chance(shape.computing) {
        return computing_line(random, shape);
    }
    if random.chance(shape.cutting) {
        return cutting_line(random, shape, draft);
    }
    match random.below(20) {
        0..=5 if draft.globals > 0 => load(some_local(random, shape), some_global(random, draft)),
        6..=11 if draft.globals > 0 => store(some_global(random, draft), expression(random, shape)),
        12..=16 => assert(test(random, shape)),
        17 if draft.mutexes > 0 => unlock(some_mutex(random, draft)),
        _ => compute(some_local(random, shape), expression(random, shape)),
    }
}

fn computing_line(random: &mut Random, shape: Shape) -> Line {
    match random.below(4) {
        0 => assert(test(random, shape)),
        _ => compute(some_local(random, shape), expression(random, shape)),
    }
}

fn cutting_line(random: &mut Random, shape: Shape, draft: &Draft) -> Line {
    if draft.mutexes > 0 && random.chance(60) {
        lock(some_mutex(random, draft))
    } else {
        assume(test(random, shape))
    }
}

/// Mostly one of the first locals, at times any: then it is often one that no
/// line writes.
fn some_local(random: &mut Random, shape: Shape) -> u16 {
    let locals = if random.chance(92) { shape.locals } else { 16 };
    random.between(0, locals - 1)
}

fn some_global(random: &mut Random, draft: &Draft) -> u16 {
    random.between(0, draft.globals - 1)
}

fn some_mutex(random: &mut Random, draft: &Draft) -> u16 {
    random.between(0, draft.mutexes - 1)
}

fn expression(random: &mut Random, shape: Shape) -> [u16; 4] {
    let op = random.between(COPY, LESS);
    expression_of(random, shape, op)
}

/// What an assert or assume tests: mostly a comparison.
fn test(random: &mut Random, shape: Shape) -> [u16; 4] {
    match random.below(10) {
        0..=2 => expression(random, shape),
        // "local < constant" holds as long as nobody puts a large number in
        3..=6 => [LESS, some_local(random, shape), CONSTANT, random.between(1, 3)],
        7 => expression_of(random, shape, EQUAL),
        _ => expression_of(random, shape, LESS),
    }
}

fn expression_of(random: &mut Random, shape: Shape, op: u16) -> [u16; 4] {
    let a = operand(random, shape);
    let b = if op == COPY { 0 } else { operand(random, shape) };
    let uses_constant = a == CONSTANT || b == CONSTANT;
    let c = if uses_constant { random.word() } else { 0 };
    [op, a, b, c]
}

fn operand(random: &mut Random, shape: Shape) -> u16 {
    if random.chance(35) {
        CONSTANT
    } else {
        some_local(random, shape)
    }
}
