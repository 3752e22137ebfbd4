//! Assignments and schedules of all sorts for a case: those of runs, random and
//! damaged ones.

use crate::draft::Draft;
use crate::enumerate::lines_run;
use crate::random::Random;
use crate::rule::moved;
use crate::watch::written_down;

/// A random schedule that refusals 12 and 13 do not meet. Half of them run all
/// lines of the threads that have a block; in the others each thread may stop. Half
/// of them keep the rule of the 8s, and some of the others do so by chance.
/// Input values are often 0, since a false guard wants 0, and most often where
/// the input is not run.
pub fn schedule(random: &mut Random, draft: &Draft) -> Vec<u16> {
    let (threads, blocks) = (usize::from(draft.threads), draft.blocks());
    let mut schedule = vec![0; blocks];
    let may_stop = random.chance(50);
    for (thread, chain) in draft.chains().iter().enumerate() {
        // None for a thread that has no block.
        let turns = blocks.saturating_sub(thread).div_ceil(threads);
        let steps = match turns {
            0 => 0,
            _ if may_stop => random.below(chain.len() + 1),
            _ => chain.len(),
        };
        for _ in 0..steps {
            schedule[thread + threads * random.below(turns)] += 1;
        }
    }
    if random.chance(50) {
        schedule = moved(draft, &schedule);
    }
    let lines_run = lines_run(draft, &schedule);
    let (only_zeros, zeros_left) = (random.chance(40), random.chance(75));
    for line in draft.inputs() {
        let is_zero = only_zeros || zeros_left && !lines_run.contains(&line);
        schedule.push(if is_zero { 0 } else { random.word() });
    }
    schedule
}

/// A schedule with another length, other sums, or sums that are not more than
/// the lines only modulo 65,536.
pub fn damage_schedule(random: &mut Random, draft: &Draft, schedule: &mut Vec<u16>) {
    let (blocks, threads) = (draft.blocks(), usize::from(draft.threads));
    match random.below(4) {
        0 => schedule.truncate(random.below(schedule.len())),
        1 => schedule.push(random.word()),
        2 => schedule[random.below(blocks)] = random.word(),
        _ if blocks > threads => {
            let block = random.below(blocks - threads);
            schedule[block] += 30_000;
            schedule[block + threads] += 35_536;
        }
        _ => schedule[0] += 1,
    }
}

/// The assignment of a random schedule, be its run legal or not.
pub fn seen(random: &mut Random, draft: &Draft) -> Vec<u16> {
    let schedule = schedule(random, draft);
    written_down(draft, &schedule)
}

/// Assignments of all sorts for one case.
pub fn assignments(random: &mut Random, draft: &Draft) -> Vec<Vec<u16>> {
    let mut all = vec![random.words(draft.variables())];
    for _ in 0..8 {
        let seen = seen(random, draft);
        all.push(damaged_assignment(random, draft, &seen));
        all.push(seen);
    }
    let other_length = random.below(2 * draft.variables() + 2);
    all.push(random.words(other_length));
    all
}

/// The assignment with one or two numbers changed, mostly by little, or with a
/// line left out.
fn damaged_assignment(random: &mut Random, draft: &Draft, numbers: &[u16]) -> Vec<u16> {
    let mut numbers = numbers.to_vec();
    if numbers.is_empty() {
        return numbers;
    }
    let (switches, threads) = (draft.switches, draft.threads);
    if !draft.records.is_empty() && random.chance(20) {
        leave_out_a_line(random, draft, &mut numbers);
        return numbers;
    }
    for _ in 0..random.between(1, 2) {
        let place = random.below(numbers.len());
        numbers[place] = match random.below(7) {
            0 => numbers[place].wrapping_add(1),
            1 => numbers[place].wrapping_add(threads),
            2 => numbers[place].wrapping_sub(threads),
            3 => switches + random.between(0, threads),
            4 => random.pick(&[0, 1, 65_534, 65_535]),
            // What a mutex has that is free, or that a thread holds.
            5 => random.between(0, threads),
            _ => random.word(),
        };
    }
    numbers
}

/// A line is marked as not run, whatever comes after it; its value is then mostly
/// right.
fn leave_out_a_line(random: &mut Random, draft: &Draft, numbers: &mut [u16]) {
    let record = random.below(draft.records.len());
    numbers[2 * record] = draft.unrun_block();
    numbers[2 * record + 1] = match random.chance(80) {
        true => draft.records[record].unrun_value(),
        false => random.word(),
    };
}

/// Room for a result: mostly enough, at times too little or some to spare.
pub fn some_room(random: &mut Random, needed: usize) -> usize {
    match random.below(10) {
        0 => needed.saturating_sub(1),
        1 => random.below(needed + 1),
        2..=5 => needed + 1 + random.below(3),
        _ => needed,
    }
}
