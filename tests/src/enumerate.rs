//! All schedules of a small case.

use crate::draft::Draft;

/// Every vector of n + 1 block lengths that add up to at most each thread's
/// lines, in ascending order.
pub fn block_lengths(draft: &Draft) -> Vec<Vec<u16>> {
    let left: Vec<u16> = draft.chains().iter().map(|chain| chain.len() as u16).collect();
    let mut all = Vec::new();
    extend(draft, &mut Vec::new(), &left, &mut all);
    all
}

/// Takes the lengths of the first blocks and the lines that are left to each
/// thread, and tries every length for the block that comes next.
fn extend(draft: &Draft, lengths: &mut Vec<u16>, left: &[u16], all: &mut Vec<Vec<u16>>) {
    let block = lengths.len();
    if block == draft.blocks() {
        all.push(lengths.clone());
        return;
    }
    let thread = block % usize::from(draft.threads);
    for length in 0..=left[thread] {
        let mut left = left.to_vec();
        left[thread] -= length;
        lengths.push(length);
        extend(draft, lengths, &left, all);
        lengths.pop();
    }
}

/// Whether the block lengths of a schedule that refusals 12 and 13 do not meet
/// add up to all lines.
pub fn runs_all_lines(draft: &Draft, schedule: &[u16]) -> bool {
    let steps: u16 = schedule[..draft.blocks()].iter().sum();
    usize::from(steps) == draft.records.len()
}

/// The lines that such a schedule runs if nothing cuts it off, by thread and
/// chain.
pub fn lines_run(draft: &Draft, schedule: &[u16]) -> Vec<u16> {
    let mut lines = draft.chains();
    for (thread, chain) in lines.iter_mut().enumerate() {
        let own_blocks = schedule[..draft.blocks()].iter().skip(thread).step_by(usize::from(draft.threads));
        chain.truncate(own_blocks.sum::<u16>().into());
    }
    lines.concat()
}

/// Every schedule of a case with one input, but for those with a value for the
/// input where it is not run.
pub fn schedules_with_all_values(draft: &Draft) -> impl Iterator<Item = Vec<u16>> {
    let with_most_value = |lengths: Vec<u16>| {
        let is_run = draft.inputs().iter().all(|input| lines_run(draft, &lengths).contains(input));
        (lengths, if is_run { u16::MAX } else { 0 })
    };
    let all: Vec<(Vec<u16>, u16)> = block_lengths(draft).into_iter().map(with_most_value).collect();
    all.into_iter().flat_map(|(lengths, most)| (0..=most).map(move |value| [lengths.as_slice(), &[value]].concat()))
}

/// Every schedule whose input values are among those given.
pub fn schedules(draft: &Draft, input_values: &[u16]) -> Vec<Vec<u16>> {
    let mut schedules = block_lengths(draft);
    for _ in draft.inputs() {
        schedules = with_each(&schedules, input_values);
    }
    schedules
}

/// Each vector followed by each of the values.
pub fn with_each(vectors: &[Vec<u16>], values: &[u16]) -> Vec<Vec<u16>> {
    let longer = |vector: &Vec<u16>| {
        let vector = vector.clone();
        values.iter().map(move |&value| [vector.as_slice(), &[value]].concat())
    };
    vectors.iter().flat_map(longer).collect()
}
