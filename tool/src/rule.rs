//! The rule of constraint 8, of schedules: no invisible line is run in a later block than the line before it. No assignment stands for
//! a schedule that breaks it. But the one in which each such line is in the block of the line before it does the same: no other thread
//! can tell when an invisible line runs.

use crate::case::Case;

/// For each thread the blocks of the lines that a schedule gives it, by chain.
fn blocks(case: &Case, schedule: &[u16]) -> Vec<Vec<usize>> {
    let mut blocks = vec![Vec::new(); case.threads];
    for (block, &length) in schedule[..=case.switches].iter().enumerate() {
        blocks[case.thread_of_block(block)].extend(std::iter::repeat_n(block, usize::from(length)));
    }
    blocks
}

/// An invisible line that is in a later block than the line before it.
pub struct Late {
    pub record: u16,
    pub block: usize,
    /// The block of the line before it.
    pub before: usize,
}

/// All of these, by thread and then by chain.
pub fn late(case: &Case, schedule: &[u16]) -> Vec<Late> {
    let threads = blocks(case, schedule);
    let pairs = threads.iter().zip(&case.chains).flat_map(|(blocks, chain)| blocks.windows(2).zip(chain.iter().skip(1)));
    let lines = pairs.map(|(pair, &record)| Late { record, block: pair[1], before: pair[0] });
    lines.filter(|line| line.before < line.block && !case.record(line.record).is_visible()).collect()
}

/// Their records.
pub fn late_records(case: &Case, schedule: &[u16]) -> Vec<u16> {
    late(case, schedule).iter().map(|line| line.record).collect()
}

/// The schedule with each invisible line that is not its thread's first in the block of the line before it, and with the same inputs.
pub fn moved(case: &Case, schedule: &[u16]) -> Vec<u16> {
    let (_, inputs) = schedule.split_at(case.switches + 1);
    let mut lengths = vec![0; case.switches + 1];
    for (blocks, chain) in blocks(case, schedule).into_iter().zip(&case.chains) {
        let mut before = None;
        for (block, &record) in blocks.into_iter().zip(chain) {
            let block = before.filter(|_| !case.record(record).is_visible()).unwrap_or(block);
            lengths[block] += 1;
            before = Some(block);
        }
    }
    [&lengths, inputs].concat()
}
