//! "Switches only at visible lines": which schedules keep the rule, and what becomes
//! of one that does not. All schedules here are such that refusals 12 and 13 do not
//! meet them.

use crate::draft::Draft;

/// The first record, by thread and chain, that is invisible and run in a later block
/// than the line before it.
pub fn first_late(draft: &Draft, schedule: &[u16]) -> Option<u16> {
    let threads = draft.chains().into_iter().enumerate();
    let mut lates = threads.filter_map(|(thread, chain)| {
        let blocks = blocks_run(draft, schedule, thread);
        let later = (1..blocks.len()).filter(|&place| blocks[place] > blocks[place - 1]);
        later.map(|place| chain[place]).find(|&line| !draft.line(line).is_visible())
    });
    lates.next()
}

pub fn keeps_rule(draft: &Draft, schedule: &[u16]) -> bool {
    first_late(draft, schedule).is_none()
}

/// The schedule that keeps the rule in the place of this one: line by line, in chain
/// order, each invisible line that is run and not its thread's first goes to the block
/// of the line before it. Input values, and how many lines a thread runs, are as before.
pub fn moved(draft: &Draft, schedule: &[u16]) -> Vec<u16> {
    let mut moved = schedule.to_vec();
    moved[..draft.blocks()].fill(0);
    for (thread, chain) in draft.chains().into_iter().enumerate() {
        let mut before = None;
        for (line, block) in chain.into_iter().zip(blocks_run(draft, schedule, thread)) {
            let block = match before {
                Some(before) if !draft.line(line).is_visible() => before,
                _ => block,
            };
            moved[block] += 1;
            before = Some(block);
        }
    }
    moved
}

/// The blocks of a thread's lines in chain order, as far as they are run.
fn blocks_run(draft: &Draft, schedule: &[u16], thread: usize) -> Vec<usize> {
    let own_blocks = (thread..draft.blocks()).step_by(draft.threads.into());
    own_blocks.flat_map(|block| std::iter::repeat_n(block, schedule[block].into())).collect()
}
