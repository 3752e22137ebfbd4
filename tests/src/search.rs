//! A small complete search: all block numbers that meet the 1s, 2s, 3s and 8s
//! of a table.

use crate::draft::Draft;
use crate::table::{Row, Table};

/// Every vector of block numbers, by record, that meets the 1s, 2s, 3s and 8s.
///
/// Numbers a little over n + 1 are tried too: if a table forgot a limit, they
/// would show up here. (Larger ones need not be tried, since a thread that may
/// go past n + 1 may go to the first number past it that its 3 allows.)
pub fn block_numbers(draft: &Draft, table: &Table) -> Vec<Vec<u16>> {
    let order_rows: Vec<Row> = table.rows.iter().copied().filter(|row| matches!(row[0], 1..=3 | 8)).collect();
    let mut found = Vec::new();
    extend(draft, &order_rows, &mut Vec::new(), &mut found);
    found
}

fn extend(draft: &Draft, rows: &[Row], blocks: &mut Vec<u16>, found: &mut Vec<Vec<u16>>) {
    if blocks.len() == draft.records.len() {
        found.push(blocks.clone());
        return;
    }
    for block in 0..=draft.unrun_block() + draft.threads {
        blocks.push(block);
        if rows.iter().all(|&row| may_hold(row, blocks, draft.unrun_block())) {
            extend(draft, rows, blocks, found);
        }
        blocks.pop();
    }
}

/// Whether a row holds, as far as the newest record goes: a row whose records
/// all came earlier was tried then, and one that looks at a later record has
/// to wait.
fn may_hold(row: Row, blocks: &[u16], unrun_block: u16) -> bool {
    let [kind, line, other, thread, ..] = row;
    let latest = if matches!(kind, 1 | 8) { line.max(other) } else { line };
    if usize::from(latest) != blocks.len() {
        return true;
    }
    let block = |number: u16| blocks[usize::from(number) - 1];
    match kind {
        1 => block(line) <= block(other),
        2 => block(line) <= other + 1,
        8 => block(line) == unrun_block || block(line) == block(other),
        _ => block(line) == unrun_block || block(line) % other == thread,
    }
}
