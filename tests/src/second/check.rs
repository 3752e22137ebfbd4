//! What the constraints say of an assignment.

use super::case::{Case, Name, Record, ASSERT, ASSUME, INPUT, LOAD, LOCK, UNLOCK};
use super::encode::{is_copy, value_row_of, Row};
use super::wrong::Wrong;

/// An assignment to the variables of a case, and its table.
pub struct Assigned<'a> {
    pub case: &'a Case,
    pub rows: &'a [Row],
    pub numbers: &'a [u16],
}

impl Assigned<'_> {
    /// The first failed constraint, counted from 1; none if all are met.
    pub fn first_failed(&self) -> Option<u16> {
        let mut order: Vec<usize> = (0..self.rows.len()).collect();
        if self.case.wrong == Wrong::ValuesBeforeBlocks {
            order.sort_by_key(|&index| matches!(self.rows[index][0], 1..=3 | 8));
        }
        let failed = order.into_iter().find(|&index| !self.holds(self.rows[index]))?;
        Some(failed as u16 + 1)
    }

    /// Whether one constraint holds.
    fn holds(&self, row: Row) -> bool {
        let [kind, line, ..] = row;
        match kind {
            // "the block number does not fall"
            1 if self.case.wrong == Wrong::RunAfterUnrun && !self.was_run(line) => true,
            1 => self.block(line) <= self.block(row[2]),
            // "the block number is at most n"; "constraint 2 then allows n + 1"
            2 if self.case.wrong == Wrong::UnrunTooLate => self.block(line) <= row[2],
            2 => self.block(line) <= row[2] + 1,
            // "the block number modulo T is the thread"; "constraint 3 accepts
            // it", the block number of a line that was not run
            3 if self.case.wrong == Wrong::UnrunHasThread => self.block(line) % row[2] == row[3],
            3 => !self.was_run(line) || self.block(line) % row[2] == row[3],
            4 => self.value_is_kept(row),
            5 => self.demand_is_met(row),
            6 => self.block_value_is_kept(row),
            7 => self.some_line_violates(),
            _ => self.stays(row),
        }
    }

    /// "An invisible line that is not its thread's first takes the block number of
    /// the line before it, or n + 1."
    fn stays(&self, row: Row) -> bool {
        let [_, line, before, ..] = row;
        let may_stop = self.case.wrong != Wrong::NoStopAtInvisible;
        // No line is 0 but by mistake.
        let block_before = if before == 0 { 0 } else { self.block(before) };
        may_stop && !self.was_run(line) || self.block(line) == block_before
    }

    /// "Record k has variable 2(k − 1), its block number".
    pub fn block(&self, line: u16) -> u16 {
        self.numbers[2 * (usize::from(line) - 1)]
    }

    /// "A line with block number n + 1 was not run".
    pub fn was_run(&self, line: u16) -> bool {
        match self.case.wrong {
            Wrong::UnrunPastN => self.block(line) < self.case.unrun_block(),
            _ => self.block(line) != self.case.unrun_block(),
        }
    }

    /// "and 2(k − 1) + 1, its value".
    pub fn value(&self, line: u16) -> u16 {
        self.numbers[2 * (usize::from(line) - 1) + 1]
    }

    /// "block i (0 ≤ i < n), item g at 2R + i × (G + M) + g".
    fn block_value(&self, block: usize, item: usize) -> u16 {
        let first = 2 * self.case.records.len();
        self.numbers[first + block * self.case.items() + item]
    }

    /// The item's value when a block begins: "the block value of g at k's
    /// block less one, or its initial value when k is in block 0".
    fn value_before(&self, block: usize, item: usize) -> u16 {
        match block {
            0 => self.case.initial_value(item),
            _ => self.block_value(block - 1, item),
        }
    }

    /// A local's value by its copy; "a local without copy has 0".
    fn local(&self, copy: u16) -> u16 {
        if copy == 0 {
            0
        } else {
            self.value(copy)
        }
    }

    pub fn guard_is_true(&self, record: &Record, guard_copy: u16) -> bool {
        record.guard_is_true(self.local(guard_copy))
    }

    /// "Reading item g at line k with copy p: if p is not 0 and has k's block
    /// number, p's value; otherwise the block value".
    fn item_read(&self, item: usize, line: u16, copy: u16) -> u16 {
        let any_block = self.case.wrong == Wrong::CopyFromEarlierBlock;
        if copy != 0 && (any_block || self.block(copy) == self.block(line)) {
            self.value(copy)
        } else {
            self.value_before(self.block_of_reader(line), item)
        }
    }

    /// The block in which a line reads: at most n, by the 1s and 2s, for a line
    /// that was run. A mistake that reads before these are met, or at a line that
    /// was not run, takes block n.
    fn block_of_reader(&self, line: u16) -> usize {
        usize::from(self.block(line)).min(self.case.switches)
    }

    fn name_read(&self, name: Name, line: u16, copy: u16) -> u16 {
        match self.case.item_number(name) {
            None => self.local(copy),
            Some(item) => self.item_read(item, line, copy),
        }
    }

    fn value_is_kept(&self, row: Row) -> bool {
        let [_, line, guard_copy, ..] = row;
        let record = self.case.record(line);
        if !self.was_run(line) && self.case.wrong != Wrong::UnrunInLastBlock {
            let is_free = record.kind == INPUT && self.case.wrong == Wrong::UnrunInputFree;
            return is_free || self.value(line) == self.case.unrun_value(record);
        }
        let guarded_in = self.guard_is_true(record, guard_copy);
        if guarded_in && record.kind == INPUT {
            // "an input is free"
            return true;
        }
        let wanted =
            if guarded_in { self.value_if_guard_is_true(record, row) } else { self.value_if_guard_is_false(record, row) };
        self.value(line) == wanted
    }

    /// "Guard true: the expression; for a load, the item read with the a copy;
    /// 1 for lock, 0 for unlock; assert and assume give 1 if the expression is
    /// not zero, else 0"; but "A lock by thread t now puts t + 1 in the mutex".
    fn value_if_guard_is_true(&self, record: &Record, row: Row) -> u16 {
        let [_, line, _, a_copy, b_copy, target_copy] = row;
        let thread = self.case.thread_of_line(line);
        match record.kind {
            LOAD => self.item_read(usize::from(record.a), line, a_copy),
            LOCK => self.case.holder(thread),
            UNLOCK => self.case.unlocked(thread, self.name_read(Name::Mutex(record.target), line, target_copy)),
            ASSERT | ASSUME => u16::from(self.expression(record, a_copy, b_copy) != 0),
            _ => self.expression(record, a_copy, b_copy),
        }
    }

    /// "Guard false: the target's old value (a local without copy has 0, an
    /// item is read), and 1 for assert and assume."
    fn value_if_guard_is_false(&self, record: &Record, row: Row) -> u16 {
        let [_, line, _, _, _, target_copy] = row;
        match record.target_name() {
            Some(name) => self.name_read(name, line, target_copy),
            None => 1,
        }
    }

    fn expression(&self, record: &Record, a_copy: u16, b_copy: u16) -> u16 {
        let operand = |operand: u16, copy: u16| match operand {
            16 => record.c,
            _ => self.local(copy),
        };
        record.expression(operand(record.a, a_copy), operand(record.b, b_copy))
    }

    /// "an assume's value is 1 (both copies then 0); a lock whose guard is
    /// true reads 0"; of a line that was not run "constraint 5 is met".
    fn demand_is_met(&self, row: Row) -> bool {
        let [_, line, guard_copy, target_copy, ..] = row;
        let record = self.case.record(line);
        if !self.was_run(line) && self.case.wrong != Wrong::DemandOfUnrun {
            return true;
        }
        if record.kind == ASSUME {
            return self.value(line) == 1;
        }
        let mutex = Name::Mutex(record.target);
        !self.guard_is_true(record, guard_copy) || self.name_read(mutex, line, target_copy) == 0
    }

    /// "walking back over that thread's copies of the item, the block value is
    /// that of the first with block number i; if none, the block value at
    /// i − 1, or the initial one for i = 0".
    fn block_value_is_kept(&self, row: Row) -> bool {
        let [_, item, block, last_copy, ..] = row;
        let (item, block) = (usize::from(item), usize::from(block));
        let wanted = match self.deciding_copy(item, block, last_copy) {
            Some(copy) => self.value(copy),
            None => self.value_before(block, item),
        };
        self.block_value(block, item) == wanted
    }

    fn deciding_copy(&self, item: usize, block: usize, last_copy: u16) -> Option<u16> {
        let name = self.case.item_name(item);
        let chain = &self.case.chains[self.case.thread_of_block(block)];
        let end = chain.iter().position(|&line| line == last_copy)? + 1;
        let lines_back = chain[..end].iter().rev().copied();
        let mut copies_back = lines_back.filter(|&line| is_copy(self.case, line, name));
        let is_here = |copy: &u16| usize::from(self.block(*copy)) == block;
        if self.case.wrong == Wrong::NoWalkBack {
            return copies_back.next().filter(is_here);
        }
        copies_back.find(is_here)
    }

    /// "some assert has value 0", run or not; and "Constraint 7 is met by such a
    /// line too", an unlock by a stranger.
    fn some_line_violates(&self) -> bool {
        let mut lines = self.case.chains.iter().flatten();
        lines.any(|&line| match self.case.record(line).kind {
            ASSERT => self.value(line) == 0,
            UNLOCK => self.unlocks_as_stranger(line) && self.case.wrong != Wrong::OnlyAssertsIn7,
            _ => false,
        })
    }

    /// "a run line that unlocks with its guard true while the mutex does not read
    /// t + 1"; it is read with the copies in the line's 4.
    fn unlocks_as_stranger(&self, line: u16) -> bool {
        let [_, _, guard_copy, _, _, target_copy] = value_row_of(self.rows, line);
        let record = self.case.record(line);
        let is_run = self.was_run(line) || self.case.wrong == Wrong::UnrunUnlockViolates;
        let guarded_in = self.guard_is_true(record, guard_copy) || self.case.wrong == Wrong::PassedUnlockViolates;
        let mutex = self.name_read(Name::Mutex(record.target), line, target_copy);
        is_run && guarded_in && !self.case.is_holder(self.case.thread_of_line(line), mutex)
    }
}
