//! The one assignment that block numbers and input values leave open.
//!
//! With the block numbers fixed, each 4 gives the value of its line and each 6
//! a block value, from what stands before them in running order; to a line that
//! was not run it gives the same whatever stands there. The rows are read as they
//! are in the table, with the case's records beside them; nothing is taken from
//! the encoder or the checker under test.

use crate::draft::Draft;
use crate::line::*;
use crate::table::{variable_of_block_value, Row, Table};

pub struct Determined<'a> {
    draft: &'a Draft,
    table: &'a Table,
    /// By record: its block number, and its value if it is a free input.
    blocks: &'a [u16],
    inputs: &'a [u16],
    numbers: Vec<u16>,
}

impl<'a> Determined<'a> {
    /// `inputs` has a value for each record; only those of free inputs that are
    /// run are looked at.
    pub fn assignment(draft: &'a Draft, table: &'a Table, blocks: &'a [u16], inputs: &'a [u16]) -> Result<Vec<u16>, String> {
        let numbers = vec![0; draft.variables()];
        let mut open = Determined { draft, table, blocks, inputs, numbers };
        for (record, &block) in blocks.iter().enumerate() {
            open.numbers[2 * record] = block;
            open.numbers[2 * record + 1] = draft.records[record].unrun_value();
        }
        for block in 0..draft.blocks() {
            open.settle_lines(block)?;
            if block < usize::from(draft.switches) {
                open.settle_block_values(block)?;
            }
        }
        Ok(open.numbers)
    }

    fn settle_lines(&mut self, block: usize) -> Result<(), String> {
        for number in self.draft.chains().concat() {
            if usize::from(self.block(number)) == block {
                let value = self.line_value(self.table.value_row(number)?);
                self.numbers[2 * usize::from(number) - 1] = value;
            }
        }
        Ok(())
    }

    fn settle_block_values(&mut self, block: usize) -> Result<(), String> {
        for item in 0..self.draft.items() {
            let wanted = [6, item as u16, block as u16];
            let mut rows = self.table.rows.iter().filter(|row| row[..3] == wanted);
            let (Some(row), None) = (rows.next(), rows.next()) else {
                return Err(format!("item {item} has no single 6 for block {block}"));
            };
            let copies = self.table.copies_back(row[3])?;
            let here = copies.iter().find(|&&copy| usize::from(self.block(copy)) == block);
            let value = match here {
                Some(&copy) => self.value(copy),
                None => self.value_before(block, item),
            };
            self.numbers[variable_of_block_value(self.draft, block, item)] = value;
        }
        Ok(())
    }

    fn block(&self, number: u16) -> u16 {
        self.blocks[usize::from(number) - 1]
    }

    fn value(&self, number: u16) -> u16 {
        self.numbers[2 * usize::from(number) - 1]
    }

    fn local(&self, copy: u16) -> u16 {
        if copy == 0 {
            0
        } else {
            self.value(copy)
        }
    }

    fn value_before(&self, block: usize, item: usize) -> u16 {
        match block {
            0 => self.draft.items_at_start()[item],
            _ => self.numbers[variable_of_block_value(self.draft, block - 1, item)],
        }
    }

    fn item_read(&self, item: usize, line: u16, copy: u16) -> u16 {
        if copy != 0 && self.block(copy) == self.block(line) {
            self.value(copy)
        } else {
            self.value_before(usize::from(self.block(line)), item)
        }
    }

    fn line_value(&self, row: Row) -> u16 {
        let [_, number, guard_copy, a_copy, b_copy, target_copy] = row;
        let line = self.draft.line(number);
        let first_mutex = usize::from(self.draft.globals);
        let target = usize::from(line.target);
        if !line.guard_is_true(self.local(guard_copy)) {
            return match line.kind {
                ASSERT | ASSUME => 1,
                STORE => self.item_read(target, number, target_copy),
                LOCK | UNLOCK => self.item_read(first_mutex + target, number, target_copy),
                _ => self.local(target_copy),
            };
        }
        match line.kind {
            LOAD => self.item_read(usize::from(line.a), number, a_copy),
            INPUT => self.inputs[usize::from(number) - 1],
            LOCK => holder(self.draft.thread_of(number)),
            UNLOCK => 0,
            ASSERT | ASSUME => u16::from(self.expression(line, a_copy, b_copy) != 0),
            _ => self.expression(line, a_copy, b_copy),
        }
    }

    fn expression(&self, line: &Line, a_copy: u16, b_copy: u16) -> u16 {
        let operand = |operand: u16, copy: u16| match operand {
            CONSTANT => line.c,
            _ => self.local(copy),
        };
        apply(line.op, operand(line.a, a_copy), operand(line.b, b_copy))
    }
}
