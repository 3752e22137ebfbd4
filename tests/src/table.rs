//! A table of constraints as the encoder under test wrote it.

use crate::calls::{Calls, Encoded};
use crate::draft::Draft;

pub type Row = [u16; 6];

/// The most numbers that a table has: 1,457 constraints.
pub const MOST_NUMBERS: usize = 6 * 1_457;

/// The most variables that a case has: 256 records, 15 switches, 12 items.
pub const MOST_VARIABLES: usize = 2 * 256 + 15 * 12;

/// More bytes than any listing has, 52,464: a number takes at most five digits and
/// the blank or line end after it, and the two counts stand before the table.
pub const MOST_LISTING_BYTES: usize = 6 * (MOST_NUMBERS + 2);

pub struct Table {
    pub rows: Vec<Row>,
    pub variables: usize,
}

/// Asks for the table of an accepted case.
pub fn table_of(calls: &dyn Calls, case: &[u8]) -> Result<Table, String> {
    let mut numbers = vec![0; MOST_NUMBERS];
    match calls.encode(case, &mut numbers) {
        Encoded::Table { constraints, variables } => {
            let rows = numbers.chunks_exact(6).take(usize::from(constraints));
            let rows = rows.map(|row| row.try_into().expect("six numbers")).collect();
            Ok(Table { rows, variables: usize::from(variables) })
        }
        refused => Err(format!("an accepted case was not encoded: {refused:?}")),
    }
}

impl Table {
    /// The table as it would be without its 8s.
    pub fn without_eights(&self) -> Table {
        let rows = self.rows.iter().copied().filter(|row| row[0] != 8).collect();
        Table { rows, variables: self.variables }
    }

    /// The place of a line's 8, counted from 1.
    pub fn place_of_8(&self, line: u16) -> Option<usize> {
        self.rows.iter().position(|row| row[..2] == [8, line]).map(|place| place + 1)
    }

    /// The 4 of a line.
    pub fn value_row(&self, line: u16) -> Result<Row, String> {
        let mut rows = self.rows.iter();
        let row = rows.find(|row| row[0] == 4 && row[1] == line);
        row.copied().ok_or_else(|| format!("line {line} has no 4"))
    }

    /// The copies of an item that a 6 looks at, from the last one back. The
    /// copy before a copy is the target copy in its 4.
    pub fn copies_back(&self, last_copy: u16) -> Result<Vec<u16>, String> {
        let mut copies = Vec::new();
        let mut copy = last_copy;
        while copy != 0 {
            if copies.contains(&copy) {
                return Err(format!("the copies before {last_copy} go in a circle"));
            }
            copies.push(copy);
            copy = self.value_row(copy)?[5];
        }
        Ok(copies)
    }

    /// What the listing must be for it: "the count of constraints and of
    /// variables, then one constraint a line".
    pub fn listing(&self) -> String {
        let mut text = format!("{} {}\n", self.rows.len(), self.variables);
        for row in &self.rows {
            let numbers: Vec<String> = row.iter().map(u16::to_string).collect();
            text.push_str(&numbers.join(" "));
            text.push('\n');
        }
        text
    }
}

/// Splits an assignment of the draft's variables into a readable form.
pub fn variable_of_block_value(draft: &Draft, block: usize, item: usize) -> usize {
    2 * draft.records.len() + block * draft.items() + item
}
