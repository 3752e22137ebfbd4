//! The table of constraints that the library writes, and a constraint in words.

use crate::case::{Case, Kind};
use crate::fault::Sort;
use crate::words::{item_name, record_in_words};

/// Six numbers.
pub type Row = [u16; 6];

#[derive(Clone, Debug)]
pub struct Table {
    pub rows: Vec<Row>,
    pub variables: usize,
}

impl Table {
    /// The constraint of a value that a line has, with its copies. Every record has one.
    pub fn value_row(&self, record: u16) -> Option<Row> {
        self.rows.iter().copied().find(|row| row[0] == 4 && row[1] == record)
    }

    /// A thread's copies of an item, from the last one back to the first.
    pub fn copies_back_from(&self, last: u16) -> Vec<u16> {
        let mut copies = Vec::new();
        let mut copy = last;
        // A thread has at most 64 lines, so the walk ends, whatever the table says.
        while copy != 0 && copies.len() <= 64 {
            copies.push(copy);
            copy = self.value_row(copy).map_or(0, |row| row[5]);
        }
        copies
    }
}

/// What the 7 says, of the sorts of lines that the case has.
fn goal_in_words(case: &Case) -> &'static str {
    match Sort::of(case, &case.asserts_and_unlocks()) {
        Sort::Asserts => "some assert has value 0",
        Sort::Unlocks => "some unlock is by a stranger",
        Sort::Both => "some assert has value 0, or some unlock is by a stranger",
    }
}

/// A constraint's numbers, as the listing has them.
pub fn numbers(row: Row) -> String {
    row.map(|number| number.to_string()).join(" ")
}

/// What a constraint says.
pub fn in_words(case: &Case, row: Row) -> String {
    let [kind, first, second, third, ..] = row;
    let record = |number: u16| record_in_words(case, number);
    match kind {
        1 => format!("the block number does not fall from {} to {}", record(first), record(second)),
        2 => format!("the block number of {} is at most n, which is {second}, where it was run", record(first)),
        3 => format!("the block number of {} modulo {second} is its thread, {third}, where it was run", record(first)),
        4 => format!("the value of {}", record(first)),
        5 => match case.record(first).kind {
            Kind::Assume => format!("the assume of {} holds where it was run", record(first)),
            _ => format!("the mutex is free for {} where it was run", record(first)),
        },
        6 => {
            let item = item_name(case, usize::from(first));
            format!("the value of {item} at the end of block {second}")
        }
        7 => goal_in_words(case).to_string(),
        8 => format!("the block number of {} is that of record {second}, the line before it, where it was run", record(first)),
        _ => "not a constraint of document 01".to_string(),
    }
}
