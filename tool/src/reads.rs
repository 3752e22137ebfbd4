//! What a line reads of an assignment, for display: each number with where it comes from.

use crate::case::{Case, Kind, Record, CONSTANT};
use crate::names::Name;
use crate::term::Term;
use crate::words::item_value;

/// A number, and where it comes from.
pub struct Read {
    pub value: u16,
    pub words: String,
}

pub struct Reads<'a> {
    pub case: &'a Case,
    pub assignment: &'a [u16],
}

impl<'a> Reads<'a> {
    /// Whether the guard is true, and why; no reason where it always is.
    pub fn guard(&self, record: &Record, copy: u16) -> (bool, Option<String>) {
        let (Some(local), Some(words)) = (record.guard_local(), record.guard_words(&self.case.names)) else {
            return (true, None);
        };
        let local = self.local(record.local(local), copy);
        let guard = record.guard_is_true(local.value);
        (guard, Some(format!("the guard {words} is {guard} with {}", local.words)))
    }

    /// What a line's value is made of; nothing where it is free.
    pub fn term(&self, record: &Record, term: Term) -> Option<Read> {
        Some(match term {
            Term::Any => return None,
            Term::Fixed(value, words) => Read { value, words: words.to_string() },
            Term::Held(thread) => Read { value: thread + 1, words: format!("a lock by thread {thread} gives {}", thread + 1) },
            Term::Local { local, copy } => self.local(local, copy),
            Term::Item { item, copy } => self.item(item, record.number, copy),
            Term::Expression { a_copy, b_copy } => self.expression(record, a_copy, b_copy),
            Term::Truth { a_copy, b_copy } => {
                let Read { value, words } = self.expression(record, a_copy, b_copy);
                let not_zero = if value > 1 { ", which is not 0" } else { "" };
                Read { value: u16::from(value != 0), words: words + not_zero }
            }
        })
    }

    fn expression(&self, record: &Record, a_copy: u16, b_copy: u16) -> Read {
        let mut reads = Vec::new();
        let mut operand = |operand: u16, copy: u16| match operand {
            CONSTANT => record.c,
            local => {
                let Read { value, words } = self.local(record.local(local), copy);
                reads.push(words);
                value
            }
        };
        let a = operand(record.a, a_copy);
        let b = if record.has_b() { operand(record.b, b_copy) } else { 0 };
        reads.dedup();
        let value = record.expression(a, b);
        let names = &self.case.names;
        let formula = match record.kind {
            Kind::Assert | Kind::Assume => format!("{} is {value}", record.expression_words(names)),
            _ => record.expression_words(names),
        };
        Read { value, words: expression_with(record, formula, &reads) }
    }

    /// A local by its copy.
    fn local(&self, local: Name, copy: u16) -> Read {
        let name = self.case.names.called(local);
        match copy {
            0 => Read { value: 0, words: format!("{name} = 0 at the start") },
            copy => Read { value: self.value(copy), words: format!("{name} = {} by record {copy}", self.value(copy)) },
        }
    }

    /// The item as this line reads it.
    fn item(&self, item: usize, line: u16, copy: u16) -> Read {
        let block = self.block(line);
        if copy == 0 || self.block(copy) != block {
            return self.before(block, item);
        }
        let value = self.value(copy);
        Read { value, words: format!("{} by record {copy} in the same block", item_value(self.case, item, value)) }
    }

    /// The item's value where a block begins.
    pub fn before(&self, block: u16, item: usize) -> Read {
        let words = |value: u16| item_value(self.case, item, value);
        match usize::from(block).checked_sub(1) {
            None => {
                let value = self.case.items_at_start().get(item).copied().unwrap_or_default();
                Read { value, words: format!("{} at the start", words(value)) }
            }
            Some(earlier) => {
                let value = self.number(self.case.block_value(earlier, item));
                Read { value, words: format!("{} at the end of block {earlier}", words(value)) }
            }
        }
    }

    pub fn record(&self, number: u16) -> Option<&'a Record> {
        self.case.records.get(usize::from(number).checked_sub(1)?)
    }

    pub fn block(&self, record: u16) -> u16 {
        self.number(2 * usize::from(record.saturating_sub(1)))
    }

    pub fn was_run(&self, record: u16) -> bool {
        self.block(record) != self.case.unrun()
    }

    /// The block number of a record, and that it says not run where it does.
    pub fn block_in_words(&self, record: u16) -> String {
        let block = self.block(record);
        match self.was_run(record) {
            true => format!("block number {block}"),
            false => format!("block number {block}: not run"),
        }
    }

    pub fn value(&self, record: u16) -> u16 {
        self.number(2 * usize::from(record.saturating_sub(1)) + 1)
    }

    /// A number that the assignment does not have is 0.
    pub fn number(&self, variable: usize) -> u16 {
        self.assignment.get(variable).copied().unwrap_or_default()
    }
}

/// An expression's formula with what it reads; of one that has no formula, op 0, what it reads alone.
pub fn expression_with(record: &Record, formula: String, reads: &[String]) -> String {
    match (record.op, reads) {
        (0, []) => format!("the constant {}", record.c),
        (0, [read, ..]) => read.clone(),
        (_, []) => formula,
        (_, reads) => format!("{formula} with {}", reads.join(" and ")),
    }
}
