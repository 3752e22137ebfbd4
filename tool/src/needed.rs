//! What a constraint needs and what an assignment has there, for display. That a constraint fails is the library's word; `calls`
//! compares the two.

use crate::case::{Case, Kind, Record};
use crate::fault::Sort;
use crate::names::Name;
use crate::reads::{Read, Reads};
use crate::table::{Row, Table};
use crate::term::Term;
use crate::words::{enumeration, item_name};
use std::collections::BTreeMap;

/// A constraint over an assignment, as this display sees it.
pub struct Seen {
    pub holds: bool,
    needed: String,
    found: String,
}

impl Seen {
    pub fn words(&self) -> String {
        format!("needed: {}; found: {}", self.needed, self.found)
    }
}

/// Looks at a constraint of the table. Gives nothing for numbers that no such constraint has.
pub fn seen(case: &Case, table: &Table, row: Row, assignment: &[u16]) -> Option<Seen> {
    let rows = Rows { reads: Reads { case, assignment }, case, table };
    match row[0] {
        1 => Some(rows.order_row(row)),
        2 => Some(rows.last_row(row)),
        3 => rows.thread_row(row),
        4 => rows.value_row(row),
        5 => rows.demand_row(row),
        6 => Some(rows.block_value_row(row)),
        7 => Some(rows.goal_row()),
        8 => Some(rows.stay_row(row)),
        _ => None,
    }
}

struct Rows<'a> {
    reads: Reads<'a>,
    case: &'a Case,
    table: &'a Table,
}

impl Rows<'_> {
    fn order_row(&self, [_, line, next, ..]: Row) -> Seen {
        let (before, after) = (self.reads.block(line), self.reads.block(next));
        let needed = match self.reads.was_run(line) {
            true => format!("record {next} in block {before} or later, as record {line} is in block {before}"),
            false => format!("record {next} not run, as record {line} was not (block number {before})"),
        };
        Seen { holds: before <= after, needed, found: self.reads.block_in_words(next) }
    }

    fn last_row(&self, [_, line, most, ..]: Row) -> Seen {
        let (block, unrun) = (self.reads.block(line), self.case.unrun());
        Seen {
            holds: block <= unrun,
            needed: format!("block number 0 to {most}, or {unrun} for a line that was not run"),
            found: format!("block number {block}"),
        }
    }

    fn thread_row(&self, [_, line, threads, thread, ..]: Row) -> Option<Seen> {
        let (block, unrun) = (self.reads.block(line), self.case.unrun());
        let rest = block.checked_rem(threads)?;
        Some(Seen {
            holds: !self.reads.was_run(line) || rest == thread,
            needed: format!("a block number that is {thread} modulo {threads}, or {unrun} for a line that was not run"),
            found: format!("block number {block}, which is {rest} modulo {threads}"),
        })
    }

    fn stay_row(&self, [_, line, before, ..]: Row) -> Seen {
        let (block, unrun) = (self.reads.block(before), self.case.unrun());
        let needed = match self.reads.was_run(before) {
            true => format!(
                "block number {block}, that of record {before}, as record {line} touches no shared item, or {unrun} for a line that \
                 was not run"
            ),
            false => format!("record {line} not run, as record {before} was not (block number {block})"),
        };
        let holds = !self.reads.was_run(line) || self.reads.block(line) == block;
        Seen { holds, needed, found: self.reads.block_in_words(line) }
    }

    fn value_row(&self, row: Row) -> Option<Seen> {
        let record = self.reads.record(row[1])?;
        let found = self.reads.value(row[1]);
        let (holds, needed) = match self.line_value(record, row) {
            Some(Read { value, words }) => (found == value, format!("value {value} ({words})")),
            None => (true, "any value, as an input is free".to_string()),
        };
        Some(Seen { holds, needed, found: found.to_string() })
    }

    fn demand_row(&self, row: Row) -> Option<Seen> {
        let [_, line, guard_copy, target_copy, ..] = row;
        let record = self.reads.record(line)?;
        if !self.reads.was_run(line) {
            let needed = "nothing, as the line was not run".to_string();
            return Some(Seen { holds: true, needed, found: self.reads.block_in_words(line) });
        }
        if record.kind == Kind::Assume {
            let found = self.reads.value(line);
            let why = self.table.value_row(line).and_then(|row| self.line_value(record, row));
            let why = why.filter(|why| why.value == found).map(|why| format!(" ({})", why.words)).unwrap_or_default();
            let needed = "value 1, as the assume must hold".to_string();
            return Some(Seen { holds: found == 1, needed, found: format!("{found}{why}") });
        }
        let (guard, why) = self.reads.guard(record, guard_copy);
        let mutex = self.reads.term(record, Term::mutex(self.case, record, target_copy))?;
        let why = why.map(|why| format!(" ({why})")).unwrap_or_default();
        let needed = format!("{} = 0{why}", self.case.names.called(Name::Mutex(record.target)));
        Some(Seen { holds: !guard || mutex.value == 0, needed, found: mutex.words })
    }

    fn block_value_row(&self, [_, item, block, last_copy, ..]: Row) -> Seen {
        let place = usize::from(item);
        let name = item_name(self.case, place);
        let found = self.reads.number(self.case.block_value(usize::from(block), place));
        let mut copies = self.table.copies_back_from(last_copy).into_iter();
        let needed = match copies.find(|&copy| self.reads.block(copy) == block) {
            Some(copy) => Read {
                value: self.reads.value(copy),
                words: format!("by record {copy}, the last line in block {block} with target {name}"),
            },
            None => {
                let Read { value, words } = self.reads.before(block, place);
                Read { value, words: format!("{words}, and no line in block {block} has target {name}") }
            }
        };
        Seen {
            holds: found == needed.value,
            needed: format!("value {} ({})", needed.value, needed.words),
            found: found.to_string(),
        }
    }

    fn goal_row(&self) -> Seen {
        let mut records: BTreeMap<u16, Vec<u16>> = BTreeMap::new();
        for assert in self.case.records.iter().filter(|record| record.kind == Kind::Assert) {
            records.entry(self.reads.value(assert.number)).or_default().push(assert.number);
        }
        let asserts = records.iter().map(|(value, records)| {
            let named = if records.len() == 1 { "record" } else { "records" };
            format!("value {value} of {named} {}", enumeration(records))
        });
        let unlocks = self.case.records.iter().filter(|record| record.kind == Kind::Unlock);
        let unlocks: Vec<(bool, String)> = unlocks.map(|record| self.unlock(record)).collect();
        let found: Vec<String> = asserts.chain(unlocks.iter().map(|(_, words)| words.clone())).collect();
        let needed = match Sort::of(self.case, &self.case.asserts_and_unlocks()) {
            Sort::Asserts => "an assert with value 0",
            Sort::Unlocks => "an unlock by a stranger",
            Sort::Both => "an assert with value 0 or an unlock by a stranger",
        };
        Seen {
            holds: records.contains_key(&0) || unlocks.iter().any(|(by_stranger, _)| *by_stranger),
            needed: needed.to_string(),
            found: if found.is_empty() { "no assert and no unlock".to_string() } else { found.join("; ") },
        }
    }

    /// Whether an unlock is by a stranger, and why or why not.
    fn unlock(&self, record: &Record) -> (bool, String) {
        let [_, _, guard_copy, _, _, copy] = self.table.value_row(record.number).unwrap_or_default();
        let mutex = self.reads.term(record, Term::mutex(self.case, record, copy));
        let value = mutex.as_ref().map_or(0, |mutex| mutex.value);
        let (by_stranger, words) = match (self.reads.was_run(record.number), self.reads.guard(record, guard_copy)) {
            (false, _) => (false, " was not run".to_string()),
            (true, (false, why)) => (false, format!(" is skipped: {}", why.unwrap_or_default())),
            (true, (true, _)) => {
                let found = mutex.map(|mutex| mutex.words).unwrap_or_default();
                (value != record.holder(), format!(", by thread {}, finds {found}", record.thread))
            }
        };
        (by_stranger, format!("the unlock of record {}{words}", record.number))
    }

    /// The value that a line must have; none where it is free.
    fn line_value(&self, record: &Record, row: Row) -> Option<Read> {
        if !self.reads.was_run(record.number) {
            return self.reads.term(record, Term::if_unrun(record));
        }
        let (guard, why) = self.reads.guard(record, row[2]);
        let term = match guard {
            true => Term::if_true(record, row),
            false => Term::if_false(self.case, record, row),
        };
        let Read { value, words } = self.reads.term(record, term)?;
        let words = match (guard, term) {
            (true, _) | (false, Term::Fixed(..)) => words,
            (false, _) => format!("the target keeps its value, {words}"),
        };
        Some(Read { value, words: why.into_iter().chain([words]).collect::<Vec<_>>().join("; ") })
    }
}
