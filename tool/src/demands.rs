//! `menduvo list --words`: what each constraint demands, of any assignment.

use crate::calls::Loaded;
use crate::case::{Case, Kind, Record, CONSTANT};
use crate::names::Name;
use crate::reads::expression_with;
use crate::table::{self, Row, Table};
use crate::term::Term;
use crate::words::{count, enumeration, item_name, items_in_words, legend, value_in_words};

/// The counts, what the variables stand for, and each constraint with its number, its six numbers and its words.
pub fn text(loaded: &Loaded) -> String {
    let Loaded { case, table, .. } = loaded;
    let numbers: Vec<String> = table.rows.iter().map(|&row| table::numbers(row)).collect();
    let width = numbers.iter().map(String::len).max().unwrap_or(0);
    let place = numbers.len().to_string().len();
    let rows = numbers.iter().zip(&table.rows).zip(1..).map(|((numbers, &row), number)| {
        let words = in_words(case, table, row);
        format!("{number:place$}: {numbers:width$}  {words}\n")
    });
    head(loaded) + &rows.collect::<String>()
}

fn head(loaded: &Loaded) -> String {
    let Loaded { case, table, .. } = loaded;
    let block_values = match case.block_value(0, 0) {
        first if first == table.variables => String::new(),
        first => format!(
            "From v{first} on: {} at the end of block 0, and so on for each block but the last.\n",
            enumeration(&(0..case.items()).map(|item| item_name(case, item)).collect::<Vec<_>>())
        ),
    };
    let stays = match table.rows.iter().any(|row| row[0] == 8) {
        true => {
            "Load, store, lock and unlock touch shared items. Any other line is in the block of the line before it: no other thread\n\
             can tell when it runs.\n"
        }
        false => "",
    };
    format!(
        "{} over {}\n{}Record k has the variables v(2k - 2), its block number, and v(2k - 1), its value.\n\
         A line with block number {}, which is n + 1, was not run.\n\
         {stays}{block_values}A block begins with the items as they are at the end of the block before, and block 0 with: {}.\n",
        count(table.rows.len(), "constraint", "constraints"),
        count(table.variables, "variable", "variables"),
        legend(case),
        case.unrun(),
        items_in_words(case, &case.items_at_start()),
    )
}

/// What the constraint is about, and what it demands there.
pub fn in_words(case: &Case, table: &Table, row: Row) -> String {
    let [kind, first, second, third, ..] = row;
    let demand = match kind {
        4 => value(case, case.record(first), row),
        5 if case.record(first).kind == Kind::Assume => ": its value is 1".to_string(),
        5 => free(case, case.record(first), second, third),
        6 => block_value(case, table, usize::from(first), second, third),
        7 => goal(case, table),
        _ => String::new(),
    };
    table::in_words(case, row) + &demand
}

fn value(case: &Case, record: &Record, row: Row) -> String {
    let given = term(case, record, Term::if_true(record, row));
    let unrun = term(case, record, Term::if_unrun(record));
    let Some(guard) = guard(case, record, row[2]) else {
        return format!(" is {given}; where it was not run, {unrun}");
    };
    let kept = Term::if_false(case, record, row);
    let verb = if matches!(kept, Term::Fixed(..)) { "is" } else { "stays" };
    format!(": if {guard}, it is {given}; if not, it {verb} {}; where it was not run, {unrun}", term(case, record, kept))
}

fn free(case: &Case, record: &Record, guard_copy: u16, copy: u16) -> String {
    let mutex = term(case, record, Term::mutex(case, record, copy));
    match guard(case, record, guard_copy) {
        Some(guard) => format!(": if {guard}, it is 0, read as {mutex}"),
        None => format!(": it is 0, read as {mutex}"),
    }
}

fn block_value(case: &Case, table: &Table, item: usize, block: u16, last_copy: u16) -> String {
    let name = item_name(case, item);
    let before = match block.checked_sub(1) {
        Some(earlier) => format!("{name} at the end of block {earlier}"),
        None => format!("{} as at the start", case.items_at_start()[item]),
    };
    let mut copies = table.copies_back_from(last_copy);
    copies.reverse();
    match copies.as_slice() {
        [] => format!(" is {before}: no line of thread {} has target {name}", case.thread_of_block(usize::from(block))),
        [copy] => format!(" is that of record {copy} where it is in block {block}, else {before}"),
        copies => format!(" is that of the last of records {} that is in block {block}, else {before}", enumeration(copies)),
    }
}

/// The parts of the 7: the asserts together, and each unlock with what it must not read.
fn goal(case: &Case, table: &Table) -> String {
    let of = |kind: Kind| case.records.iter().filter(move |record| record.kind == kind);
    let asserts: Vec<String> = of(Kind::Assert).map(|record| record.number.to_string()).collect();
    let asserts = (!asserts.is_empty()).then(|| format!("record {}", asserts.join(" or ")));
    let unlocks: Vec<String> = of(Kind::Unlock).map(|record| stranger(case, table, record)).collect();
    match (asserts, unlocks.as_slice()) {
        (None, []) => ", and there is neither: nothing meets it".to_string(),
        (None, unlocks) => format!(": {}", unlocks.join("; or ")),
        (Some(asserts), []) => format!(": {asserts}"),
        (Some(asserts), unlocks) => format!(": {asserts} has value 0; or {}", unlocks.join("; or ")),
    }
}

/// That an unlock is by a stranger.
fn stranger(case: &Case, table: &Table, record: &Record) -> String {
    let [_, _, guard_copy, _, _, copy] = table.value_row(record.number).unwrap_or_default();
    let guard = guard(case, record, guard_copy).map(|guard| format!(", {guard},")).unwrap_or_default();
    let mutex = Name::Mutex(record.target);
    let (name, held) = (case.names.called(mutex), value_in_words(case, mutex, record.holder(), None));
    let read = term(case, record, Term::mutex(case, record, copy));
    format!("record {} was run{guard} and {name} is not {held}, read as {read}", record.number)
}

/// The guard and what it reads; nothing where it is always true.
fn guard(case: &Case, record: &Record, copy: u16) -> Option<String> {
    let local = local(case, record.local(record.guard_local()?), copy);
    Some(format!("{} with {local}", record.guard_words(&case.names)?))
}

fn term(case: &Case, record: &Record, term: Term) -> String {
    match term {
        Term::Any => "any number, as an input is free".to_string(),
        Term::Fixed(value, _) => value.to_string(),
        Term::Held(thread) => format!("{} (held by thread {thread})", thread + 1),
        Term::Local { local, copy } => self::local(case, local, copy),
        Term::Item { item, copy: 0 } => format!("{} as its block begins", item_name(case, item)),
        Term::Item { item, copy } => {
            format!("{} by record {copy} where that is in the same block, else as its block begins", item_name(case, item))
        }
        Term::Expression { a_copy, b_copy } => expression(case, record, "", a_copy, b_copy),
        // A comparison is 1 or 0 itself.
        Term::Truth { a_copy, b_copy } if record.op > 4 => {
            format!("1 if {}, else 0", expression(case, record, "", a_copy, b_copy))
        }
        Term::Truth { a_copy, b_copy } => format!("1 if {}, else 0", expression(case, record, " is not 0", a_copy, b_copy)),
    }
}

/// The expression, what is said of it, and what it reads.
fn expression(case: &Case, record: &Record, said: &str, a_copy: u16, b_copy: u16) -> String {
    let operands = [(Some(record.a), a_copy), (record.has_b().then_some(record.b), b_copy)];
    let locals =
        operands.into_iter().filter_map(|(operand, copy)| Some((operand.filter(|&operand| operand != CONSTANT)?, copy)));
    let mut reads: Vec<String> = locals.map(|(operand, copy)| local(case, record.local(operand), copy)).collect();
    reads.dedup();
    match record.op {
        0 => expression_with(record, String::new(), &reads) + said,
        _ => expression_with(record, record.expression_words(&case.names) + said, &reads),
    }
}

fn local(case: &Case, local: Name, copy: u16) -> String {
    let name = case.names.called(local);
    match copy {
        0 => format!("{name} = 0 at the start"),
        copy => format!("{name} by record {copy}"),
    }
}
