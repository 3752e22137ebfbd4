//! The objects of `check`, `replay`, `fill`, `list` and `show` with `--json`; `docs/output.schema.json` describes them.

use crate::calls::{Ending, Loaded};
use crate::case::Case;
use crate::demands;
use crate::failure::Status;
use crate::json::{list, Json};
use crate::rule;
use crate::run::Run;
use crate::show;
use crate::table::Row;
use crate::walk::Step;
use crate::words::{holder, item_name};

/// An object: the fields that all have, and then its own.
fn object(command: &str, loaded: &Loaded, status: Status, answer: &str, own: Vec<(&'static str, Json)>) -> Json {
    let all = [
        ("command", command.into()),
        ("case", loaded.name.as_str().into()),
        ("status", status.number().into()),
        ("answer", answer.into()),
        ("switches", loaded.case.switches.into()),
    ];
    Json::Object(all.into_iter().chain(own).collect())
}

/// An assignment that meets all constraints.
pub fn meets(loaded: &Loaded, assignment: &str) -> Json {
    let own = vec![("assignment", assignment.into()), ("constraints", loaded.table.rows.len().into())];
    object("check", loaded, Status::Done, "meets", own)
}

/// An assignment that fails this constraint first, with what is to be said of it.
pub fn fails(loaded: &Loaded, assignment: &str, constraint: u16, words: &[String]) -> Json {
    let row = loaded.table.rows.get(usize::from(constraint).wrapping_sub(1));
    let own = vec![
        ("assignment", assignment.into()),
        ("constraints", loaded.table.rows.len().into()),
        ("constraint", constraint.into()),
        ("row", row.map_or(Json::Null, numbers)),
        ("words", list(words.iter().map(String::as_str))),
    ];
    object("check", loaded, Status::Found, "fails", own)
}

/// A run; with `values` each of its steps has all items after the line.
pub fn replayed(loaded: &Loaded, schedule: &[u16], run: &Run, values: bool) -> Json {
    let case = &loaded.case;
    let fault = match run.ending {
        Ending::Violated(first) => Some(first.object(case)),
        Ending::Clean | Ending::CutOff(_) => None,
    };
    let own = vec![
        ("schedule", list(schedule.iter().copied())),
        ("record", run.ending.record().into()),
        ("fault", fault.into()),
        ("items", items(case, &run.items)),
        ("notRun", list(run.not_run(case).concat())),
        ("late", list(rule::late_records(case, schedule))),
        ("steps", list(run.steps.iter().map(|step| self::step(case, step, values)))),
    ];
    object("replay", loaded, run.status(), run.ending.word(), own)
}

/// A schedule, and the assignment that stands for it.
pub fn filled(loaded: &Loaded, schedule: &[u16], assignment: &[u16]) -> Json {
    let own = vec![("schedule", list(schedule.iter().copied())), ("assignment", list(assignment.iter().copied()))];
    object("fill", loaded, Status::Done, "filled", own)
}

fn step(case: &Case, step: &Step, values: bool) -> Json {
    let mut fields = vec![
        ("block", step.block.into()),
        ("thread", case.thread_of_block(step.block).into()),
        ("line", step.line.into()),
        ("record", step.record.into()),
        ("does", case.record(step.record).words(&case.names).into()),
        ("event", step.event.word().into()),
        ("words", step.event.values(case).into()),
    ];
    if values {
        fields.push(("items", items(case, &step.items)));
    }
    Json::Object(fields)
}

/// The constraints, and what they demand in words where that is wanted.
pub fn listed(loaded: &Loaded, words: bool) -> Json {
    let Loaded { case, table, .. } = loaded;
    let in_words = table.rows.iter().map(|&row| demands::in_words(case, table, row));
    let mut own = vec![
        ("constraints", loaded.table.rows.len().into()),
        ("variables", loaded.table.variables.into()),
        ("rows", list(loaded.table.rows.iter().map(numbers))),
    ];
    own.extend(words.then(|| ("words", list(in_words))));
    object("list", loaded, Status::Done, "listed", own)
}

pub fn shown(loaded: &Loaded) -> Json {
    let case = &loaded.case;
    let own = vec![
        ("threads", list((0..case.threads).map(|thread| self::thread(loaded, thread)))),
        ("globals", case.globals.into()),
        ("mutexes", case.mutexes.into()),
        ("records", case.records.len().into()),
        ("constraints", loaded.table.rows.len().into()),
        ("variables", loaded.table.variables.into()),
        ("start", items(case, &case.items_at_start())),
    ];
    object("show", loaded, Status::Done, "shown", own)
}

fn thread(loaded: &Loaded, thread: usize) -> Json {
    let lines = loaded.case.chains[thread].iter().zip(1..);
    Json::Object(vec![
        ("thread", thread.into()),
        ("blocks", list(loaded.case.blocks_of(thread))),
        ("lines", list(lines.map(|(&record, line)| self::line(loaded, record, line)))),
    ])
}

fn line(loaded: &Loaded, number: u16, line: usize) -> Json {
    let (record, names) = (loaded.case.record(number), &loaded.case.names);
    let copies = show::copies(loaded, number).into_iter();
    let copies = copies.map(|(name, copy)| Json::Object(vec![("name", names.called(name).into()), ("copy", copy.into())]));
    Json::Object(vec![
        ("line", line.into()),
        ("record", number.into()),
        ("guard", record.guard_words(names).into()),
        ("does", record.action(names).into()),
        ("copies", list(copies)),
    ])
}

fn numbers(row: &Row) -> Json {
    list(row.iter().copied())
}

/// Items with their values, and of a mutex which thread holds it.
fn items(case: &Case, values: &[u16]) -> Json {
    let item = |(item, &value): (usize, &u16)| {
        let mut fields = vec![("name", item_name(case, item).into()), ("value", value.into())];
        fields.extend((item >= case.globals).then(|| ("holder", holder(case, value).into())));
        Json::Object(fields)
    };
    list(values.iter().enumerate().map(item))
}
