//! `solve --each`: every assert and every unlock by itself, and a table of the answers.

use crate::calls::{Ending, Loaded};
use crate::failure::{Failure, Status};
use crate::fault::Sort;
use crate::input::Source;
use crate::json::Json;
use crate::least;
use crate::objects;
use crate::output::Output;
use crate::said::Said;
use crate::several;
use crate::solve::{Asking, Solved, Wanted};
use crate::summary::{answer, load, Summary};
use crate::words::{count, enumeration, numbers_in_a_line};

/// `solve CASE --each`.
pub fn one(source: &Source, wanted: &Wanted, output: &mut Output) -> Result<Status, Failure> {
    let whole = match wanted.least {
        Some(_) => least::begin(source, wanted),
        None => load(source, wanted),
    };
    let whole = match whole {
        Ok(whole) => whole,
        Err(failure) => return Said::failed("solve", source, source, failure, wanted.json).tell(output),
    };
    let (asking, _) = several::prepared(wanted, true, output)?;
    let (columns, records) = (Columns::of(&whole), whole.case.asserts_and_unlocks());
    let sort = Sort::of(&whole.case, &records);
    if !wanted.json {
        output.say(&format!("{}{}", question(&whole, wanted), columns.head()))?;
    }
    let mut summaries = Vec::new();
    for &record in &records {
        let summary = answered(&whole, source, record, wanted, &asking);
        let summary = summary.unwrap_or_else(|failure| Summary::of_failure(source, &failure));
        output.say(&match wanted.json {
            true => format!("{}\n", summary.json),
            false => columns.line(&whole, record, &summary),
        })?;
        summaries.push(summary);
    }
    let status = match records.is_empty() && wanted.strict {
        true => Status::Found.number(),
        false => several::status(&summaries, wanted.strict),
    };
    output.say(&match wanted.json {
        true => format!("{}\n", object(&whole, &records, &summaries, status)),
        false => several::counts(&summaries, sort.one(), sort.many()),
    })?;
    several::tell_failures(&summaries, sort.one(), sort.many());
    Status::of(status)
}

fn question(whole: &Loaded, wanted: &Wanted) -> String {
    let lines = whole.case.asserts_and_unlocks();
    let sort = Sort::of(&whole.case, &lines);
    let lines = count(lines.len(), sort.one(), sort.many());
    let bound = match wanted.least {
        None => format!("within n = {}", whole.case.switches),
        Some(most) => format!("with the smallest n up to {most}"),
    };
    format!("{}: {lines}, each by itself, {bound}\n", whole.name)
}

/// What came of one line. The note has a schedule that violates there.
fn answered(whole: &Loaded, source: &Source, record: u16, wanted: &Wanted, asking: &Asking) -> Result<Summary, Failure> {
    if wanted.least.is_some() {
        let least = least::search(whole, source, Some(record), wanted, asking, &mut |_| Ok(()))?;
        let example = least.solved.as_ref().and_then(|solved| example(&least.loaded, solved));
        let note = [Some(least.sentence()), example].into_iter().flatten().collect::<Vec<_>>().join("; ");
        return Ok(Summary { note, ..least.summary(wanted.strict) });
    }
    let loaded = whole.changed(whole.case.bytes.clone())?.asked_about(Some(record))?;
    let (summary, solved) = answer(&loaded, wanted, asking)?;
    let note = solved.as_ref().and_then(|solved| example(&loaded, solved)).unwrap_or_else(|| summary.note.clone());
    Ok(Summary { note, ..summary })
}

/// A schedule that violates there, whose the mutex of an unlock was, and where its run violates before, if it does.
fn example(loaded: &Loaded, solved: &Solved) -> Option<String> {
    let found = solved.verdict.found()?;
    let schedule = numbers_in_a_line(&found.schedule);
    let first = match found.run.ending {
        Ending::Violated(first) if first.record != found.fault.record => Some(first.record),
        _ => None,
    };
    let first = first.map(|first| format!("record {first} violates before it"));
    let notes: Vec<String> = found.fault.whose(&loaded.case).into_iter().chain(first).collect();
    let notes = if notes.is_empty() { String::new() } else { format!(", where {}", enumeration(&notes)) };
    let short = found.short.as_ref().map(|short| format!("; {}", short.words(&loaded.case))).unwrap_or_default();
    Some(format!("e.g. schedule {schedule}{notes}{short}"))
}

/// What came of all of them.
fn object(whole: &Loaded, records: &[u16], summaries: &[Summary], status: i32) -> Json {
    let answers = records.iter().zip(summaries).map(|(&record, summary)| {
        let (thread, line) = whole.case.position(record).unwrap_or_default();
        Json::Object(vec![
            ("record", record.into()),
            ("thread", thread.into()),
            ("line", line.into()),
            ("does", whole.case.record(record).words(&whole.case.names).into()),
            ("answer", summary.word.as_str().into()),
            ("note", summary.note.as_str().into()),
        ])
    });
    Json::Object(vec![
        ("command", "solve".into()),
        ("case", whole.name.as_str().into()),
        ("each", true.into()),
        ("status", status.into()),
        ("counts", objects::counts(summaries)),
        ("answers", Json::List(answers.collect())),
    ])
}

/// The columns of the table.
struct Columns {
    /// The width of what the lines say.
    does: usize,
}

impl Columns {
    fn of(whole: &Loaded) -> Columns {
        let lines = whole.case.asserts_and_unlocks().into_iter();
        let widths = lines.map(|record| whole.case.record(record).words(&whole.case.names).len());
        Columns { does: widths.max().unwrap_or(0).max("says".len()) }
    }

    fn head(&self) -> String {
        format!("record  thread  line  {:does$}  {:<8}  {:>8}  note\n", "says", "answer", "seconds", does = self.does)
    }

    fn line(&self, whole: &Loaded, record: u16, summary: &Summary) -> String {
        let (thread, line) = whole.case.position(record).unwrap_or_default();
        let (does, width) = (whole.case.record(record).words(&whole.case.names), self.does);
        let Summary { word, seconds, note, .. } = summary;
        format!("{record:>6}  {thread:>6}  {line:>4}  {does:width$}  {word:<8}  {seconds:>8.2}  {note}\n")
    }
}
