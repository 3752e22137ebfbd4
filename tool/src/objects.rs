//! The objects of `solve --json`, and of what fails; `docs/output.schema.json` describes them.

use crate::calls::{Ending, Loaded};
use crate::case::Kind;
use crate::failure::Failure;
use crate::json::{list, Json};
use crate::reach::Reached;
use crate::solve::{Asking, Solved, ANSWERS};
use crate::summary::Summary;

/// An input that was refused, or something else that failed.
pub fn failed(command: &str, case: &str, input: &str, failure: &Failure) -> Json {
    failed_with(command, case, input, failure, Vec::new())
}

/// The same, with more fields.
pub fn failed_with(command: &str, case: &str, input: &str, failure: &Failure, own: Vec<(&'static str, Json)>) -> Json {
    let mut fields: Vec<(&'static str, Json)> =
        vec![("command", command.into()), ("case", case.into()), ("status", failure.status().into())];
    if let Failure::ByLibrary(..) | Failure::Refused(_) = failure {
        let refusal = failure.refusal().map(|refusal| {
            Json::Object(vec![
                ("number", refusal.number.into()),
                ("place", refusal.place.into()),
                ("meaning", refusal.meaning().into()),
            ])
        });
        fields.extend([("answer", "refused".into()), ("input", input.into()), ("refusal", refusal.into())]);
    } else {
        fields.push(("answer", "failed".into()));
    }
    fields.extend(own);
    fields.push(("message", list(failure.message().unwrap_or_default().lines())));
    Json::Object(fields)
}

/// What came of a case.
pub fn solved(loaded: &Loaded, asking: &Asking, solved: &Solved, strict: bool, note: &str) -> Json {
    let found = solved.verdict.found();
    let record = found.and_then(|found| match found.run.ending {
        Ending::Violated(first) => Some(first.record),
        _ => None,
    });
    let mut fields: Vec<(&'static str, Json)> = vec![
        ("command", "solve".into()),
        ("case", loaded.name.as_str().into()),
        ("status", solved.status(strict).into()),
        ("answer", solved.word().into()),
        ("solvers", list(asking.solvers.iter().map(|solver| solver.name.as_str()))),
        ("seconds", Json::Seconds(solved.seconds)),
        ("constraints", loaded.table.rows.len().into()),
        ("variables", loaded.table.variables.into()),
        ("switches", loaded.case.switches.into()),
        ("record", record.into()),
        ("assignment", found.map(|found| list(found.assignment.iter().copied())).into()),
        ("schedule", found.map(|found| list(found.schedule.iter().copied())).into()),
        ("fault", found.map(|found| found.fault.object(&loaded.case)).into()),
        ("asserts", reached(loaded, solved, Kind::Assert)),
        ("unlocks", reached(loaded, solved, Kind::Unlock)),
        ("note", note.into()),
    ];
    // What only some calls ask for.
    fields.extend(loaded.asked.map(|record| ("assert", record.into())));
    fields.extend(found.and_then(|found| found.short.as_ref()).map(|short| ("short", short.object())));
    fields.push(("resumed", false.into()));
    Json::Object(fields)
}

/// Which lines of a kind are reached.
fn reached(loaded: &Loaded, solved: &Solved, kind: Kind) -> Json {
    let lines = solved.reach.lines.iter().filter(|(record, _)| loaded.case.record(*record).kind == kind);
    let lines = lines.map(|(record, reached)| {
        let (reached, schedule) = match reached {
            Reached::Yes(schedule) => (Json::Bool(true), list(schedule.iter().copied())),
            Reached::Never => (Json::Bool(false), Json::Null),
            Reached::NotKnown(_) => (Json::Null, Json::Null),
        };
        Json::Object(vec![("record", (*record).into()), ("reached", reached), ("schedule", schedule)])
    });
    Json::List(lines.collect())
}

/// The object of an answer that was filed before: its case may have another name by now, and its status goes by this call's
/// options. Nothing where the text is no such object. A quote within a name is escaped, so the first `,"answer":` is the field.
pub fn resumed(filed: &str, case: &str, status: i32) -> Option<String> {
    let (_, rest) = filed.split_once(",\"answer\":")?;
    let rest = rest.strip_suffix("\"resumed\":false}")?;
    let case = Json::from(case);
    Some(format!("{{\"command\":\"solve\",\"case\":{case},\"status\":{status},\"answer\":{rest}\"resumed\":true}}"))
}

/// What came of several cases: how many have each answer, and each one's answer, in the order of the cases.
pub fn summary(summaries: &[Summary], status: i32) -> Json {
    let answers = summaries
        .iter()
        .map(|summary| Json::Object(vec![("case", summary.name.as_str().into()), ("answer", summary.word.as_str().into())]));
    Json::Object(vec![
        ("command", "solve".into()),
        ("summary", true.into()),
        ("status", status.into()),
        ("cases", summaries.len().into()),
        ("counts", counts(summaries)),
        ("answers", Json::List(answers.collect())),
    ])
}

/// How many have each answer.
pub fn counts(summaries: &[Summary]) -> Json {
    let counts = ANSWERS.iter().map(|word| {
        let of_word = summaries.iter().filter(|summary| summary.word == *word);
        (*word, Json::Number(of_word.count()))
    });
    Json::Object(counts.collect())
}
