//! `solve` on several cases: each one's line is printed when it is known, and in the end a table in the order of the cases. Of one
//! case alone, its object.

use crate::calls::Loaded;
use crate::failure::{note, Failure, Status};
use crate::input::Source;
use crate::name::shown;
use crate::objects;
use crate::output::Output;
use crate::progress::Progress;
use crate::reach::plainly_nothing_in_words;
use crate::solve::{Asking, Wanted, ANSWERS};
use crate::summary::Summary;
use crate::words::count;
use std::collections::HashMap;
use std::ffi::{OsStr, OsString};
use std::os::unix::ffi::OsStrExt;
use std::path::PathBuf;
use std::sync::atomic::{AtomicUsize, Ordering};
use std::sync::mpsc::{self, Receiver};
use std::sync::Arc;
use std::thread;

/// Whether these are several cases: a folder is, whatever it holds.
pub fn is_several(cases: &[Source]) -> bool {
    cases.len() > 1 || cases.iter().any(Source::is_folder)
}

/// `solve CASE --json`: an object, and no summary.
pub fn one_object(case: &Source, wanted: &Wanted, output: &mut Output) -> Result<Status, Failure> {
    let (asking, _) = prepared(wanted, false, output)?;
    let summary = Summary::of(case, wanted, &asking);
    output.say(&format!("{}\n", summary.json))?;
    if let Some(message) = &summary.message {
        note(message);
    }
    Status::of(summary.status(wanted.strict))
}

pub fn all(wanted: Wanted, output: &mut Output) -> Result<Status, Failure> {
    let (asking, cases) = prepared(&wanted, true, output)?;
    let (wanted, cases) = (Arc::new(wanted), Arc::new(cases));
    let names: Vec<String> = cases.iter().map(Source::name).collect();
    let columns = Columns { first: "case", width: names.iter().map(|name| name.chars().count()).max().unwrap_or(0).max(4) };
    if !wanted.json {
        output.say(&format!("{}{}", bound_in_words(&wanted), columns.head()))?;
    }
    let mut progress = Progress::new(cases.len());
    let mut summaries: Vec<Option<Summary>> = vec![None; cases.len()];
    let mut in_order = true;
    // Threads of their own, so that an output that fails ends the command at once, and the guard what they started.
    for (index, summary) in begin(&wanted, &cases, &asking) {
        let Some(summary) = summary else {
            progress.at_work_on(&names[index]);
            continue;
        };
        progress.clear();
        output.say(&match wanted.json {
            true => format!("{}\n", summary.json),
            false => columns.line(&summary.name, &summary),
        })?;
        in_order = in_order && summaries[..index].iter().all(Option::is_some);
        summaries[index] = Some(summary);
        progress.done_with(&names[index]);
    }
    progress.clear();
    let summaries: Vec<Summary> = summaries.into_iter().flatten().collect();
    if summaries.len() < cases.len() {
        return Err(Failure::Other("some cases were given up: this command is wrong".to_string()));
    }
    let status = status(&summaries, wanted.strict);
    output.say(&match (wanted.json, in_order) {
        (true, _) => format!("{}\n", objects::summary(&summaries, status)),
        (false, true) => counts(&summaries, "case", "cases"),
        (false, false) => {
            let counts = counts(&summaries, "case", "cases");
            format!("\nin the order of the cases:\n{}{counts}", columns.table(&summaries))
        }
    })?;
    tell_failures(&summaries, "case", "cases");
    Status::of(status)
}

/// Whom to ask, and the cases. Where nothing can begin, there is an object for each operand that says so.
pub fn prepared(wanted: &Wanted, many: bool, output: &mut Output) -> Result<(Asking, Vec<Source>), Failure> {
    let asking = wanted.settings.asking(many);
    // What needs no solver is said where there is none.
    let plain = |operand: &Source| if asking.is_err() { plain_in_words(operand) } else { String::new() };
    let plain: Vec<String> = wanted.cases.iter().map(plain).collect();
    let prepared = asking.and_then(|asking| {
        let cases = expanded(&wanted.cases)?;
        ready(wanted, &cases)?;
        Ok((asking, cases))
    });
    let failure = match prepared {
        Ok(prepared) => return Ok(prepared),
        Err(failure) => failure.message().unwrap_or_default().to_string(),
    };
    for (operand, plain) in wanted.cases.iter().zip(&plain).filter(|_| wanted.json) {
        let (name, failure) = (operand.name(), Failure::Other(format!("{failure}{plain}")));
        output.say(&format!("{}\n", objects::failed("solve", &name, &name, &failure)))?;
    }
    Err(Failure::Other(failure + &plain.concat()))
}

/// The cases of an operand in which nothing is checked, as is plain without a solver: a line for each.
fn plain_in_words(operand: &Source) -> String {
    let cases = expanded(std::slice::from_ref(operand)).unwrap_or_default();
    let words = cases.iter().filter_map(|case| {
        let loaded = Loaded::from(case).ok()?;
        Some(format!("\n  {}: {}", loaded.name, plainly_nothing_in_words(&loaded)?))
    });
    words.collect()
}

/// The cases, with those of a folder in its place, by name.
fn expanded(operands: &[Source]) -> Result<Vec<Source>, Failure> {
    let mut cases = Vec::new();
    for operand in operands {
        match operand.is_folder() {
            true => {
                let files = case_files(operand.path())?.into_iter();
                cases.extend(files.map(|file| file.with_switches(operand.switches())));
            }
            false => cases.push(operand.clone()),
        }
    }
    Ok(cases)
}

/// The cases of a folder: sources, and cases that have no source of the same name. A source is what is edited; a case beside it
/// may be of an earlier day.
fn case_files(folder: &OsStr) -> Result<Vec<Source>, Failure> {
    let named = |error: std::io::Error| Failure::of_file(folder, &error);
    let mut files: Vec<PathBuf> = Vec::new();
    for entry in std::fs::read_dir(folder).map_err(named)? {
        let path = entry.map_err(named)?.path();
        // No folder, and no pipe, which may never end.
        let ending = path.as_os_str().as_bytes();
        if (ending.ends_with(b".case") || ending.ends_with(b".source")) && path.is_file() {
            files.push(path);
        }
    }
    files.sort();
    let all = files.clone();
    files
        .retain(|file| all.binary_search(&file.with_extension("source")).is_err() || file.extension() != Some("case".as_ref()));
    match files.is_empty() {
        true => Err(Failure::Other(format!("{}: no file in it ends in .source or .case", shown(folder)))),
        false => Ok(files.iter().map(|file| Source::new(file.as_os_str())).collect()),
    }
}

/// Before any solver is asked: that what is kept has a place, and no two cases the same.
fn ready(wanted: &Wanted, cases: &[Source]) -> Result<(), Failure> {
    let Some(keep) = &wanted.keep else {
        return Ok(());
    };
    let mut stems: HashMap<OsString, &Source> = HashMap::new();
    let cases: Vec<Source> = cases.iter().flat_map(|case| wanted.bounds(case)).collect();
    for case in &cases {
        if let Some(other) = stems.insert(case.stem(), case) {
            let (one, other) = (other.name(), case.name());
            return Err(Failure::Other(format!("{one} and {other} would be kept under the same name; keep them apart")));
        }
        keep.prepare(case)?;
    }
    Ok(())
}

/// Which n the cases have, where it is not their own.
fn bound_in_words(wanted: &Wanted) -> String {
    match (wanted.least, wanted.cases.first().and_then(Source::switches)) {
        (Some(most), _) => format!("the smallest n with a violation, up to {most}\n"),
        (None, Some(switches)) => format!("every case with n = {switches}\n"),
        (None, None) => String::new(),
    }
}

/// Solves the cases, so many at a time. What comes is a case's number, first alone, where its turn begins, and then with what
/// came of it.
fn begin(wanted: &Arc<Wanted>, cases: &Arc<Vec<Source>>, asking: &Asking) -> Receiver<(usize, Option<Summary>)> {
    let (sender, receiver) = mpsc::channel();
    let next = Arc::new(AtomicUsize::new(0));
    for _ in 0..wanted.jobs.min(cases.len()) {
        let (wanted, cases, asking) = (wanted.clone(), cases.clone(), asking.clone());
        let (sender, next) = (sender.clone(), next.clone());
        thread::spawn(move || loop {
            let index = next.fetch_add(1, Ordering::Relaxed);
            let Some(case) = cases.get(index) else { return };
            let told = |summary| sender.send((index, summary)).is_ok();
            if !told(None) || !told(Some(Summary::of(case, &wanted, &asking))) {
                return;
            }
        });
    }
    receiver
}

/// A violation is not hidden behind anything; then what failed; then what was refused.
pub fn status(summaries: &[Summary], strict: bool) -> i32 {
    let has = |status: i32| summaries.iter().any(|summary| summary.status(strict) == status);
    [Status::Found.number(), Failure::STATUS_OTHER, Failure::STATUS_REFUSED]
        .into_iter()
        .find(|&status| has(status))
        .unwrap_or(0)
}

/// How many have each answer.
pub fn counts(summaries: &[Summary], one: &str, many: &str) -> String {
    let of = |word: &str| summaries.iter().filter(|summary| summary.word == word).count();
    let counts: Vec<String> = ANSWERS.iter().map(|word| format!("{} {word}", of(word))).collect();
    format!("{}: {}\n", count(summaries.len(), one, many), counts.join(", "))
}

/// The table has said what failed; the message says how many, and all of the first.
pub fn tell_failures(summaries: &[Summary], one: &str, many: &str) {
    let mut failures = summaries.iter().filter_map(|summary| summary.message.as_ref());
    if let Some(first) = failures.next() {
        let counted = count(1 + failures.count(), &format!("{one} was not done"), &format!("{many} were not done"));
        note(&format!("{counted}; as: {first}"));
    }
}

/// The columns of a table of answers. The first one says what they are the answers of.
pub struct Columns {
    pub first: &'static str,
    pub width: usize,
}

impl Columns {
    pub fn head(&self) -> String {
        let Columns { first, width } = self;
        format!("{first:width$}  {:<8}  {:>12}  {:>8}  note\n", "answer", "constraints", "seconds")
    }

    pub fn line(&self, first: &str, summary: &Summary) -> String {
        let Summary { word, size, seconds, note, filed_by, .. } = summary;
        let filed = filed_by.as_ref().map(|by| format!("filed already, by {by}; ")).unwrap_or_default();
        format!("{first:width$}  {word:<8}  {size:>12}  {seconds:>8.2}  {filed}{note}\n", width = self.width)
    }

    fn table(&self, summaries: &[Summary]) -> String {
        let lines = summaries.iter().map(|summary| self.line(&summary.name, summary));
        self.head() + &lines.collect::<String>()
    }
}
