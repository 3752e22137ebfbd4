//! `menduvo verify`, as it reports: file by file, what the folder was made with, and what a solver says when it is asked again.

use crate::failure::{Failure, Status};
use crate::file::this_command;
use crate::input::Source;
use crate::json::{list, Json};
use crate::kept::Kept;
use crate::manifest::{Made, NAME};
use crate::name::shown;
use crate::output::Output;
use crate::reach::Reached;
use crate::said::Said;
use crate::sha256;
use crate::solve::{solve, Asking, Settings};
use crate::verify::{findings, recompute, Finding, Recomputed, State};
use crate::words::{count, enumeration};
use std::ffi::OsString;

/// `verify`, as it was called.
pub struct Verifying {
    pub folder: OsString,
    /// Whom to ask again, if someone.
    pub settings: Option<Settings>,
    pub json: bool,
}

/// What a solver says when it is asked again.
struct Again {
    solvers: Vec<String>,
    answer: &'static str,
    /// Nothing where it gives no answer.
    same: Option<bool>,
    note: String,
}

/// All that is reported.
struct Report {
    folder: String,
    answer: String,
    manifest: String,
    findings: Vec<Finding>,
    notes: Vec<String>,
    again: Option<Again>,
    /// Why nothing was recomputed, and the exit status that this stands for.
    failure: Option<Failure>,
}

pub fn verify(call: &Verifying, output: &mut Output) -> Result<Status, Failure> {
    match report(call) {
        Ok(report) => {
            output.say(&if call.json { format!("{}\n", report.json()) } else { report.text() })?;
            Status::of(report.status()).map_err(|told| report.failure.unwrap_or(told))
        }
        Err(failure) => {
            let folder = Source::new(&call.folder);
            Said::failed("verify", &folder, &folder, failure, call.json).tell(output)
        }
    }
}

fn report(call: &Verifying) -> Result<Report, Failure> {
    let asking = call.settings.as_ref().map(|settings| settings.asking(false)).transpose()?;
    let kept = Kept::read(&call.folder)?;
    let recomputed = recompute(&kept);
    let why = recomputed.as_ref().err().and_then(Failure::message).unwrap_or_default();
    let why = why.lines().next().unwrap_or_default().to_string();
    let findings = findings(&kept, recomputed.as_ref().map(|recomputed| &recomputed.folder).map_err(|_| why.as_str()));
    let again = match (&asking, &recomputed) {
        (Some(asking), Ok(recomputed)) => Some(again(asking, recomputed, &kept.manifest.answer)?),
        _ => None,
    };
    Ok(Report {
        folder: shown(&call.folder),
        answer: kept.manifest.answer.clone(),
        manifest: sha256::hex(kept.list.as_bytes()),
        findings,
        notes: notes(&kept.manifest.made),
        again,
        failure: recomputed.err(),
    })
}

/// What the folder was made with, where that is not this command.
fn notes(filed: &Made) -> Vec<String> {
    let this = this_command();
    let pairs = [
        ("version", &filed.version, &this.version),
        ("commit", &filed.commit, &this.commit),
        ("library's SHA-256", &filed.library, &this.library),
    ];
    let others = pairs.into_iter().filter(|(_, filed, this)| filed != this);
    others.map(|(what, filed, this)| format!("the {what} is {filed} in {NAME}, and {this} of this command")).collect()
}

/// Asks again. Another assignment that meets the constraints is the same answer.
fn again(asking: &Asking, recomputed: &Recomputed, filed: &str) -> Result<Again, Failure> {
    let solved = solve(&recomputed.loaded, asking, &mut |_| {})?;
    let before = recomputed.solved.reach.lines.iter();
    let turned = before.zip(&solved.reach.lines).filter(|((_, before), (_, now))| {
        matches!((before, now), (Reached::Yes(_), Reached::Never) | (Reached::Never, Reached::Yes(_)))
    });
    let turned: Vec<u16> = turned.map(|((record, _), _)| *record).collect();
    let (same, note) = match (solved.verdict.trouble(), recomputed.solved.verdict.trouble(), turned.as_slice()) {
        ("", "", []) => (Some(answer(solved.word()) == answer(filed)), solved.note(&recomputed.loaded)),
        ("", "", turned) => (Some(false), format!("whether it is reached has turned: record {}", enumeration(turned))),
        ("", _, _) => (None, format!("{}; there is no filed answer to compare it with", solved.note(&recomputed.loaded))),
        (trouble, _, _) => (None, trouble.lines().next().unwrap_or_default().to_string()),
    };
    Ok(Again { solvers: asking.names().into_iter().map(str::to_string).collect(), answer: solved.word(), same, note })
}

/// The answer to the case's own question: a vacuous one is unsat. Which lines are reached is compared by itself.
fn answer(word: &str) -> &str {
    match word {
        "vacuous" => "unsat",
        word => word,
    }
}

impl Report {
    fn faults(&self) -> usize {
        self.findings.iter().filter(|finding| finding.state.is_fault()).count()
    }

    fn status(&self) -> i32 {
        let same = self.again.as_ref().map_or(Some(true), |again| again.same);
        match (&self.failure, self.faults(), same) {
            (Some(failure), _, _) if failure.status() == Failure::STATUS_REFUSED => Failure::STATUS_REFUSED,
            (_, 1.., _) | (None, _, Some(false)) => Status::Found.number(),
            (Some(_), ..) | (None, _, None) => Failure::STATUS_OTHER,
            (None, 0, Some(true)) => Status::Done.number(),
        }
    }

    /// What the status stands for.
    fn word(&self) -> &'static str {
        match self.status() {
            0 => "same",
            1 => "differs",
            2 => "refused",
            _ => "not known",
        }
    }

    fn text(&self) -> String {
        let Report { folder, answer, manifest, findings, notes, .. } = self;
        let width = findings.iter().map(|finding| finding.name.chars().count()).max().unwrap_or(0);
        let mut text = format!("{folder}: answer {answer}\n");
        for finding in findings {
            text.push_str(&format!("{:width$}  {}\n", finding.name, finding.in_words()));
        }
        for note in notes {
            text.push_str(&format!("note: {note}\n"));
        }
        let files = count(findings.len(), "file", "files");
        text.push_str(&match (self.faults(), &self.failure) {
            (0, None) => format!("the same: {files}, as far as they can be compared\n"),
            (0, Some(_)) => "nothing could be recomputed\n".to_string(),
            (faults, _) => format!("NOT THE SAME: {faults} of {files}\n"),
        });
        text.push_str(&self.again.as_ref().map(Again::in_words).unwrap_or_default());
        text + &format!("SHA-256 of {NAME}, to be compared with what was written down elsewhere:\n{manifest}\n")
    }

    fn json(&self) -> Json {
        let files = self.findings.iter().map(|Finding { name, state, note }| {
            Json::Object(vec![
                ("name", name.as_str().into()),
                ("state", state.word().into()),
                ("same", (!state.is_fault()).into()),
                ("note", note.as_str().into()),
            ])
        });
        let again = self.again.as_ref().map(|Again { solvers, answer, same, note }| {
            Json::Object(vec![
                ("solvers", list(solvers.iter().map(String::as_str))),
                ("answer", (*answer).into()),
                ("same", (*same).into()),
                ("note", note.as_str().into()),
            ])
        });
        let message = self.failure.as_ref().and_then(Failure::message).map(|message| list(message.lines()));
        Json::Object(vec![
            ("command", "verify".into()),
            ("folder", self.folder.as_str().into()),
            ("status", self.status().into()),
            ("answer", self.word().into()),
            ("filed", self.answer.as_str().into()),
            ("manifest", self.manifest.as_str().into()),
            ("files", Json::List(files.collect())),
            ("notes", list(self.notes.iter().map(String::as_str))),
            ("again", again.into()),
            ("message", message.into()),
        ])
    }
}

impl Finding {
    fn in_words(&self) -> String {
        match (self.state, self.note.as_str()) {
            (_, "") => self.state.word().to_string(),
            (State::Given | State::NotRecomputed, note) => format!("{} ({note})", self.state.word()),
            (_, note) => format!("{}: {note}", self.state.word()),
        }
    }
}

impl Again {
    fn in_words(&self) -> String {
        let Again { solvers, answer, same, note } = self;
        let comes_to = match same {
            Some(true) => "the same answer",
            Some(false) => "ANOTHER ANSWER",
            None => "no answer",
        };
        format!("asked again, {}: {answer}: {note}: {comes_to}\n", enumeration(solvers))
    }
}
