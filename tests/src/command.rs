//! The command, asked for sources and cases through its standard input.

use std::env;
use std::fs;
use std::process::{Command, Stdio};
use std::thread;
use std::time::{Duration, Instant};

use crate::calls::Refusal;
use crate::program::{run_to_end, Ended};
use crate::second::source::Place;

/// The environment variable that names the command.
pub const PROGRAM: &str = "MENDUVO_COMMAND";

/// How many calls are made at the same time.
const AT_ONCE: usize = 2;

/// What the command makes of a text.
#[derive(Clone, Debug, PartialEq, Eq)]
pub enum Answer {
    Made(Vec<u8>),
    /// A text outside the grammar.
    Wrong(Place),
    /// A made case that the library refuses, with its place in the text; or a
    /// file that is no source, and no case.
    Refused(Option<Place>, Refusal),
}

/// The command's program.
pub struct Menduvo(String);

impl Menduvo {
    /// The program that the launcher builds and then becomes: asked directly it
    /// answers ten times as fast. Where it cannot be found, the launcher.
    pub fn find() -> Result<Menduvo, String> {
        let launcher = env::var(PROGRAM).map_err(|_| format!("{PROGRAM} does not name a program"))?;
        build(&launcher)?;
        Ok(Menduvo(program_behind(&launcher).unwrap_or(launcher)))
    }

    /// The case made from a source.
    pub fn make(&self, source: &[u8]) -> Result<Answer, String> {
        let Ended { status, printed, said } = run_to_end(&self.0, &["make", "-", "-o", "-"], source)?;
        let said = String::from_utf8_lossy(&said);
        match status {
            Some(0) if said.is_empty() => Ok(Answer::Made(printed)),
            Some(2) if printed.is_empty() => refused(&said).ok_or_else(|| format!("it said {said}")),
            _ => Err(format!("make ended with {status:?}, printed {} bytes and said {said}", printed.len())),
        }
    }

    /// What one of its other commands prints of a case or a source.
    pub fn print(&self, command: &str, case: &[u8]) -> Result<String, String> {
        let Ended { status, printed, said } = run_to_end(&self.0, &[command, "-"], case)?;
        if status != Some(0) || !said.is_empty() {
            return Err(format!("{command} ended with {status:?} and said {}", String::from_utf8_lossy(&said)));
        }
        String::from_utf8(printed).map_err(|_| format!("what {command} printed is no text"))
    }

    /// Answers to many questions, some at once, in the order of the questions.
    pub fn each<Q: Sync, A: Send>(
        &self,
        questions: &[Q],
        ask: impl Fn(&Menduvo, &Q) -> Result<A, String> + Sync,
    ) -> Result<Vec<A>, String> {
        let share = questions.len().div_ceil(AT_ONCE).max(1);
        let answer = |questions: &[Q]| questions.iter().map(|question| ask(self, question)).collect();
        let answers: Vec<Result<Vec<A>, String>> = thread::scope(|scope| {
            let shares: Vec<_> = questions.chunks(share).map(|share| scope.spawn(|| answer(share))).collect();
            shares.into_iter().map(|share| share.join().expect("asking does not panic")).collect()
        });
        Ok(answers.into_iter().collect::<Result<Vec<_>, _>>()?.into_iter().flatten().collect())
    }
}

/// Runs the launcher once, so that it builds what it must. That may take longer
/// than an answer.
fn build(launcher: &str) -> Result<(), String> {
    let status = Command::new(launcher).arg("--version").stdout(Stdio::null()).status();
    match status {
        Ok(status) if status.success() => Ok(()),
        Ok(status) => Err(format!("{launcher} --version: {status}")),
        Err(error) => Err(format!("{launcher} cannot be started: {error}")),
    }
}

/// The program that the launcher becomes: it waits for its input, and the
/// system tells what runs.
fn program_behind(launcher: &str) -> Option<String> {
    let mut command = Command::new(launcher);
    command.args(["source", "-"]).stdin(Stdio::piped()).stdout(Stdio::null()).stderr(Stdio::null());
    let mut child = command.spawn().ok()?;
    let started = Instant::now();
    let mut found = None;
    while found.is_none() && started.elapsed() < Duration::from_secs(5) {
        thread::sleep(Duration::from_millis(5));
        let running = fs::read_link(format!("/proc/{}/exe", child.id())).ok();
        found = running.filter(|program| program.ends_with("release/menduvo"));
    }
    let _ = child.kill();
    let _ = child.wait();
    found?.into_os_string().into_string().ok()
}

/// "menduvo: standard input: line 3, column 5: refusal 2, place 0: ..", in which
/// the line or the refusal may be missing.
fn refused(said: &str) -> Option<Answer> {
    let rest = said.strip_prefix("menduvo: standard input: ")?;
    let (place, rest) = match pair(rest, "line ", ", column ") {
        Some((line, column, rest)) => (Some(Place { line, column }), rest),
        None => (None, rest),
    };
    match (pair(rest, "refusal ", ", place "), place) {
        (Some((number, at, _)), _) => {
            let refusal = Refusal { number: u16::try_from(number).ok()?, place: u16::try_from(at).ok()? };
            Some(Answer::Refused(place, refusal))
        }
        (None, place) => place.map(Answer::Wrong),
    }
}

/// Two numbers with these words before and between them and ": " behind, and
/// the rest.
fn pair<'a>(text: &'a str, before: &str, between: &str) -> Option<(usize, usize, &'a str)> {
    let (numbers, rest) = text.strip_prefix(before)?.split_once(": ")?;
    let (first, second) = numbers.split_once(between)?;
    Some((first.parse().ok()?, second.parse().ok()?, rest))
}
