//! The files of a filed folder, as they follow from the case, the solvers' replies and what the folder was made with. `file` writes
//! them; `verify` makes them again, and compares.

use crate::calls::{listing, Loaded};
use crate::failure::Failure;
use crate::manifest::{Entry, Made, Manifest, Question};
use crate::meaning;
use crate::picture::Picture;
use crate::solve::{Solved, Verdict};
use crate::solver::{Answer, Asked};
use crate::source::{self, Draft};
use crate::words::enumeration;
use crate::{filed, readme, sha256, show, solver, told};
use std::ffi::OsStr;

/// The names of the files that were given. The texts name the case by it, so that they do not depend on where it was read.
pub const CASE: &str = "case.case";
pub const CASE_SOURCE: &str = "case.source";
pub const SOURCE: &str = "source.txt";
/// The first question, as text for solvers.
pub const CONSTRAINTS: &str = "constraints.smt2";
/// The run's picture; one of several pages has a file for each, with its number.
const PICTURE: &str = "picture.svg";

/// A filed case, with its names where its filed source makes it.
pub fn draft(case: &[u8], source: &[u8]) -> Draft {
    let made = source::of_bytes(source).filter(|draft| draft.bytes == case);
    made.unwrap_or_else(|| Draft::of_bytes(case.to_vec()))
}

/// What a folder is made from.
pub struct Check<'a> {
    /// Its name is that of the filed case.
    pub loaded: &'a Loaded,
    pub source: Option<Vec<u8>>,
    pub solved: &'a Solved,
    pub made: &'a Made,
}

pub struct File {
    pub name: String,
    /// What it is, for a reader of the folder.
    pub about: String,
    /// Whether it was given, by a user or a solver, and does not follow from the others.
    pub given: bool,
    pub bytes: Vec<u8>,
}

/// A folder's files, in the order of its list, and the list.
pub struct Folder {
    pub files: Vec<File>,
    pub manifest: Manifest,
}

impl Folder {
    pub fn of(check: &Check) -> Result<Folder, Failure> {
        let Check { loaded, solved, made, .. } = check;
        let answer = solved.word().to_string();
        let manifest = Manifest { made: (*made).clone(), answer, ..Manifest::default() };
        let mut folder = Folder { files: Vec::new(), manifest };
        folder.case(check)?;
        folder.add(
            CONSTRAINTS,
            "the constraints as the proved library writes them for solvers (SMT-LIB 2, QF_BV)",
            solved.text.clone(),
        );
        folder.replies(CONSTRAINTS, "reply", &solved.asked);
        folder.run(loaded, &solved.verdict);
        let about = "for each assert and unlock, whether a legal run within the bound reaches it";
        folder.add("reached.txt", about, told::reached(loaded, &solved.reach));
        for (question, number) in solved.reach.questions.iter().zip(1..) {
            let (name, reply) = (format!("reached-{number}.smt2"), format!("reached-{number}-reply"));
            let records = enumeration(&question.records);
            let about = format!(
                "whether one of record {records} is reached: there they are asserts of 0, and the 7 is about them alone"
            );
            folder.add(&name, &about, question.text.clone());
            folder.replies(&name, &reply, &question.asked);
        }
        folder.add(
            "verdict.txt",
            "the answer in words, what it means and what it does not mean",
            meaning::text(loaded, solved),
        );
        folder.add(readme::NAME, readme::ABOUT, readme::text(&folder));
        folder.manifest.files = folder.files.iter().map(File::entry).collect();
        Ok(folder)
    }

    /// The case and its source, and what follows from the case alone.
    fn case(&mut self, check: &Check) -> Result<(), Failure> {
        let bytes = &check.loaded.case.bytes;
        match &check.loaded.source {
            None => self.give(CASE, "the case: the bytes that were checked", bytes.clone()),
            Some(source) => {
                self.give(CASE_SOURCE, "the case as source: lines in words, with names", source.clone().into_bytes());
                self.make(CASE, &format!("the case: the bytes that were checked, made from {CASE_SOURCE}"), bytes.clone());
            }
        }
        if let Some(source) = &check.source {
            self.give(SOURCE, "what the case was made from, by the word of who filed it", source.clone());
        }
        self.add("listing.txt", "the constraints, as the proved library lists them", listing(bytes)?);
        self.add("show.txt", "the case in words, line by line", show::text(check.loaded));
        Ok(())
    }

    /// What solvers replied to a question.
    fn replies(&mut self, question: &str, reply: &str, asked: &[Asked]) {
        for one in asked {
            let reply = match asked.len() {
                1 => format!("{reply}.txt"),
                _ => format!("{reply}-{}.txt", one.solver),
            };
            self.give(&reply, &format!("what {} printed", one.solver), one.reply.clone());
            self.manifest.asked.push(Question { text: question.to_string(), reply, answer: answer_in_words(&one.answer) });
        }
    }

    /// What the library made of an assignment.
    fn run(&mut self, loaded: &Loaded, verdict: &Verdict) {
        let Some(found) = verdict.found() else {
            return;
        };
        let (assignment, schedule) = (&found.assignment, &found.schedule);
        let about = "the solver's numbers, one for each variable, which meet the constraints";
        self.add("assignment.txt", about, filed::assignment(loaded, assignment));
        self.add("schedule.txt", "the schedule that the assignment stands for", filed::schedule(loaded, schedule));
        self.add("run.txt", "the run of that schedule, line by line", found.run.text(&loaded.case, schedule));
        for (name, svg) in Picture::of(&loaded.case, "case", &found.run).files(OsStr::new(PICTURE)) {
            self.add(&name.to_string_lossy(), "that run, drawn", svg);
        }
    }

    fn give(&mut self, name: &str, about: &str, bytes: Vec<u8>) {
        self.files.push(File { name: name.to_string(), about: about.to_string(), given: true, bytes });
    }

    fn add(&mut self, name: &str, about: &str, text: String) {
        self.make(name, about, text.into_bytes());
    }

    fn make(&mut self, name: &str, about: &str, bytes: Vec<u8>) {
        self.files.push(File { name: name.to_string(), about: about.to_string(), given: false, bytes });
    }
}

impl File {
    pub fn entry(&self) -> Entry {
        Entry { name: self.name.clone(), hash: sha256::hex(&self.bytes) }
    }
}

/// Before the reason why there is no answer.
const NO_ANSWER: &str = "none: ";

/// An answer as the list has it.
fn answer_in_words(answer: &Answer) -> String {
    match answer {
        Answer::Sat(_) => "sat".to_string(),
        Answer::Unsat => "unsat".to_string(),
        Answer::Unknown => "unknown".to_string(),
        Answer::Timeout => "timeout".to_string(),
        Answer::None(why) => format!("{NO_ANSWER}{}", one_line(why)),
    }
}

/// An answer read back. What ended a solver is not in its reply, so that stands in the list; all else is read from the reply.
pub fn answer_of(words: &str, reply: &str, variables: usize) -> Answer {
    match (words, words.strip_prefix(NO_ANSWER)) {
        ("timeout", _) => Answer::Timeout,
        (_, Some(why)) => Answer::None(why.to_string()),
        _ => solver::read(reply, variables),
    }
}

/// A value for the list: not empty, on one line, and without a character that a terminal would act on.
pub fn one_line(text: &str) -> String {
    let line: String = text.chars().map(|sign| if sign.is_control() { '?' } else { sign }).collect();
    match line.trim() {
        "" => "unknown".to_string(),
        line => line.to_string(),
    }
}
