//! `menduvo verify`: whether a filed folder is what its list says, and whether all that follows from the case and the replies
//! follows again, byte by byte. It writes nothing.

use crate::calls::Loaded;
use crate::failure::Failure;
use crate::folder::{answer_of, draft, Check, Folder, CASE, CASE_SOURCE, CONSTRAINTS, SOURCE};
use crate::input::Source;
use crate::kept::Kept;
use crate::manifest::{Entry, Manifest, NAME};
use crate::numbers::shortened;
use crate::sha256;
use crate::solve::{solve_by, Ask, Solved};
use crate::solver::{Answer, Asked};
use std::ffi::OsStr;
use std::sync::{Mutex, PoisonError};

/// Whether a file is as it was filed.
#[derive(Clone, Copy, Debug, PartialEq, Eq)]
pub enum State {
    Same,
    Differs,
    Missing,
    NotListed,
    /// It was given, so that nothing can be compared but its hash, which is the same.
    Given,
    /// It follows from what could not be read.
    NotRecomputed,
}

/// What is found of a file.
pub struct Finding {
    pub name: String,
    pub state: State,
    pub note: String,
}

/// What follows from the filed case and replies.
pub struct Recomputed {
    pub loaded: Loaded,
    pub solved: Solved,
    pub folder: Folder,
}

/// Makes everything again that needs no solver.
pub fn recompute(kept: &Kept) -> Result<Recomputed, Failure> {
    let case = kept.bytes(CASE).map_err(|problem| Failure::Other(format!("{CASE}: {problem}")))?;
    let loaded = Loaded::of(&Source::new(OsStr::new(CASE)), draft(case, kept.bytes(CASE_SOURCE).unwrap_or_default()))?;
    let (first, others) = Replies::of(kept, loaded.table.variables);
    let solved = solve_by(&loaded, &first, &others, &mut |_| {})?;
    let source = kept.manifest.has(SOURCE).then(|| kept.bytes(SOURCE).unwrap_or_default().to_vec());
    let folder = Folder::of(&Check { loaded: &loaded, source, solved: &solved, made: &kept.manifest.made })?;
    Ok(Recomputed { loaded, solved, folder })
}

/// Solvers' answers that are filed, in the place of solvers: for each question the next.
struct Replies(Mutex<std::vec::IntoIter<Vec<Asked>>>);

impl Replies {
    /// The answers to the first question, and those to the others.
    fn of(kept: &Kept, variables: usize) -> (Replies, Replies) {
        let mut questions: Vec<(&str, Vec<Asked>)> = Vec::new();
        for question in &kept.manifest.asked {
            if questions.last().is_none_or(|(text, _)| *text != question.text) {
                questions.push((&question.text, Vec::new()));
            }
            let Some((_, asked)) = questions.last_mut() else { continue };
            let solver = kept.manifest.made.solvers.get(asked.len()).map_or("a solver", |solver| solver.name.as_str());
            asked.push(match kept.bytes(&question.reply) {
                Ok(bytes) => {
                    let answer = answer_of(&question.answer, &String::from_utf8_lossy(bytes), variables);
                    Asked { solver: solver.to_string(), answer, reply: bytes.to_vec() }
                }
                Err(problem) => Asked { solver: solver.to_string(), answer: Answer::None(problem), reply: Vec::new() },
            });
        }
        let (first, others): (Vec<_>, Vec<_>) = questions.into_iter().partition(|(text, _)| *text == CONSTRAINTS);
        let replies = |questions: Vec<(&str, Vec<Asked>)>| {
            let asked: Vec<Vec<Asked>> = questions.into_iter().map(|(_, asked)| asked).collect();
            Replies(Mutex::new(asked.into_iter()))
        };
        (replies(first), replies(others))
    }
}

impl Ask for Replies {
    fn ask(&self, _: &str, _: usize) -> Vec<Asked> {
        let next = self.0.lock().unwrap_or_else(PoisonError::into_inner).next();
        next.unwrap_or_else(|| {
            let answer = Answer::None("no reply to this question is filed".to_string());
            vec![Asked { solver: "a solver".to_string(), answer, reply: Vec::new() }]
        })
    }
}

/// File by file: the same or not. The list itself comes first.
pub fn findings(kept: &Kept, recomputed: Result<&Folder, &str>) -> Vec<Finding> {
    let mut findings = vec![list(&kept.manifest, recomputed)];
    findings.extend(kept.manifest.files.iter().map(|entry| one(kept, entry, recomputed)));
    // Without a case nothing follows, so it is missed by itself.
    let names = recomputed.map_or(vec![CASE], |folder| folder.files.iter().map(|file| file.name.as_str()).collect());
    for name in names {
        if !kept.manifest.has(name) && !kept.others.iter().any(|other| other == name) {
            let note = format!("it belongs to this check, and is neither there nor in {NAME}");
            findings.push(finding(name, State::Missing, &note));
        }
    }
    let note = format!("it is in the folder, and not in {NAME}");
    findings.extend(kept.others.iter().map(|name| finding(name, State::NotListed, &note)));
    findings
}

/// Whether the list's own words follow.
fn list(filed: &Manifest, recomputed: Result<&Folder, &str>) -> Finding {
    let folder = match recomputed {
        Ok(folder) => folder,
        Err(why) => return finding(NAME, State::NotRecomputed, why),
    };
    let words = |manifest: &Manifest| Manifest { files: Vec::new(), ..manifest.clone() }.text();
    let names = |manifest: &Manifest| manifest.files.iter().map(|entry| format!("{}\n", entry.name)).collect::<String>();
    let (is, should) = (words(filed) + &names(filed), words(&folder.manifest) + &names(&folder.manifest));
    match is == should {
        true => finding(NAME, State::Same, ""),
        false => finding(NAME, State::Differs, &first_difference(is.as_bytes(), should.as_bytes())),
    }
}

fn one(kept: &Kept, entry: &Entry, recomputed: Result<&Folder, &str>) -> Finding {
    let Entry { name, hash } = entry;
    let bytes = match kept.bytes(name) {
        Ok(bytes) => bytes,
        Err(problem) => return finding(name, State::Missing, &problem),
    };
    let file = recomputed.map(|folder| folder.files.iter().find(|file| file.name == *name));
    let difference = match file {
        Ok(Some(file)) if !file.given && file.bytes != bytes => Some(first_difference(bytes, &file.bytes)),
        Ok(None) => Some("this check has no such file".to_string()),
        _ => None,
    };
    let hash_differs = (sha256::hex(bytes) != *hash).then(|| format!("its SHA-256 is not that of {NAME}"));
    let notes: Vec<String> = hash_differs.into_iter().chain(difference).collect();
    match (file, notes.is_empty()) {
        (_, false) => finding(name, State::Differs, &notes.join("; ")),
        (Ok(Some(file)), true) if file.given => finding(name, State::Given, "it was given; its SHA-256 is the same"),
        (Ok(_), true) => finding(name, State::Same, ""),
        (Err(why), true) => finding(name, State::NotRecomputed, &format!("{why}; its SHA-256 is the same")),
    }
}

fn finding(name: &str, state: State, note: &str) -> Finding {
    Finding { name: name.to_string(), state, note: note.to_string() }
}

/// The first line in which two texts differ, from a little before the difference.
fn first_difference(is: &[u8], should: &[u8]) -> String {
    let same = is.iter().zip(should).take_while(|(is, should)| is == should).count();
    let line = is[..same].iter().filter(|&&byte| byte == b'\n').count() + 1;
    let start = is[..same].iter().rposition(|&byte| byte == b'\n').map_or(0, |place| place + 1);
    let from = start.max(same.saturating_sub(20));
    let words = |bytes: &[u8]| match bytes.get(from..) {
        None | Some([]) => "nothing".to_string(),
        Some(rest) => {
            let rest = rest.split(|&byte| byte == b'\n').next().unwrap_or_default();
            let before = if from > start { ".." } else { "" };
            format!("'{before}{}'", shortened(&String::from_utf8_lossy(rest)))
        }
    };
    format!("line {line} is {}, and recomputed {}", words(is), words(should))
}

impl State {
    pub fn word(self) -> &'static str {
        match self {
            State::Same => "same",
            State::Differs => "differs",
            State::Missing => "missing",
            State::NotListed => "not listed",
            State::Given | State::NotRecomputed => "not recomputed",
        }
    }

    /// Whether the file is not as it was filed, as far as it was compared.
    pub fn is_fault(self) -> bool {
        matches!(self, State::Differs | State::Missing | State::NotListed)
    }
}
