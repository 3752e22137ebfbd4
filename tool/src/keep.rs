//! `solve --keep FOLDER` and `--resume FOLDER`: the texts of each case's answer, in files that are named as the case. Nothing that
//! is there is replaced unless that is asked for, and nothing of an earlier answer stays beside a new one.

use crate::answer_file::{self, Filed};
use crate::calls::Loaded;
use crate::failure::Failure;
use crate::filed;
use crate::input::{plain_file, Source};
use crate::name::shown;
use crate::sha256;
use crate::solve::{Asking, Solved, Wanted};
use crate::summary::Summary;
use crate::told;
use std::ffi::{OsStr, OsString};
use std::fs::{self, OpenOptions};
use std::io::{ErrorKind, Write};
use std::path::{Path, PathBuf};

pub struct Keep {
    pub folder: OsString,
    /// Whether files that are there are replaced.
    pub force: bool,
    /// Whether cases that have an answer there are left out.
    pub resume: bool,
}

/// The ending of the answer's own file. It is there, without an answer, before the others, and gets the answer after them.
const ANSWER: &str = "answer";

/// The ending of the text that was asked about.
const TEXT: &str = "smt2";

/// Every ending of a kept file.
const ENDINGS: [&str; 8] = [TEXT, "reply", "reply-z3", "reply-cvc5", "assignment", "schedule", "reached", ANSWER];

impl Keep {
    /// Makes the folder, and looks whether something is in the way, before any solver is asked. What stands beside an answer's own
    /// file was written by this command.
    pub fn prepare(&self, source: &Source) -> Result<(), Failure> {
        fs::create_dir_all(&self.folder).map_err(|error| Failure::of_file(&self.folder, &error))?;
        let stem = source.stem();
        let files: Vec<PathBuf> = ENDINGS.iter().map(|ending| self.file(&stem, ending)).collect();
        if let Some(file) = files.iter().find(|file| is_same(file, Path::new(source.path()))) {
            return Err(Failure::Other(format!("{} is the case itself, and is not replaced", shown(file.as_os_str()))));
        }
        let resumed = self.resume && is_there(&self.file(&stem, ANSWER));
        match files.iter().find(|file| is_there(file)) {
            Some(file) if !self.force && !resumed => Err(in_the_way(file)),
            _ => Ok(()),
        }
    }

    fn file(&self, stem: &OsStr, ending: &str) -> PathBuf {
        let mut name = stem.to_os_string();
        name.push(format!(".{ending}"));
        Path::new(&self.folder).join(name)
    }

    /// The answer that is filed for this case, where answers are resumed and there is one. Its object has the status of this call.
    pub fn filed(&self, loaded: &Loaded, wanted: &Wanted, asking: &Asking) -> Result<Option<Summary>, Failure> {
        let file = self.file(&loaded.stem, ANSWER);
        if !self.resume || !is_there(&file) {
            return Ok(None);
        }
        let problem = match answer_file::read(&file) {
            Some((case, _)) if case != sha256::hex(&loaded.case.bytes) => {
                "the answer that is filed is of another case of this name"
            }
            Some((_, None)) => return Ok(None),
            Some((_, Some(answer))) if !answer.is_final() => return Ok(None),
            Some((_, Some(answer))) if !self.has_all(&loaded.stem, &answer) => "what was filed with this answer has changed",
            Some((_, Some(_))) if !self.has_text(&loaded.stem, &loaded.text()?) => {
                "the answer that is filed is to another text than that of this case"
            }
            Some((_, Some(answer))) => match answer.is_by(wanted, asking) {
                true => return Ok(Some(answer.resumed(&loaded.name, wanted.strict))),
                false => "the answer that is filed is not by the solver that is chosen",
            },
            None => "not an answer that this command wrote",
        };
        match self.force {
            true => Ok(None),
            false => {
                Err(Failure::Other(format!("{}: {problem}; --force asks again, and replaces it", shown(file.as_os_str()))))
            }
        }
    }

    fn has_all(&self, stem: &OsStr, answer: &Filed) -> bool {
        let is_same = |(ending, hash): &(String, String)| {
            plain_file(&self.file(stem, ending)).is_ok_and(|bytes| sha256::hex(&bytes) == *hash)
        };
        answer.files.iter().all(is_same)
    }

    /// Whether this is the text that was asked about.
    fn has_text(&self, stem: &OsStr, text: &str) -> bool {
        plain_file(&self.file(stem, TEXT)).is_ok_and(|bytes| bytes == text.as_bytes())
    }

    /// Removes what is there of an earlier answer, where it is to be replaced.
    pub fn clear(&self, stem: &OsStr) -> Result<(), Failure> {
        let replaced = self.force || (self.resume && is_there(&self.file(stem, ANSWER)));
        if !replaced {
            return Ok(());
        }
        for file in ENDINGS.map(|ending| self.file(stem, ending)) {
            match fs::remove_file(&file) {
                Err(error) if error.kind() != ErrorKind::NotFound => return Err(Failure::of_file(&file, &error)),
                _ => {}
            }
        }
        Ok(())
    }

    /// Files what came of a case.
    pub fn keep(&self, loaded: &Loaded, asking: &Asking, solved: &Solved, summary: &Summary) -> Result<(), Failure> {
        let stem = loaded.stem.as_os_str();
        let case = sha256::hex(&loaded.case.bytes);
        let answer = self.file(stem, ANSWER);
        write(&answer, answer_file::begun(&case).as_bytes())?;
        let texts = texts(loaded, solved);
        for (ending, bytes) in &texts {
            write(&self.file(stem, ending), bytes)?;
        }
        let text = answer_file::text(&case, asking, solved, summary, &texts);
        let whole = self.file(stem, &format!("{ANSWER}.part-{}", std::process::id()));
        write(&whole, text.as_bytes())?;
        fs::rename(&whole, &answer).map_err(|error| Failure::of_file(&answer, &error))
    }
}

/// What is kept of an answer: endings, and what the files have.
fn texts(loaded: &Loaded, solved: &Solved) -> Vec<(String, Vec<u8>)> {
    let mut texts = vec![(TEXT.to_string(), solved.text.clone().into_bytes())];
    texts.extend(solved.asked.iter().map(|asked| match solved.asked.len() {
        1 => ("reply".to_string(), asked.reply.clone()),
        _ => (format!("reply-{}", asked.solver), asked.reply.clone()),
    }));
    if let Some(found) = solved.verdict.found() {
        texts.push(("assignment".to_string(), filed::assignment(loaded, &found.assignment).into_bytes()));
        texts.push(("schedule".to_string(), filed::schedule(loaded, &found.schedule).into_bytes()));
    }
    texts.push(("reached".to_string(), told::reached(loaded, &solved.reach).into_bytes()));
    texts
}

fn is_there(file: &Path) -> bool {
    file.symlink_metadata().is_ok()
}

/// Whether two names lead to one file.
fn is_same(one: &Path, other: &Path) -> bool {
    matches!((one.canonicalize(), other.canonicalize()), (Ok(one), Ok(other)) if one == other)
}

fn in_the_way(file: &Path) -> Failure {
    Failure::Other(format!(
        "{} is there already; --force replaces it, and --resume FOLDER goes on with what has no answer there",
        shown(file.as_os_str())
    ))
}

/// Writes a file that is not there. One that cannot be written to its end goes again.
fn write(file: &Path, bytes: &[u8]) -> Result<(), Failure> {
    let mut opened = match OpenOptions::new().write(true).create_new(true).open(file) {
        Ok(opened) => opened,
        Err(error) if error.kind() == ErrorKind::AlreadyExists => return Err(in_the_way(file)),
        Err(error) => return Err(Failure::of_file(file, &error)),
    };
    opened.write_all(bytes).map_err(|error| {
        let _ = fs::remove_file(file);
        Failure::of_file(file, &error)
    })
}

/// Writes the file that a command makes of these inputs.
pub fn write_output(file: &OsStr, bytes: &[u8], force: bool, inputs: &[&Source]) -> Result<(), Failure> {
    may_write(file, force, inputs)?;
    let there = is_there(Path::new(file));
    let mut options = OpenOptions::new();
    match force {
        true => options.write(true).create(true).truncate(true),
        false => options.write(true).create_new(true),
    };
    let written = options.open(file).and_then(|mut opened| {
        opened.write_all(bytes).inspect_err(|_| {
            // A part of a file is worse than none.
            if !there {
                let _ = fs::remove_file(file);
            }
        })
    });
    written.map_err(|error| Failure::of_file(file, &error))
}

/// Writes several files, or none of them: where one fails, those before it go again, but for such as were to be replaced, since
/// what they replaced is gone.
pub fn write_outputs(files: &[(OsString, String)], force: bool, inputs: &[&Source]) -> Result<(), Failure> {
    files.iter().try_for_each(|(file, _)| may_write(file, force, inputs))?;
    for (number, (file, text)) in files.iter().enumerate() {
        write_output(file, text.as_bytes(), force, inputs).inspect_err(|_| {
            let written = if force { &[] } else { &files[..number] };
            written.iter().for_each(|(file, _)| drop(fs::remove_file(file)));
        })?;
    }
    Ok(())
}

/// Fails where a file is there, and is not to be replaced: an input never is, and another only where that is asked for.
pub fn may_write(file: &OsStr, force: bool, inputs: &[&Source]) -> Result<(), Failure> {
    let path = Path::new(file);
    match inputs.iter().any(|input| is_same(path, Path::new(input.path()))) {
        true => Err(Failure::Other(format!("{} is an input, and is not replaced", shown(file)))),
        false if is_there(path) && !force => {
            Err(Failure::Other(format!("{} is there already; --force replaces it", shown(file))))
        }
        false => Ok(()),
    }
}
