//! MANIFEST, the list of a filed folder: what it was made with, what was asked and answered, and the SHA-256 of each file. It is
//! text that `sha256sum -c` takes as it is, since that passes over lines that begin with `#`.

use crate::numbers::shortened;

/// The name of the list itself, which is not in it.
pub const NAME: &str = "MANIFEST";
/// What the folder is. A later form gets another number.
const FORMAT: &str = "menduvo file 1";

#[derive(Clone, Debug, Default, PartialEq, Eq)]
pub struct Manifest {
    pub made: Made,
    /// In the order in which they were asked, and for each question the solvers in their order.
    pub asked: Vec<Question>,
    /// What came of it, in a word.
    pub answer: String,
    /// In the order of the list.
    pub files: Vec<Entry>,
}

/// What a folder was made with.
#[derive(Clone, Debug, Default, PartialEq, Eq)]
pub struct Made {
    /// The version of the command.
    pub version: String,
    pub commit: String,
    /// The SHA-256 of the library.
    pub library: String,
    /// The command line, to be pasted into a shell.
    pub command: String,
    pub solvers: Vec<Program>,
}

/// A solver.
#[derive(Clone, Debug, PartialEq, Eq)]
pub struct Program {
    pub name: String,
    pub version: String,
    /// Program and arguments.
    pub command: String,
}

/// What a solver was asked, in this file, what it replied, in that, and what was read there.
#[derive(Clone, Debug, PartialEq, Eq)]
pub struct Question {
    pub text: String,
    pub reply: String,
    pub answer: String,
}

#[derive(Clone, Debug, PartialEq, Eq)]
pub struct Entry {
    pub name: String,
    pub hash: String,
}

impl Manifest {
    pub fn text(&self) -> String {
        let Made { version, commit, library, command, solvers } = &self.made;
        let mut lines = vec![
            format!("# format: {FORMAT}"),
            format!("# menduvo: {version}"),
            format!("# commit: {commit}"),
            format!("# library: {library}"),
            format!("# command: {command}"),
        ];
        for Program { name, version, command } in solvers {
            lines.push(format!("# solver: {name}"));
            lines.push(format!("# solver version: {version}"));
            lines.push(format!("# solver command: {command}"));
        }
        for Question { text, reply, answer } in &self.asked {
            lines.push(format!("# asked: {text} {reply} {answer}"));
        }
        lines.push(format!("# answer: {}", self.answer));
        lines.extend(self.files.iter().map(|Entry { name, hash }| format!("{hash}  {name}")));
        lines.join("\n") + "\n"
    }

    /// Reads a list back. Every line must be understood; else the message names the first that is not.
    pub fn read(text: &str) -> Result<Manifest, String> {
        let mut lines = Lines { all: text.split('\n').collect(), next: 0 };
        let mut manifest = Manifest { made: lines.made()?, ..Manifest::default() };
        while lines.has("asked") {
            manifest.asked.push(lines.question()?);
        }
        manifest.answer = lines.value("answer")?;
        while !lines.at_end() {
            let entry = lines.entry()?;
            if manifest.has(&entry.name) {
                return Err(format!("line {}: {} is listed twice", lines.next, entry.name));
            }
            manifest.files.push(entry);
        }
        Ok(manifest)
    }

    pub fn has(&self, name: &str) -> bool {
        self.files.iter().any(|entry| entry.name == name)
    }
}

/// Whether a name can be that of a file in the folder, and of nothing outside.
fn is_plain(name: &str) -> bool {
    let plain = |sign: char| sign.is_ascii_alphanumeric() || ".-_".contains(sign);
    !name.is_empty() && !name.starts_with(['.', '-']) && name.chars().all(plain) && name != NAME
}

/// The lines, and the number of those that were read.
struct Lines<'a> {
    all: Vec<&'a str>,
    next: usize,
}

impl<'a> Lines<'a> {
    /// Whether all lines were read. The text ends with the end of a line, so what follows the last one is empty.
    fn at_end(&self) -> bool {
        self.next + 1 == self.all.len() && self.all[self.next].is_empty()
    }

    /// Whether the next line has this key.
    fn has(&self, key: &str) -> bool {
        self.all.get(self.next).is_some_and(|line| line.starts_with(&format!("# {key}: ")))
    }

    /// The value of the next line, which must have this key.
    fn value(&mut self, key: &str) -> Result<String, String> {
        let line = self.line()?;
        let value = line.strip_prefix(&format!("# {key}: ")).filter(|value| value.trim() == *value && !value.is_empty());
        value.map(str::to_string).ok_or_else(|| {
            self.problem(&format!("expected is '# {key}: ' and a value, without a blank at its end; this is not"), line)
        })
    }

    fn made(&mut self) -> Result<Made, String> {
        let format = self.value("format")?;
        if format != FORMAT {
            return Err(self.problem(&format!("this command knows the format '{FORMAT}', and not this one"), &format));
        }
        let (version, commit) = (self.value("menduvo")?, self.value("commit")?);
        let (library, command) = (self.value("library")?, self.value("command")?);
        let mut made = Made { version, commit, library, command, solvers: Vec::new() };
        while self.has("solver") {
            let (name, version) = (self.value("solver")?, self.value("solver version")?);
            made.solvers.push(Program { name, version, command: self.value("solver command")? });
        }
        Ok(made)
    }

    fn question(&mut self) -> Result<Question, String> {
        let value = self.value("asked")?;
        let words: Vec<&str> = value.splitn(3, ' ').collect();
        match words.as_slice() {
            [text, reply, answer] if is_plain(text) && is_plain(reply) => {
                Ok(Question { text: text.to_string(), reply: reply.to_string(), answer: answer.to_string() })
            }
            _ => Err(self.problem("expected are two names of files and an answer; this is not", &value)),
        }
    }

    fn entry(&mut self) -> Result<Entry, String> {
        let line = self.line()?;
        let digits =
            |hash: &str| hash.len() == 64 && hash.bytes().all(|byte| byte.is_ascii_digit() || (b'a'..=b'f').contains(&byte));
        let Some((hash, name)) = line.split_once("  ").filter(|(hash, _)| digits(hash)) else {
            return Err(self.problem("expected are a SHA-256, two blanks and a name; this is not", line));
        };
        match is_plain(name) {
            true => Ok(Entry { name: name.to_string(), hash: hash.to_string() }),
            false => Err(self.problem("this is no name of a file in the folder", name)),
        }
    }

    fn line(&mut self) -> Result<&'a str, String> {
        let (line, last) = (self.all.get(self.next).copied(), self.next + 1 >= self.all.len());
        self.next += 1;
        match line {
            Some(line) if line.chars().any(char::is_control) => Err(self.problem("it has a control character", line)),
            Some(line) if !last => Ok(line),
            Some("") | None => Err(format!("line {}: it ends before its end", self.next)),
            Some(line) => Err(self.problem("the line does not end", line)),
        }
    }

    fn problem(&self, problem: &str, line: &str) -> String {
        format!("line {}: {problem}: '{}'", self.next, shortened(line))
    }
}
