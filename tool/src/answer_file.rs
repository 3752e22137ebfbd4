//! The file of a kept answer, which `--resume` reads: a line for each part, with its name before it, and last a SHA-256 of the
//! lines before, so that a file that is not whole, or was changed, is told.

use crate::input::plain_file;
use crate::objects;
use crate::sha256;
use crate::solve::{Asking, Solved, Wanted, ANSWERS};
use crate::summary::Summary;
use std::path::Path;

/// The first line. One of before the answers were about unlocks too has another.
const FORM: &str = "# an answer of 'menduvo solve' about asserts and unlocks, for --resume";

/// What `--resume` takes for an answer; the others are asked again.
const FINAL: [&str; 3] = ["violated", "unsat", "vacuous"];

/// An answer that was filed.
pub struct Filed {
    summary: Summary,
    /// The solvers' commands.
    commands: String,
    /// Whether something is known of each assert and unlock.
    settled: bool,
    /// The files beside it: their endings and SHA-256.
    pub files: Vec<(String, String)>,
}

impl Filed {
    /// Whether nothing is left to ask. A violation is a fact; an unsat is about lines that are reached.
    pub fn is_final(&self) -> bool {
        FINAL.contains(&self.summary.word.as_str()) && (self.settled || self.summary.word == "violated")
    }

    /// Whether it serves where these solvers are chosen: unsat is their own word.
    pub fn is_by(&self, wanted: &Wanted, asking: &Asking) -> bool {
        self.summary.word == "violated" || wanted.settings.solvers.is_empty() || self.commands == commands(asking)
    }

    pub fn resumed(self, name: &str, strict: bool) -> Summary {
        let mut summary = Summary { name: name.to_string(), ..self.summary };
        summary.json = objects::resumed(&summary.json, name, summary.status(strict)).unwrap_or_default();
        summary
    }
}

fn commands(asking: &Asking) -> String {
    asking.solvers.iter().map(|solver| solver.command()).collect::<Vec<_>>().join("; ")
}

/// The file where its answer is not known yet.
pub fn begun(case: &str) -> String {
    with_sum(format!("{FORM}\ncase {case}\n"))
}

pub fn text(case: &str, asking: &Asking, solved: &Solved, summary: &Summary, files: &[(String, Vec<u8>)]) -> String {
    let Summary { word, size, seconds, note, status, whole, json, .. } = summary;
    let (by, commands, settled) = (asking.names().join(" and "), commands(asking), solved.reach.is_settled());
    let mut text = format!(
        "{FORM}\ncase {case}\nanswer {word}\nby {by}\ncommands {commands}\nsettled {settled}\nsize {size}\nseconds {seconds:.3}\n\
         status {status}\nwhole {whole}\nnote {note}\njson {json}\n"
    );
    for (ending, bytes) in files {
        text.push_str(&format!("file {} {ending}\n", sha256::hex(bytes)));
    }
    with_sum(text)
}

fn with_sum(text: String) -> String {
    let sum = sha256::hex(text.as_bytes());
    format!("{text}sum {sum}\n")
}

/// The hash of the case that an answer is of, and the answer, if it is known.
pub fn read(file: &Path) -> Option<(String, Option<Filed>)> {
    let text = String::from_utf8(plain_file(file).ok()?).ok()?;
    let (before, _) = text.strip_suffix('\n')?.rsplit_once('\n')?;
    if with_sum(format!("{before}\n")) != text {
        return None;
    }
    let mut lines = before.split('\n');
    lines.next().filter(|line| *line == FORM)?;
    let case = lines.next()?.strip_prefix("case ")?.to_string();
    let rest: Vec<&str> = lines.collect();
    match rest.is_empty() {
        true => Some((case, None)),
        false => Some((case, Some(answer(&rest)?))),
    }
}

fn answer(lines: &[&str]) -> Option<Filed> {
    let mut lines = lines.iter();
    let mut part = |name: &str| lines.next()?.strip_prefix(name)?.strip_prefix(' ').map(str::to_string);
    let word = part("answer").filter(|word| ANSWERS.contains(&word.as_str()))?;
    let filed_by = Some(part("by")?);
    let (commands, settled) = (part("commands")?, part("settled")?.parse().ok()?);
    let (size, seconds, status) = (part("size")?, part("seconds")?.parse().ok()?, part("status")?.parse().ok()?);
    let (whole, note, json) = (part("whole")?.parse().ok()?, part("note")?, part("json")?);
    let summary = Summary { name: String::new(), word, size, seconds, note, status, whole, json, message: None, filed_by };
    let file = |line: &&str| {
        let (hash, ending) = line.strip_prefix("file ")?.split_once(' ')?;
        Some((ending.to_string(), hash.to_string()))
    };
    let files = lines.map(file).collect::<Option<Vec<_>>>()?;
    Some(Filed { summary, commands, settled, files })
}
