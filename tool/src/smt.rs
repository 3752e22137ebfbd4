//! `menduvo smt`; and what else goes to solvers. The text of a case is the proved library's, byte for byte (`docs/SMT-TEXT.md`), and
//! so is the text of every other case that is asked about: no constraint is put into SMT-LIB here. But a question may be about some
//! lines alone, or have wishes beside the constraints.

use crate::calls::Loaded;
use crate::failure::{Failure, Status};
use crate::input::Source;
use crate::keep;
use crate::name::shown;
use crate::output::Output;
use crate::words::count;
use std::ffi::OsStr;

#[cfg(test)]
mod tests;

/// Prints the text of a case, or writes it to a file.
pub fn smt(case: &Source, file: Option<&OsStr>, force: bool, output: &mut Output) -> Result<Status, Failure> {
    let loaded = Loaded::from(case)?;
    let text = loaded.text()?;
    let Some(file) = file.filter(|file| *file != "-") else {
        return output.say(&text).map(|()| Status::Done);
    };
    keep::write_output(file, text.as_bytes(), force, &[case])?;
    let constraints = count(loaded.table.rows.len(), "constraint", "constraints");
    let variables = count(loaded.table.variables, "variable", "variables");
    output.say(&format!("{}: {constraints} over {variables}, in {} bytes\n", shown(file), text.len()))?;
    Ok(Status::Done)
}

/// The last line of a text.
const QUESTION: &str = "(check-sat)\n";

/// The text with some of the parts of its last assertion, `(or A (or B .. false..))`, those of the lines that are wanted. The lines
/// are all that have a part, in its order. Nothing where the text has another last assertion.
pub fn with_parts(text: &str, lines: &[u16], wanted: impl Fn(u16) -> bool) -> Option<String> {
    let constraints = text.strip_suffix(QUESTION)?;
    let begin = constraints.trim_end_matches('\n').rfind('\n')? + 1;
    let goal = constraints[begin..].strip_prefix("(assert ")?.strip_suffix(")\n")?;
    let parts = parts(goal).filter(|parts| parts.len() == lines.len())?;
    let chosen = parts.into_iter().zip(lines).rev().filter(|(_, line)| wanted(**line));
    let goal = chosen.fold("false".to_string(), |others, (part, _)| format!("(or {part} {others})"));
    Some(format!("{}(assert {goal})\n{QUESTION}", &constraints[..begin]))
}

fn parts(goal: &str) -> Option<Vec<&str>> {
    let (mut parts, mut rest) = (Vec::new(), goal);
    while rest != "false" {
        let both = rest.strip_prefix("(or ")?.strip_suffix(')')?;
        let (part, others) = both.split_at(end_of_first(both)?);
        parts.push(part);
        rest = others.strip_prefix(' ')?;
    }
    Some(parts)
}

/// Where the formula in parentheses ends with which a text begins.
fn end_of_first(text: &str) -> Option<usize> {
    let mut open = 0_usize;
    for (place, sign) in text.bytes().enumerate() {
        match sign {
            b'(' => open += 1,
            b')' => open = open.checked_sub(1)?,
            _ => {}
        }
        if open == 0 {
            return (place > 0).then_some(place + 1);
        }
    }
    None
}

/// The text with wishes, which narrow the question: conditions beside the constraints, after the last of them.
pub fn with_wishes(text: &str, wishes: &[String]) -> String {
    let constraints = text.strip_suffix(QUESTION).unwrap_or(text);
    let wishes: String = wishes.iter().map(|wish| format!("; a wish\n(assert {wish})\n")).collect();
    format!("{constraints}{wishes}{QUESTION}")
}

/// The text, and after it what asks for a model of this many variables. A solver need not have one unless it is told before the
/// logic that one will be asked for.
pub fn with_model(text: &str, variables: usize) -> String {
    let names: Vec<String> = (0..variables).map(|variable| format!("v{variable}")).collect();
    format!("(set-option :produce-models true)\n{text}(get-value ({}))\n", names.join(" "))
}
