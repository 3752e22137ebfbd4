//! Assignments and schedules as text: decimal numbers, or a solver's own model (z3's and cvc5's).

use crate::name::shown;
use crate::words::{count, enumeration};
use std::ffi::OsStr;

/// What a text holds.
#[derive(Debug, PartialEq, Eq)]
pub enum Given {
    Numbers(Vec<u16>),
    Model(Model),
}

/// The values of v0, v1, .. in a model. One that the model leaves out may have any value, and has 0 here.
#[derive(Clone, Debug, Default, PartialEq, Eq)]
pub struct Model {
    pub values: Vec<u16>,
    left_out: Vec<usize>,
}

impl Model {
    fn of(found: &[Option<u16>]) -> Model {
        Model {
            values: found.iter().map(|value| value.unwrap_or_default()).collect(),
            left_out: (0..found.len()).filter(|&variable| found[variable].is_none()).collect(),
        }
    }

    /// The variables that it leaves out: how many, and the first of them; nothing where there are none.
    pub fn left_out_in_words(&self) -> Option<String> {
        let mut names: Vec<String> = self.left_out.iter().take(5).map(|variable| format!("v{variable}")).collect();
        if self.left_out.len() > names.len() {
            names.push(format!("{} more", self.left_out.len() - names.len()));
        }
        let them = if self.left_out.len() == 1 { "it" } else { "them" };
        let words = format!(
            "the model has no value for {} of {} variables ({}); 0 is taken for {them}, and the checker decides",
            self.left_out.len(),
            self.values.len(),
            enumeration(&names)
        );
        (!names.is_empty()).then_some(words)
    }
}

/// A line and its number, from 1.
pub type Line<'a> = (usize, &'a str);

/// What is wrong with a model, and the line where it is one line's fault.
#[derive(Debug)]
struct Problem {
    line: Option<usize>,
    words: String,
}

/// Reads a text. A model is about this many variables.
pub fn read(text: &str, variables: usize) -> Result<Given, String> {
    let lines = lines(text);
    let is_blank = |line: &&Line| uncommented(line.1).trim().is_empty();
    let lines = &lines[lines.iter().take_while(is_blank).count()..];
    let first = lines.first().and_then(|(_, line)| uncommented(line).split_whitespace().next()).unwrap_or_default();
    if first == "unsat" || first == "unknown" {
        return Err(format!("a solver's answer '{first}', which has no numbers"));
    }
    if first == "sat" || first.starts_with(['(', ';']) {
        return match values(lines, variables) {
            Ok(found) => Ok(Given::Model(Model::of(&found))),
            Err(Problem { line: Some(line), words }) => Err(format!("line {line}: {words}")),
            Err(Problem { line: None, words }) => Err(words),
        };
    }
    decimals(lines).map(Given::Numbers)
}

/// The lines of a text, whichever system it comes from.
pub fn lines(text: &str) -> Vec<Line<'_>> {
    // Some editors put a byte-order mark before the text.
    let mut rest = text.strip_prefix('\u{feff}').unwrap_or(text);
    let mut lines = Vec::new();
    while let Some(end) = rest.find(['\n', '\r']) {
        lines.push(&rest[..end]);
        let after = &rest[end..];
        rest = &after[if after.starts_with("\r\n") { 2 } else { 1 }..];
    }
    lines.push(rest);
    (1..).zip(lines).collect()
}

/// A line of numbers up to its comment.
pub fn uncommented(line: &str) -> &str {
    line.split('#').next().unwrap_or_default()
}

/// Decimal numbers with white space or commas between them, and comments.
fn decimals(lines: &[Line]) -> Result<Vec<u16>, String> {
    let mut numbers = Vec::new();
    for &(line, text) in lines {
        let mut column = 1;
        for word in uncommented(text).split(|sign: char| sign.is_whitespace() || sign == ',') {
            if !word.is_empty() {
                numbers.push(decimal(word).map_err(|problem| format!("line {line}, column {column}: {problem}"))?);
            }
            column += word.chars().count() + 1;
        }
    }
    Ok(numbers)
}

pub fn decimal(word: &str) -> Result<u16, String> {
    let digits = word.bytes().all(|byte| byte.is_ascii_digit());
    let number = if digits { word.parse().ok() } else { None };
    number.ok_or_else(|| format!("'{}' is not a number from 0 to 65535", shortened(word)))
}

/// A word for a message: its first characters, and none that a terminal would act on.
pub fn shortened(text: &str) -> String {
    let short: String = text.chars().take(60).collect();
    let dots = if short.len() < text.len() { ".." } else { "" };
    shown(OsStr::new(&short)) + dots
}

/// Text in parentheses, as solvers print it.
#[derive(Debug)]
enum Term {
    Word(String),
    /// With the line where it begins.
    List(Vec<Term>, usize),
}

/// The values of v0, v1, .. in a solver's reply to get-model or get-value, with or without the word sat before it.
pub fn model(text: &str, variables: usize) -> Result<Model, String> {
    values(&lines(text), variables).map(|found| Model::of(&found)).map_err(|problem| problem.words)
}

/// The same values, none where the model leaves a variable out.
fn values(lines: &[Line], variables: usize) -> Result<Vec<Option<u16>>, Problem> {
    let mut values = vec![None; variables];
    for term in terms(lines)? {
        collect(&term, &mut values)?;
    }
    match variables > 0 && values.iter().all(Option::is_none) {
        true => Err(Problem { line: None, words: "no value of v0, v1, .. in it".to_string() }),
        false => Ok(values),
    }
}

/// The terms of a text, one after the other. No recursion, so that no depth of parentheses is too much.
fn terms(lines: &[Line]) -> Result<Vec<Term>, Problem> {
    let mut done = Vec::new();
    let mut open: Vec<(Vec<Term>, usize)> = Vec::new();
    for &(number, line) in lines {
        let problem = |words: &str| Problem { line: Some(number), words: words.to_string() };
        let spaced = line.split(';').next().unwrap_or_default().replace('(', " ( ").replace(')', " ) ");
        for word in spaced.split_whitespace() {
            let term = match word {
                "(" if open.len() >= 8 => return Err(problem("too many parentheses for a model")),
                "(" => {
                    open.push((Vec::new(), number));
                    continue;
                }
                ")" => {
                    let (list, begin) = open.pop().ok_or_else(|| problem("a parenthesis too many: not a whole model"))?;
                    Term::List(list, begin)
                }
                _ => Term::Word(word.to_string()),
            };
            open.last_mut().map_or(&mut done, |(list, _)| list).push(term);
        }
    }
    match open.last() {
        None => Ok(done),
        Some(&(_, line)) => {
            Err(Problem { line: Some(line), words: "a parenthesis is not closed: not a whole model".to_string() })
        }
    }
}

/// Takes the values from `(define-fun v0 () (_ BitVec 16) #x0000)` and `(v0 #x0000)`, wherever they stand.
fn collect(term: &Term, values: &mut [Option<u16>]) -> Result<(), Problem> {
    let Term::List(list, line) = term else {
        return Ok(());
    };
    let problem = |words: String| Problem { line: Some(*line), words };
    let (name, value) = match list.as_slice() {
        [Term::Word(define), Term::Word(name), Term::List(..), Term::List(..), value] if define == "define-fun" => {
            (name, value)
        }
        [Term::Word(name), value] if variable(name).is_some() => (name, value),
        [Term::Word(error), ..] if error == "error" => {
            return Err(problem(format!("the solver reports an error: {}", shortened(&words(list)))))
        }
        _ => return list.iter().try_for_each(|inner| collect(inner, values)),
    };
    let index = variable(name).ok_or_else(|| problem(format!("'{}' is not one of v0, v1, ..", shortened(name))))?;
    let value = constant(value).ok_or_else(|| problem(format!("the value of {name} is not a constant of 16 bits")))?;
    let all = count(values.len(), "variable", "variables");
    let place = values.get_mut(index).ok_or_else(|| problem(format!("{name} has a value, but the case has {all}")))?;
    match place.replace(value) {
        None => Ok(()),
        Some(_) => Err(problem(format!("{name} has two values"))),
    }
}

fn words(list: &[Term]) -> String {
    let words = list.iter().map(|term| match term {
        Term::Word(word) => word.clone(),
        Term::List(inner, _) => words(inner),
    });
    words.collect::<Vec<_>>().join(" ")
}

/// The number of a variable: `v7`, or `|v7|`.
fn variable(name: &str) -> Option<usize> {
    let name = name.strip_prefix('|').and_then(|name| name.strip_suffix('|')).unwrap_or(name);
    let digits = name.strip_prefix('v')?;
    let plain = digits.bytes().all(|byte| byte.is_ascii_digit()) && (digits == "0" || !digits.starts_with('0'));
    if plain {
        digits.parse().ok()
    } else {
        None
    }
}

/// `#x0005`, `#b0000000000000101` or `(_ bv5 16)`.
fn constant(term: &Term) -> Option<u16> {
    let digits = |word: &str, mark: &str, count: usize, base: u32| {
        let digits = word.strip_prefix(mark).filter(|digits| digits.len() == count && !digits.starts_with('+'))?;
        u16::from_str_radix(digits, base).ok()
    };
    match term {
        Term::Word(word) => digits(word, "#x", 4, 16).or_else(|| digits(word, "#b", 16, 2)),
        Term::List(list, _) => match list.as_slice() {
            [Term::Word(mark), Term::Word(value), Term::Word(width)] if mark == "_" && width == "16" => {
                decimal(value.strip_prefix("bv")?).ok()
            }
            _ => None,
        },
    }
}
