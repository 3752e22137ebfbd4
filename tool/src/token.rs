//! A line of a source, word by word, and what is wrong with one.

use crate::failure::Failure;
use crate::name::is_unseen;
use crate::numbers::{lines, shortened};
use std::fmt;

/// A word of a line: a name or keyword, a number, or a sign.
#[derive(Clone, Copy, Debug, PartialEq, Eq)]
pub struct Token<'a> {
    pub text: &'a str,
    /// From 1, in characters.
    pub column: usize,
}

/// A line and a column, each from 1.
#[derive(Clone, Copy, Debug, PartialEq, Eq)]
pub struct Place {
    pub line: usize,
    pub column: usize,
}

/// Why a text is no source: where, what is wrong there, and what could stand there.
#[derive(Clone, Debug, PartialEq, Eq)]
pub struct Problem {
    pub place: Place,
    pub wrong: String,
    pub could: String,
}

impl Problem {
    /// The failure of a command that was given this text.
    pub fn failure(&self, input: &str, text: &str) -> Failure {
        let Problem { place, wrong, could } = self;
        let shown: String = pointed(text, *place).iter().map(|line| format!("\n  {line}")).collect();
        Failure::Refused(format!("{input}: {place}: {wrong}{shown}\n  could stand here: {could}"))
    }
}

impl fmt::Display for Place {
    fn fmt(&self, to: &mut fmt::Formatter) -> fmt::Result {
        write!(to, "line {}, column {}", self.line, self.column)
    }
}

/// A text with a place in it shown: its line, and a mark below the column; nothing where the line is empty.
pub fn pointed(text: &str, Place { line, column }: Place) -> Vec<String> {
    let shown = |sign: char| if is_unseen(sign) { ' ' } else { sign };
    let line = lines(text).get(line.wrapping_sub(1)).map_or("", |(_, line)| line);
    // Of a long line, the part around the column.
    let from = column.saturating_sub(61);
    let part: String = line.chars().skip(from).take(100).map(shown).collect();
    match part.trim_end() {
        "" => Vec::new(),
        part => vec![part.to_string(), format!("{}^", " ".repeat(column - 1 - from))],
    }
}

fn is_of_word(sign: char) -> bool {
    sign.is_alphanumeric() || sign == '_'
}

fn is_blank(sign: char) -> bool {
    sign == ' ' || sign == '\t'
}

/// The words of a line, up to its comment: letters, digits and underscores that stand together, and other signs that do.
pub fn tokens(line: &str) -> Vec<Token<'_>> {
    let line = line.split('#').next().unwrap_or_default();
    let (mut tokens, mut rest, mut column) = (Vec::new(), line, 1);
    while let Some(first) = rest.chars().next() {
        let is_other = |sign: char| is_blank(sign) != is_blank(first) || is_of_word(sign) != is_of_word(first);
        let (text, after) = rest.split_at(rest.find(is_other).unwrap_or(rest.len()));
        if !is_blank(first) {
            tokens.push(Token { text, column });
        }
        column += text.chars().count();
        rest = after;
    }
    tokens
}

/// What to write in the place of a word of other languages.
fn hint(word: &str) -> Option<&'static str> {
    Some(match word {
        ">" => "a > b is b < a",
        ">=" => "a >= b is that a < b is 0",
        "<=" => "a <= b is that b < a is 0",
        "!=" => "a != b is that a == b is 0; as a guard, 'when a != 0:'",
        "!" | "not" => "not a is a == 0",
        "&&" | "and" => "a & b, where both are 0 or 1",
        "||" | "or" => "a | b, where both are 0 or 1",
        "+=" | "-=" | "++" | "--" => "a = a + 1 is a line",
        ":=" => "a = b is a line",
        ";" => "nothing ends a line but its end",
        "//" | "/*" => "a comment begins with #",
        _ => return None,
    })
}

/// The words of one line, taken one after the other.
pub struct Words<'a> {
    pub line: usize,
    tokens: std::vec::IntoIter<Token<'a>>,
    /// After the last word.
    end: usize,
}

impl<'a> Words<'a> {
    /// The words of this line; nothing where it has none.
    pub fn of(line: usize, text: &'a str) -> Option<Words<'a>> {
        let tokens = tokens(text);
        let last = tokens.last()?;
        let end = last.column + last.text.chars().count();
        Some(Words { line, tokens: tokens.into_iter(), end })
    }

    /// The next word, which stays.
    pub fn peek(&self) -> Option<&'a str> {
        self.tokens.as_slice().first().map(|token| token.text)
    }

    /// Where the next word is, or the line's end.
    pub fn place(&self) -> Place {
        let column = self.tokens.as_slice().first().map_or(self.end, |token| token.column);
        Place { line: self.line, column }
    }

    /// Takes the next word, if it is this one.
    pub fn takes(&mut self, word: &str) -> bool {
        let is_next = self.peek() == Some(word);
        if is_next {
            self.tokens.next();
        }
        is_next
    }

    /// Takes the next word, for which there is a value.
    pub fn take<T>(&mut self, could: &str, value: impl Fn(&str) -> Result<T, Option<String>>) -> Result<T, Problem> {
        let Some(word) = self.peek() else {
            return Err(self.problem(could));
        };
        match value(word) {
            Ok(value) => {
                self.tokens.next();
                Ok(value)
            }
            Err(Some(wrong)) => Err(Problem { wrong, ..self.problem(could) }),
            Err(None) => Err(self.problem(could)),
        }
    }

    /// Takes this word.
    pub fn expect(&mut self, word: &str) -> Result<(), Problem> {
        match self.takes(word) {
            true => Ok(()),
            false => Err(self.problem(word)),
        }
    }

    /// That no word is left.
    pub fn ended(&self, could: &str) -> Result<(), Problem> {
        match self.peek() {
            None => Ok(()),
            Some(_) => Err(self.problem(could)),
        }
    }

    /// That the next word cannot stand where it is.
    pub fn problem(&self, could: &str) -> Problem {
        let wrong = match (self.peek(), self.peek().and_then(hint)) {
            (Some(word), Some(hint)) => format!("'{word}' cannot stand here: {hint}"),
            (Some(word), None) => format!("'{}' cannot stand here", shortened(word)),
            (None, _) => "the line ends too soon".to_string(),
        };
        Problem { place: self.place(), wrong, could: could.to_string() }
    }
}
