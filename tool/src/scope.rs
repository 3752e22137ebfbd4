//! The names that a line of a source can use, and what its words make: the fields of a record.

use crate::case::CONSTANT;
use crate::names::Name;
use crate::numbers::shortened;
use crate::token::{Place, Problem, Words};

/// A global or a mutex that is declared.
pub struct Item {
    pub word: String,
    pub value: u16,
    pub place: Place,
}

/// A local that has a name.
pub struct Local {
    pub word: String,
    pub number: u16,
    pub place: Place,
}

/// What is declared where a line stands.
pub struct Scope<'a> {
    pub globals: &'a [Item],
    pub mutexes: &'a [Item],
    /// Those of the line's thread.
    pub locals: &'a [Local],
    /// Whether the thread has a line already.
    pub is_begun: bool,
}

/// The locals of a thread.
const LOCALS: u16 = 16;

/// The most characters of a name.
pub const MOST_OF_A_NAME: usize = 32;

/// The words that no name can be. The last four are kept for later forms of a thread.
const KEYWORDS: [&str; 16] = [
    "switches", "global", "mutex", "thread", "local", "record", "when", "lock", "unlock", "assert", "assume", "input", "if",
    "else", "while", "end",
];

const NUMBER: &str = "a number from 0 to 65535";

/// The signs of ops 1 to 6.
const OPS: [&str; 6] = ["+", "-", "&", "|", "==", "<"];

/// Takes a number.
pub fn number(words: &mut Words) -> Result<u16, Problem> {
    words.take(NUMBER, decimal)
}

/// A number in its one spelling.
fn decimal(word: &str) -> Result<u16, Option<String>> {
    match (word.starts_with(|sign: char| sign.is_ascii_digit()), word.parse::<u16>()) {
        (true, Ok(number)) if number.to_string() == word => Ok(number),
        (true, Ok(number)) => Err(Some(format!("'{}' has one spelling, {number}", shortened(word)))),
        (true, Err(_)) => Err(Some(format!("'{}' is not {NUMBER}", shortened(word)))),
        (false, _) => Err(None),
    }
}

/// Whether a word is a letter L, G or M and digits, as the plain names are.
fn is_plain(word: &str) -> bool {
    let digits = word.strip_prefix(['L', 'G', 'M']);
    digits.is_some_and(|digits| !digits.is_empty() && digits.bytes().all(|byte| byte.is_ascii_digit()))
}

impl Scope<'_> {
    /// Takes a name that nothing has yet; or this plain one, if there is one.
    pub fn new_name(&self, words: &mut Words, plain: &str) -> Result<String, Problem> {
        let could = match plain {
            "" => format!("a new name, of at most {MOST_OF_A_NAME} letters, digits and _, that begins with a letter"),
            plain => {
                format!("{plain}, or a new name, of at most {MOST_OF_A_NAME} letters, digits and _, that begins with a letter")
            }
        };
        words.take(&could, |word| {
            let quoted = shortened(word);
            if let Some(line) = self.line_of(word) {
                return Err(Some(format!("'{quoted}' is a name already, by line {line}")));
            }
            match word {
                _ if !plain.is_empty() && word == plain => Ok(word.to_string()),
                _ if KEYWORDS.contains(&word) => Err(Some(format!("'{quoted}' is a word of the language"))),
                _ if is_plain(word) && plain.is_empty() => Err(Some(format!("'{quoted}' is no name of its own"))),
                _ if is_plain(word) => Err(Some(format!("'{quoted}' is no name for what is {plain} here"))),
                _ if !is_name(word) => Err(None),
                _ if word.len() > MOST_OF_A_NAME => Err(Some(format!("'{quoted}' has {} characters", word.len()))),
                _ => Ok(word.to_string()),
            }
        })
    }

    /// The line that declares a name.
    fn line_of(&self, word: &str) -> Option<usize> {
        let items = self.globals.iter().chain(self.mutexes).map(|item| (&item.word, item.place));
        let mut all = items.chain(self.locals.iter().map(|local| (&local.word, local.place)));
        all.find(|(name, _)| *name == word).map(|(_, place)| place.line)
    }

    /// Takes a local by its plain name, which has no other.
    pub fn unnamed_local(&self, words: &mut Words) -> Result<u16, Problem> {
        let could = "a local that has no name yet, of L0 to L15";
        words.take(could, |word| match self.plain_local(word) {
            Some(number) => match self.locals.iter().find(|local| local.number == number) {
                Some(local) => Err(Some(format!("{word} is called {} already", local.word))),
                None => Ok(number),
            },
            None => Err(None),
        })
    }

    fn plain_local(&self, word: &str) -> Option<u16> {
        (0..LOCALS).find(|&number| Name::Local(0, number).plain() == word)
    }

    /// What a word names. Where it names nothing, why.
    fn find(&self, word: &str) -> Result<Name, String> {
        let at = |items: &[Item]| items.iter().position(|item| item.word == word).map(|place| place as u16);
        let local = self.locals.iter().find(|local| local.word == word).map(|local| Name::Local(0, local.number));
        if let Some(name) = local.or(at(self.globals).map(Name::Global)).or(at(self.mutexes).map(Name::Mutex)) {
            return Ok(name);
        }
        let called = |items: &[Item], name: fn(u16) -> Name| {
            let mut names = items.iter().zip(0..);
            names.find(|(_, number)| name(*number).plain() == word).map(|(item, _)| item.word.clone())
        };
        let number = self.plain_local(word);
        let other = self.locals.iter().find(|local| Some(local.number) == number).map(|local| local.word.clone());
        let other = other.or(called(self.globals, Name::Global)).or(called(self.mutexes, Name::Mutex));
        match (other, number) {
            (Some(other), _) => Err(format!("'{word}' is called {other} here")),
            (None, Some(number)) => Ok(Name::Local(0, number)),
            (None, None) => Err(format!("there is no '{}' here", shortened(word))),
        }
    }

    /// What a line of a thread can begin with.
    pub fn line_heads(&self) -> String {
        let local = if self.is_begun { "" } else { "local, " };
        format!("{local}{}, when, record, thread", self.actions())
    }

    /// What a line can begin with after its guard.
    pub fn actions(&self) -> String {
        format!("{}{}, lock, unlock, assert, assume", self.a_local(), self.or_global())
    }

    fn a_local(&self) -> String {
        let names: Vec<&str> = self.locals.iter().map(|local| local.word.as_str()).collect();
        match names.is_empty() {
            true => "a local (L0 to L15)".to_string(),
            false => format!("a local ({}, others of L0 to L15)", names.join(", ")),
        }
    }

    /// What the thread calls its L0, for advice.
    fn first_local(&self) -> &str {
        self.locals.iter().find(|local| local.number == 0).map_or("L0", |local| &local.word)
    }

    /// That a global stands in no expression and no guard. The advice names a local that has no name yet, and so may be free.
    fn loaded_alone(&self, global: &str) -> String {
        let unnamed = (0..LOCALS).find(|&number| !self.locals.iter().any(|local| local.number == number));
        let local = unnamed.map_or("a local".to_string(), |number| Name::Local(0, number).plain());
        format!("'{global}' is a global, and is loaded by a line of its own: {local} = {global}")
    }

    fn or_global(&self) -> String {
        match self.globals.is_empty() {
            true => String::new(),
            false => format!(", a global ({})", listed(self.globals)),
        }
    }

    /// Takes what follows `when`, up to its colon, and gives the guard.
    pub fn guard(&self, words: &mut Words) -> Result<u16, Problem> {
        let local = self.local(words)?;
        let compared = |word: &str| Some(format!("'{}' cannot stand here: a guard compares a local with 0", shortened(word)));
        let zero = words.take("!=, ==", |word| match word {
            "!=" => Ok(false),
            "==" => Ok(true),
            _ => Err(compared(word)),
        })?;
        words.take("0", |word| if word == "0" { Ok(()) } else { Err(compared(word)) })?;
        words.expect(":")?;
        Ok(1 + local + if zero { LOCALS } else { 0 })
    }

    fn local(&self, words: &mut Words) -> Result<u16, Problem> {
        words.take(&self.a_local(), |word| match self.find(word) {
            Ok(Name::Local(_, number)) => Ok(number),
            Ok(Name::Global(_)) => Err(Some(self.loaded_alone(word))),
            Ok(Name::Mutex(_)) => Err(None),
            Err(wrong) => Err(is_name(word).then_some(wrong)),
        })
    }

    /// Takes what a line does: kind, target, op, a, b, c. The words say what can stand here.
    pub fn action(&self, words: &mut Words, could: &str) -> Result<[u16; 6], Problem> {
        match words.peek().unwrap_or_default() {
            "lock" => self.mutex(words, "lock").map(|mutex| [7, mutex, 0, 0, 0, 0]),
            "unlock" => self.mutex(words, "unlock").map(|mutex| [8, mutex, 0, 0, 0, 0]),
            "assert" => {
                words.expect("assert")?;
                self.expression(words).map(|[op, a, b, c]| [5, 0, op, a, b, c])
            }
            "assume" => {
                words.expect("assume")?;
                self.expression(words).map(|[op, a, b, c]| [6, 0, op, a, b, c])
            }
            _ => self.assignment(words, could),
        }
    }

    fn mutex(&self, words: &mut Words, verb: &str) -> Result<u16, Problem> {
        words.expect(verb)?;
        let could = match self.mutexes.is_empty() {
            true => "a mutex, and none is declared".to_string(),
            false => format!("a mutex ({})", listed(self.mutexes)),
        };
        words.take(&could, |word| match self.find(word) {
            Ok(Name::Mutex(number)) => Ok(number),
            Ok(_) => Err(None),
            Err(wrong) => Err(is_name(word).then_some(wrong)),
        })
    }

    fn assignment(&self, words: &mut Words, could: &str) -> Result<[u16; 6], Problem> {
        let target = words.take(could, |word| match self.find(word) {
            Ok(Name::Mutex(_)) => Err(Some(format!("'{word}' is a mutex: 'lock {word}' and 'unlock {word}' are its lines"))),
            Ok(name) => Ok(name),
            Err(_) if matches!(word, "if" | "else") => {
                let local = self.first_local();
                Err(Some(format!("'{word}' is a word that is kept for later; a guard is 'when {local} != 0:'")))
            }
            Err(_) if matches!(word, "while" | "end") => {
                Err(Some(format!("'{word}' is a word that is kept for later; lines that are run again are written again")))
            }
            Err(wrong) => Err(is_name(word).then_some(wrong)),
        })?;
        words.expect("=")?;
        match target {
            Name::Local(_, target) => self.to_local(words, target),
            Name::Global(target) | Name::Mutex(target) => self.expression(words).map(|[op, a, b, c]| [2, target, op, a, b, c]),
        }
    }

    /// A local gets an input, a global or an expression.
    fn to_local(&self, words: &mut Words, target: u16) -> Result<[u16; 6], Problem> {
        if words.takes("input") {
            return Ok([4, target, 0, 0, 0, 0]);
        }
        let word = words.peek().unwrap_or_default();
        if let Ok(Name::Global(global)) = self.find(word) {
            words.expect(word)?;
            return match words.peek() {
                Some(sign) if OPS.contains(&sign) => {
                    Err(Problem { wrong: self.loaded_alone(word), ..words.problem("the end of the line") })
                }
                _ => Ok([3, target, 0, global, 0, 0]),
            };
        }
        let could = format!("{}{}, {NUMBER}, input", self.a_local(), self.or_global());
        self.expression_of(words, &could).map(|[op, a, b, c]| [1, target, op, a, b, c])
    }

    fn expression(&self, words: &mut Words) -> Result<[u16; 4], Problem> {
        self.expression_of(words, &format!("{}, {NUMBER}", self.a_local()))
    }

    /// Takes an expression: op, a, b, c. The words say what it can begin with.
    fn expression_of(&self, words: &mut Words, could: &str) -> Result<[u16; 4], Problem> {
        let (a, first) = self.operand(words, could, None)?;
        if words.peek().is_none() {
            return Ok([0, a, 0, first.unwrap_or_default()]);
        }
        let op = words.take(&format!("{}, the end of the line", OPS.join(", ")), |word| {
            OPS.iter().zip(1..).find(|(sign, _)| **sign == word).map(|(_, op)| op).ok_or(None)
        })?;
        let could = match first {
            None => format!("{}, {NUMBER}", self.a_local()),
            Some(first) => format!("{}, {first}", self.a_local()),
        };
        let (b, second) = self.operand(words, &could, first)?;
        Ok([op, a, b, first.or(second).unwrap_or_default()])
    }

    /// Takes a local or a number. A line has one number, so a second is the first again.
    fn operand(&self, words: &mut Words, could: &str, first: Option<u16>) -> Result<(u16, Option<u16>), Problem> {
        words.take(could, |word| match (decimal(word), first) {
            (Ok(number), Some(first)) if number != first => Err(Some(format!("a line has one number, and {first} is it"))),
            (Ok(number), _) => Ok((CONSTANT, Some(number))),
            (Err(Some(wrong)), _) => Err(Some(wrong)),
            (Err(None), _) => match self.find(word) {
                Ok(Name::Local(_, number)) => Ok((number, None)),
                Ok(Name::Global(_)) => Err(Some(self.loaded_alone(word))),
                Ok(Name::Mutex(_)) => Err(Some(format!("'{word}' is a mutex, and has no value in a line"))),
                Err(wrong) => Err(is_name(word).then_some(wrong)),
            },
        })
    }
}

/// Whether a word could be a name, and is no word of the language.
fn is_name(word: &str) -> bool {
    let is_of_name = |sign: char| sign.is_ascii_alphanumeric() || sign == '_';
    word.starts_with(|sign: char| sign.is_ascii_alphabetic()) && word.chars().all(is_of_name) && !KEYWORDS.contains(&word)
}

fn listed(items: &[Item]) -> String {
    items.iter().map(|item| item.word.as_str()).collect::<Vec<_>>().join(", ")
}
