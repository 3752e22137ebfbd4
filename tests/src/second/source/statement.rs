//! The words of one statement, taken one after the other.

use super::words::{Line, Word};
use super::Place;

pub struct Statement<'a> {
    line: &'a Line,
    taken: usize,
}

impl<'a> Statement<'a> {
    pub fn new(line: &'a Line) -> Self {
        Statement { line, taken: 0 }
    }

    fn word(&self) -> Option<&'a Word> {
        self.line.words.get(self.taken)
    }

    /// Where the next word stands; "where a statement ends too soon, the end of
    /// its last word".
    pub fn place(&self) -> Place {
        match self.word() {
            Some(word) => self.line.at(word.column),
            None => self.line.end_of_words(),
        }
    }

    /// Takes the next word if it means something here.
    pub fn take_if<T>(&mut self, meaning: impl FnOnce(&str) -> Option<T>) -> Option<T> {
        let found = meaning(&self.word()?.text)?;
        self.taken += 1;
        Some(found)
    }

    /// Takes the next word, which must mean something here.
    pub fn take<T>(&mut self, meaning: impl FnOnce(&str) -> Option<T>) -> Result<T, Place> {
        self.take_if(meaning).ok_or_else(|| self.place())
    }

    pub fn take_word_if(&mut self, wanted: &str) -> bool {
        self.take_if(|word| (word == wanted).then_some(())).is_some()
    }

    pub fn take_word(&mut self, wanted: &str) -> Result<(), Place> {
        self.take(|word| (word == wanted).then_some(()))
    }

    pub fn take_number(&mut self) -> Result<u16, Place> {
        self.take(number)
    }

    /// "A statement stands on one line": nothing may follow it.
    pub fn finish(&self) -> Result<(), Place> {
        match self.word() {
            Some(_) => Err(self.place()),
            None => Ok(()),
        }
    }
}

/// "A number is decimal, 0 to 65535, without a sign and without zeros before
/// it."
pub fn number(word: &str) -> Option<u16> {
    let value: u16 = word.parse().ok()?;
    (value.to_string() == word).then_some(value)
}
