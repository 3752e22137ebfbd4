//! "UTF-8, in lines", and the words of a line.

use super::Place;
use crate::second::Wrong;

/// A word and its column.
pub struct Word {
    pub text: String,
    pub column: usize,
}

/// A line that has a statement, or might have one.
pub struct Line {
    pub number: usize,
    pub words: Vec<Word>,
    /// The column behind its last character.
    end: usize,
}

impl Line {
    pub fn at(&self, column: usize) -> Place {
        Place { line: self.number, column }
    }

    /// Where the line ends.
    pub fn end(&self) -> Place {
        self.at(self.end)
    }

    /// Where its last word ends.
    pub fn end_of_words(&self) -> Place {
        self.at(self.words.last().map_or(1, |word| word.column + word.text.chars().count()))
    }
}

/// The lines of a text; none if the file is no source.
pub fn lines(file: &[u8], wrong: Wrong) -> Option<Vec<Line>> {
    let text = std::str::from_utf8(file).ok().filter(|text| !text.is_empty())?;
    // "a byte-order mark at the start is passed over"
    let text = text.strip_prefix('\u{feff}').unwrap_or(text);
    // "other control characters but the tab"
    if text.chars().any(|character| character.is_control() && !"\t\n\r".contains(character)) {
        return None;
    }
    // "A line ends with a line feed, a carriage return, or a carriage return and
    // a line feed".
    let text = text.replace("\r\n", "\n").replace('\r', "\n");
    Some((1..).zip(text.split('\n')).map(|(number, line)| split(number, line, wrong)).collect())
}

fn split(number: usize, line: &str, wrong: Wrong) -> Line {
    let characters: Vec<char> = line.chars().collect();
    let mut words = Vec::new();
    let mut place = 0;
    // "`#` begins a comment, to the line's end."
    while place < characters.len() && characters[place] != '#' {
        let length = word_length(&characters[place..]);
        if !" \t".contains(characters[place]) {
            let text = characters[place..place + length].iter().collect();
            words.push(Word { text, column: column(&characters, place, wrong) });
        }
        place += length;
    }
    Line { number, words, end: column(&characters, characters.len(), wrong) }
}

/// "a line and column, from 1, in characters"
fn column(characters: &[char], place: usize, wrong: Wrong) -> usize {
    if wrong == Wrong::ColumnsInBytes {
        return 1 + characters[..place].iter().map(|character| character.len_utf8()).sum::<usize>();
    }
    1 + place
}

/// How long the word is that begins here: "Letters, digits and `_` that stand
/// together are one word, of whichever script, and so are other signs that do."
fn word_length(rest: &[char]) -> usize {
    let in_name = |character: char| character.is_alphanumeric() || character == '_';
    let ends = |character: char| " \t#".contains(character);
    let alike = |character: &&char| !ends(**character) && in_name(**character) == in_name(rest[0]);
    rest.iter().take_while(alike).count().max(1)
}
