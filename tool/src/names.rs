//! What locals, globals and mutexes are called: by a letter and a number, or by the name that a source gives them.

use std::collections::BTreeMap;

#[derive(Clone, Copy, Debug, PartialEq, Eq, PartialOrd, Ord)]
pub enum Name {
    /// A thread, and the number of its local.
    Local(usize, u16),
    Global(u16),
    Mutex(u16),
}

impl Name {
    /// The letter and the number.
    pub fn plain(self) -> String {
        match self {
            Name::Local(_, number) => format!("L{number}"),
            Name::Global(number) => format!("G{number}"),
            Name::Mutex(number) => format!("M{number}"),
        }
    }
}

/// The names that a source gives, and which of its lines each record is.
#[derive(Clone, Debug, Default, PartialEq, Eq)]
pub struct Names {
    words: BTreeMap<Name, String>,
    lines: BTreeMap<usize, usize>,
}

impl Names {
    pub fn give(&mut self, name: Name, word: &str) {
        self.words.insert(name, word.to_string());
    }

    pub fn put(&mut self, record: usize, line: usize) {
        self.lines.insert(record, line);
    }

    /// The line of the source that a record is.
    pub fn line_of(&self, record: u16) -> Option<usize> {
        self.lines.get(&usize::from(record)).copied()
    }

    /// The given names, locals by thread, then globals, then mutexes.
    pub fn given(&self) -> impl Iterator<Item = (Name, &str)> {
        self.words.iter().map(|(&name, word)| (name, word.as_str()))
    }

    pub fn called(&self, name: Name) -> String {
        self.words.get(&name).cloned().unwrap_or_else(|| name.plain())
    }
}
