//! Names of locals, globals and mutexes.

use crate::second::Wrong;

/// "and `if else while end`, which are kept for a later form of threads"
const KEYWORDS: [&str; 16] = [
    "switches", "global", "mutex", "thread", "local", "record", "when", "lock", "unlock", "assert", "assume", "input", "if",
    "else", "while", "end",
];

/// What everything is called: its plain name, unless it has a new one.
#[derive(Clone, Debug, Default, PartialEq, Eq)]
pub struct Names {
    pub globals: Vec<String>,
    pub mutexes: Vec<String>,
    /// Each thread's.
    pub locals: Vec<Vec<String>>,
}

pub fn plain(letter: char, number: usize) -> String {
    format!("{letter}{number}")
}

/// "each thread's locals are `L0` to `L15`"
pub fn plain_locals() -> Vec<String> {
    (0..16).map(|number| plain('L', number)).collect()
}

impl Names {
    /// The names of a case that has no new ones.
    pub fn plain(globals: usize, mutexes: usize, threads: usize) -> Names {
        Names {
            globals: (0..globals).map(|number| plain('G', number)).collect(),
            mutexes: (0..mutexes).map(|number| plain('M', number)).collect(),
            locals: vec![plain_locals(); threads],
        }
    }

    /// The number of a local of the last thread.
    pub fn local(&self, name: &str, wrong: Wrong) -> Option<u16> {
        if wrong == Wrong::PlainNameStays {
            if let Some(number) = number_of(&plain_locals(), name) {
                return Some(number);
            }
        }
        number_of(self.locals.last()?, name)
    }

    pub fn global(&self, name: &str) -> Option<u16> {
        number_of(&self.globals, name)
    }

    pub fn mutex(&self, name: &str) -> Option<u16> {
        number_of(&self.mutexes, name)
    }

    /// "at most 32 letters, digits and `_`, the first a letter; no keyword; not
    /// `L`, `G` or `M` followed by digits alone; and nothing's name already in
    /// this thread or among globals and mutexes"
    pub fn can_be_new(&self, name: &str, wrong: Wrong) -> bool {
        let most = if wrong == Wrong::LongName { 33 } else { 32 };
        let begins_right = name.is_ascii() && name.starts_with(|first: char| first.is_ascii_alphabetic());
        let is_taken = self.global(name).or(self.mutex(name)).or(self.local(name, Wrong::Nothing)).is_some();
        begins_right && name.len() <= most && !KEYWORDS.contains(&name) && !looks_plain(name) && !is_taken
    }
}

fn number_of(names: &[String], name: &str) -> Option<u16> {
    let place = names.iter().position(|known| known == name)?;
    u16::try_from(place).ok()
}

fn looks_plain(name: &str) -> bool {
    let digits = name.strip_prefix(['L', 'G', 'M']).unwrap_or("");
    !digits.is_empty() && digits.bytes().all(|byte| byte.is_ascii_digit())
}
