//! A case as source: text in the words that `show` prints, from which the case's bytes are made. `docs/SOURCE.md` is the grammar.
//! Whether a made case is taken is for the library to say.

use crate::names::{Name, Names};
use crate::numbers::{lines, shortened};
use crate::scope::{number, Item, Local, Scope};
use crate::token::{Place, Problem, Words};
use crate::words::{count, enumeration};
use menduvo::Refusal;
use std::collections::HashSet;

/// The most bytes of a source. The longest lines of the largest case have about a fifth of it; and what is over every limit of a
/// case still has counts of 16 bits.
pub const MOST_BYTES: usize = 1 << 18;

/// A case before the library has seen it.
pub struct Draft {
    pub bytes: Vec<u8>,
    pub names: Names,
    /// Where its parts stand in the source, if it was made from one.
    pub source: Option<Written>,
    /// Of bytes that are no case by the look of them: why they are no source either.
    pub no_source: Option<String>,
}

/// A source, and where its parts stand.
pub struct Written {
    pub text: String,
    switches: Place,
    globals: Vec<Place>,
    mutexes: Vec<Place>,
    threads: Vec<Place>,
    /// The lines of each thread, and all of them in the order of the source.
    lines: Vec<Vec<Place>>,
    end: Place,
}

impl Draft {
    pub fn of_bytes(bytes: Vec<u8>) -> Draft {
        Draft { bytes, names: Names::default(), source: None, no_source: None }
    }
}

impl Written {
    /// How much there is of what the library may find too much, or too little.
    pub fn size(&self) -> String {
        let counts = [
            count(self.threads.len(), "thread", "threads"),
            count(self.globals.len(), "global", "globals"),
            count(self.mutexes.len(), "mutex", "mutexes"),
            count(self.lines.iter().map(Vec::len).sum(), "line", "lines"),
        ];
        format!("the source has {}", enumeration(&counts))
    }

    /// Where the fault of a refused case stands.
    pub fn place_of(&self, refusal: Refusal) -> Place {
        let all: Vec<Place> = self.lines.iter().flatten().copied().collect();
        let place = match refusal.number {
            1 => all.get(256),
            2 => self.threads.get(4),
            3 => Some(&self.switches),
            4 => self.globals.get(8).or(self.mutexes.get(4)),
            8 => self.lines.iter().find_map(|lines| lines.get(64)),
            _ => None,
        };
        place.copied().unwrap_or(self.end)
    }
}

fn is_of_text(sign: char) -> bool {
    !sign.is_control() || matches!(sign, '\t' | '\n' | '\r')
}

/// Whether these bytes are text. Those of a case that the library takes never are: their second is 0.
pub fn is_text(bytes: &[u8]) -> bool {
    !bytes.is_empty() && std::str::from_utf8(bytes).is_ok_and(|text| text.chars().all(is_of_text))
}

/// Why bytes that are not all text are no source. Nothing where they may be meant as those of a case.
pub fn no_source(bytes: &[u8]) -> Option<String> {
    bytes.get(1).filter(|second| **second != 0)?;
    let chunk = bytes.utf8_chunks().next()?;
    let text = chunk.valid();
    let (before, wrong) = match text.char_indices().find(|(_, sign)| !is_of_text(*sign)) {
        Some((at, sign)) => (&text[..at], format!("the control character U+{:04X}", u32::from(sign))),
        None => (text, format!("the byte {:02x} is no UTF-8; save it as UTF-8", chunk.invalid().first()?)),
    };
    Some(format!("it is no source either: {}: {wrong}", end_of(&lines(before))))
}

/// The place behind the last of these lines.
fn end_of(lines: &[(usize, &str)]) -> Place {
    let end = lines.last().map(|&(line, text)| Place { line, column: text.chars().count() + 1 });
    end.unwrap_or(Place { line: 1, column: 1 })
}

/// What these bytes make, where they are a source.
pub fn of_bytes(bytes: &[u8]) -> Option<Draft> {
    let is_source = bytes.len() <= MOST_BYTES && is_text(bytes);
    let text = std::str::from_utf8(bytes).ok().filter(|_| is_source)?;
    read(text).ok()
}

/// Makes the bytes of a case from its source, which has at most `MOST_BYTES`.
pub fn read(text: &str) -> Result<Draft, Problem> {
    let mut reader = Reader::default();
    let lines = lines(text);
    for &(number, line) in &lines {
        if let Some(mut words) = Words::of(number, line) {
            reader.statement(&mut words)?;
        }
    }
    reader.draft(text, end_of(&lines))
}

#[derive(Default)]
struct Reader {
    switches: Option<(u16, Place)>,
    globals: Vec<Item>,
    mutexes: Vec<Item>,
    threads: Vec<Thread>,
}

struct Thread {
    place: Place,
    locals: Vec<Local>,
    lines: Vec<Line>,
}

struct Line {
    place: Place,
    /// The record, as it is given or as it follows.
    number: usize,
    /// Kind, guard, target, op, a, b, c.
    fields: [u16; 7],
}

impl Reader {
    fn statement(&mut self, words: &mut Words) -> Result<(), Problem> {
        let word = words.peek().unwrap_or_default();
        let before_threads = self.threads.is_empty();
        match (word, &self.switches) {
            ("switches", None) => self.take_switches(words)?,
            (_, None) if word.starts_with(|sign: char| sign.is_ascii_digit()) => {
                let wrong = format!("'{}' cannot stand here: a list of numbers is no case", shortened(word));
                return Err(Problem { wrong, ..words.problem("switches") });
            }
            (_, None) => return Err(words.problem("switches")),
            ("global", _) if before_threads && self.mutexes.is_empty() => self.take_global(words)?,
            ("mutex", _) if before_threads => self.take_mutex(words)?,
            ("thread", _) => {
                let place = words.place();
                words.expect("thread")?;
                self.threads.push(Thread { place, locals: Vec::new(), lines: Vec::new() });
            }
            _ if before_threads => return Err(words.problem(self.heads())),
            ("local", _) => self.take_local(words)?,
            _ => self.take_line(words)?,
        }
        words.ended("the end of the line")
    }

    /// What a statement before the threads can begin with.
    fn heads(&self) -> &'static str {
        match self.mutexes.is_empty() {
            true => "global, mutex, thread",
            false => "mutex, thread",
        }
    }

    fn take_switches(&mut self, words: &mut Words) -> Result<(), Problem> {
        words.expect("switches")?;
        let place = words.place();
        self.switches = Some((number(words)?, place));
        Ok(())
    }

    fn take_global(&mut self, words: &mut Words) -> Result<(), Problem> {
        let place = words.place();
        words.expect("global")?;
        let plain = Name::Global(self.globals.len() as u16).plain();
        let word = self.scope().new_name(words, &plain)?;
        words.expect("=")?;
        let value = number(words)?;
        self.globals.push(Item { word, value, place });
        Ok(())
    }

    fn take_mutex(&mut self, words: &mut Words) -> Result<(), Problem> {
        let place = words.place();
        words.expect("mutex")?;
        let plain = Name::Mutex(self.mutexes.len() as u16).plain();
        let word = self.scope().new_name(words, &plain)?;
        self.mutexes.push(Item { word, value: 0, place });
        Ok(())
    }

    fn take_local(&mut self, words: &mut Words) -> Result<(), Problem> {
        if self.threads.last().is_some_and(|thread| !thread.lines.is_empty()) {
            let wrong = "'local' cannot stand after a thread's first line".to_string();
            return Err(Problem { wrong, ..words.problem(&self.scope().line_heads()) });
        }
        words.expect("local")?;
        let place = words.place();
        let scope = self.scope();
        let word = scope.new_name(words, "")?;
        words.expect("=")?;
        let number = scope.unnamed_local(words)?;
        if let Some(thread) = self.threads.last_mut() {
            thread.locals.push(Local { word, number, place });
        }
        Ok(())
    }

    fn take_line(&mut self, words: &mut Words) -> Result<(), Problem> {
        let place = words.place();
        let last = self.threads.iter().rev().find_map(|thread| thread.lines.last()).map_or(0, |line| line.number);
        let scope = self.scope();
        let mut could = scope.line_heads();
        let mut record = last + 1;
        if words.takes("record") {
            record = usize::from(number(words)?);
            words.expect(":")?;
            could = format!("{}, when", scope.actions());
        }
        let mut guard = 0;
        if words.takes("when") {
            guard = scope.guard(words)?;
            could = scope.actions();
        }
        let [kind, target, op, a, b, c] = scope.action(words, &could)?;
        let line = Line { place, number: record, fields: [kind, guard, target, op, a, b, c] };
        if let Some(thread) = self.threads.last_mut() {
            thread.lines.push(line);
        }
        Ok(())
    }

    fn scope(&self) -> Scope<'_> {
        let locals = self.threads.last().map_or(&[][..], |thread| &thread.locals);
        let in_line = self.threads.last().is_some_and(|thread| !thread.lines.is_empty());
        Scope { globals: &self.globals, mutexes: &self.mutexes, locals, is_begun: in_line }
    }

    fn draft(&self, text: &str, end: Place) -> Result<Draft, Problem> {
        let Some((switches, place)) = self.switches else {
            let wrong = "the source ends too soon".to_string();
            return Err(Problem { place: end, wrong, could: "switches".to_string() });
        };
        self.each_record_once()?;
        let source = Written {
            text: text.to_string(),
            switches: place,
            globals: self.globals.iter().map(|item| item.place).collect(),
            mutexes: self.mutexes.iter().map(|item| item.place).collect(),
            threads: self.threads.iter().map(|thread| thread.place).collect(),
            lines: self.threads.iter().map(|thread| thread.lines.iter().map(|line| line.place).collect()).collect(),
            end,
        };
        Ok(Draft { names: self.names(), source: Some(source), ..Draft::of_bytes(self.bytes(switches)) })
    }

    /// That the records are 1 to as many as there are lines.
    fn each_record_once(&self) -> Result<(), Problem> {
        let lines: Vec<&Line> = self.threads.iter().flat_map(|thread| &thread.lines).collect();
        let mut taken: Vec<Option<Place>> = vec![None; lines.len()];
        for Line { place, number, .. } in &lines {
            let wrong = match number.checked_sub(1).and_then(|index| taken.get_mut(index)) {
                None => format!("but records go from 1 to {}, the number of lines", lines.len()),
                Some(Some(other)) => format!("but line {} is that already", other.line),
                Some(free) => {
                    *free = Some(*place);
                    continue;
                }
            };
            let given: HashSet<usize> = lines.iter().map(|line| line.number).collect();
            let left = (1..=lines.len()).find(|number| !given.contains(number));
            let could = format!("record {}:", left.unwrap_or_default());
            return Err(Problem { place: *place, wrong: format!("this line would be record {number}, {wrong}"), could });
        }
        Ok(())
    }

    fn names(&self) -> Names {
        let mut names = Names::default();
        let mut give = |name: Name, word: &str| {
            if name.plain() != word {
                names.give(name, word);
            }
        };
        (0..).zip(&self.globals).for_each(|(number, item)| give(Name::Global(number), &item.word));
        (0..).zip(&self.mutexes).for_each(|(number, item)| give(Name::Mutex(number), &item.word));
        for (thread, number) in self.threads.iter().zip(0..) {
            thread.locals.iter().for_each(|local| give(Name::Local(number, local.number), &local.word));
        }
        self.threads.iter().flat_map(|thread| &thread.lines).for_each(|line| names.put(line.number, line.place.line));
        names
    }

    /// The bytes of the case. Of one that is too large to be taken, those by which the library tells that.
    fn bytes(&self, switches: u16) -> Vec<u8> {
        let short = |count: usize| u16::try_from(count).unwrap_or(u16::MAX);
        let mut header = [0; 16];
        header[..4].copy_from_slice(&[
            short(self.threads.len()),
            switches,
            short(self.globals.len()),
            short(self.mutexes.len()),
        ]);
        for (field, thread) in header[4..8].iter_mut().zip(&self.threads) {
            *field = thread.lines.first().map_or(0, |line| short(line.number));
        }
        for (field, global) in header[8..].iter_mut().zip(&self.globals) {
            *field = global.value;
        }
        let mut records = vec![[0; 8]; self.threads.iter().map(|thread| thread.lines.len()).sum()];
        for thread in &self.threads {
            let nexts = thread.lines.iter().skip(1).map(|line| short(line.number)).chain([0]);
            for (line, next) in thread.lines.iter().zip(nexts) {
                let [kind, guard, target, op, a, b, c] = line.fields;
                records[line.number - 1] = [next, kind, guard, target, op, a, b, c];
            }
        }
        header.iter().chain(records.as_flattened()).flat_map(|field| field.to_le_bytes()).collect()
    }
}
