//! From the words to the case, by the grammar.

use super::names::{plain, plain_locals, Names};
use super::statement::{number, Statement};
use super::words::{lines, Line};
use super::{Fault, Place};
use crate::second::case::{Record, ASSERT, ASSUME, COMPUTE, INPUT, LOAD, LOCK, STORE, UNLOCK};
use crate::second::Wrong;

/// "An operand is the number of a local, or 16 for a number".
const CONSTANT: u16 = 16;

/// "else `+ - & | == <` are ops 1 to 6"
const SIGNS: [&str; 6] = ["+", "-", "&", "|", "==", "<"];

/// A line of a thread.
struct MadeLine {
    thread: usize,
    /// Its number, which may be beyond those of a case until all is looked at.
    number: usize,
    record: Record,
    place: Place,
}

/// A case that was made, its names, and where what it is made of stands.
#[derive(Default)]
pub struct Made {
    switches: u16,
    switches_place: Place,
    initial: Vec<u16>,
    lines: Vec<MadeLine>,
    globals: Vec<Place>,
    mutexes: Vec<Place>,
    threads: Vec<Place>,
    end: Place,
    pub names: Names,
    wrong: Wrong,
}

pub fn make(file: &[u8], wrong: Wrong) -> Result<Made, Fault> {
    let lines = lines(file, wrong).ok_or(Fault::NoSource)?;
    let mut made = Made { wrong, ..Made::default() };
    made.statements(&lines).map_err(Fault::At)?;
    made.link_lines().map_err(Fault::At)?;
    Ok(made)
}

impl Made {
    /// "source = switches { global } { mutex } { thread }"
    fn statements(&mut self, lines: &[Line]) -> Result<(), Place> {
        self.end = lines.last().map_or(Place::default(), Line::end);
        let mut statements = lines.iter().filter(|line| !line.words.is_empty()).map(Statement::new);
        let mut first = statements.next().ok_or(self.end)?;
        self.switches(&mut first)?;
        first.finish()?;
        for mut statement in statements {
            self.statement(&mut statement)?;
            statement.finish()?;
        }
        Ok(())
    }

    fn switches(&mut self, statement: &mut Statement) -> Result<(), Place> {
        statement.take_word("switches")?;
        self.switches_place = statement.place();
        self.switches = statement.take_number()?;
        Ok(())
    }

    fn statement(&mut self, statement: &mut Statement) -> Result<(), Place> {
        let place = statement.place();
        let (has_mutex, has_thread) = (!self.mutexes.is_empty(), !self.threads.is_empty());
        let has_line = self.lines.last().is_some_and(|line| line.thread + 1 == self.threads.len());
        if !has_thread && !has_mutex && statement.take_word_if("global") {
            self.globals.push(place);
            return self.global(statement);
        }
        if !has_thread && statement.take_word_if("mutex") {
            self.mutexes.push(place);
            return self.mutex(statement);
        }
        if statement.take_word_if("thread") {
            self.threads.push(place);
            self.names.locals.push(plain_locals());
            return Ok(());
        }
        if has_thread && !has_line && statement.take_word_if("local") {
            return self.local(statement);
        }
        if has_thread {
            return self.line(statement);
        }
        Err(place)
    }

    fn global(&mut self, statement: &mut Statement) -> Result<(), Place> {
        let plain = plain('G', self.names.globals.len());
        let name = self.name(statement, Some(plain))?;
        self.names.globals.push(name);
        statement.take_word("=")?;
        self.initial.push(statement.take_number()?);
        Ok(())
    }

    fn mutex(&mut self, statement: &mut Statement) -> Result<(), Place> {
        let plain = plain('M', self.names.mutexes.len());
        let name = self.name(statement, Some(plain))?;
        self.names.mutexes.push(name);
        Ok(())
    }

    /// "A local gets a new name by `local`, before its thread's first line, and
    /// once."
    fn local(&mut self, statement: &mut Statement) -> Result<(), Place> {
        let name = self.name(statement, None)?;
        statement.take_word("=")?;
        let thread = self.names.locals.len() - 1;
        let locals = &mut self.names.locals[thread];
        let still_plain =
            |word: &str| plain_locals().iter().position(|plain| plain == word).filter(|&local| locals[local] == word);
        let local = statement.take(still_plain)?;
        locals[local] = name;
        Ok(())
    }

    /// "this plain name, or a new one"
    fn name(&self, statement: &mut Statement, plain: Option<String>) -> Result<String, Place> {
        let allowed = |word: &str| plain.as_deref() == Some(word) || self.names.can_be_new(word, self.wrong);
        statement.take(|word| allowed(word).then(|| word.to_string()))
    }

    fn line(&mut self, statement: &mut Statement) -> Result<(), Place> {
        let place = statement.place();
        let number = self.record_number(statement)?;
        let guard = self.guard(statement)?;
        let record = Record { guard, ..self.action(statement)? };
        self.lines.push(MadeLine { thread: self.threads.len() - 1, number, record, place });
        Ok(())
    }

    /// "A line's record is the one before it in the source and 1, across
    /// threads; the first line's is 1. `record 7:` gives another".
    fn record_number(&self, statement: &mut Statement) -> Result<usize, Place> {
        if statement.take_word_if("record") {
            let given = statement.take_number()?;
            statement.take_word(":")?;
            return Ok(usize::from(given));
        }
        let mut numbers = self.lines.iter().map(|line| line.number);
        let before = if self.wrong == Wrong::RecordAfterLargest { numbers.max() } else { numbers.next_back() };
        Ok(before.unwrap_or(0) + 1)
    }

    /// "The guard is 0 without `when`, 1 + the local's number for `!= 0`, and
    /// 17 + the local's number for `== 0`."
    fn guard(&self, statement: &mut Statement) -> Result<u16, Place> {
        if !statement.take_word_if("when") {
            return Ok(0);
        }
        let local = statement.take(|word| self.a_local(word))?;
        let base = statement.take(|word| match word {
            "!=" => Some(1),
            "==" => Some(17),
            _ => None,
        })?;
        statement.take_word("0")?;
        statement.take_word(":")?;
        Ok(base + local)
    }

    fn a_local(&self, word: &str) -> Option<u16> {
        self.names.local(word, self.wrong)
    }

    fn action(&self, statement: &mut Statement) -> Result<Record, Place> {
        if let Some(local) = statement.take_if(|word| self.a_local(word)) {
            statement.take_word("=")?;
            return self.set_local(local, statement);
        }
        if let Some(global) = statement.take_if(|word| self.names.global(word)) {
            statement.take_word("=")?;
            return self.expression(STORE, global, statement);
        }
        let kind = statement.take(|word| match word {
            "assert" => Some(ASSERT),
            "assume" => Some(ASSUME),
            "lock" => Some(LOCK),
            "unlock" => Some(UNLOCK),
            _ => None,
        })?;
        if matches!(kind, ASSERT | ASSUME) {
            return self.expression(kind, 0, statement);
        }
        let mutex = statement.take(|word| self.names.mutex(word))?;
        Ok(record(kind, mutex))
    }

    fn set_local(&self, local: u16, statement: &mut Statement) -> Result<Record, Place> {
        if statement.take_word_if("input") {
            return Ok(record(INPUT, local));
        }
        if let Some(global) = statement.take_if(|word| self.names.global(word)) {
            return Ok(Record { a: global, ..record(LOAD, local) });
        }
        self.expression(COMPUTE, local, statement)
    }

    /// "An expression of one operand has op 0 and b 0".
    fn expression(&self, kind: u16, target: u16, statement: &mut Statement) -> Result<Record, Place> {
        let (a, first) = self.operand(statement, None)?;
        let op = statement.take_if(|word| SIGNS.iter().position(|sign| *sign == word));
        let Some(op) = op else {
            return Ok(Record { a, c: first.unwrap_or(0), ..record(kind, target) });
        };
        let (b, second) = self.operand(statement, first)?;
        let c = second.or(first).unwrap_or(0);
        Ok(Record { op: op as u16 + 1, a, b, c, ..record(kind, target) })
    }

    /// An operand, and its number if it is one: "where both operands are
    /// numbers, they are the same number".
    fn operand(&self, statement: &mut Statement, before: Option<u16>) -> Result<(u16, Option<u16>), Place> {
        if let Some(local) = statement.take_if(|word| self.a_local(word)) {
            return Ok((local, None));
        }
        let is_free = |number: &u16| self.wrong == Wrong::TwoNumbers || before.is_none_or(|before| before == *number);
        let constant = statement.take(|word| number(word).filter(is_free))?;
        Ok((CONSTANT, Some(constant)))
    }

    /// Refuses "the first line whose record is 0, over R, or that of a line
    /// before it". And: "Next is the record of the thread's next line, or 0."
    fn link_lines(&mut self) -> Result<(), Place> {
        let mut given = vec![false; self.lines.len()];
        for line in &self.lines {
            let mark = line.number.checked_sub(1).and_then(|index| given.get_mut(index));
            match mark {
                Some(mark) if !*mark => *mark = true,
                _ => return Err(line.place),
            }
        }
        for later in 1..self.lines.len() {
            if self.lines[later].thread == self.lines[later - 1].thread {
                self.lines[later - 1].record.next = self.lines[later].number as u16;
            }
        }
        Ok(())
    }

    /// The case file. What is beyond the library's limits and has no field in
    /// the header is not in it: the library refuses the case for its numbers.
    pub fn bytes(&self) -> Vec<u8> {
        let sizes = [self.threads.len(), usize::from(self.switches), self.globals.len(), self.mutexes.len()];
        let mut fields: Vec<u16> = sizes.map(|size| size as u16).to_vec();
        fields.extend((0..4).map(|thread| self.first(thread)));
        fields.extend((0..8).map(|global| self.initial.get(global).copied().unwrap_or(0)));
        let mut lines: Vec<&MadeLine> = self.lines.iter().collect();
        lines.sort_by_key(|line| line.number);
        for Record { next, kind, guard, target, op, a, b, c } in lines.iter().map(|line| line.record) {
            fields.extend([next, kind, guard, target, op, a, b, c]);
        }
        fields.into_iter().flat_map(u16::to_le_bytes).collect()
    }

    /// "a thread's first number is its first line's record, or 0"
    fn first(&self, thread: usize) -> u16 {
        let first = self.lines.iter().find(|line| line.thread == thread);
        first.map_or(0, |line| line.number as u16)
    }

    /// Where a made case that the library refuses points to.
    pub fn place_of(&self, refusal: u16) -> Option<Place> {
        match refusal {
            // "the 257th line"
            1 => self.lines.get(256).map(|line| line.place),
            // "the fifth `thread` or the text's end"
            2 => Some(self.threads.get(4).copied().unwrap_or(self.end)),
            // "the number after `switches`"
            3 => Some(self.switches_place),
            // "the ninth `global` or else the fifth `mutex`"
            4 => self.globals.get(8).or(self.mutexes.get(4)).copied(),
            // "the 65th line of the first thread that has one"
            8 => (0..self.threads.len()).find_map(|thread| self.line_65(thread)),
            _ => None,
        }
    }

    fn line_65(&self, thread: usize) -> Option<Place> {
        let mut lines = self.lines.iter().filter(|line| line.thread == thread);
        lines.nth(64).map(|line| line.place)
    }
}

/// A record of this kind whose other fields are 0.
fn record(kind: u16, target: u16) -> Record {
    Record { next: 0, kind, guard: 0, target, op: 0, a: 0, b: 0, c: 0 }
}
