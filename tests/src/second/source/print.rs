//! "What `source` prints".

use super::names::{plain, Names};
use crate::second::case::{Case, Record, ASSERT, ASSUME, COMPUTE, INPUT, LOAD, LOCK, STORE};
use crate::second::Wrong;

pub fn print(case: &Case, names: &Names) -> String {
    let mut text = format!("switches {}\n", case.switches);
    for (global, name) in names.globals.iter().enumerate() {
        text += &format!("global {name} = {}\n", case.initial[global]);
    }
    for name in &names.mutexes {
        text += &format!("mutex {name}\n");
    }
    let mut before = 0;
    for (chain, locals) in case.chains.iter().zip(&names.locals) {
        // "for each thread an empty line, `thread`, `local` for each new name,
        // by the local's number, and its lines"
        text += "\nthread\n";
        text += &new_names(locals);
        if case.wrong == Wrong::RecordAtThread {
            before = 0;
        }
        for &line in chain {
            // "`record` only where the record is not the one before it and 1"
            let number = if line == before + 1 { String::new() } else { format!("record {line}: ") };
            let words = Words { names, locals, record: case.record(line) };
            text += &format!("    {number}{}{}\n", words.guard(), words.action());
            before = line;
        }
    }
    text
}

fn new_names(locals: &[String]) -> String {
    let named = locals.iter().enumerate().filter(|(local, name)| **name != plain('L', *local));
    named.map(|(local, name)| format!("    local {name} = {}\n", plain('L', local))).collect()
}

/// A line and the names it can use.
struct Words<'a> {
    names: &'a Names,
    locals: &'a [String],
    record: &'a Record,
}

impl Words<'_> {
    fn local(&self, local: u16) -> &str {
        &self.locals[usize::from(local)]
    }

    fn guard(&self) -> String {
        match self.record.guard {
            0 => String::new(),
            guard @ 1..=16 => format!("when {} != 0: ", self.local(guard - 1)),
            guard => format!("when {} == 0: ", self.local(guard - 17)),
        }
    }

    fn action(&self) -> String {
        let Record { kind, target, a, .. } = *self.record;
        let global = |global: u16| &self.names.globals[usize::from(global)];
        match kind {
            COMPUTE => format!("{} = {}", self.local(target), self.expression()),
            STORE => format!("{} = {}", global(target), self.expression()),
            LOAD => format!("{} = {}", self.local(target), global(a)),
            INPUT => format!("{} = input", self.local(target)),
            ASSERT => format!("assert {}", self.expression()),
            ASSUME => format!("assume {}", self.expression()),
            LOCK => format!("lock {}", self.names.mutexes[usize::from(target)]),
            _ => format!("unlock {}", self.names.mutexes[usize::from(target)]),
        }
    }

    fn expression(&self) -> String {
        let Record { op, a, b, .. } = *self.record;
        let sign = ["", "+", "-", "&", "|", "==", "<"][usize::from(op)];
        match op {
            0 => self.operand(a),
            _ => format!("{} {sign} {}", self.operand(a), self.operand(b)),
        }
    }

    fn operand(&self, operand: u16) -> String {
        match operand {
            16 => self.record.c.to_string(),
            local => self.local(local).to_string(),
        }
    }
}
