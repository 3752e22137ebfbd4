//! The source of a case: the text from which `make` makes the same bytes, with the names that it was given.

use crate::case::{Case, Record};
use crate::names::Name;

pub fn text(case: &Case) -> String {
    let mut text = format!("switches {}\n", case.switches);
    for (number, value) in (0..).zip(&case.header[8..8 + case.globals]) {
        text.push_str(&format!("global {} = {value}\n", case.names.called(Name::Global(number))));
    }
    for number in 0..case.mutexes as u16 {
        text.push_str(&format!("mutex {}\n", case.names.called(Name::Mutex(number))));
    }
    let mut last = 0;
    for (thread, chain) in case.chains.iter().enumerate() {
        text.push_str("\nthread\n");
        text.push_str(&locals(case, thread));
        for &number in chain {
            text.push_str(&line(case, case.record(number), last));
            last = number;
        }
    }
    text
}

/// The names of a thread's locals.
fn locals(case: &Case, thread: usize) -> String {
    let of_thread = case.names.given().filter(|(name, _)| matches!(name, Name::Local(of, _) if *of == thread));
    of_thread.map(|(name, word)| format!("    local {word} = {}\n", name.plain())).collect()
}

/// A line, with its record where that does not follow the last one's.
fn line(case: &Case, record: &Record, last: u16) -> String {
    let number = match record.number == last + 1 {
        true => String::new(),
        false => format!("record {}: ", record.number),
    };
    format!("    {number}{}\n", record.words(&case.names))
}
