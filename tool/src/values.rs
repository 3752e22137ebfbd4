//! The values after a line, in words. What changed says what it was.

use crate::case::Case;
use crate::names::Name;
use crate::words::{item, value_in_words};
use std::collections::BTreeSet;

/// The most characters of a line of values, unless one alone has more.
const WIDTH: usize = 100;

/// All items, globals first.
pub fn items(case: &Case, before: &[u16], after: &[u16]) -> Vec<String> {
    let values = before.iter().zip(after).enumerate();
    values.map(|(place, (&before, &after))| value(case, item(case, place), before, after)).collect()
}

/// The locals that the thread's lines name.
pub fn locals(case: &Case, thread: usize, before: &[u16; 16], after: &[u16; 16]) -> Vec<String> {
    let records = case.chains[thread].iter().map(|&number| case.record(number));
    let names = records.flat_map(|record| {
        let guard = record.guard_local().map(|local| record.local(local));
        [guard, record.target_name(), record.a_name(), record.b_name()].into_iter().flatten()
    });
    let locals: BTreeSet<u16> =
        names.filter_map(|name| if let Name::Local(_, local) = name { Some(local) } else { None }).collect();
    let value_of = |local: u16| {
        let place = usize::from(local);
        value(case, Name::Local(thread, local), before[place], after[place])
    };
    locals.into_iter().map(value_of).collect()
}

fn value(case: &Case, name: Name, before: u16, after: u16) -> String {
    let was = (before != after).then_some(before);
    format!("{} = {}", case.names.called(name), value_in_words(case, name, after, was))
}

/// Values in lines: the first begins with what they are, and the others stand below its first value.
pub fn lines(indent: usize, what: &str, values: &[String]) -> String {
    let mut text = format!("{:indent$}{what}: ", "");
    let indent = text.chars().count();
    let mut width = indent;
    for (place, value) in values.iter().enumerate() {
        let more = value.chars().count() + 2;
        if width > indent && width + more > WIDTH {
            text = format!("{}\n{:indent$}", text.trim_end(), "");
            width = indent;
        }
        text.push_str(value);
        text.push_str(if place + 1 < values.len() { ", " } else { "" });
        width += more;
    }
    text + if values.is_empty() { "none\n" } else { "\n" }
}
