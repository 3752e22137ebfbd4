//! Lines and counts in words.

use crate::case::{Case, Kind, Record, CONSTANT};
use crate::names::{Name, Names};
use std::fmt;

/// What the letters stand for, and of a case with mutexes what their values do, in lines.
pub fn legend(case: &Case) -> String {
    let letters = "(L: a thread's locals, G: globals, M: mutexes; numbers have 16 bits, sums and differences wrap)\n";
    let holders = "(a mutex has 0 while it is free, and t + 1 while thread t holds it)\n";
    if case.mutexes > 0 {
        letters.to_string() + holders
    } else {
        letters.to_string()
    }
}

/// An item: globals come first, then mutexes.
pub fn item(case: &Case, item: usize) -> Name {
    match item < case.globals {
        true => Name::Global(item as u16),
        false => Name::Mutex((item - case.globals) as u16),
    }
}

pub fn item_name(case: &Case, item: usize) -> String {
    case.names.called(self::item(case, item))
}

/// A name with its value: `upper = 1`, `gates = 0 (free)`, `gates = 2 (held by thread 1)`.
pub fn named_value(case: &Case, name: Name, value: u16) -> String {
    format!("{} = {}", case.names.called(name), value_in_words(case, name, value, None))
}

/// The same of an item.
pub fn item_value(case: &Case, item: usize, value: u16) -> String {
    named_value(case, self::item(case, item), value)
}

/// A value, with what it says of a mutex, and what it was where that is told too.
pub fn value_in_words(case: &Case, name: Name, value: u16, was: Option<u16>) -> String {
    let notes = [holder_in_words(case, name, value), was.map(|was| format!("was {was}"))];
    match notes.into_iter().flatten().collect::<Vec<_>>().join(", ") {
        notes if notes.is_empty() => value.to_string(),
        notes => format!("{value} ({notes})"),
    }
}

/// The thread that holds a mutex of this value. No lock puts a number there that is over T.
pub fn holder(case: &Case, value: u16) -> Option<u16> {
    value.checked_sub(1).filter(|&thread| usize::from(thread) < case.threads)
}

/// What a value says of a mutex; nothing of another name, or a number that no lock puts there.
fn holder_in_words(case: &Case, name: Name, value: u16) -> Option<String> {
    match (name, holder(case, value)) {
        (Name::Mutex(_), Some(thread)) => Some(format!("held by thread {thread}")),
        (Name::Mutex(_), None) if value == 0 => Some("free".to_string()),
        _ => None,
    }
}

impl Record {
    /// The name that the line has as target.
    pub fn target_name(&self) -> Option<Name> {
        match self.kind {
            Kind::Compute | Kind::Load | Kind::Input => Some(self.local(self.target)),
            Kind::Store => Some(Name::Global(self.target)),
            Kind::Lock | Kind::Unlock => Some(Name::Mutex(self.target)),
            Kind::Assert | Kind::Assume | Kind::Unknown => None,
        }
    }

    /// The name that operand a reads.
    pub fn a_name(&self) -> Option<Name> {
        match self.kind {
            Kind::Load => Some(Name::Global(self.a)),
            _ if self.has_expression() && self.a != CONSTANT => Some(self.local(self.a)),
            _ => None,
        }
    }

    /// The name that operand b reads.
    pub fn b_name(&self) -> Option<Name> {
        (self.has_b() && self.b != CONSTANT).then(|| self.local(self.b))
    }

    /// The guard in words; nothing where it is always true.
    pub fn guard_words(&self, names: &Names) -> Option<String> {
        let sign = if self.guard <= 16 { "!=" } else { "==" };
        self.guard_local().map(|local| format!("{} {sign} 0", names.called(self.local(local))))
    }

    /// What the line does where its guard is true.
    pub fn action(&self, names: &Names) -> String {
        let target = self.target_name().map(|name| names.called(name)).unwrap_or_default();
        match self.kind {
            Kind::Compute | Kind::Store => format!("{target} = {}", self.expression_words(names)),
            Kind::Load => format!("{target} = {}", names.called(Name::Global(self.a))),
            Kind::Input => format!("{target} = input"),
            Kind::Assert => format!("assert {}", self.expression_words(names)),
            Kind::Assume => format!("assume {}", self.expression_words(names)),
            Kind::Lock => format!("lock {target}"),
            Kind::Unlock => format!("unlock {target}"),
            Kind::Unknown => format!("kind {}", self.fields[1]),
        }
    }

    /// Guard and action.
    pub fn words(&self, names: &Names) -> String {
        match self.guard_words(names) {
            Some(guard) => format!("when {guard}: {}", self.action(names)),
            None => self.action(names),
        }
    }

    /// The expression over names and constants.
    pub fn expression_words(&self, names: &Names) -> String {
        let operand = |operand: u16| match operand {
            CONSTANT => self.c.to_string(),
            local => names.called(self.local(local)),
        };
        self.expression_of(&operand(self.a), &operand(self.b))
    }

    /// The expression with these words for its operands.
    pub fn expression_of(&self, a: &str, b: &str) -> String {
        let sign = match self.op {
            0 => return a.to_string(),
            1 => "+",
            2 => "-",
            3 => "&",
            4 => "|",
            5 => "==",
            6 => "<",
            _ => "(an unknown op)",
        };
        format!("{a} {sign} {b}")
    }

    /// The eight fields by name, and the kind in a word.
    pub fn fields_in_words(&self) -> String {
        let [next, kind, guard, target, op, a, b, c] = self.fields;
        let word = match self.kind {
            Kind::Compute => "compute",
            Kind::Store => "store",
            Kind::Load => "load",
            Kind::Input => "input",
            Kind::Assert => "assert",
            Kind::Assume => "assume",
            Kind::Lock => "lock",
            Kind::Unlock => "unlock",
            Kind::Unknown => "unknown",
        };
        format!("next {next}, kind {kind} ({word}), guard {guard}, target {target}, op {op}, a {a}, b {b}, c {c}")
    }
}

/// A record by its number, its place and what it does.
pub fn record_in_words(case: &Case, number: u16) -> String {
    if number == 0 || usize::from(number) > case.records.len() {
        return format!("record {number}, which this case does not have");
    }
    let words = case.record(number).words(&case.names);
    match case.position(number) {
        Some((thread, line)) => format!("record {number} (thread {thread}, line {line}: {words})"),
        None => format!("record {number} (in no thread: {words})"),
    }
}

/// `1 line`, `2 lines`.
pub fn count(number: usize, one: &str, many: &str) -> String {
    match number {
        1 => format!("1 {one}"),
        _ => format!("{number} {many}"),
    }
}

/// `the one line`, `all 2 lines`.
pub fn all(number: usize, one: &str, many: &str) -> String {
    match number {
        1 => format!("the one {one}"),
        _ => format!("all {number} {many}"),
    }
}

/// `this one line`, `these 2 lines`.
pub fn these(number: usize, one: &str, many: &str) -> String {
    match number {
        1 => format!("this one {one}"),
        _ => format!("these {number} {many}"),
    }
}

/// `0`, `0 and 2`, `0, 2 and 4`.
pub fn enumeration<T: fmt::Display>(things: &[T]) -> String {
    match things {
        [] => "none".to_string(),
        [one] => one.to_string(),
        [most @ .., last] => {
            let most: Vec<String> = most.iter().map(T::to_string).collect();
            format!("{} and {last}", most.join(", "))
        }
    }
}

/// Items with their values: `G0 = 5, M0 = 0 (free)`.
pub fn items_in_words(case: &Case, values: &[u16]) -> String {
    let items = values.iter().enumerate().map(|(item, &value)| item_value(case, item, value));
    match values {
        [] => "none".to_string(),
        _ => items.collect::<Vec<_>>().join(", "),
    }
}

/// Numbers in a text: decimal, with a space between them, on one line.
pub fn numbers_in_a_line(numbers: &[u16]) -> String {
    numbers.iter().map(u16::to_string).collect::<Vec<_>>().join(" ")
}

/// Numbers as they are filed: decimal, with a space between them, in lines of at most 100 characters.
pub fn numbers_in_lines(numbers: &[u16]) -> String {
    let mut lines = String::new();
    let mut width = 0;
    for number in numbers {
        let word = number.to_string();
        if width > 0 && width + 1 + word.len() > 100 {
            lines.push('\n');
            width = 0;
        } else if width > 0 {
            lines.push(' ');
            width += 1;
        }
        width += word.len();
        lines.push_str(&word);
    }
    lines.push('\n');
    lines
}
