//! What may help to mend a refused input. Only the library decides that it is refused, and why; this looks for the place.

use crate::case::{Case, Kind, Record, CONSTANT};
use crate::walk::walk;
use crate::words::{count, enumeration, record_in_words};
use menduvo::Refusal;

/// Details of refusals 1 to 9.
pub fn of_case(bytes: &[u8], refusal: Refusal) -> Vec<String> {
    let Some(case) = Case::of(bytes.to_vec()) else {
        return vec![match bytes.len() > menduvo::MOST_CASE_BYTES {
            true => format!("it has over {} bytes, the most that a case has", menduvo::MOST_CASE_BYTES),
            false if bytes.is_empty() => "it is empty".to_string(),
            false => format!("it has {}", count(bytes.len(), "byte", "bytes")),
        }];
    };
    match refusal.number {
        2..=4 => {
            vec![format!("the header says T {}, n {}, G {}, M {}", case.threads, case.switches, case.globals, case.mutexes)]
        }
        5 => absent_fields(&case),
        6 => links(&case),
        7 => strays(&case),
        8 => lengths(&case),
        9 => broken_record(&case, refusal.place),
        _ => Vec::new(),
    }
}

fn absent_fields(case: &Case) -> Vec<String> {
    let firsts = (case.threads..4).map(|thread| (format!("the first record of thread {thread}"), case.header[4 + thread]));
    let values = (case.globals..8).map(|global| (format!("the initial value of global {global}"), case.header[8 + global]));
    let wrong = firsts.chain(values).filter(|(_, field)| *field != 0);
    let counts = format!("T is {} and G is {}", case.threads, case.globals);
    wrong.map(|(name, field)| format!("{name} is {field}, but {counts}")).collect()
}

/// The most lines of details of one sort.
const MOST_LINES: usize = 10;

/// At most so many lines, and how many more there are.
fn at_most(mut lines: Vec<String>) -> Vec<String> {
    let more = lines.len().saturating_sub(MOST_LINES);
    if more > 0 {
        lines.truncate(MOST_LINES);
        lines.push(format!("and {more} more"));
    }
    lines
}

/// A first or next number: where it stands, and the record that it leads to.
struct Link {
    name: String,
    to: u16,
}

fn links(case: &Case) -> Vec<String> {
    let most = case.records.len();
    let firsts = (0..case.threads).map(|thread| first_link(case, thread));
    let nexts = case.records.iter().map(|record| next_link(case, record));
    let over = firsts.chain(nexts).filter(|link| usize::from(link.to) > most);
    let over: Vec<String> = over.map(|link| format!("{} is {}, but R is {most}", link.name, link.to)).collect();
    match over.is_empty() {
        true => at_most(reached_twice(case)),
        false => at_most(over),
    }
}

fn first_link(case: &Case, thread: usize) -> Link {
    Link { name: format!("the first record of thread {thread}"), to: case.first(thread) }
}

fn next_link(case: &Case, record: &Record) -> Link {
    let place = match case.position(record.number) {
        Some((thread, line)) => format!("thread {thread}, line {line}"),
        None => "in no thread".to_string(),
    };
    Link { name: format!("the next number of record {} ({place})", record.number), to: record.next }
}

/// The records that more than one link leads to. The links of a record that no thread leads to do not count.
fn reached_twice(case: &Case) -> Vec<String> {
    let firsts = (0..case.threads).map(|thread| first_link(case, thread));
    let nexts = case.chains.iter().flatten().map(|&number| next_link(case, case.record(number)));
    let links: Vec<Link> = firsts.chain(nexts).collect();
    let twice = case.records.iter().filter_map(|record| {
        let names: Vec<&str> = links.iter().filter(|link| link.to == record.number).map(|link| link.name.as_str()).collect();
        let (last, rest) = names.split_last().filter(|(_, rest)| !rest.is_empty())?;
        let times = if rest.len() == 1 { "twice".to_string() } else { format!("{} times", names.len()) };
        Some(format!("record {} is reached {times}: by {}, and by {last}", record.number, rest.join(", by ")))
    });
    twice.collect()
}

fn strays(case: &Case) -> Vec<String> {
    let strays = case.records.iter().filter(|record| case.position(record.number).is_none());
    let numbers: Vec<u16> = strays.map(|record| record.number).collect();
    let records = if numbers.len() == 1 { "record" } else { "records" };
    vec![format!("no thread leads to {records} {}", enumeration(&numbers))]
}

fn lengths(case: &Case) -> Vec<String> {
    let chains = case.chains.iter().enumerate().filter(|(_, chain)| chain.len() > 64);
    chains.map(|(thread, chain)| format!("thread {thread} has {} lines", chain.len())).collect()
}

fn broken_record(case: &Case, place: u16) -> Vec<String> {
    let Some(record) = case.records.iter().find(|record| record.number == place) else {
        return Vec::new();
    };
    let position = case.position(place).map(|(thread, line)| format!(" (thread {thread}, line {line})")).unwrap_or_default();
    let mut details = vec![format!("record {place}{position}: {}", record.fields_in_words())];
    details.extend(broken_rules(case, record));
    details
}

/// The rules of its fields that a record breaks.
fn broken_rules(case: &Case, record: &Record) -> Vec<String> {
    let mut rules = Vec::new();
    let mut rule = |broken: bool, text: String| {
        if broken {
            rules.push(text);
        }
    };
    rule(record.kind == Kind::Unknown, "a kind is 1 to 8".to_string());
    rule(record.guard > 32, "a guard is 0 to 32".to_string());
    let (targets, named) = match record.kind {
        Kind::Compute | Kind::Load | Kind::Input => (16, "the target is a local, 0 to 15".to_string()),
        Kind::Store => (case.globals, format!("the target is a global, and G is {}", case.globals)),
        Kind::Lock | Kind::Unlock => (case.mutexes, format!("the target is a mutex, and M is {}", case.mutexes)),
        Kind::Assert | Kind::Assume => (1, "an assert and an assume have target 0".to_string()),
        Kind::Unknown => (usize::MAX, String::new()),
    };
    rule(usize::from(record.target) >= targets, named);
    if record.has_expression() {
        rule(record.op > 6, "an op is 0 to 6".to_string());
        rule(record.a > CONSTANT || record.b > CONSTANT, "an operand is 0 to 16".to_string());
        rule(record.op == 0 && record.b != 0, "op 0 has no b, so b is 0".to_string());
        let constant = record.a == CONSTANT || record.b == CONSTANT;
        rule(!constant && record.c != 0, "no operand is 16, so c is 0".to_string());
    } else if record.kind == Kind::Load {
        rule(usize::from(record.a) >= case.globals, format!("a is a global, and G is {}", case.globals));
        rule([record.op, record.b, record.c] != [0; 3], "a load has no op, b and c, so they are 0".to_string());
    } else if record.kind != Kind::Unknown {
        let unused = [record.op, record.a, record.b, record.c];
        rule(unused != [0; 4], "this kind has no op, a, b and c, so they are 0".to_string());
    }
    rules
}

/// Details of refusal 11.
pub fn of_assignment(case: &Case, numbers: usize) -> Vec<String> {
    let (records, switches, items) = (case.records.len(), case.switches, case.items());
    let mut details = vec![format!(
        "it has {}; 2 x {records} + {switches} x {items} is {}",
        count(numbers, "number", "numbers"),
        case.variables()
    )];
    if numbers == switches + 1 + case.inputs().len() {
        details.push("a schedule has so many; 'menduvo fill' makes an assignment of one that violates".to_string());
    }
    details
}

/// Details of refusals 12 to 14.
pub fn of_schedule(case: &Case, schedule: &[u16], refusal: Refusal) -> Vec<String> {
    match refusal.number {
        12 => {
            let inputs = count(case.inputs().len(), "input line", "input lines");
            let numbers = count(schedule.len(), "number", "numbers");
            let mut details = vec![format!("it has {numbers}; n + 1 is {}, and the case has {inputs}", case.switches + 1)];
            if schedule.len() == case.variables() {
                details.push("an assignment has so many; 'menduvo decode' makes a schedule of one that meets".to_string());
            }
            details
        }
        13 => sums(case, schedule),
        14 => {
            let inputs = case.inputs();
            let place = inputs.iter().position(|&input| input == refusal.place);
            let value = place.map(|place| schedule[case.switches + 1 + place]);
            let value = value.map(|value| format!(" is given {value}")).unwrap_or_default();
            let was_run = walk(case, schedule).steps.iter().any(|step| step.record == refusal.place);
            let why = if was_run { "its guard is false" } else { "it was not run" };
            vec![format!("{}{value}, but {why}", record_in_words(case, refusal.place))]
        }
        _ => Vec::new(),
    }
}

fn sums(case: &Case, schedule: &[u16]) -> Vec<String> {
    let sums = case.chains.iter().enumerate().map(|(thread, chain)| {
        let blocks = case.blocks_of(thread);
        let sum: usize = blocks.iter().map(|&block| usize::from(schedule[block])).sum();
        (thread, chain.len(), blocks, sum)
    });
    let wrong = sums.filter(|(_, lines, _, sum)| lines < sum);
    let words = wrong.map(|(thread, lines, blocks, sum)| {
        let lines = count(lines, "line", "lines");
        let blocks = match blocks.as_slice() {
            [block] => format!("its block {block} has length {sum}"),
            _ => format!("the lengths of its blocks {} add up to {sum}", enumeration(&blocks)),
        };
        format!("thread {thread} has {lines}, but {blocks}")
    });
    words.collect()
}
