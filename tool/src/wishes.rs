//! Wishes for a short run, as conditions of SMT-LIB over a case's variables. They narrow a question, and decide nothing.

use crate::calls::Loaded;
use crate::case::Case;

/// The wish that every line that is run is in a block up to this one.
pub fn blocks_up_to(case: &Case, last: u16) -> String {
    let lines = case.chains.iter().flatten();
    let lines = lines.map(|&record| format!(" (or {} (bvule {} {}))", unrun(case, record), block(record), constant(last)));
    format!("(and true{})", lines.collect::<String>())
}

/// The wish that at most so many blocks have lines.
pub fn blocks_with_lines_at_most(case: &Case, most: u16) -> String {
    let has_lines = |number: usize| {
        let lines = case.chains[case.thread_of_block(number)].iter();
        let lines = lines.map(|&record| format!(" (= {} {})", block(record), constant(number as u16)));
        format!("(or false{})", lines.collect::<String>())
    };
    at_most((0..=case.switches).map(has_lines), most)
}

/// The wish that at most so many lines are run.
pub fn lines_at_most(case: &Case, most: u16) -> String {
    at_most(case.chains.iter().flatten().map(|&record| format!("(not {})", unrun(case, record))), most)
}

/// That at most so many of these conditions hold.
fn at_most(conditions: impl Iterator<Item = String>, most: u16) -> String {
    let sum = conditions.fold(constant(0), |sum, one| format!("(bvadd {sum} (ite {one} #x0001 #x0000))"));
    format!("(bvule {sum} {})", constant(most))
}

fn unrun(case: &Case, record: u16) -> String {
    format!("(= {} {})", block(record), constant(case.unrun()))
}

/// The wish that the value of an input line is at most this, as a schedule has it: 0 where the guard is false. Where it was not run
/// its constraint gives it 0.
pub fn input_at_most(loaded: &Loaded, record: u16, most: u16) -> String {
    let small = format!("(bvule {} {})", value(record), constant(most));
    let guard = loaded.case.record(record).guard;
    let is_zero = match loaded.table.value_row(record).map_or(0, |row| row[2]) {
        0 => "true".to_string(),
        copy => format!("(= {} #x0000)", value(copy)),
    };
    match guard {
        0 => small,
        1..=16 => format!("(or {is_zero} {small})"),
        _ => format!("(or (not {is_zero}) {small})"),
    }
}

fn constant(number: u16) -> String {
    format!("#x{number:04x}")
}

fn block(record: u16) -> String {
    format!("v{}", 2 * (usize::from(record) - 1))
}

fn value(record: u16) -> String {
    format!("v{}", 2 * (usize::from(record) - 1) + 1)
}
