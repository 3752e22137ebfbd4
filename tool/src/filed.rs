//! The files of numbers that the command writes: a comment that says what they are, and the numbers.

use crate::calls::Loaded;
use crate::words::{count, numbers_in_lines};

pub fn assignment(loaded: &Loaded, numbers: &[u16]) -> String {
    let case = &loaded.case;
    let layout = format!(
        "{}, block number and value of {}, then the value of {} at the end of {}",
        count(numbers.len(), "number", "numbers"),
        count(case.records.len(), "record", "records"),
        count(case.items(), "item", "items"),
        count(case.switches, "block", "blocks"),
    );
    text(loaded, "assignment", &layout, numbers)
}

pub fn schedule(loaded: &Loaded, numbers: &[u16]) -> String {
    let lengths = count(loaded.case.switches + 1, "block length", "block lengths");
    let values = count(loaded.case.inputs().len(), "input value", "input values");
    text(loaded, "schedule", &format!("{lengths}, then {values}"), numbers)
}

fn text(loaded: &Loaded, what: &str, layout: &str, numbers: &[u16]) -> String {
    // The file's own name: a folder means nothing where the file is read.
    let file = loaded.name.rsplit('/').next().unwrap_or_default();
    format!("# {what} of {file}: {layout}\n{}", numbers_in_lines(numbers))
}
