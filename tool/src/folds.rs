//! Which lines of a long run are drawn, and which are folded into one cell: a stretch of lines that neither read nor write a
//! shared item. What violates, what ends the run and what comes in by an input is always drawn.

use crate::case::{Case, Kind};
use crate::cells::{is_of_shared_kind, is_shared, Look};
use crate::names::Name;
use crate::run::Run;
use crate::svg::UNBROKEN;
use crate::walk::{Event, Step};
use crate::words::{count, enumeration};
use std::collections::BTreeMap;

/// A shorter stretch is drawn line by line.
const SHORTEST_FOLD: usize = 3;

pub enum Part<'a> {
    Line(&'a Step),
    Fold(&'a [Step]),
}

impl Part<'_> {
    pub fn is_shared(&self, case: &Case) -> bool {
        matches!(self, Part::Line(step) if is_shared(case, step))
    }

    pub fn look(&self, case: &Case) -> Look {
        match self {
            Part::Line(step) => Look::of(case, step),
            Part::Fold(_) => Look::Folded,
        }
    }
}

/// The lines of a block, in parts.
pub fn parts<'a>(case: &Case, run: &'a Run, block: usize) -> Vec<Part<'a>> {
    let of_the_block = run.steps.chunk_by(|one, next| one.block == next.block).find(|steps| steps[0].block == block);
    let stretches = of_the_block.unwrap_or_default().chunk_by(|one, next| is_plain(case, one) && is_plain(case, next));
    let parts = stretches.flat_map(|steps| match steps.len() < SHORTEST_FOLD {
        true => steps.iter().map(Part::Line).collect(),
        false => vec![Part::Fold(steps)],
    });
    parts.collect()
}

fn is_plain(case: &Case, step: &Step) -> bool {
    let is_told = matches!(step.event, Event::Broken(_) | Event::CutOff(_)) || case.record(step.record).kind == Kind::Input;
    !is_told && !is_of_shared_kind(case, step)
}

/// What folded lines come to: which they are, and what their thread's locals are after them.
pub fn fold_in_words(case: &Case, steps: &[Step]) -> String {
    let skipped = steps.iter().filter(|step| matches!(step.event, Event::Skipped(_))).count();
    let asserts = steps.iter().filter(|step| holds(case, step)).count();
    let mut words = format!("{}: {} lines folded", records_in_words(steps), steps.len());
    if asserts > 0 {
        words.push_str(&format!(", {}", count(asserts, "assert holds", "asserts hold")));
    }
    if skipped > 0 {
        words.push_str(&format!(", {skipped} skipped"));
    }
    let locals: BTreeMap<Name, u16> = steps.iter().filter_map(set).collect();
    if !locals.is_empty() {
        let word = |(name, value): (&Name, &u16)| format!("{}{UNBROKEN}={UNBROKEN}{value}", case.names.called(*name));
        words.push_str(&format!("; then {}", locals.iter().map(word).collect::<Vec<_>>().join(", ")));
    }
    words
}

fn holds(case: &Case, step: &Step) -> bool {
    matches!(step.event, Event::Holds(_)) && case.record(step.record).kind == Kind::Assert
}

fn set(step: &Step) -> Option<(Name, u16)> {
    match step.event {
        Event::Set(name, value) => Some((name, value)),
        _ => None,
    }
}

/// `4 to 9`, `4 to 6, 12 and 14 to 16`.
fn records_in_words(steps: &[Step]) -> String {
    let runs = steps.chunk_by(|one, next| one.record + 1 == next.record);
    let runs = runs.map(|run| match run {
        [one] => one.record.to_string(),
        [one, next] => format!("{}, {}", one.record, next.record),
        [first, .., last] => format!("{} to {}", first.record, last.record),
        [] => String::new(),
    });
    enumeration(&runs.collect::<Vec<_>>())
}
