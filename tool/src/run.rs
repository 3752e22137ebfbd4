//! A run in words: block by block and line by line, with the library's verdict.

use crate::calls::{Ending, Loaded};
use crate::case::Case;
use crate::failure::{Failure, Status};
use crate::rule;
use crate::values;
use crate::walk::{first_fault, walk, Event, Step, Walk};
use crate::words::{count, enumeration, items_in_words, numbers_in_a_line, record_in_words};

/// A run: what the library says of it, and the lines for display.
pub struct Run {
    pub ending: Ending,
    pub items: Vec<u16>,
    pub steps: Vec<Step>,
}

/// Replays a schedule by the library, and walks through it.
pub fn replay(loaded: &Loaded, name: &str, schedule: &[u16]) -> Result<Run, Failure> {
    confirmed(loaded, name, schedule, || walk(&loaded.case, schedule))
}

/// Replays a schedule by the library, and then takes a walk through it. Where the two disagree nothing is shown.
pub fn confirmed(loaded: &Loaded, name: &str, schedule: &[u16], walk: impl FnOnce() -> Walk) -> Result<Run, Failure> {
    let (ending, items) = loaded.replay(name, schedule)?;
    let seen = walk();
    if (seen.ending, &seen.items) != (ending, &items) {
        return Err(Failure::Other(format!(
            "THIS COMMAND IS WRONG: its display of the run disagrees with the proved library\n  \
             the library: {}; items: {}\n  the display: {}; items: {}\n  Trust the library, and report this case.",
            verdict(&loaded.case, ending),
            items_in_words(&loaded.case, &items),
            verdict(&loaded.case, seen.ending),
            items_in_words(&loaded.case, &seen.items),
        )));
    }
    Ok(Run { ending, items, steps: seen.steps })
}

/// What the run comes to.
pub fn verdict(case: &Case, ending: Ending) -> String {
    match ending {
        Ending::Violated(first) => format!("violated: {}", first.words(case)),
        Ending::Clean => "clean: nothing cuts the run off, and no line violates".to_string(),
        Ending::CutOff(record) => format!("cut off: {} failed, so the run ends there", record_in_words(case, record)),
    }
}

impl Run {
    pub fn status(&self) -> Status {
        match self.ending {
            Ending::Violated(_) => Status::Found,
            Ending::Clean | Ending::CutOff(_) => Status::Done,
        }
    }

    /// What is to be said of a line that would violate in a run that is cut off later.
    pub fn fault_in_vain(&self) -> Option<String> {
        let Ending::CutOff(failed) = self.ending else { return None };
        let fault = first_fault(&self.steps)?;
        Some(format!(
            "record {} {} too, but a run that is cut off is not legal; one that stops before record {failed} violates",
            fault.record,
            fault.predicate()
        ))
    }

    /// What is to be said of a violating schedule that breaks the rule of constraint 8: no assignment stands for it, but one stands
    /// for another.
    fn late_in_words(&self, case: &Case, schedule: &[u16]) -> Option<String> {
        let late = rule::late_records(case, schedule);
        let lines = match (self.ending, late.as_slice()) {
            (Ending::Violated(_), [one]) => format!("record {one} touches no shared item, and is"),
            (Ending::Violated(_), [_, ..]) => format!("records {} touch no shared item, and are each", enumeration(&late)),
            _ => return None,
        };
        let moved = numbers_in_a_line(&rule::moved(case, schedule));
        Some(format!(
            "no assignment stands for this schedule: {lines} in a later block than the line before it\n\
             for this one, which violates too, one does, and 'menduvo fill' prints it: {moved}"
        ))
    }

    /// The records of the lines that each thread does not get to, by chain.
    pub fn not_run<'a>(&self, case: &'a Case) -> Vec<&'a [u16]> {
        let of = |thread| self.steps.iter().filter(|step| case.thread_of_block(step.block) == thread).count();
        case.chains.iter().enumerate().map(|(thread, chain)| &chain[of(thread)..]).collect()
    }

    /// The same in lines; nothing of a thread that gets to its end.
    pub fn not_run_in_words(&self, case: &Case) -> Vec<String> {
        let left = self.not_run(case).into_iter().enumerate();
        let words = left.filter_map(|(thread, left)| {
            let (lines, first) = (count(left.len(), "line", "lines"), record_in_words(case, *left.first()?));
            let on = if left.len() > 1 { ("from ", " on") } else { ("", "") };
            Some(format!("not run: {lines} of thread {thread}, {}{first}{}", on.0, on.1))
        });
        words.collect()
    }

    pub fn text(&self, case: &Case, schedule: &[u16]) -> String {
        self.told(case, schedule, |_| String::new())
    }

    /// The same with all items after each line.
    pub fn text_with_values(&self, case: &Case, schedule: &[u16]) -> String {
        self.told(case, schedule, |place| {
            let before = match place {
                0 => case.items_at_start(),
                _ => self.steps[place - 1].items.clone(),
            };
            values::lines(12, "items", &values::items(case, &before, &self.steps[place].items))
        })
    }

    /// The run, with something more after each line.
    fn told(&self, case: &Case, schedule: &[u16], more: impl Fn(usize) -> String) -> String {
        let width = self.steps.iter().map(|step| case.record(step.record).words(&case.names).len()).max().unwrap_or(0);
        let mut text = format!("start: {}\n", items_in_words(case, &case.items_at_start()));
        for (block, &length) in schedule[..=case.switches].iter().enumerate() {
            if self.ended_before(block) {
                break;
            }
            let thread = case.thread_of_block(block);
            let lines = count(usize::from(length), "line", "lines");
            text.push_str(&format!("block {block}: thread {thread}, {lines}\n"));
            for (place, step) in self.steps.iter().enumerate().filter(|(_, step)| step.block == block) {
                text.push_str(&(line(case, step, width) + &more(place)));
            }
        }
        text + &format!("end: {}\n{}", items_in_words(case, &self.items), self.conclusion(case, schedule))
    }

    /// What the run of this schedule comes to, in lines.
    pub fn conclusion(&self, case: &Case, schedule: &[u16]) -> String {
        let place = self.ending.record().and_then(|record| case.names.line_of(record));
        let place = place.map(|line| format!("that is line {line} of the source"));
        let lines = self.not_run_in_words(case).into_iter().chain([verdict(case, self.ending)]);
        let lines = lines.chain(place).chain(self.fault_in_vain()).chain(self.late_in_words(case, schedule));
        lines.map(|line| line + "\n").collect()
    }

    /// Whether the run was cut off in an earlier block.
    pub fn ended_before(&self, block: usize) -> bool {
        let last = self.steps.last().map_or(0, |step| step.block);
        matches!(self.ending, Ending::CutOff(_)) && last < block
    }
}

/// A line that ran, and what came of it.
pub fn line(case: &Case, step: &Step, width: usize) -> String {
    let words = case.record(step.record).words(&case.names);
    let mark = match step.event {
        Event::Broken(_) | Event::Stranger(..) => ">>",
        Event::CutOff(_) => "||",
        _ => "  ",
    };
    let event = step.event.words(case);
    format!("{mark} line {:>2}  record {:>3}  {words:width$}  {event}\n", step.line, step.record)
}
