//! `menduvo fill`: the assignment that stands for a schedule, for one that was found by thought. The library fills it, or refuses it.
//! Of a run that does not violate it is told what it comes to; of a schedule that breaks the rule of constraint 8, by which line, and
//! which schedule keeps the rule and violates too.

use crate::calls::{Ending, Loaded};
use crate::diagnosis;
use crate::failure::{Failure, Status};
use crate::input::Source;
use crate::json::{list, Json};
use crate::quote;
use crate::report;
use crate::rule::{self, Late};
use crate::run;
use crate::said::Said;
use crate::words::{enumeration, numbers_in_a_line, numbers_in_lines, record_in_words};
use menduvo::Refusal;
use std::ffi::OsStr;

pub fn fill(case: &Source, schedule: &Source, json: bool) -> Said {
    let loaded = match Loaded::from(case) {
        Ok(loaded) => loaded,
        Err(failure) => return Said::failed("fill", case, case, failure, json),
    };
    let filled = loaded.schedule(schedule).map(|numbers| (loaded.fill(&numbers), numbers));
    let told = filled.and_then(|filled| match filled {
        (Ok(assignment), numbers) => Ok(match json {
            true => Said::object(&report::filled(&loaded, &numbers, &assignment), Status::Done),
            false => Said { text: numbers_in_lines(&assignment), ended: Ok(Status::Done) },
        }),
        (Err(refusal), numbers) => {
            let why = Why::of(&loaded, case, &numbers, refusal)?;
            let failure = Failure::of_refusal(refusal, &schedule.name(), &why.details);
            Ok(Said::failed_with("fill", case, schedule, failure, json, why.own))
        }
    });
    told.unwrap_or_else(|failure| Said::failed("fill", case, schedule, failure, json))
}

/// Why a schedule is refused.
struct Why {
    /// In lines.
    details: Vec<String>,
    /// What its object has besides.
    own: Vec<(&'static str, Json)>,
}

impl Why {
    fn of(loaded: &Loaded, case: &Source, schedule: &[u16], refusal: Refusal) -> Result<Why, Failure> {
        match refusal.number {
            16 => Why::no_violation(loaded, schedule),
            17 => Why::late(loaded, case, schedule, refusal.place),
            _ => Ok(Why { details: diagnosis::of_schedule(&loaded.case, schedule, refusal), own: Vec::new() }),
        }
    }

    /// What the run comes to, by the library's replay.
    fn no_violation(loaded: &Loaded, schedule: &[u16]) -> Result<Why, Failure> {
        let run = run::replay(loaded, "the schedule", schedule)?;
        let verdict = run::verdict(&loaded.case, run.ending);
        if let Ending::Violated(_) = run.ending {
            return Err(Failure::Other(format!(
                "the library says that the run does not violate, and replays it: {verdict}: this is not the proved library"
            )));
        }
        let more = "'menduvo replay' prints the run line by line".to_string();
        Ok(Why {
            details: [verdict].into_iter().chain(run.fault_in_vain()).chain([more]).collect(),
            own: vec![("run", run.ending.word().into()), ("record", run.ending.record().into())],
        })
    }

    /// Which line is late, and the schedule with every such line in the block of the line before it.
    fn late(loaded: &Loaded, source: &Source, schedule: &[u16], place: u16) -> Result<Why, Failure> {
        let case = &loaded.case;
        let late = rule::late(case, schedule);
        let Some((first, others)) = late.split_first().filter(|(first, _)| first.record == place) else {
            return Err(disagrees(place, late.first()));
        };
        let moved = confirmed(loaded, rule::moved(case, schedule))?;
        let others: Vec<u16> = others.iter().map(|line| line.record).collect();
        let others = match others.as_slice() {
            [] => None,
            [one] => Some(format!("record {one} is such a line too")),
            _ => Some(format!("records {} are such lines too", enumeration(&others))),
        };
        let (words, Late { block, before, .. }) = (record_in_words(case, place), first);
        let numbers = numbers_in_a_line(&moved);
        let details = [
            Some(format!("{words} touches no shared item, and is in block {block}, but the line before it in block {before}")),
            case.names.line_of(place).map(|line| format!("that is line {line} of the source")),
            others,
            Some(format!("this schedule keeps the rule, violates too and has the same inputs: {numbers}")),
            Some(format!("the library fills it; to file that one: {}", filing(source, &numbers))),
        ];
        let own = vec![("late", list(late.iter().map(|line| line.record))), ("moved", list(moved))];
        Ok(Why { details: details.into_iter().flatten().collect(), own })
    }
}

/// A schedule that is told only where the library fills it: then it violates, and keeps the rule.
fn confirmed(loaded: &Loaded, schedule: Vec<u16>) -> Result<Vec<u16>, Failure> {
    match loaded.fill(&schedule) {
        Ok(_) => Ok(schedule),
        Err(refusal) => Err(Failure::Other(format!(
            "THIS COMMAND IS WRONG: the proved library refuses the schedule that it would name in the place of this one\n  {refusal}\n  \
             Trust the library, and report this case."
        ))),
    }
}

fn disagrees(place: u16, seen: Option<&Late>) -> Failure {
    let seen = seen.map_or("there is none".to_string(), |seen| format!("the first is record {}", seen.record));
    Failure::Other(format!(
        "THIS COMMAND IS WRONG: its display of late lines disagrees with the proved library\n  \
         the library: the first is record {place}\n  the display: {seen}\n  Trust the library, and report this case."
    ))
}

/// The command that fills these numbers.
fn filing(case: &Source, numbers: &str) -> String {
    if case.is_standard_input() {
        return "give it in the place of this one".to_string();
    }
    let switches = case.switches().map(|switches| format!(" --switches {switches}")).unwrap_or_default();
    let words = [OsStr::new("menduvo"), OsStr::new("fill"), case.path(), OsStr::new("-")];
    format!("echo {numbers} | {}{switches}", quote::line(&words))
}
