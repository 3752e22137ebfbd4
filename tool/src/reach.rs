//! Which asserts and unlocks an answer is about. Where no legal run within the bound reaches such a line with a true guard, unsat says
//! nothing of it.
//!
//! The case in which some of these lines are asserts of 0, with the guards that they have, is a case as any other. By the theorem its
//! constraints with the parts of these lines alone in the 7 are met exactly where a legal run of it that keeps the rule reaches one of
//! them with a true guard. Where any legal run does, one that keeps the rule does: each invisible line goes to the block of the line
//! before it, which changes no value and not which lines are run (`rule`). So does then a legal run of the case, and the other way
//! round: up to the first of them both go alike, and a run may stop right there. What comes after it differs in that an unlock does not
//! free its mutex, which makes no lock succeed that would not succeed in the case. That an unlock became an assert, an invisible line,
//! is as good: what is asked is about the changed case and all its runs. So a solver is asked about that text, and the library checks,
//! decodes and replays its answer; and which lines the same schedule reaches in the case itself is the library's word too. Simple
//! schedules are tried first, by its replay alone.

use crate::by_hand::ByHand;
use crate::calls::{Ending, Loaded};
use crate::case::Case;
use crate::failure::Failure;
use crate::fault::{with_zeros, Sort, ASSERT};
use crate::solve::{verdict, Ask, Verdict};
use crate::solver::Asked;
use crate::words::{count, enumeration};

#[cfg(test)]
mod tests;

/// Whether some legal run within the bound reaches a line with a true guard.
#[derive(Clone, Debug, PartialEq, Eq)]
pub enum Reached {
    /// It does, with this schedule.
    Yes(Vec<u16>),
    /// No run does: by the solvers' word, or by what is plain to see.
    Never,
    /// Why it is not known.
    NotKnown(String),
}

/// A question to solvers: whether one of these lines is reached.
#[derive(Clone, Debug)]
pub struct Question {
    pub records: Vec<u16>,
    pub text: String,
    pub asked: Vec<Asked>,
}

/// What is known of the asserts and unlocks that are asked about, by thread and line.
#[derive(Clone, Debug)]
pub struct Reach {
    pub lines: Vec<(u16, Reached)>,
    pub sort: Sort,
    /// Why no run can reach anything, where that is plain to see.
    pub plain: Option<String>,
    pub questions: Vec<Question>,
    /// That solvers exclude each other in some answer.
    pub disagreement: Option<String>,
}

/// Whether no run gets to a record, as its thread has no block.
pub fn has_no_block(case: &Case, record: u16) -> bool {
    case.blocks_of(case.record(record).thread).is_empty()
}

/// Why there is nothing to reach, where no solver is needed to see it.
fn plainly_nothing(loaded: &Loaded) -> Option<String> {
    let (case, lines) = (&loaded.case, loaded.lines());
    if !lines.iter().all(|&record| has_no_block(case, record)) {
        return None;
    }
    let (sort, switches) = (Sort::of(case, &lines).one(), case.switches);
    Some(match lines.as_slice() {
        [] => "the case has no assert and no unlock".to_string(),
        [line] => format!("thread {} has the {sort}, and no block within n = {switches}", case.record(*line).thread),
        _ => format!("no thread with an {sort} has a block within n = {switches}"),
    })
}

/// The same, as it is said where a solver was not asked.
pub fn plainly_nothing_in_words(loaded: &Loaded) -> Option<String> {
    plainly_nothing(loaded).map(|why| format!("nothing is checked here, whatever a solver says: {why}"))
}

impl Reach {
    pub fn of(loaded: &Loaded, asking: &dyn Ask) -> Result<Reach, Failure> {
        let case = &loaded.case;
        let first = |record| match has_no_block(case, record) {
            true => Reached::Never,
            false => Reached::NotKnown(String::new()),
        };
        let (lines, sort) = (loaded.lines(), Sort::of(case, &loaded.lines()));
        let lines = lines.into_iter().map(|record| (record, first(record))).collect();
        let mut reach = Reach { lines, sort, plain: plainly_nothing(loaded), questions: Vec::new(), disagreement: None };
        if reach.plain.is_none() {
            for schedule in simple_schedules(case) {
                reach.note_run(loaded, &schedule)?;
            }
            reach.ask(loaded, asking)?;
        }
        Ok(reach)
    }

    /// The lines of which nothing is known.
    fn open(&self) -> Vec<u16> {
        let open = self.lines.iter().filter(|(_, reached)| matches!(reached, Reached::NotKnown(_)));
        open.map(|(record, _)| *record).collect()
    }

    /// Notes the lines that the run of this schedule reaches, if it is legal. The library's word is proved, and stands above a
    /// solver's.
    pub fn note_run(&mut self, loaded: &Loaded, schedule: &[u16]) -> Result<(), Failure> {
        let others = self.lines.iter_mut().filter(|(_, reached)| !matches!(reached, Reached::Yes(_)));
        let mut others = others.peekable();
        if others.peek().is_none() || !is_legal(loaded, schedule)? {
            return Ok(());
        }
        for (_, reached) in others.filter(|(record, _)| loaded.items_before(*record, schedule).is_some()) {
            *reached = Reached::Yes(schedule.to_vec());
        }
        Ok(())
    }

    /// Asks until something is known of every line, or the solvers do not know.
    fn ask(&mut self, loaded: &Loaded, asking: &dyn Ask) -> Result<(), Failure> {
        let mut open = self.open();
        while !open.is_empty() {
            let changed = loaded.changed(with_zeros(&loaded.case, &open, ASSERT))?;
            let text = changed.text_about(&open)?;
            let asked = asking.ask(&text, changed.table.variables);
            let answer = verdict(&changed, &asked);
            self.questions.push(Question { records: open.clone(), text, asked });
            if let Verdict::Disagree(why, _) = &answer {
                self.disagreement = Some(why.clone());
            }
            let known = match (answer.found(), &answer) {
                (Some(found), _) => {
                    self.note_run(loaded, &found.schedule)?;
                    let left = self.open();
                    if left.len() < open.len() {
                        open = left;
                        continue;
                    }
                    Reached::NotKnown("the run that the solver gave for it does not reach it".to_string())
                }
                (None, Verdict::Unsat) => Reached::Never,
                (None, other) => Reached::NotKnown(other.trouble().to_string()),
            };
            for (_, reached) in self.lines.iter_mut().filter(|(record, _)| open.contains(record)) {
                *reached = known.clone();
            }
            return Ok(());
        }
        Ok(())
    }

    /// Whether nothing was checked: no line is reached.
    pub fn is_vacuous(&self) -> bool {
        self.lines.iter().all(|(_, reached)| *reached == Reached::Never)
    }

    /// Whether there are such lines, and each is shown to be reached.
    pub fn is_whole(&self) -> bool {
        !self.lines.is_empty() && self.lines.iter().all(|(_, reached)| matches!(reached, Reached::Yes(_)))
    }

    /// Whether something is known of each line.
    pub fn is_settled(&self) -> bool {
        !self.lines.iter().any(|(_, reached)| matches!(reached, Reached::NotKnown(_)))
    }

    /// In a few words, where something is not shown to be reached.
    pub fn note(&self) -> Option<String> {
        let one = self.sort.one();
        let many = count(self.lines.len(), one, self.sort.many());
        let records = |wanted: fn(&Reached) -> bool| -> Vec<u16> {
            self.lines.iter().filter(|(_, reached)| wanted(reached)).map(|(record, _)| *record).collect()
        };
        let never = records(|reached| *reached == Reached::Never);
        let open = records(|reached| matches!(reached, Reached::NotKnown(_)));
        match (&self.plain, never.as_slice(), open.as_slice()) {
            (Some(plain), ..) => Some(format!("nothing was checked: {plain}")),
            (None, [], []) => None,
            (None, [_], []) if self.lines.len() == 1 => Some(format!("nothing was checked: its {one} is never reached")),
            (None, never, []) if never.len() == self.lines.len() => {
                Some(format!("nothing was checked: none of its {many} is ever reached"))
            }
            (None, [], open) => Some(format!("of {many}, not known to be reached: record {}", enumeration(open))),
            (None, never, []) => Some(format!("of {many}, NEVER REACHED: record {}", enumeration(never))),
            (None, never, open) => Some(format!(
                "of {many}, NEVER REACHED: record {}; not known to be reached: record {}",
                enumeration(never),
                enumeration(open)
            )),
        }
    }
}

/// Whether the library takes this schedule, and nothing cuts its run off.
fn is_legal(loaded: &Loaded, schedule: &[u16]) -> Result<bool, Failure> {
    match loaded.replay("a schedule", schedule) {
        Ok((ending, _)) => Ok(!matches!(ending, Ending::CutOff(_))),
        Err(Failure::ByLibrary(..)) => Ok(false),
        Err(failure) => Err(failure),
    }
}

/// Schedules in which threads take turns in some order, each as far as it can go, and with every input 0, or 1.
fn simple_schedules(case: &Case) -> Vec<Vec<u16>> {
    let threads: Vec<usize> = (0..case.threads).filter(|&thread| !case.chains[thread].is_empty()).collect();
    let values: &[u16] = if case.inputs().is_empty() { &[0] } else { &[0, 1] };
    let orders = orders(&threads);
    orders.iter().flat_map(|order| values.iter().map(|&value| in_turns(case, order, value))).collect()
}

fn in_turns(case: &Case, order: &[usize], value: u16) -> Vec<u16> {
    let mut run = ByHand::new(case);
    while order.iter().any(|&thread| run.goes_on(thread)) {
        for &thread in order {
            while run.goes_on(thread) && run.run(thread, value).is_ok() {}
        }
    }
    run.schedule()
}

fn orders(threads: &[usize]) -> Vec<Vec<usize>> {
    if threads.is_empty() {
        return vec![Vec::new()];
    }
    let first = |&thread: &usize| {
        let rest: Vec<usize> = threads.iter().copied().filter(|&other| other != thread).collect();
        orders(&rest).into_iter().map(move |order| [vec![thread], order].concat())
    };
    threads.iter().flat_map(first).collect()
}
