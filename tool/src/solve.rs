//! From a case to a run: the library's table and SMT-LIB text, solvers, assignment, and then the library's check, decoding and
//! replay; and which asserts and unlocks the answer is about.

use crate::calls::{Ending, Loaded};
use crate::failure::{Failure, Status};
use crate::fault::Fault;
use crate::input::Source;
use crate::keep::Keep;
use crate::numbers::Model;
use crate::reach::Reach;
use crate::run::{self, Run};
use crate::short::{self, Short};
use crate::solver::{self, Answer, Asked, Solver};
use crate::words::enumeration;
use std::thread;
use std::time::{Duration, Instant};

/// How long a question may take where there are several cases and nothing else is said.
pub const LIMIT_OF_MANY: Duration = Duration::from_secs(60);

/// `solve`, as it was called.
pub struct Wanted {
    pub cases: Vec<Source>,
    pub settings: Settings,
    pub jobs: usize,
    pub keep: Option<Keep>,
    pub strict: bool,
    pub json: bool,
    /// The n up to which the smallest one with a violation is looked for, where it is.
    pub least: Option<u16>,
    pub about: About,
    /// Whether a run that is found is made short.
    pub short: bool,
}

/// Which asserts and unlocks are asked about.
#[derive(Clone, Copy, Debug, PartialEq, Eq)]
pub enum About {
    /// All together.
    All,
    /// The one of this record.
    One(u16),
    /// One after the other.
    Each,
}

/// Whom to ask and how long, as far as it was said: no solver is the first that is installed.
pub struct Settings {
    pub solvers: Vec<Solver>,
    pub limit: Option<Option<Duration>>,
}

/// Whom to ask, and how long each question may take.
#[derive(Clone, Debug)]
pub struct Asking {
    pub solvers: Vec<Solver>,
    pub limit: Option<Duration>,
}

/// An assignment that the library checked, its schedule and its run.
pub struct Found {
    pub solver: String,
    pub assignment: Vec<u16>,
    pub schedule: Vec<u16>,
    pub run: Run,
    /// The first that violates, or the line that was asked about.
    pub fault: Fault,
    /// That the solver's model left variables out.
    pub left_out: Option<String>,
    /// How short it was made.
    pub short: Option<Short>,
}

/// What came of a question. The words say who did not answer, or what is wrong.
pub enum Verdict {
    Violated(Box<Found>),
    Unsat,
    Unknown(String),
    Timeout(String),
    /// With the run that shows who is wrong, where it is about the case's own question.
    Disagree(String, Option<Box<Found>>),
    Failed(String),
}

/// What came of a case.
pub struct Solved {
    pub text: String,
    pub asked: Vec<Asked>,
    pub verdict: Verdict,
    pub reach: Reach,
    pub seconds: f64,
}

impl Settings {
    pub fn asking(&self, many: bool) -> Result<Asking, Failure> {
        let limit = self.limit.unwrap_or(many.then_some(LIMIT_OF_MANY));
        Ok(Asking { solvers: solver::choose(&self.solvers)?, limit })
    }
}

/// Who answers questions: solvers, or what they answered before.
pub trait Ask: Sync {
    /// Asks for a model of a text with this many variables. There is an answer for each solver.
    fn ask(&self, text: &str, variables: usize) -> Vec<Asked>;
}

impl Ask for Asking {
    /// Asks every solver, all at once.
    fn ask(&self, text: &str, variables: usize) -> Vec<Asked> {
        match self.solvers.as_slice() {
            [solver] => vec![solver.ask(text, variables, self.limit)],
            solvers => thread::scope(|scope| {
                let ask = |solver: &'_ Solver| solver.ask(text, variables, self.limit);
                let threads: Vec<_> = solvers.iter().map(|solver| (solver, scope.spawn(move || ask(solver)))).collect();
                let asked = threads.into_iter().map(|(solver, thread)| thread.join().unwrap_or_else(|_| solver.silent()));
                asked.collect()
            }),
        }
    }
}

impl Asking {
    pub fn names(&self) -> Vec<&str> {
        self.solvers.iter().map(|solver| solver.name.as_str()).collect()
    }
}

impl Wanted {
    /// The record of the one line that is asked about.
    pub fn record(&self) -> Option<u16> {
        match self.about {
            About::One(record) => Some(record),
            About::All | About::Each => None,
        }
    }

    /// The case of a source at each n that is looked at.
    pub fn bounds(&self, source: &Source) -> Vec<Source> {
        match self.least {
            None => vec![source.clone()],
            Some(most) => (0..=most).map(|switches| source.clone().with_switches(Some(switches))).collect(),
        }
    }

    /// Solves a case as `solve` does, and makes the run short where that is wanted.
    pub fn solve(&self, loaded: &Loaded, asking: &Asking, tell: &mut dyn FnMut(&Verdict)) -> Result<Solved, Failure> {
        if !self.short {
            return solve(loaded, asking, tell);
        }
        // These are many questions, whatever the limit of the first.
        let limit = self.settings.limit.unwrap_or(Some(LIMIT_OF_MANY));
        let many = Asking { limit, ..asking.clone() };
        solve_and(loaded, asking, asking, Some(&|text, verdict| short::shortened(loaded, text, &many, verdict)), tell)
    }
}

/// Solves a case. What came of its question is told as soon as it is known; which lines are reached may take longer.
pub fn solve(loaded: &Loaded, asking: &Asking, tell: &mut dyn FnMut(&Verdict)) -> Result<Solved, Failure> {
    solve_by(loaded, asking, asking, tell)
}

/// The same, where one answers the case's own question, and another which lines are reached.
pub fn solve_by(loaded: &Loaded, first: &dyn Ask, others: &dyn Ask, tell: &mut dyn FnMut(&Verdict)) -> Result<Solved, Failure> {
    solve_and(loaded, first, others, None, tell)
}

/// What makes something else of a violation that was found to the question of a text.
type Making<'a> = &'a dyn Fn(&str, Verdict) -> Verdict;

/// The same, where something else is made of a violation: it is told as it is, and then what was made of it.
fn solve_and(
    loaded: &Loaded,
    first: &dyn Ask,
    others: &dyn Ask,
    made: Option<Making>,
    tell: &mut dyn FnMut(&Verdict),
) -> Result<Solved, Failure> {
    let begin = Instant::now();
    let text = loaded.question()?;
    let (asked, verdict, reach) = thread::scope(|scope| {
        let aside = scope.spawn(|| Reach::of(loaded, others));
        let asked = first.ask(&text, loaded.table.variables);
        let mut verdict = verdict(loaded, &asked);
        tell(&verdict);
        if let (Some(made), Verdict::Violated(_)) = (made, &verdict) {
            verdict = made(&text, verdict);
            tell(&verdict);
        }
        let reach =
            aside.join().unwrap_or_else(|_| Err(Failure::Other("the search for lines that are reached failed".to_string())));
        (asked, verdict, reach)
    });
    let mut reach = reach?;
    if let Some(found) = verdict.found() {
        reach.note_run(loaded, &found.schedule)?;
    }
    let verdict = match (verdict, &reach.disagreement) {
        // Who is wrong about the one question may be wrong about the other.
        (Verdict::Unsat, Some(why)) => Verdict::Disagree(format!("whether an {} is reached: {why}", reach.sort.one()), None),
        (verdict, _) => verdict,
    };
    Ok(Solved { text, asked, verdict, reach, seconds: begin.elapsed().as_secs_f64() })
}

/// What solvers' answers come to. An assignment is checked, decoded and replayed, so one is enough; unsat is a word, so all must
/// give it.
pub fn verdict(loaded: &Loaded, asked: &[Asked]) -> Verdict {
    let (mut found, mut wrong) = (None, None);
    for Asked { solver, answer, .. } in asked {
        if let Answer::Sat(model) = answer {
            match followed(loaded, solver, model) {
                Ok(one) => found = found.or(Some(Box::new(one))),
                Err(failure) => wrong = wrong.or(failure.message().map(str::to_string)),
            }
        }
    }
    let of = |wanted: fn(&Answer) -> bool| -> Vec<&str> {
        asked.iter().filter(|asked| wanted(&asked.answer)).map(|asked| asked.solver.as_str()).collect()
    };
    let unsat = of(|answer| *answer == Answer::Unsat);
    match (found, unsat.as_slice()) {
        (Some(found), [denies, ..]) => {
            let sat = &found.solver;
            let why = format!("{sat} says sat, and its assignment is checked and replayed; {denies} says unsat, and is wrong");
            return Verdict::Disagree(why, Some(found));
        }
        (Some(found), []) => return Verdict::Violated(found),
        (None, _) => {}
    }
    let besides = |words: String| match unsat.as_slice() {
        [] => words,
        [solver, ..] => format!("{words}; {solver} says unsat"),
    };
    if let Some(wrong) = wrong {
        return Verdict::Failed(besides(wrong));
    }
    for Asked { solver, answer, .. } in asked {
        if let Answer::None(problem) = answer {
            return Verdict::Failed(besides(format!("the solver {solver} gave no answer that can be read: {problem}")));
        }
    }
    match (of(|answer| *answer == Answer::Timeout).as_slice(), of(|answer| *answer == Answer::Unknown).as_slice()) {
        ([], []) => Verdict::Unsat,
        ([], unknown) => Verdict::Unknown(besides(format!("{} gave up", enumeration(unknown)))),
        (timeout, _) => Verdict::Timeout(besides(format!("{} gave no answer in time", enumeration(timeout)))),
    }
}

/// A solver's assignment, checked, decoded and replayed. No input of the user is refused here.
fn followed(loaded: &Loaded, solver: &str, model: &Model) -> Result<Found, Failure> {
    let name = format!("the assignment of {solver}");
    let assignment = &model.values;
    if let Some(constraint) = loaded.check(&name, assignment)? {
        let details = loaded.constraint_in_words(constraint, assignment)?.into_iter().chain(model.left_out_in_words());
        let details = details.collect::<Vec<_>>().join("\n  ");
        return Err(Failure::Other(format!("{name} fails, so {solver} or the text that it was given is wrong\n  {details}")));
    }
    let schedule = loaded.decode(&name, assignment)?;
    let run = run::replay(loaded, "the decoded schedule", &schedule)?;
    let Ending::Violated(first) = run.ending else {
        return Err(Failure::Other(format!(
            "an assignment that meets the constraints replays to '{}': this is not the proved library",
            run::verdict(&loaded.case, run.ending)
        )));
    };
    let Some(fault) = loaded.fault_asked_about(assignment, &schedule, first) else {
        return Err(Failure::Other(format!(
            "{name} violates, but not where it was asked for, so {solver} or the text that it was given is wrong\n  {}",
            run::verdict(&loaded.case, run.ending)
        )));
    };
    let (solver, left_out) = (solver.to_string(), model.left_out_in_words());
    Ok(Found { solver, assignment: assignment.clone(), schedule, run, fault, left_out, short: None })
}

impl Verdict {
    /// That there is no answer, and why, in lines.
    pub fn message(&self) -> String {
        match self {
            Verdict::Unknown(why) => format!("unknown: {why}"),
            Verdict::Timeout(why) => format!("timeout: {why}"),
            Verdict::Disagree(why, _) => format!("the solvers disagree: {why}"),
            other => other.trouble().to_string(),
        }
    }

    /// Why there is no answer, in lines; nothing where there is one.
    pub fn trouble(&self) -> &str {
        match self {
            Verdict::Violated(_) | Verdict::Unsat => "",
            Verdict::Unknown(why) | Verdict::Timeout(why) | Verdict::Disagree(why, _) | Verdict::Failed(why) => why,
        }
    }

    /// The run that was found.
    pub fn found(&self) -> Option<&Found> {
        match self {
            Verdict::Violated(found) => Some(found),
            Verdict::Disagree(_, found) => found.as_deref(),
            _ => None,
        }
    }
}

/// The answers that a case can get, in the order in which they are counted.
pub const ANSWERS: [&str; 8] = ["violated", "unsat", "vacuous", "timeout", "unknown", "disagree", "refused", "failed"];

impl Solved {
    /// The answer in a word.
    pub fn word(&self) -> &'static str {
        match self.verdict {
            Verdict::Violated(_) => "violated",
            Verdict::Unsat if self.reach.is_vacuous() => "vacuous",
            Verdict::Unsat => "unsat",
            Verdict::Unknown(_) => "unknown",
            Verdict::Timeout(_) => "timeout",
            Verdict::Disagree(..) => "disagree",
            Verdict::Failed(_) => "failed",
        }
    }

    /// The exit status. Where it is strict, an unsat must be about every line that is asked about.
    pub fn status(&self, strict: bool) -> i32 {
        match self.verdict {
            Verdict::Violated(_) => Status::Found.number(),
            Verdict::Unsat if strict && !self.reach.is_whole() => Status::Found.number(),
            Verdict::Unsat => Status::Done.number(),
            _ => Failure::STATUS_OTHER,
        }
    }

    /// The answer in a line.
    pub fn note(&self, loaded: &Loaded) -> String {
        let within = format!("nothing within n = {}, in round robin", loaded.case.switches);
        match (&self.verdict, self.reach.note()) {
            (Verdict::Violated(found), _) => {
                let short = found.short.as_ref().map(|short| format!("; {}", short.words(&loaded.case))).unwrap_or_default();
                loaded.fault_in_words(found) + &short
            }
            (Verdict::Unsat, None) => within,
            (Verdict::Unsat, Some(note)) if self.reach.is_vacuous() => note,
            (Verdict::Unsat, Some(note)) => format!("{within}; {note}"),
            (verdict, _) => verdict.trouble().lines().next().unwrap_or_default().to_string(),
        }
    }
}
