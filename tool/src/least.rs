//! `solve --least`: the smallest n with a violation. The case with another n is a case as any other, and is asked, checked and kept
//! as one. A schedule that violates does so at every larger n, with empty blocks behind it: so n goes up from 0, and ends at the
//! first violation.

use crate::calls::Loaded;
use crate::case::{set_switches, MOST_SWITCHES};
use crate::failure::{note, Failure, Status};
use crate::input::Source;
use crate::json::{list, Json};
use crate::output::Output;
use crate::said::Said;
use crate::several::{self, Columns};
use crate::solve::{Asking, Solved, Wanted};
use crate::summary::{answer, load, Summary};
use crate::told;

/// What came of the case with this n.
pub struct Step {
    pub switches: u16,
    pub summary: Summary,
    /// Whether there is a run that violates: also where a solver denies it.
    found: bool,
}

/// What came of the search.
pub struct Least {
    most: u16,
    /// The steps before the last, with n from 0. None of them has a run.
    earlier: Vec<Step>,
    last: Step,
    /// The case with the last n, and all that came of it where it was not filed before.
    pub loaded: Loaded,
    pub solved: Option<Solved>,
}

const COLUMNS: Columns = Columns { first: "n", width: 2 };

/// `solve CASE --least`.
pub fn one(source: &Source, wanted: &Wanted, output: &mut Output) -> Result<Status, Failure> {
    let first = match begin(source, wanted).and_then(|first| first.asked_about(wanted.record())) {
        Ok(first) => first,
        Err(failure) => return Said::failed("solve", source, source, failure, wanted.json).tell(output),
    };
    let (asking, _) = several::prepared(wanted, true, output)?;
    if !wanted.json {
        output.say(&format!("{}\n{}", question(source, &first, wanted), COLUMNS.head()))?;
    }
    let least = search(&first, source, wanted.record(), wanted, &asking, &mut |step| {
        output.say(&match wanted.json {
            true => format!("{}\n", step.summary.json),
            false => COLUMNS.line(&step.switches.to_string(), &step.summary),
        })
    })?;
    let status = least.status(wanted.strict);
    output.say(&match wanted.json {
        true => format!("{}\n", least.object(wanted.strict)),
        false => format!("{}{}\n", least.shown(&asking), least.sentence()),
    })?;
    if let Some(message) = least.message() {
        note(&message);
    }
    Status::of(status)
}

/// The case with n = 0: whether a case is taken depends on n only where n is too large.
pub fn begin(source: &Source, wanted: &Wanted) -> Result<Loaded, Failure> {
    load(&source.clone().with_switches(Some(0)), wanted)
}

/// `solve --least` on one case among several.
pub fn answered(source: &Source, wanted: &Wanted, asking: &Asking) -> Result<Summary, Failure> {
    let first = begin(source, wanted)?;
    let least = search(&first, source, wanted.record(), wanted, asking, &mut |_| Ok(()))?;
    Ok(least.summary(wanted.strict))
}

fn question(source: &Source, first: &Loaded, wanted: &Wanted) -> String {
    let most = wanted.least.unwrap_or(MOST_SWITCHES);
    let place = first.asked.map(|record| format!(" at record {record}")).unwrap_or_default();
    format!("{}: the smallest n with a violation{place}, up to {most}", source.name())
}

/// Asks at n = 0, 1, 2, .., and tells each answer as it is known. An n without an answer ends nothing.
pub fn search(
    first: &Loaded,
    source: &Source,
    record: Option<u16>,
    wanted: &Wanted,
    asking: &Asking,
    tell: &mut dyn FnMut(&Step) -> Result<(), Failure>,
) -> Result<Least, Failure> {
    let most = wanted.least.unwrap_or(MOST_SWITCHES);
    let mut earlier: Vec<Step> = Vec::new();
    let mut switches = 0;
    loop {
        let source = source.clone().with_switches(Some(switches));
        let mut bytes = first.case.bytes.clone();
        set_switches(&mut bytes, switches);
        let loaded = Loaded::of(&source, first.draft(bytes))?.asked_about(record)?;
        let answered = answer(&loaded, wanted, asking);
        let (summary, solved) = answered.unwrap_or_else(|failure| (Summary::of_failure(&source, &failure), None));
        let found = summary.word == "violated" || solved.as_ref().is_some_and(|solved| solved.verdict.found().is_some());
        let step = Step { switches, summary, found };
        tell(&step)?;
        if found || switches == most {
            return Ok(Least { most, earlier, last: step, loaded, solved });
        }
        earlier.push(step);
        switches += 1;
    }
}

impl Step {
    /// Whether the solvers deny a violation at this n.
    fn is_unsat(&self) -> bool {
        matches!(self.summary.word.as_str(), "unsat" | "vacuous")
    }

    fn is_vacuous(&self) -> bool {
        self.summary.word == "vacuous"
    }

    /// Whether there is no answer at this n.
    fn is_open(&self) -> bool {
        !self.found && !self.is_unsat()
    }
}

impl Least {
    fn steps(&self) -> impl Iterator<Item = &Step> {
        self.earlier.iter().chain([&self.last])
    }

    fn those(&self, wanted: fn(&Step) -> bool) -> Vec<u16> {
        self.steps().filter(|step| wanted(step)).map(|step| step.switches).collect()
    }

    /// The step that says what comes of the whole: a run, or why there is no answer, or the largest n.
    fn deciding(&self) -> &Step {
        let open = self.earlier.iter().find(|step| step.is_open());
        open.filter(|_| !self.last.found).unwrap_or(&self.last)
    }

    /// The n of a run.
    fn violated(&self) -> Option<u16> {
        self.last.found.then_some(self.last.switches)
    }

    /// The smallest n with a violation, where every smaller one is known to have none.
    fn first(&self) -> Option<u16> {
        let known = self.last.summary.word == "violated" && !self.steps().any(Step::is_open);
        self.violated().filter(|_| known)
    }

    /// The exit status. A strict one goes by the largest n: at a small one nothing may be reached.
    fn status(&self, strict: bool) -> i32 {
        self.deciding().summary.status(strict)
    }

    /// `first at n = 3; unsat at 0, 1, 2`. It is the first only where every smaller n has an answer.
    pub fn sentence(&self) -> String {
        let open = self.steps().filter(|step| step.is_open());
        let open: Vec<String> = open.map(|step| format!("{} ({})", step.switches, step.summary.word)).collect();
        let found = match (self.violated(), self.first()) {
            (_, Some(first)) => format!("first at n = {first}"),
            (Some(n), None) if self.last.summary.word == "disagree" => format!("a violation at n = {n}, which a solver denies"),
            (Some(n), None) => format!("a violation at n = {n}"),
            (None, None) if open.is_empty() => return self.nothing(),
            (None, None) => "no violation found".to_string(),
        };
        let unsat = self.those(Step::is_unsat);
        let unsat = (!unsat.is_empty()).then(|| self.unsat_in_words());
        let open = (!open.is_empty()).then(|| format!("not known at {}", open.join(", ")));
        [Some(found), unsat, open].into_iter().flatten().collect::<Vec<_>>().join("; ")
    }

    /// The same where every n is unsat.
    fn nothing(&self) -> String {
        let (unsat, most) = (self.those(Step::is_unsat), self.most);
        match most == MOST_SWITCHES {
            _ if self.those(Step::is_vacuous) == unsat => {
                format!("nothing was checked at {}: every unsat is vacuous", in_words(&unsat))
            }
            true => format!("{}: no violation up to the largest n", self.unsat_in_words()),
            false => format!("{}: no violation up to n = {most}", self.unsat_in_words()),
        }
    }

    fn unsat_in_words(&self) -> String {
        let (unsat, vacuous) = (in_words(&self.those(Step::is_unsat)), in_words(&self.those(Step::is_vacuous)));
        match vacuous.is_empty() {
            true => format!("unsat at {unsat}"),
            false => format!("unsat at {unsat} ({vacuous}: nothing was checked)"),
        }
    }

    /// The run, or what the unsat at the largest n means; nothing where that was filed before, or has no answer.
    fn shown(&self, asking: &Asking) -> String {
        let Least { loaded, last, .. } = self;
        let Some(solved) = self.solved.as_ref().filter(|_| !last.is_open()) else {
            return String::new();
        };
        let answer = told::answer(loaded, &asking.names(), &solved.verdict);
        let reached = told::reached(loaded, &solved.reach);
        format!("with n = {}:\n{answer}{reached}{}", last.switches, told::warning(solved))
    }

    /// What failed, in full: at the first n that has no answer.
    fn message(&self) -> Option<String> {
        let mut messages = self.steps().filter_map(|step| Some((step.switches, step.summary.message.as_ref()?)));
        messages.next().map(|(switches, message)| format!("at n = {switches}: {message}"))
    }

    /// The case's line among several.
    pub fn summary(&self, strict: bool) -> Summary {
        let deciding = self.deciding().summary.clone();
        let note = match self.last.found {
            true => format!("{}; {}", self.sentence(), deciding.note),
            false => self.sentence(),
        };
        let seconds = self.steps().map(|step| step.summary.seconds).sum();
        let objects = self.steps().map(|step| step.summary.json.clone()).chain([self.object(strict).to_string()]);
        let json = objects.collect::<Vec<_>>().join("\n");
        Summary { note, seconds, json, message: self.message(), ..deciding }
    }

    /// The object that follows those of each n.
    fn object(&self, strict: bool) -> Json {
        let open = self
            .steps()
            .filter(|step| step.is_open())
            .map(|step| Json::Object(vec![("switches", step.switches.into()), ("answer", step.summary.word.as_str().into())]));
        let mut fields = vec![
            ("command", "solve".into()),
            ("case", self.loaded.name.as_str().into()),
            ("least", true.into()),
            ("status", self.status(strict).into()),
            ("answer", self.deciding().summary.word.as_str().into()),
            ("most", self.most.into()),
            ("first", self.first().into()),
            ("violated", self.violated().into()),
            ("unsat", list(self.those(Step::is_unsat))),
            ("vacuous", list(self.those(Step::is_vacuous))),
            ("notKnown", Json::List(open.collect())),
            ("note", self.sentence().into()),
        ];
        fields.extend(self.loaded.asked.map(|record| ("assert", record.into())));
        Json::Object(fields)
    }
}

/// `0, 1, 2`; `0 to 15`; `0 to 3, 5`: four or more in a row by their ends.
fn in_words(numbers: &[u16]) -> String {
    let rows = numbers.chunk_by(|one, next| one + 1 == *next);
    let words = rows.flat_map(|row| match row {
        [first, _, _, .., last] if row.len() > 3 => vec![format!("{first} to {last}")],
        _ => row.iter().map(u16::to_string).collect(),
    });
    words.collect::<Vec<_>>().join(", ")
}
