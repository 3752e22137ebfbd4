//! The answers of `menduvo solve` on random small cases, beside what trying
//! every schedule finds: violated, unsat or vacuous, and which asserts and unlocks
//! a legal run reaches with a true guard. Each model is what its schedule is filled to.

use std::collections::BTreeSet;
use std::env;
use std::fs;
use std::path::{Path, PathBuf};

use crate::ask::{fill, reply};
use crate::calls::{Calls, Replayed};
use crate::command::PROGRAM;
use crate::draft::Draft;
use crate::enumerate::schedules;
use crate::generate::{accepted, Shape, BUSY, FOUR_HOLDERS, FOUR_THREADS, HOLDERS, SMALL};
use crate::program;
use crate::random::Random;
use crate::report::{Outcome, Report, Tally};
use crate::second;
use crate::watch::watch;

pub fn run(_: &dyn Calls, report: &mut Report) {
    report.check("small cases", |tally| {
        compare(SMALL, 90, tally)?;
        tally.saw_often("vacuous", 20)
    });
    report.check("busy cases", |tally| {
        compare(BUSY, 240, tally)?;
        ["vacuous", "unsat", "violated", "reached"].iter().try_for_each(|what| tally.saw_often(what, 10))?;
        tally.saw_often("some lines reached, and some not", 3)
    });
    report.check("four threads", |tally| compare(FOUR_THREADS, 40, tally));
    report.check("holders", |tally| {
        compare(HOLDERS, 80, tally)?;
        ["unsat", "violated", "reached"].iter().try_for_each(|what| tally.saw_often(what, 10))?;
        tally.saw_often("some lines reached, and some not", 3)
    });
    report.check("holders, four threads", |tally| compare(FOUR_HOLDERS, 30, tally));
}

/// A folder that goes when it is dropped.
pub struct Folder(pub PathBuf);

impl Folder {
    /// A folder of this process under the system's own for such.
    pub fn new(name: &str) -> Folder {
        Folder(env::temp_dir().join(format!("menduvo-{name}-{}", std::process::id())))
    }

    pub fn name(&self) -> Result<&str, String> {
        self.0.to_str().ok_or("the folder's name is no text".to_string())
    }
}

impl Drop for Folder {
    fn drop(&mut self) {
        let _ = fs::remove_dir_all(&self.0);
    }
}

/// Writes so many random cases of a shape to a folder: 000.case, 001.case, ..
pub fn write(folder: &Path, shape: Shape, cases: u64) -> Result<Vec<Draft>, String> {
    let draft = |number| accepted(&mut Random::from_seed(70_000_000 + number), shape);
    let drafts: Vec<Draft> = (0..cases).map(draft).collect();
    write_all(folder, &drafts)?;
    Ok(drafts)
}

/// Writes these cases to a folder: 000.case, 001.case, ..
pub fn write_all(folder: &Path, drafts: &[Draft]) -> Outcome {
    fs::create_dir_all(folder).map_err(|error| error.to_string())?;
    for (number, draft) in drafts.iter().enumerate() {
        fs::write(folder.join(format!("{number:03}.case")), draft.bytes()).map_err(|error| error.to_string())?;
    }
    Ok(())
}

/// The command under test.
pub fn program() -> Result<String, String> {
    env::var(PROGRAM).map_err(|_| format!("{PROGRAM} does not name a program"))
}

fn compare(shape: Shape, cases: u64, tally: &mut Tally) -> Outcome {
    let folder = Folder::new(&format!("answers-{cases}"));
    let drafts = write(&folder.0, shape, cases)?;
    let printed = program::run(&program()?, &["solve", folder.name()?, "--json", "--solver", "z3", "--jobs", "2"], &[])?;
    for (number, draft) in drafts.iter().enumerate() {
        let case = format!("/{number:03}.case\",");
        let object = printed.lines().find(|line| line.contains(&case) && line.contains("\"asserts\""));
        let object = object.ok_or_else(|| format!("no object of case {number}"))?;
        same_answer(draft, object, tally).map_err(|message| format!("{message}; {object}; case {draft}"))?;
    }
    Ok(())
}

fn same_answer(draft: &Draft, object: &str, tally: &mut Tally) -> Outcome {
    let lines = lines_that_can_violate(draft);
    let Legal { reached, violating } = Legal::of(draft);
    let word = match (violating.is_empty(), reached.is_empty()) {
        (false, _) => "violated",
        (true, true) => "vacuous",
        (true, false) => "unsat",
    };
    tally.saw(word);
    if !reached.is_empty() {
        tally.saw("reached");
    }
    if (1..lines.len()).contains(&reached.len()) {
        tally.saw("some lines reached, and some not");
    }
    tally.holds(object.contains(&format!("\"answer\":\"{word}\"")), || format!("it is {word}"))?;
    if word == "violated" {
        model_is_filled(draft, object, tally)?;
    }
    for record in lines {
        let told = format!("{{\"record\":{record},\"reached\":{},", reached.contains(&record));
        tally.holds(object.contains(&told), || format!("it should say {told}"))?;
    }
    Ok(())
}

/// Demands that the model of an object, its assignment, is what its schedule is filled to.
pub fn model_is_filled(draft: &Draft, object: &str, tally: &mut Tally) -> Outcome {
    let model = numbers(object, "\"assignment\":[")?;
    let filled = fill(&second::RIGHT, draft, &numbers(object, "\"schedule\":[")?)?;
    tally.same(model, filled, || format!("the model of {object}; case {draft}"))
}

/// The numbers of the first list that begins so.
pub fn numbers(object: &str, begin: &str) -> Result<Vec<u16>, String> {
    let (_, rest) = object.split_once(begin).ok_or_else(|| format!("no {begin} in {object}"))?;
    let (list, _) = rest.split_once(']').unwrap_or_default();
    let numbers = list.split(',').filter(|number| !number.is_empty()).map(str::parse);
    numbers.collect::<Result<_, _>>().map_err(|error| format!("{error}: {object}"))
}

/// The records of the asserts and unlocks.
pub fn lines_that_can_violate(draft: &Draft) -> Vec<u16> {
    let lines = (1..).zip(&draft.records).filter(|(_, line)| line.can_violate());
    lines.map(|(number, _)| number).collect()
}

/// The asserts and unlocks of a case that some legal run reaches with a true guard,
/// and those at which one violates, be it the first time or not. There are no inputs.
pub struct Legal {
    pub reached: BTreeSet<u16>,
    pub violating: BTreeSet<u16>,
}

impl Legal {
    pub fn of(draft: &Draft) -> Legal {
        let mut legal = Legal { reached: BTreeSet::new(), violating: BTreeSet::new() };
        for schedule in schedules(draft, &[]) {
            if let Replayed::Violated(_) | Replayed::Clean = reply(&second::RIGHT, draft, &schedule) {
                let watched = watch(draft, &schedule);
                legal.reached.extend(watched.reached);
                legal.violating.extend(watched.violations);
            }
        }
        legal
    }
}
