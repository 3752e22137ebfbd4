//! `menduvo demo`: the whole job on a case that ships, with a filed assignment, and with a solver where one is installed.

use crate::calls::Loaded;
use crate::failure::{Failure, Status};
use crate::input::Source;
use crate::numbers::{self, Given, Model};
use crate::output::Output;
use crate::run;
use crate::show;
use crate::solve::{solve, Asking, Verdict};
use crate::solver;
use crate::source;
use crate::words::{count, numbers_in_lines};
use std::ffi::OsStr;

const SOURCE: &str = include_str!("../../cases/lost-update.source");
const ASSIGNMENT: &str = include_str!("../../cases/lost-update.assignment");

pub fn tell(output: &mut Output) -> Result<Status, Failure> {
    let name = "cases/lost-update.source";
    let draft = source::read(SOURCE).map_err(|problem| problem.failure(name, SOURCE))?;
    let loaded = Loaded::of(&Source::new(OsStr::new(name)), draft)?;
    output.say(&format!(
        "1. A CASE. Two threads move one gate: an operator by an amount that is entered, and automatic control by 5.\n\
         \x20  The operator's thread asserts that the position moved by both where automatic control is done.\n\n{}\n",
        show::text(&loaded)
    ))?;
    filed(&loaded, output)?;
    let Some(solver) = solver::first_installed() else {
        output.say("5. A SOLVER. None is installed; with z3 or cvc5 'menduvo solve' looks for itself.\n")?;
        return next(output);
    };
    let name = solver.name.clone();
    output.say(&format!("5. A SOLVER. {name} looks for itself, and knows nothing of the filed assignment: "))?;
    let solved = solve(&loaded, &Asking { solvers: vec![solver], limit: None }, &mut |_| {})?;
    let Verdict::Violated(found) = &solved.verdict else {
        return Err(Failure::Other(format!("{name} finds nothing, although the filed assignment is there")));
    };
    output.say(&format!(
        "sat.\n   Its assignment is checked, decoded and replayed as well.\n   schedule {}   {}\n",
        numbers_in_lines(&found.schedule),
        run::verdict(&loaded.case, found.run.ending)
    ))?;
    next(output)
}

fn next(output: &mut Output) -> Result<Status, Failure> {
    output.say("\nNext: bin/menduvo picture cases/lost-update.source cases/lost-update.schedule -o lost-update.svg\n")?;
    Ok(Status::Done)
}

/// The filed assignment, checked, decoded and replayed.
fn filed(loaded: &Loaded, output: &mut Output) -> Result<(), Failure> {
    let name = "cases/lost-update.assignment";
    let (Given::Numbers(assignment) | Given::Model(Model { values: assignment, .. })) =
        numbers::read(ASSIGNMENT, loaded.table.variables).map_err(|problem| Failure::Refused(format!("{name}: {problem}")))?;
    let constraints = count(loaded.table.rows.len(), "constraint", "constraints");
    let variables = count(assignment.len(), "variable", "variables");
    if loaded.check(name, &assignment)?.is_some() {
        return Err(Failure::Other(format!("{name} fails")));
    }
    let schedule = loaded.decode(name, &assignment)?;
    let run = run::replay(loaded, name, &schedule)?;
    output.say(&format!(
        "2. AN ASSIGNMENT, filed: a number for each of the {variables}. The proved checker says that it meets all\n   \
         {constraints}.\n\n\
         3. A SCHEDULE. The proved decoder makes one of it: block lengths, then the values of inputs:\n   {}\n\
         4. A RUN. The proved replayer says what the schedule comes to:\n\n{}\n",
        numbers_in_lines(&schedule),
        run.text(&loaded.case, &schedule)
    ))
}
