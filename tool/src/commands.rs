//! The commands, one function each.

use crate::arguments::Call;
use crate::calls::{listing, Loaded};
use crate::failure::{note, Failure, Status};
use crate::input::Source;
use crate::name::shown;
use crate::output::Output;
use crate::picture::{numbered, Picture};
use crate::run::Run;
use crate::solve::About;
use crate::words::{all, numbers_in_lines};
use crate::{
    completion, demands, demo, each, file, fill, help, keep, least, make, manual, report, run, said::Said, several, show, smt,
    step, told, verified,
};
use std::ffi::OsStr;
use std::path::Path;

pub fn perform(call: Call, output: &mut Output) -> Result<Status, Failure> {
    match call {
        Call::Help(page) => output.say(&page.map_or_else(help::all, help::one)).map(|()| Status::Done),
        Call::Manual => output.say(&manual::page()).map(|()| Status::Done),
        Call::Completion => output.say(&completion::script()).map(|()| Status::Done),
        Call::Version => output.say(&file::version()).map(|()| Status::Done),
        Call::Demo => demo::tell(output),
        Call::Make { source, file, force } => make::make(&source, &file, force, output),
        Call::Source { case } => make::source(&case, output),
        Call::List { cases, words, json } => each(&cases, json, output, |case, json| list(case, words, json)),
        Call::Smt { case, file, force } => smt::smt(&case, file.as_deref(), force, output),
        Call::Show { cases, json } => each(&cases, json, output, show),
        Call::Check { case, assignment, json } => check(&case, &assignment, json).tell(output),
        Call::Decode { case, assignment } => decode(&case, &assignment, output),
        Call::Replay { case, schedule, values, json } => replay(&case, &schedule, values, json).tell(output),
        Call::Fill { case, schedule, json } => fill::fill(&case, &schedule, json).tell(output),
        Call::Step(stepping) => step::step(&stepping, output),
        Call::Solve(wanted) => match wanted.cases.as_slice() {
            [case] if wanted.about == About::Each => each::one(case, &wanted, output),
            [case] if !several::is_several(&wanted.cases) && wanted.least.is_some() => least::one(case, &wanted, output),
            [case] if !several::is_several(&wanted.cases) && wanted.json => several::one_object(case, &wanted, output),
            [case] if !several::is_several(&wanted.cases) => told::one(case, &wanted, output),
            _ => several::all(wanted, output),
        },
        Call::File(filing) => file::file(&filing, output),
        Call::Verify(verifying) => verified::verify(&verifying, output),
        Call::Picture { case, schedule, file, force } => draw(&case, &schedule, &file, force, output),
    }
}

/// One case after the other, each though an earlier one failed. The exit status is then the highest.
fn each(cases: &[Source], json: bool, output: &mut Output, one: impl Fn(&Source, bool) -> Said) -> Result<Status, Failure> {
    let mut worst = Ok(Status::Done);
    for case in cases {
        if cases.len() > 1 && !json {
            output.say(&format!("== {}\n", case.name_and_bound()))?;
        }
        let Said { text, ended } = one(case, json);
        output.say(&text)?;
        if let Err(failure) = ended {
            failure.report();
            let so_far = worst.as_ref().err().map_or(0, Failure::status);
            worst = Err(Failure::Told(failure.status().max(so_far)));
        }
    }
    worst
}

/// As the listing program: the counts and the constraints, or a refusal's number and place. Or the constraints in words.
fn list(case: &Source, words: bool, json: bool) -> Said {
    let loaded = case.case().and_then(|draft| Ok((listing(&draft.bytes)?, Loaded::of(case, draft))));
    match (loaded, json) {
        (Ok((_, Ok(loaded))), false) if words => Said { text: demands::text(&loaded), ended: Ok(Status::Done) },
        // A refused case has a listing too; that it is refused is told besides.
        (Ok((text, loaded)), false) => Said { text, ended: loaded.map(|_| Status::Done) },
        (Ok((_, Ok(loaded))), true) => Said::object(&report::listed(&loaded, words), Status::Done),
        (Ok((_, Err(failure))) | Err(failure), _) => Said::failed("list", case, case, failure, json),
    }
}

fn show(case: &Source, json: bool) -> Said {
    match (Loaded::from(case), json) {
        (Ok(loaded), true) => Said::object(&report::shown(&loaded), Status::Done),
        (Ok(loaded), false) => Said { text: show::text(&loaded), ended: Ok(Status::Done) },
        (Err(failure), _) => Said::failed("show", case, case, failure, json),
    }
}

fn check(case: &Source, assignment: &Source, json: bool) -> Said {
    let loaded = match Loaded::from(case) {
        Ok(loaded) => loaded,
        Err(failure) => return Said::failed("check", case, case, failure, json),
    };
    let checked = checked(case, &loaded, assignment, json);
    checked.unwrap_or_else(|failure| Said::failed("check", case, assignment, failure, json))
}

fn checked(case: &Source, loaded: &Loaded, assignment: &Source, json: bool) -> Result<Said, Failure> {
    let name = assignment.name();
    let bound = case.switches().map(|switches| format!(" with n = {switches}")).unwrap_or_default();
    let numbers = loaded.assignment(assignment)?;
    let Some(constraint) = loaded.check(&name, &numbers)? else {
        let constraints = all(loaded.table.rows.len(), "constraint", "constraints");
        return Ok(match json {
            true => Said::object(&report::meets(loaded, &name), Status::Done),
            false => Said { text: format!("meets: the assignment meets {constraints}{bound}\n"), ended: Ok(Status::Done) },
        });
    };
    let details = loaded.constraint_in_words(constraint, &numbers)?;
    Ok(match json {
        true => Said::object(&report::fails(loaded, &name, constraint, &details), Status::Found),
        false => {
            let text = format!("fails: the assignment fails constraint {constraint}{bound}\n  {}\n", details.join("\n  "));
            Said { text, ended: Ok(Status::Found) }
        }
    })
}

fn decode(case: &Source, assignment: &Source, output: &mut Output) -> Result<Status, Failure> {
    let loaded = Loaded::from(case)?;
    let numbers = loaded.assignment(assignment)?;
    let schedule = loaded.decode(&assignment.name(), &numbers)?;
    output.say(&numbers_in_lines(&schedule)).map(|()| Status::Done)
}

fn replay(case: &Source, schedule: &Source, values: bool, json: bool) -> Said {
    let loaded = match Loaded::from(case) {
        Ok(loaded) => loaded,
        Err(failure) => return Said::failed("replay", case, case, failure, json),
    };
    let numbers = loaded.schedule(schedule);
    let run = numbers.and_then(|numbers| Ok((run::replay(&loaded, &schedule.name(), &numbers)?, numbers)));
    match (run, json) {
        (Ok((run, numbers)), true) => Said::object(&report::replayed(&loaded, &numbers, &run, values), run.status()),
        (Ok((run, numbers)), false) => {
            let text = if values { Run::text_with_values } else { Run::text };
            Said { text: text(&run, &loaded.case, &numbers), ended: Ok(run.status()) }
        }
        (Err(failure), _) => Said::failed("replay", case, schedule, failure, json),
    }
}

fn draw(case: &Source, schedule: &Source, file: &OsStr, force: bool, output: &mut Output) -> Result<Status, Failure> {
    let loaded = Loaded::from(case)?;
    let numbers = loaded.schedule(schedule)?;
    let run = run::replay(&loaded, &schedule.name(), &numbers)?;
    let picture = Picture::of(&loaded.case, &shown(&loaded.stem), &run);
    if file == "-" {
        return output.say(&picture.one_file()).map(|()| Status::Done);
    }
    let pages = picture.files(file);
    keep::write_outputs(&pages, force, &[case, schedule])?;
    let stale = if pages.len() == 1 { vec![numbered(file, 1)] } else { vec![file.into(), numbered(file, pages.len() + 1)] };
    for other in stale.iter().filter(|other| Path::new(other).exists()) {
        note(&format!("{} is there too, and is no page of this picture", shown(other)));
    }
    let verdict = run::verdict(&loaded.case, run.ending);
    let told = pages.iter().zip(1..).map(|((name, _), page)| match pages.len() {
        1 => format!("{}: {verdict}\n", shown(name)),
        pages => format!("{}: page {page} of {pages}: {verdict}\n", shown(name)),
    });
    output.say(&told.collect::<String>()).map(|()| Status::Done)
}
