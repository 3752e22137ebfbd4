//! Outside tests of the bounded-checking library, with a runner of their own.
//!
//! `cargo run --release --offline -q -- [group]...` runs the named groups, or
//! all that make sense. The last line is `N passed, M failed`.
//! `-- write-cases FOLDER COUNT` writes random small cases, and
//! `-- write-pages FOLDER` the listings and texts of random cases of all sorts;
//! `-- count-schedules FOLDER` prints how many schedules its cases have.

#![forbid(unsafe_code)]

mod ask;
mod calls;
mod command;
mod compare;
mod compare_lines;
mod compare_text;
mod count_schedules;
mod damage;
mod damage_source;
mod demand3;
mod determined;
mod draft;
mod enumerate;
mod generate;
mod groups;
mod line;
mod pages;
mod program;
#[cfg(feature = "proved")]
mod proved;
mod random;
mod report;
mod rule;
mod samples;
mod script;
mod search;
mod second;
mod solver;
mod table;
mod vary;
mod watch;
mod write_source;

use std::process::{exit, ExitCode};
use std::sync::{Arc, Mutex};
use std::thread;
use std::time::Duration;

use groups::Group;
use report::{Outcome, Report, Totals};

/// The most that a whole run may take. A run that takes longer has failed.
const TIME_LIMIT: Duration = Duration::from_secs(900);

#[cfg(feature = "proved")]
fn under_test() -> impl calls::Calls {
    proved::Proved
}

#[cfg(not(feature = "proved"))]
fn under_test() -> impl calls::Calls {
    second::RIGHT
}

fn main() -> ExitCode {
    let names: Vec<String> = std::env::args().skip(1).collect();
    match names.as_slice() {
        [command, folder, cases] if command == "write-cases" => return told(write_cases(folder, cases)),
        [command, folder] if command == "count-schedules" => {
            return told(count_schedules::print(&under_test(), folder.as_ref()))
        }
        [command, folder] if command == "write-pages" => return told(pages::write(&under_test(), folder.as_ref())),
        _ => {}
    }
    let Some(chosen) = chosen_groups(&names) else {
        print_groups();
        return ExitCode::from(2);
    };
    // A panic is told with the check that it ended.
    std::panic::set_hook(Box::new(|_| {}));
    let calls = under_test();
    let mut report = Report::new();
    watch(report.totals.clone());
    for group in chosen {
        report.begin_group(group.name);
        (group.run)(&calls, &mut report);
        report.end_group();
    }
    let totals = report.totals.lock().expect("no check panics while it counts");
    println!("{} passed, {} failed", totals.passed, totals.failed);
    ExitCode::from(u8::from(totals.failed != 0))
}

/// Writes random small cases to a folder, for what is measured with them.
fn write_cases(folder: &str, cases: &str) -> Outcome {
    let cases = cases.parse().map_err(|_| format!("'{cases}' is no number"))?;
    groups::answers::write(folder.as_ref(), generate::BUSY, cases).map(|_| ())
}

/// The exit status for what was written, or what went wrong on standard error.
fn told(written: Outcome) -> ExitCode {
    match written {
        Ok(()) => ExitCode::SUCCESS,
        Err(message) => {
            eprintln!("{message}");
            ExitCode::FAILURE
        }
    }
}

/// The groups that were named, or those that are run by default; none if a
/// name is not known. Names may be written with two dashes in front.
fn chosen_groups(names: &[String]) -> Option<Vec<Group>> {
    let names: Vec<&str> = names.iter().map(|name| name.trim_start_matches('-')).collect();
    let known = |name: &&str| groups::all().iter().any(|group| group.name == *name);
    if !names.iter().all(known) {
        return None;
    }
    let is_chosen = |group: &Group| names.contains(&group.name) || (names.is_empty() && group.by_default);
    Some(groups::all().into_iter().filter(is_chosen).collect())
}

fn print_groups() {
    println!("groups:");
    for group in groups::all() {
        println!("  {:<14} {}", group.name, group.about);
    }
}

/// Ends the run when its time is up, since a call under test may hang.
fn watch(totals: Arc<Mutex<Totals>>) {
    thread::spawn(move || {
        thread::sleep(TIME_LIMIT);
        let totals = totals.lock().expect("no check panics while it counts");
        println!("FAILED {}: not done within {TIME_LIMIT:?}", totals.group);
        println!("{} passed, {} failed", totals.passed, totals.failed + 1);
        exit(1);
    });
}
