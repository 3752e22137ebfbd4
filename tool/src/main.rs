//! The command `menduvo`. Everything that decides is a call of the proved library; this program reads files, prints, draws, and
//! starts a solver.
#![forbid(unsafe_code)]

mod alone;
mod answer_file;
mod arguments;
mod by_hand;
mod calls;
mod case;
mod cells;
mod columns;
mod commands;
mod completion;
mod demands;
mod demo;
mod diagnosis;
mod each;
mod failure;
mod fault;
mod file;
mod filed;
mod fill;
mod folder;
mod folds;
mod guard;
mod help;
mod input;
mod json;
mod keep;
mod kept;
mod lanes;
mod least;
mod make;
mod manifest;
mod manual;
mod meaning;
mod name;
mod names;
mod needed;
mod numbers;
mod objects;
mod orders;
mod output;
mod picture;
mod process;
mod progress;
mod quote;
mod reach;
mod readme;
mod reads;
mod report;
mod rule;
mod run;
mod said;
mod scope;
mod several;
mod sha256;
mod short;
mod show;
mod smt;
mod solve;
mod solver;
mod source;
mod source_text;
mod step;
mod summary;
mod svg;
mod table;
mod term;
mod token;
mod told;
mod values;
mod verified;
mod verify;
mod walk;
mod wishes;
mod words;

use failure::Failure;
use output::Output;

fn main() {
    let arguments: Vec<_> = std::env::args_os().skip(1).collect();
    // A panic has printed its message; its own status is none of those that the help names.
    let ended = std::panic::catch_unwind(|| exit_status(&arguments));
    std::process::exit(ended.unwrap_or(Failure::STATUS_OTHER));
}

/// Runs one call of the command, and gives its exit status.
fn exit_status(arguments: &[std::ffi::OsString]) -> i32 {
    let mut output = Output::standard();
    let done = arguments::parse(arguments).and_then(|call| commands::perform(call, &mut output));
    // What was printed last may still fail to arrive.
    let done = done.and_then(|status| output.finish().map(|()| status));
    match done {
        Ok(status) => status.number(),
        Err(failure) => {
            failure.report();
            failure.status()
        }
    }
}
