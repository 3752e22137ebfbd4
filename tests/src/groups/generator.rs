//! The random cases themselves: all are accepted, and between them they have
//! everything that document 01 allows. Their random schedules stop early, or not,
//! with all that comes of it, and unlock what is theirs, and what is not.

use crate::ask::reply;
use crate::calls::{Calls, Replayed, Verdict};
use crate::compare::SHAPES;
use crate::draft::Draft;
use crate::enumerate::{lines_run, runs_all_lines};
use crate::generate::accepted;
use crate::line::{Line, ASSERT, ASSUME, COMPUTE, INPUT, LOAD};
use crate::random::Random;
use crate::report::{Outcome, Report, Tally};
use crate::rule::first_late;
use crate::vary::schedule;
use crate::watch::{of_several, watch, UNLOCKS, VIOLATIONS};

const CASES: u64 = 5_000;

pub fn run(calls: &dyn Calls, report: &mut Report) {
    report.check("random cases are accepted", |tally| {
        each_case(|draft| {
            let verdict = calls.accept(&draft.bytes());
            tally.same(verdict, Verdict::Accepted, || draft.to_string())
        })
    });
    report.check("headers of all sorts", |tally| {
        each_case(|draft| {
            note_header(draft, tally);
            Ok(())
        })?;
        saw_all(tally, "threads", 2..=4)?;
        saw_all(tally, "switches", 0..=15)?;
        saw_all(tally, "globals", 0..=8)?;
        saw_all(tally, "mutexes", 0..=4)?;
        for what in ["no line in a thread", "64 lines in a thread", "256 records", "shuffled"] {
            tally.saw_often(what, 20)?;
        }
        Ok(())
    });
    report.check("lines of all sorts", |tally| {
        each_case(|draft| {
            note_lines(draft, tally);
            Ok(())
        })?;
        saw_all(tally, "kind", 1..=8)?;
        saw_all(tally, "op", 0..=6)?;
        saw_all(tally, "guard", 0..=32)?;
        saw_all(tally, "operand", 0..=16)?;
        tally.saw_often("guard on a local never written", 20)
    });
    report.check("schedules of all sorts", |tally| {
        for seed in 71_000_000..71_000_000 + CASES {
            let mut random = Random::from_seed(seed);
            let draft = accepted(&mut random, SHAPES[seed as usize % SHAPES.len()]);
            let schedule = schedule(&mut random, &draft);
            note_schedule(&draft, &schedule, reply(calls, &draft, &schedule), tally);
        }
        for reply in ["violated", "clean", "cut off", "refused 14"] {
            tally.saw_often(&format!("{reply}, all lines"), 20)?;
            tally.saw_often(&format!("{reply}, lines left"), 20)?;
            tally.saw_often(&format!("{reply}, the rule kept"), 20)?;
            tally.saw_often(&format!("{reply}, the rule not kept"), 20)?;
        }
        saw_all(tally, "late kind", [COMPUTE, INPUT, ASSERT, ASSUME].into_iter())?;
        saw_all(tally, "kind left", 1..=8)?;
        for what in ["an input left with a value", "several inputs left with values, and not by record"] {
            tally.saw_often(what, 20)?;
        }
        tally.saw_often("lines without a block", 20)
    });
    report.check("unlocks of all sorts", |tally| {
        for seed in 72_000_000..72_000_000 + CASES {
            let mut random = Random::from_seed(seed);
            let draft = accepted(&mut random, SHAPES[seed as usize % SHAPES.len()]);
            let schedule = schedule(&mut random, &draft);
            if let Replayed::Violated(_) | Replayed::Clean = reply(calls, &draft, &schedule) {
                watch(&draft, &schedule).note(tally);
            }
        }
        for unlock in UNLOCKS {
            tally.saw_often(unlock, 20)?;
            tally.saw_often(&of_several(unlock), 50)?;
        }
        VIOLATIONS.iter().try_for_each(|sort| tally.saw_often(sort, 50))
    });
}

fn each_case(mut body: impl FnMut(&Draft) -> Outcome) -> Outcome {
    for seed in 70_000_000..70_000_000 + CASES {
        let shape = SHAPES[seed as usize % SHAPES.len()];
        body(&accepted(&mut Random::from_seed(seed), shape)).map_err(|message| format!("seed {seed}: {message}"))?;
    }
    Ok(())
}

fn saw_all(tally: &mut Tally, what: &str, mut numbers: impl Iterator<Item = u16>) -> Outcome {
    numbers.try_for_each(|number| tally.saw_often(&format!("{what} {number}"), 20))
}

fn note_header(draft: &Draft, tally: &mut Tally) {
    tally.saw(format!("threads {}", draft.threads));
    tally.saw(format!("switches {}", draft.switches));
    tally.saw(format!("globals {}", draft.globals));
    tally.saw(format!("mutexes {}", draft.mutexes));
    tally.saw(format!("{} records", draft.records.len()));
    for chain in draft.chains() {
        match chain.len() {
            0 => tally.saw("no line in a thread"),
            64 => tally.saw("64 lines in a thread"),
            _ => {}
        }
        if !chain.is_sorted() {
            tally.saw("shuffled");
        }
    }
}

fn note_lines(draft: &Draft, tally: &mut Tally) {
    for chain in draft.chains() {
        let lines: Vec<&Line> = chain.iter().map(|&number| draft.line(number)).collect();
        for line in &lines {
            tally.saw(format!("kind {}", line.kind));
            tally.saw(format!("guard {}", line.guard));
            if line.has_expression() {
                tally.saw(format!("op {}", line.op));
                tally.saw(format!("operand {}", line.a));
                tally.saw(format!("operand {}", line.b));
            }
            if line.guard_local().is_some_and(|local| !is_written(&lines, local)) {
                tally.saw("guard on a local never written");
            }
        }
    }
}

fn note_schedule(draft: &Draft, schedule: &[u16], reply: Replayed, tally: &mut Tally) {
    let reply = match reply {
        Replayed::Violated(_) => "violated".to_string(),
        Replayed::Clean => "clean".to_string(),
        Replayed::CutOff(_) => "cut off".to_string(),
        Replayed::Refused { number, .. } => format!("refused {number}"),
    };
    let lines = if runs_all_lines(draft, schedule) { "all lines" } else { "lines left" };
    tally.saw(format!("{reply}, {lines}"));
    match first_late(draft, schedule) {
        None => tally.saw(format!("{reply}, the rule kept")),
        Some(late) => {
            tally.saw(format!("{reply}, the rule not kept"));
            tally.saw(format!("late kind {}", draft.line(late).kind));
        }
    }
    let run = lines_run(draft, schedule);
    let mut left = draft.chains().concat();
    left.retain(|line| !run.contains(line));
    for &line in &left {
        tally.saw(format!("kind left {}", draft.line(line).kind));
    }
    let values = draft.inputs().into_iter().zip(&schedule[draft.blocks()..]);
    let stray: Vec<u16> = values.filter(|(line, &value)| value != 0 && left.contains(line)).map(|(line, _)| line).collect();
    if !stray.is_empty() {
        tally.saw("an input left with a value");
    }
    if stray.iter().min() != stray.first() {
        tally.saw("several inputs left with values, and not by record");
    }
    if draft.chains().iter().skip(draft.blocks()).any(|chain| !chain.is_empty()) {
        tally.saw("lines without a block");
    }
}

/// Whether some line of the thread has the local as target.
fn is_written(lines: &[&Line], local: usize) -> bool {
    let writes = |line: &&Line| matches!(line.kind, COMPUTE | LOAD | INPUT) && usize::from(line.target) == local;
    lines.iter().any(writes)
}
