//! Demand 3 by trying every schedule of small cases, inputs with some values,
//! and some schedules of large ones.

use crate::calls::Calls;
use crate::demand3::{compare, seen_alike, Written, MOVED};
use crate::generate::{accepted, Shape};
use crate::generate::{
    ANY, BUSY, BUSY_WITH_INPUTS, FOUR_HOLDERS, FOUR_THREADS, FULL, HOLDERS, HOLDERS_WITH_INPUTS, LONG, LONG_STRETCHES,
    MANY_HOLDERS, SMALL, STRETCHES, STRETCHES_WITH_INPUTS,
};
use crate::random::Random;
use crate::report::{Outcome, Report, Tally};
use crate::vary::schedule;
use crate::watch::{of_several, UNLOCKS, VIOLATIONS};

/// How many large cases are taken.
const LARGE_CASES: u64 = 1_200;

/// Values for each input: 0, which a false guard wants, and both ends.
const INPUT_VALUES: [u16; 4] = [0, 1, 2, 65_535];

pub fn run(calls: &dyn Calls, report: &mut Report) {
    // Small cases are there for their odd forms (no switch, no global, no line
    // in some thread), busy ones for the order of blocks to matter.
    report.check("small cases", |tally| enough(calls, SMALL, 600, 5, &[0], tally));
    report.check("busy cases", |tally| enough(calls, BUSY, 1_000, 150, &[0], tally));
    report.check("four threads", |tally| enough(calls, FOUR_THREADS, 300, 40, &[0], tally));
    report.check("large cases, some schedules each", |tally| some_schedules(calls, tally));
    report.check("with inputs", |tally| enough(calls, BUSY_WITH_INPUTS, 500, 75, &INPUT_VALUES, tally));
    // Unlocks by holders and by others, of several mutexes.
    report.check("holders", |tally| {
        enough(calls, HOLDERS, 400, 150, &[0], tally)?;
        enough_unlocks(400, tally)
    });
    report.check("holders, four threads", |tally| {
        enough(calls, FOUR_HOLDERS, 150, 40, &[0], tally)?;
        enough_unlocks(400, tally)
    });
    report.check("holders with inputs", |tally| {
        enough(calls, HOLDERS_WITH_INPUTS, 150, 50, &INPUT_VALUES, tally)?;
        enough_unlocks(400, tally)
    });
    // Lines that are not visible, between some that are.
    report.check("computing stretches", |tally| {
        enough(calls, STRETCHES, 300, 100, &[0], tally)?;
        enough_moved(200, tally)?;
        tally.saw_often("a case whose violating schedules do not all keep the rule", 100)
    });
    report.check("computing stretches with inputs", |tally| {
        enough(calls, STRETCHES_WITH_INPUTS, 120, 30, &INPUT_VALUES, tally)?;
        enough_moved(40, tally)?;
        tally.saw_often("a case whose violating schedules do not all keep the rule", 30)
    });
}

/// Demands that so many runs kept the rule, and so many did not, with and without
/// violation.
fn enough_moved(times: u64, tally: &mut Tally) -> Outcome {
    MOVED.iter().try_for_each(|what| tally.saw_often(what, times))
}

/// Compares, and demands that the cases were of use: that there were so many
/// whose schedules differ, many without violation, and every reply many times.
fn enough(calls: &dyn Calls, shape: Shape, cases: u64, mixed: u64, input_values: &[u16], tally: &mut Tally) -> Outcome {
    compare(calls, shape, cases, input_values, tally)?;
    tally.saw_often("a case with and without violation", mixed)?;
    tally.saw_often("a case without violation", cases / 8)?;
    for reply in ["violated by all lines", "violated", "clean", "cut off"] {
        tally.saw_often(reply, cases / 2)?;
    }
    let stray_inputs = if shape.inputs > 0 { cases } else { 0 };
    tally.saw_often("refused 14", stray_inputs)
}

/// Demands that runs had unlocks of every sort so often, and violations of both
/// sorts, alone and in either order.
fn enough_unlocks(times: u64, tally: &mut Tally) -> Outcome {
    UNLOCKS.iter().try_for_each(|sort| tally.saw_often(&of_several(sort), times))?;
    VIOLATIONS.iter().try_for_each(|sort| tally.saw_often(sort, times))
}

/// Large cases have too many schedules; random ones are taken.
fn some_schedules(calls: &dyn Calls, tally: &mut Tally) -> Outcome {
    for seed in 0..LARGE_CASES {
        let mut random = Random::from_seed(80_000_000 + seed);
        let draft = accepted(&mut random, [ANY, LONG, FULL, MANY_HOLDERS, LONG_STRETCHES][seed as usize % 5]);
        let written = Written::of(calls, &draft, tally)?;
        for _ in 0..10 {
            let schedule = schedule(&mut random, &draft);
            seen_alike(calls, &draft, &written, &schedule, tally)
                .map_err(|message| format!("seed {seed}: {message}; case {draft}"))?;
        }
    }
    for reply in ["violated by all lines", "violated", "clean", "cut off", "refused 14"] {
        tally.saw_often(reply, 100)?;
    }
    enough_moved(20, tally)?;
    enough_unlocks(100, tally)
}
