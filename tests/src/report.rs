//! Counting checks and telling how they went.

use std::collections::BTreeMap;
use std::fmt::Debug;
use std::panic::{catch_unwind, AssertUnwindSafe};
use std::sync::{Arc, Mutex};
use std::time::Instant;

/// What a check ends with: nothing, or what was found wrong.
pub type Outcome = Result<(), String>;

/// The most of a message that is printed; the seed in it tells the rest.
const LONGEST_MESSAGE: usize = 1_000;

/// Counts the single comparisons inside one check, and what was met in them.
#[derive(Default)]
pub struct Tally {
    pub comparisons: u64,
    seen: BTreeMap<String, u64>,
}

impl Tally {
    /// Demands that two values are the same.
    pub fn same<T: PartialEq + Debug>(&mut self, got: T, wanted: T, what: impl FnOnce() -> String) -> Outcome {
        self.comparisons += 1;
        if got == wanted {
            return Ok(());
        }
        Err(format!("got {got:?}, wanted {wanted:?}: {}", what()))
    }

    /// Demands that two slices are the same, and names the first difference.
    pub fn same_numbers<T: PartialEq + Debug>(&mut self, got: &[T], wanted: &[T], what: impl FnOnce() -> String) -> Outcome {
        self.comparisons += 1;
        if got == wanted {
            return Ok(());
        }
        let place = got.iter().zip(wanted).take_while(|(got, wanted)| got == wanted).count();
        let (got, wanted) = (got.get(place), wanted.get(place));
        Err(format!("number {place} is {got:?}, wanted {wanted:?}: {}", what()))
    }

    /// Demands that a condition holds.
    pub fn holds(&mut self, condition: bool, what: impl FnOnce() -> String) -> Outcome {
        self.comparisons += 1;
        if condition {
            return Ok(());
        }
        Err(what())
    }

    /// Notes what was met.
    pub fn saw(&mut self, what: impl Into<String>) {
        *self.seen.entry(what.into()).or_default() += 1;
    }

    /// Demands that something was met often enough for the check to be of use.
    pub fn saw_often(&mut self, what: &str, least: u64) -> Outcome {
        let times = self.seen.get(what).copied().unwrap_or(0);
        let seen = format!("{:?}", self.seen);
        self.holds(times >= least, || format!("{what:?} was met {times} times only; met: {seen}"))
    }
}

/// Runs a check's body; a panic is a failure like any other.
pub fn outcome_of(body: impl FnOnce(&mut Tally) -> Outcome, tally: &mut Tally) -> Outcome {
    let run = AssertUnwindSafe(|| body(tally));
    catch_unwind(run).unwrap_or_else(|panic| {
        let text = panic.downcast_ref::<String>().map(String::as_str);
        let text = text.or(panic.downcast_ref::<&str>().copied());
        Err(format!("panic: {}", text.unwrap_or("without words")))
    })
}

/// The counts over all groups; the watchdog looks at them too.
#[derive(Default)]
pub struct Totals {
    pub group: String,
    pub passed: u64,
    pub failed: u64,
}

pub struct Report {
    pub totals: Arc<Mutex<Totals>>,
    group: String,
    passed: u64,
    failed: u64,
    left_out: u64,
    comparisons: u64,
    started: Instant,
}

impl Report {
    pub fn new() -> Report {
        Report {
            totals: Arc::default(),
            group: String::new(),
            passed: 0,
            failed: 0,
            left_out: 0,
            comparisons: 0,
            started: Instant::now(),
        }
    }

    pub fn begin_group(&mut self, name: &str) {
        self.totals.lock().expect("no check panics while it counts").group = name.to_string();
        self.group = name.to_string();
        (self.passed, self.failed, self.left_out, self.comparisons) = (0, 0, 0, 0);
        self.started = Instant::now();
    }

    /// One named check.
    pub fn check(&mut self, name: &str, body: impl FnOnce(&mut Tally) -> Outcome) {
        let mut tally = Tally::default();
        let outcome = outcome_of(body, &mut tally);
        self.comparisons += tally.comparisons;
        let mut totals = self.totals.lock().expect("no check panics while it counts");
        match outcome {
            Ok(()) => {
                self.passed += 1;
                totals.passed += 1;
            }
            Err(message) => {
                self.failed += 1;
                totals.failed += 1;
                let message: String = message.chars().take(LONGEST_MESSAGE).collect();
                println!("FAILED {}: {name}: {message}", self.group);
            }
        }
    }

    /// Tells of a check that cannot be made here, and counts it.
    pub fn leave_out(&mut self, name: &str, reason: &str) {
        self.left_out += 1;
        println!("left out {}: {name}: {reason}", self.group);
    }

    /// One line for the group.
    pub fn end_group(&self) {
        let left_out = match self.left_out {
            0 => String::new(),
            checks => format!(", {checks} left out"),
        };
        println!(
            "{:<14} {:>3} passed, {} failed{left_out}, {} comparisons, {:.1} s",
            self.group,
            self.passed,
            self.failed,
            self.comparisons,
            self.started.elapsed().as_secs_f64()
        );
    }
}
