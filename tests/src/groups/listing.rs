//! The listing program beside the second implementation, and beside the library
//! under test.

use std::env;

use crate::ask::listing;
use crate::calls::Calls;
use crate::damage::{damaged, random_bytes, scratched};
use crate::draft::Draft;
use crate::generate::{accepted, ANY, SMALL_WITH_INPUTS};
use crate::program;
use crate::random::Random;
use crate::report::{Outcome, Report, Tally};
use crate::samples::{case_a, guarded_counter, CASE_A_LISTING};
use crate::second;

/// The environment variable that names the listing program.
pub const PROGRAM: &str = "MENDUVO_LISTING";

const ROUNDS: u64 = 100;

pub fn run(calls: &dyn Calls, report: &mut Report) {
    report.check("case A", |tally| {
        let printed = print(&case_a().bytes())?;
        tally.same(printed.as_str(), CASE_A_LISTING, || "the listing".into())
    });
    report.check("fixed files", |tally| {
        let files = [Draft::new(2, 0).bytes(), guarded_counter().bytes(), vec![], vec![0; 31]];
        files.iter().try_for_each(|file| same_listing(calls, file, tally))?;
        same_listing(calls, &vec![0; 32 + 16 * 257], tally)
    });
    report.check("random accepted files", |tally| {
        rounds(calls, tally, |random| accepted(random, ANY).bytes())?;
        rounds(calls, tally, |random| accepted(random, SMALL_WITH_INPUTS).bytes())
    });
    report.check("random refused files", |tally| {
        rounds(calls, tally, |random| {
            let number = random.between(1, 9);
            damaged(random, number, None).bytes
        })?;
        rounds(calls, tally, |random| {
            let draft = accepted(random, SMALL_WITH_INPUTS);
            scratched(random, &draft)
        })?;
        rounds(calls, tally, random_bytes)
    });
}

fn rounds(calls: &dyn Calls, tally: &mut Tally, mut file: impl FnMut(&mut Random) -> Vec<u8>) -> Outcome {
    for seed in 60_000_000..60_000_000 + ROUNDS {
        let file = file(&mut Random::from_seed(seed));
        same_listing(calls, &file, tally).map_err(|message| format!("seed {seed}: {message}"))?;
    }
    Ok(())
}

fn same_listing(calls: &dyn Calls, file: &[u8], tally: &mut Tally) -> Outcome {
    let printed = print(file)?;
    let wanted = listing(&second::RIGHT, file)?;
    tally.same(&printed, &wanted, || format!("listing of {file:?}"))?;
    let called = listing(calls, file)?;
    tally.same(&printed, &called, || format!("beside the call: {file:?}"))
}

/// What the listing program prints when it is given the file.
fn print(file: &[u8]) -> Result<String, String> {
    let name = env::var(PROGRAM).map_err(|_| format!("{PROGRAM} does not name a program"))?;
    program::run(&name, &[], file)
}
