//! Pages of what the library under test gives for random cases: the listings, or
//! the texts, of a batch of cases, one after the other. Seeds are fixed, so two
//! libraries that give the same write the same pages. `tests/unchanged.sh` holds
//! them to what they were.
//!
//! A batch has a page of its cases, too: where that is another, it is the makers
//! of cases that changed, and the other two pages say nothing of the library.

use std::fs;
use std::path::Path;

use crate::ask::listing;
use crate::calls::{Calls, Spelled};
use crate::compare_text::text_of;
use crate::damage::{damaged, random_bytes, scratched};
use crate::generate::{accepted, Shape, ANY, BUSY, BUSY_WITH_INPUTS, FOUR_THREADS, FULL, HOLDERS};
use crate::generate::{HOLDERS_WITH_INPUTS, LONG, MANY_HOLDERS, MANY_INPUTS, NO_MUTEX, SMALL, SMALL_WITH_INPUTS};
use crate::random::Random;
use crate::report::Outcome;

/// The seed of each maker's first case.
const FIRST_SEED: u64 = 80_000_000;

/// The cases of a batch: each of the 9 refusals, and each of the 36 pairs of them,
/// has its turn as often as the others.
const CASES: u64 = 72;

/// What makes the cases of a batch.
#[derive(Clone, Copy)]
enum Maker {
    /// Accepted cases of a shape.
    Accepted(Shape),
    /// Cases with one fault.
    Damaged,
    /// Cases with two faults.
    DamagedTwice,
    /// Cases that were accepted before they were scratched; some still are.
    Scratched,
    /// Any bytes.
    Bytes,
}

/// The makers, each with its name and how many batches it makes.
const MAKERS: [(&str, Maker, u64); 17] = [
    ("any", Maker::Accepted(ANY), 4),
    ("long", Maker::Accepted(LONG), 2),
    ("full", Maker::Accepted(FULL), 1),
    ("small", Maker::Accepted(SMALL), 1),
    ("small-with-inputs", Maker::Accepted(SMALL_WITH_INPUTS), 1),
    ("busy", Maker::Accepted(BUSY), 1),
    ("busy-with-inputs", Maker::Accepted(BUSY_WITH_INPUTS), 1),
    ("many-inputs", Maker::Accepted(MANY_INPUTS), 1),
    ("four-threads", Maker::Accepted(FOUR_THREADS), 1),
    ("no-mutex", Maker::Accepted(NO_MUTEX), 2),
    ("holders", Maker::Accepted(HOLDERS), 1),
    ("holders-with-inputs", Maker::Accepted(HOLDERS_WITH_INPUTS), 1),
    ("many-holders", Maker::Accepted(MANY_HOLDERS), 1),
    ("damaged", Maker::Damaged, 1),
    ("damaged-twice", Maker::DamagedTwice, 1),
    ("scratched", Maker::Scratched, 1),
    ("bytes", Maker::Bytes, 1),
];

impl Maker {
    fn case(self, seed: u64) -> Vec<u8> {
        let random = &mut Random::from_seed(seed);
        match self {
            Maker::Accepted(shape) => accepted(random, shape).bytes(),
            Maker::Damaged => damaged(random, 1 + (seed % 9) as u16, None).bytes,
            Maker::DamagedTwice => {
                let pairs: Vec<(u16, u16)> = (1..9).flat_map(|low| (low + 1..=9).map(move |high| (low, high))).collect();
                let (number, later) = pairs[seed as usize % pairs.len()];
                damaged(random, number, Some(later)).bytes
            }
            Maker::Scratched => {
                let draft = accepted(random, ANY);
                scratched(random, &draft)
            }
            Maker::Bytes => random_bytes(random),
        }
    }
}

/// A case with its maker's name and its seed.
struct Made {
    name: &'static str,
    seed: u64,
    case: Vec<u8>,
}

/// Writes all pages to a folder: any-0.cases, any-0.listings, any-0.texts, ..
pub fn write(calls: &dyn Calls, folder: &Path) -> Outcome {
    fs::create_dir_all(folder).map_err(|error| format!("{}: {error}", folder.display()))?;
    for (name, maker, batches) in MAKERS {
        for batch in 0..batches {
            let first = FIRST_SEED + batch * CASES;
            let made: Vec<Made> = (first..first + CASES).map(|seed| Made { name, seed, case: maker.case(seed) }).collect();
            let page = |sort: &str| folder.join(format!("{name}-{batch}.{sort}"));
            write_page(&page("cases"), &made, |case| Ok(hexadecimal(case)))?;
            write_page(&page("listings"), &made, |case| listing(calls, case))?;
            write_page(&page("texts"), &made, |case| text(calls, case))?;
        }
    }
    Ok(())
}

/// Writes what is said of each case, after a line with its maker, its seed and the
/// number of bytes, so that none of them can pass for another case's.
fn write_page(page: &Path, made: &[Made], say: impl Fn(&[u8]) -> Result<String, String>) -> Outcome {
    let mut text = String::new();
    for Made { name, seed, case } in made {
        let said = say(case).map_err(|message| format!("{name}, seed {seed}: {message}"))?;
        text += &format!("== {name}, seed {seed}, {} bytes\n{said}", said.len());
    }
    fs::write(page, text).map_err(|error| format!("{}: {error}", page.display()))
}

fn hexadecimal(case: &[u8]) -> String {
    case.iter().map(|byte| format!("{byte:02x}")).chain(["\n".to_string()]).collect()
}

/// The text of a case; of a refused one, its refusal.
fn text(calls: &dyn Calls, case: &[u8]) -> Result<String, String> {
    if let Spelled::Refused { number, place } = calls.smt_length(case) {
        return Ok(format!("refused {number} {place}\n"));
    }
    String::from_utf8(text_of(calls, case)?).map_err(|_| format!("the text of {case:?} is no text"))
}
