//! What is noted of a run: the lines that it reaches with a true guard, where it is legal and its schedule is taken.

use super::{Reach, Reached};
use crate::calls::Loaded;
use crate::fault::Sort;
use crate::input::Source;
use crate::source;
use std::ffi::OsStr;

/// The records that are noted of a schedule's run, of the lines that are asked about.
fn noted(text: &str, schedule: &[u16]) -> Vec<u16> {
    let draft = source::read(text).unwrap_or_else(|_| panic!("a source: {text}"));
    let loaded = Loaded::of(&Source::new(OsStr::new("noted")), draft).expect("the case is accepted");
    let lines = loaded.lines();
    let sort = Sort::of(&loaded.case, &lines);
    let lines = lines.into_iter().map(|record| (record, Reached::Never)).collect();
    let mut reach = Reach { lines, sort, plain: None, questions: Vec::new(), disagreement: None };
    reach.note_run(&loaded, schedule).expect("it is replayed");
    let yes = Reached::Yes(schedule.to_vec());
    let noted = reach.lines.into_iter().filter(|(_, reached)| *reached == yes);
    noted.map(|(record, _)| record).collect()
}

const CASE: &str = "switches 2\nmutex m\nthread\nassert 0\nunlock m\nlock m\nlock m\nassert 1\nthread\nL0 = input\n\
                    when L0 != 0: unlock m\nwhen L0 == 0: assert 0\n";

#[test]
fn lines_of_a_legal_run() {
    assert_eq!(noted(CASE, &[0, 0, 0, 0]), []);
    assert_eq!(noted(CASE, &[1, 0, 0, 0]), [1]);
    assert_eq!(noted(CASE, &[2, 0, 0, 0]), [1, 2]);
    assert_eq!(noted(CASE, &[3, 0, 0, 0]), [1, 2]);
    assert_eq!(noted(CASE, &[3, 3, 0, 0]), [1, 2, 8]);
    assert_eq!(noted(CASE, &[3, 3, 0, 7]), [1, 2, 7]);
    // Freed by the other thread, the mutex is locked once more.
    assert_eq!(noted(CASE, &[3, 3, 2, 7]), [1, 2, 5, 7]);
}

/// Of a run that is cut off, or that no schedule stands for, nothing is noted, not even of the lines before.
#[test]
fn no_lines_of_another() {
    assert_eq!(noted(CASE, &[4, 0, 0, 0]), []);
    assert_eq!(noted(CASE, &[3, 3, 2, 0]), []);
    assert_eq!(noted(CASE, &[3, 0, 0, 7]), []);
    assert_eq!(noted(CASE, &[3, 4, 0, 7]), []);
    assert_eq!(noted(CASE, &[3, 3, 2]), []);
}
