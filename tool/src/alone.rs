//! A question about one line alone, an assert or an unlock: the text of the case, whose last assertion is that of constraint 7, with
//! the part of that line there and no other (`docs/SMT-TEXT.md`). What makes this part true meets the 7 too, so that an assignment
//! that is found meets the case's own constraints, and is checked, decoded and replayed as any other. Its run may violate at another
//! line before, so it is looked at whether the line that was asked about violates as well. The 8s take no answer away: with each
//! invisible line in the block of the line before it, a run has the same values, and violates at the same lines (`rule`).

use crate::calls::{Ending, Loaded};
use crate::case::{Case, Kind};
use crate::failure::Failure;
use crate::fault::Fault;
use crate::reads::Reads;
use crate::smt;
use crate::solve::Found;
use crate::words::record_in_words;

impl Loaded {
    /// The same case, asked about one line alone; or about all, where none is named.
    pub fn asked_about(self, record: Option<u16>) -> Result<Loaded, Failure> {
        match record {
            Some(record) if !self.case.asserts_and_unlocks().contains(&record) => {
                Err(Failure::Other(format!("{}: {}", self.name, cannot_violate(&self.case, record))))
            }
            asked => Ok(Loaded { asked, ..self }),
        }
    }

    /// The lines that are asked about, by thread and then by chain.
    pub fn lines(&self) -> Vec<u16> {
        self.asked.map_or_else(|| self.case.asserts_and_unlocks(), |record| vec![record])
    }

    /// What solvers are given: the case's one text, or that of a question about one line.
    pub fn question(&self) -> Result<String, Failure> {
        self.asked.map_or_else(|| self.text(), |record| self.text_about(&[record]))
    }

    /// The text with the parts of these lines alone in its last assertion.
    pub fn text_about(&self, records: &[u16]) -> Result<String, Failure> {
        let text = self.text()?;
        let reduced = smt::with_parts(&text, &self.case.asserts_and_unlocks(), |record| records.contains(&record));
        reduced.ok_or_else(|| {
            Failure::Other(format!("{}: the library wrote an SMT-LIB text with another last assertion", self.name))
        })
    }

    /// The fault that was asked about, in the run of an assignment that meets the constraints: the first of the run, unless it is
    /// one line's. An assert that is run with a true guard, and is zero there, has the value 0, and no other has. Nothing where that
    /// line does not violate.
    pub fn fault_asked_about(&self, assignment: &[u16], schedule: &[u16], first: Fault) -> Option<Fault> {
        let Some(record) = self.asked.filter(|&record| record != first.record) else {
            return Some(first);
        };
        match self.case.record(record).kind {
            Kind::Unlock => self.by_stranger(record, schedule),
            _ => (Reads { case: &self.case, assignment }.value(record) == 0).then_some(Fault { record, found: None }),
        }
    }

    /// What violates in a run that was found. The line that was asked about need not be the first.
    pub fn fault_in_words(&self, found: &Found) -> String {
        let words = found.fault.words(&self.case);
        match found.run.ending {
            Ending::Violated(first) if first.record != found.fault.record => {
                format!("{words}; record {} violates before it", first.record)
            }
            _ => words,
        }
    }
}

/// That a run cannot violate at a record, and at which it can.
fn cannot_violate(case: &Case, record: u16) -> String {
    let lines = case.asserts_and_unlocks();
    let lines: Vec<String> = lines.iter().map(|&record| format!("\n  {}", record_in_words(case, record))).collect();
    let lines = match lines.is_empty() {
        true => "the case has none".to_string(),
        false => format!("these are:{}", lines.concat()),
    };
    format!("{} is not an assert and not an unlock; {lines}", record_in_words(case, record))
}
