//! What violates in a run: an assert that is zero, or an unlock by a stranger, a thread that does not hold the mutex. Which record it
//! is, and whose the mutex was, is read off the library's replay.

use crate::calls::Loaded;
use crate::case::{Case, Kind, CONSTANT};
use crate::failure::Failure;
use crate::json::Json;
use crate::names::Name;
use crate::words::record_in_words;
use menduvo::Replayed;

#[cfg(test)]
mod tests;

/// A line that violates.
#[derive(Clone, Copy, Debug, PartialEq, Eq)]
pub struct Fault {
    pub record: u16,
    /// What an unlock found in its mutex: 0 where it was free, or else the number of its holder; nothing of an assert.
    pub found: Option<u16>,
}

impl Fault {
    /// `record 8 (thread 0, line 8: assert both == 0) is broken`.
    pub fn words(&self, case: &Case) -> String {
        let whose = self.whose(case).map(|whose| format!(": {whose}")).unwrap_or_default();
        format!("{} {}{whose}", record_in_words(case, self.record), self.predicate())
    }

    /// What is said of the record.
    pub fn predicate(&self) -> &'static str {
        match self.found {
            None => "is broken",
            Some(_) => "is an unlock by a stranger",
        }
    }

    /// Whose the mutex of an unlock was.
    pub fn whose(&self, case: &Case) -> Option<String> {
        let record = case.records.get(usize::from(self.record).checked_sub(1)?)?;
        self.found.map(|found| whose(case, Name::Mutex(record.target), found))
    }

    pub fn object(&self, case: &Case) -> Json {
        let kind = if self.found.is_none() { "assert" } else { "unlock" };
        let mut fields = vec![("record", self.record.into()), ("kind", kind.into())];
        if let Some(found) = self.found {
            let mutex = Name::Mutex(case.record(self.record).target);
            fields.extend([("mutex", case.names.called(mutex).into()), ("holder", found.checked_sub(1).into())]);
        }
        Json::Object(fields)
    }
}

/// Which lines these are, of those at which a run can violate.
#[derive(Clone, Copy, Debug, PartialEq, Eq)]
pub enum Sort {
    Asserts,
    Unlocks,
    /// Lines of both sorts, or of none.
    Both,
}

impl Sort {
    pub fn of(case: &Case, lines: &[u16]) -> Sort {
        let are = |kind: Kind| lines.iter().any(|&line| case.record(line).kind == kind);
        match (are(Kind::Assert), are(Kind::Unlock)) {
            (true, false) => Sort::Asserts,
            (false, true) => Sort::Unlocks,
            _ => Sort::Both,
        }
    }

    /// What one of them is called.
    pub fn one(self) -> &'static str {
        match self {
            Sort::Asserts => "assert",
            Sort::Unlocks => "unlock",
            Sort::Both => "assert or unlock",
        }
    }

    /// What several are called.
    pub fn many(self) -> &'static str {
        match self {
            Sort::Asserts => "asserts",
            Sort::Unlocks => "unlocks",
            Sort::Both => "asserts and unlocks",
        }
    }
}

/// Whose a mutex was that an unlock found so: `thread 1 held gates`, `gates was free`.
pub fn whose(case: &Case, mutex: Name, found: u16) -> String {
    let name = case.names.called(mutex);
    match found.checked_sub(1) {
        None => format!("{name} was free"),
        Some(holder) => format!("thread {holder} held {name}"),
    }
}

/// The kinds that a line is given to see whether it is reached.
pub const ASSERT: u16 = 5;
const ASSUME: u16 = 6;

/// The case in which these lines are of this kind, an assert or an assume, with the expression 0 and the guards that they have.
pub fn with_zeros(case: &Case, records: &[u16], kind: u16) -> Vec<u8> {
    let mut bytes = case.bytes.clone();
    for &record in records {
        let [next, _, guard, ..] = case.record(record).fields;
        let place = 16 + 16 * usize::from(record);
        let fields = [next, kind, guard, 0, 0, CONSTANT, 0, 0].map(u16::to_le_bytes);
        bytes[place..place + 16].copy_from_slice(fields.as_flattened());
    }
    bytes
}

impl Loaded {
    /// The items as a line finds them, where the run of a schedule gets to it with a true guard; else nothing. It is the library's
    /// word: where the line is an assume of 0, just such a run is cut off there, and it goes as that of the case up to there. At a
    /// cut-off the items are those with the failed line not run.
    pub fn items_before(&self, record: u16, schedule: &[u16]) -> Option<Vec<u16>> {
        let mut items = vec![0; self.case.items()];
        match menduvo::replay(&with_zeros(&self.case, &[record], ASSUME), schedule, &mut items) {
            Replayed::CutOff(failed) if failed == record => Some(items),
            _ => None,
        }
    }

    /// The fault of an unlock that is by a stranger in the run of a schedule; nothing where it is not.
    pub fn by_stranger(&self, record: u16, schedule: &[u16]) -> Option<Fault> {
        let unlock = self.case.record(record);
        let found = self.items_before(record, schedule)?[self.case.globals + usize::from(unlock.target)];
        (found != unlock.holder()).then_some(Fault { record, found: Some(found) })
    }

    /// The fault of the line that violates first in the run of a schedule, by the library's word.
    pub fn first_fault(&self, record: u16, schedule: &[u16]) -> Result<Fault, Failure> {
        match self.case.records.get(usize::from(record).wrapping_sub(1)).map(|record| record.kind) {
            Some(Kind::Unlock) => self.by_stranger(record, schedule).ok_or_else(|| {
                Failure::Other(format!(
                    "{} violates, and is no unlock by a stranger: this is not the proved library",
                    record_in_words(&self.case, record)
                ))
            }),
            _ => Ok(Fault { record, found: None }),
        }
    }
}
