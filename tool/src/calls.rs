//! The calls of the proved library, on files: refusals become failures that say which input was refused, and why.

use crate::case::Case;
use crate::diagnosis;
use crate::failure::{note, Failure};
use crate::fault::Fault;
use crate::input::Source;
use crate::needed;
use crate::numbers::{self, Given, Model};
use crate::source::Draft;
use crate::table::{self, Table};
use crate::token::pointed;
use menduvo::{Checked, Decoded, Encoded, Filled, Listed, Refusal, Replayed};
use std::ffi::OsString;

/// An accepted case and its table.
pub struct Loaded {
    /// For messages.
    pub name: String,
    /// For the names of files.
    pub stem: OsString,
    pub case: Case,
    pub table: Table,
    /// What the case was made from, if it was given as source.
    pub source: Option<String>,
    /// The record of the one line that is asked about, where it is one alone.
    pub asked: Option<u16>,
}

/// What a run comes to.
#[derive(Clone, Copy, Debug, PartialEq, Eq)]
pub enum Ending {
    /// With the first line that violates.
    Violated(Fault),
    Clean,
    CutOff(u16),
}

impl Ending {
    /// What the run comes to, in a word.
    pub fn word(self) -> &'static str {
        match self {
            Ending::Violated(_) => "violated",
            Ending::Clean => "clean",
            Ending::CutOff(_) => "cut off",
        }
    }

    /// The record that it is about.
    pub fn record(self) -> Option<u16> {
        match self {
            Ending::Violated(Fault { record, .. }) | Ending::CutOff(record) => Some(record),
            Ending::Clean => None,
        }
    }
}

/// The listing of a case, refused or not.
pub fn listing(case: &[u8]) -> Result<String, Failure> {
    let mut room = vec![0; menduvo::MOST_LISTING_BYTES];
    let Listed::Text { bytes } = menduvo::listing(case, &mut room) else {
        return Err(Failure::Other("the library refused a listing that has the largest room".to_string()));
    };
    room.truncate(usize::from(bytes));
    String::from_utf8(room).map_err(|_| Failure::Other("the library wrote a listing that is no text".to_string()))
}

impl Loaded {
    pub fn from(source: &Source) -> Result<Loaded, Failure> {
        Loaded::of(source, source.case()?)
    }

    pub fn of(source: &Source, draft: Draft) -> Result<Loaded, Failure> {
        Loaded::named(source.name(), source.stem(), draft)
    }

    fn named(name: String, stem: OsString, draft: Draft) -> Result<Loaded, Failure> {
        let Draft { bytes, names, source, no_source } = draft;
        let mut room = [0; menduvo::MOST_TABLE_NUMBERS];
        let (constraints, variables) = match menduvo::encode(&bytes, &mut room) {
            Encoded::Table { constraints, variables } => (usize::from(constraints), usize::from(variables)),
            Encoded::Refused { number, place } => {
                let refusal = Refusal { number, place };
                let mut details = diagnosis::of_case(&bytes, refusal);
                details.extend(no_source);
                return Err(match source {
                    None => Failure::of_refusal(refusal, &name, &details),
                    Some(source) => {
                        let place = source.place_of(refusal);
                        let details = [pointed(&source.text, place), vec![source.size()]].concat();
                        Failure::of_refusal(refusal, &format!("{name}: {place}"), &details)
                    }
                });
            }
        };
        let rows = room[..6 * constraints].chunks_exact(6);
        let rows = rows.map(|row| std::array::from_fn(|column| row[column])).collect();
        let Some(case) = Case::of(bytes) else {
            return Err(Failure::Other(format!("{name}: the library accepted a case of a size that this command cannot read")));
        };
        let source = source.map(|source| source.text);
        Ok(Loaded { name, stem, case: Case { names, ..case }, table: Table { rows, variables }, source, asked: None })
    }

    /// The constraints as SMT-LIB text: the one text of the case.
    pub fn text(&self) -> Result<String, Failure> {
        let refused =
            |refusal: Refusal| Failure::Other(format!("{}: the library refused an accepted case: {refusal}", self.name));
        let mut text = vec![0; menduvo::smt_length(&self.case.bytes).map_err(refused)?];
        let bytes = menduvo::smt_text(&self.case.bytes, &mut text).map_err(refused)?;
        text.truncate(bytes);
        String::from_utf8(text)
            .map_err(|_| Failure::Other(format!("{}: the library wrote an SMT-LIB text that is no text", self.name)))
    }

    /// Another case in the place of this one, under its name.
    pub fn changed(&self, bytes: Vec<u8>) -> Result<Loaded, Failure> {
        Loaded::named(self.name.clone(), self.stem.clone(), self.draft(bytes))
    }

    /// Other bytes, with the names of this case.
    pub fn draft(&self, bytes: Vec<u8>) -> Draft {
        Draft { names: self.case.names.clone(), ..Draft::of_bytes(bytes) }
    }

    /// Numbers or a model, as an assignment.
    pub fn assignment(&self, source: &Source) -> Result<Vec<u16>, Failure> {
        match self.given(source)? {
            Given::Numbers(numbers) | Given::Model(Model { values: numbers, .. }) => Ok(numbers),
        }
    }

    /// Numbers as a schedule; a model is an assignment, and is decoded.
    pub fn schedule(&self, source: &Source) -> Result<Vec<u16>, Failure> {
        match self.given(source)? {
            Given::Numbers(numbers) => Ok(numbers),
            Given::Model(model) => self.decode(&source.name(), &model.values),
        }
    }

    /// What the text holds. That a model leaves variables out is told besides.
    fn given(&self, source: &Source) -> Result<Given, Failure> {
        let name = source.name();
        let given = numbers::read(&source.text()?, self.table.variables);
        let given = given.map_err(|problem| Failure::Refused(format!("{name}: {problem}")))?;
        if let Given::Model(model) = &given {
            if let Some(words) = model.left_out_in_words() {
                note(&format!("{name}: {words}"));
            }
        }
        Ok(given)
    }

    /// The first constraint that the assignment fails, if it fails one.
    pub fn check(&self, name: &str, assignment: &[u16]) -> Result<Option<u16>, Failure> {
        match menduvo::check(&self.case.bytes, assignment) {
            Checked::Meets => Ok(None),
            Checked::Fails(constraint) => Ok(Some(constraint)),
            Checked::Refused { number, place } => Err(self.refused_assignment(name, assignment, Refusal { number, place })),
        }
    }

    /// The schedule that the assignment stands for.
    pub fn decode(&self, name: &str, assignment: &[u16]) -> Result<Vec<u16>, Failure> {
        let mut room = [0; menduvo::MOST_SCHEDULE_NUMBERS];
        match menduvo::decode(&self.case.bytes, assignment, &mut room) {
            Decoded::Schedule { numbers } => Ok(room[..usize::from(numbers)].to_vec()),
            Decoded::Refused { number, place } => Err(self.refused_assignment(name, assignment, Refusal { number, place })),
        }
    }

    /// What the run of the schedule comes to, and the items' values at its end.
    pub fn replay(&self, name: &str, schedule: &[u16]) -> Result<(Ending, Vec<u16>), Failure> {
        let mut items = vec![0; self.case.items()];
        let ending = match menduvo::replay(&self.case.bytes, schedule, &mut items) {
            Replayed::Violated(record) => Ending::Violated(self.first_fault(record, schedule)?),
            Replayed::Clean => Ending::Clean,
            Replayed::CutOff(record) => Ending::CutOff(record),
            Replayed::Refused { number, place } => {
                let refusal = Refusal { number, place };
                return Err(Failure::of_refusal(refusal, name, &diagnosis::of_schedule(&self.case, schedule, refusal)));
            }
        };
        Ok((ending, items))
    }

    /// The assignment that stands for the schedule, or why there is none.
    pub fn fill(&self, schedule: &[u16]) -> Result<Vec<u16>, Refusal> {
        let mut room = [0; menduvo::MOST_VARIABLES];
        match menduvo::fill(&self.case.bytes, schedule, &mut room) {
            Filled::Assignment { numbers } => Ok(room[..usize::from(numbers)].to_vec()),
            Filled::Refused { number, place } => Err(Refusal { number, place }),
        }
    }

    fn refused_assignment(&self, name: &str, assignment: &[u16], refusal: Refusal) -> Failure {
        let details = match refusal.number {
            11 => diagnosis::of_assignment(&self.case, assignment.len()),
            15 => match self.constraint_in_words(refusal.place, assignment) {
                Ok(details) => details,
                Err(failure) => return failure,
            },
            _ => Vec::new(),
        };
        Failure::of_refusal(refusal, name, &details)
    }

    /// A constraint that an assignment fails: what it needs, and what the assignment has there. Where this display finds nothing
    /// wrong it has no words for it.
    pub fn constraint_in_words(&self, constraint: u16, assignment: &[u16]) -> Result<Vec<String>, Failure> {
        let Some(&row) = self.table.rows.get(usize::from(constraint).wrapping_sub(1)) else {
            return Ok(Vec::new());
        };
        let numbers = format!("constraint {constraint} of {}: {}", self.table.rows.len(), table::numbers(row));
        match needed::seen(&self.case, &self.table, row, assignment) {
            Some(seen) if !seen.holds => Ok(vec![numbers, table::in_words(&self.case, row), seen.words()]),
            seen => Err(Failure::Other(format!(
                "THIS COMMAND IS WRONG: its display of a constraint disagrees with the proved library\n  \
                 the library: the assignment fails {numbers}\n  the display: {}\n  Trust the library, and report this case.",
                seen.map_or("not a constraint of document 01".to_string(), |seen| format!("it holds; {}", seen.words())),
            ))),
        }
    }
}
