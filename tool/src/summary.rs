//! What came of one case among several: a line of the table, an object, a status.

use crate::calls::Loaded;
use crate::failure::{Failure, Status};
use crate::input::Source;
use crate::least;
use crate::objects;
use crate::solve::{Asking, Solved, Wanted};

/// A case's answer, as it is printed and filed.
#[derive(Clone, Debug)]
pub struct Summary {
    pub name: String,
    /// One of `solve::ANSWERS`.
    pub word: String,
    /// Constraints over variables; nothing where the case is refused.
    pub size: String,
    pub seconds: f64,
    pub note: String,
    /// The exit status that the answer stands for, where nothing is strict.
    pub status: i32,
    /// Whether each assert and unlock is shown to be reached.
    pub whole: bool,
    pub json: String,
    /// What failed, in full.
    pub message: Option<String>,
    /// Whose answer it is, where it was filed before.
    pub filed_by: Option<String>,
}

impl Summary {
    /// Solves the case of a file, files what came of it, and sums it up.
    pub fn of(source: &Source, wanted: &Wanted, asking: &Asking) -> Summary {
        let summary = match wanted.least {
            None => answered(source, wanted, asking),
            Some(_) => least::answered(source, wanted, asking),
        };
        summary.unwrap_or_else(|failure| Summary::of_failure(source, &failure))
    }

    /// The exit status. Where it is strict, an unsat must be about every line that is asked about.
    pub fn status(&self, strict: bool) -> i32 {
        match self.status == Status::Done.number() && strict && !self.whole {
            true => Status::Found.number(),
            false => self.status,
        }
    }

    pub fn of_solved(loaded: &Loaded, asking: &Asking, solved: &Solved, strict: bool) -> Summary {
        let (status, note) = (solved.status(false), solved.note(loaded));
        Summary {
            name: loaded.name.clone(),
            word: solved.word().to_string(),
            size: format!("{} over {}", loaded.table.rows.len(), loaded.table.variables),
            seconds: solved.seconds,
            json: objects::solved(loaded, asking, solved, strict, &note).to_string(),
            note,
            status,
            whole: solved.reach.is_whole(),
            message: (status == Failure::STATUS_OTHER).then(|| format!("{}: {}", loaded.name, solved.verdict.message())),
            filed_by: None,
        }
    }

    /// A run that was found is not hidden by what happens to its files.
    fn not_kept(self, loaded: &Loaded, asking: &Asking, solved: &Solved, failure: &Failure) -> Summary {
        let why = failure.message().unwrap_or_default();
        let note = format!("{}; NOT KEPT: {}", self.note, why.lines().next().unwrap_or_default());
        let json = objects::solved(loaded, asking, solved, false, &note).to_string();
        Summary { message: Some(format!("{}: not kept: {why}", self.name)), note, json, ..self }
    }

    pub fn of_failure(source: &Source, failure: &Failure) -> Summary {
        let message = failure.message().unwrap_or_default();
        let first = message.lines().next().unwrap_or_default();
        let note = first.strip_prefix(&format!("{}: ", source.name())).unwrap_or(first);
        let refused = failure.status() == Failure::STATUS_REFUSED;
        Summary {
            name: source.name(),
            word: if refused { "refused" } else { "failed" }.to_string(),
            size: String::new(),
            seconds: 0.0,
            note: note.to_string(),
            status: failure.status(),
            whole: false,
            json: objects::failed("solve", &source.name(), &source.name(), failure).to_string(),
            message: Some(message.to_string()),
            filed_by: None,
        }
    }
}

/// The case of a source. An answer of what the case was before is not left beside a refusal.
pub fn load(source: &Source, wanted: &Wanted) -> Result<Loaded, Failure> {
    Loaded::from(source).or_else(|failure| {
        let forced = wanted.keep.as_ref().filter(|keep| keep.force);
        let bounds = wanted.bounds(source);
        forced.map_or(Ok(()), |keep| bounds.iter().try_for_each(|source| keep.clear(&source.stem())))?;
        Err(failure)
    })
}

fn answered(source: &Source, wanted: &Wanted, asking: &Asking) -> Result<Summary, Failure> {
    let loaded = load(source, wanted)?.asked_about(wanted.record())?;
    answer(&loaded, wanted, asking).map(|(summary, _)| summary)
}

/// Solves a case, files what came of it, and sums it up; and all of it, where it was not filed before.
pub fn answer(loaded: &Loaded, wanted: &Wanted, asking: &Asking) -> Result<(Summary, Option<Solved>), Failure> {
    if let Some(keep) = &wanted.keep {
        if let Some(filed) = keep.filed(loaded, wanted, asking)? {
            return Ok((filed, None));
        }
        keep.clear(&loaded.stem)?;
    }
    let solved = wanted.solve(loaded, asking, &mut |_| {})?;
    let summary = Summary::of_solved(loaded, asking, &solved, wanted.strict);
    let kept = wanted.keep.as_ref().map_or(Ok(()), |keep| keep.keep(loaded, asking, &solved, &summary));
    match (kept, solved.verdict.found()) {
        (Ok(()), _) => Ok((summary, Some(solved))),
        (Err(failure), Some(_)) => Ok((summary.not_kept(loaded, asking, &solved, &failure), Some(solved))),
        (Err(failure), None) => Err(failure),
    }
}
