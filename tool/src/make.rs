//! `menduvo make` and `menduvo source`: a case from its source, and back.

use crate::calls::Loaded;
use crate::failure::{Failure, Status};
use crate::input::Source;
use crate::keep;
use crate::name::shown;
use crate::output::Output;
use crate::show;
use crate::source_text;
use std::ffi::OsStr;

/// Makes the case of a source, which the library must take.
pub fn make(source: &Source, file: &OsStr, force: bool, output: &mut Output) -> Result<Status, Failure> {
    let loaded = Loaded::from(source)?;
    if loaded.source.is_none() {
        let name = &loaded.name;
        return Err(Failure::Refused(format!("{name}: a case already; 'menduvo source' prints the source of a case")));
    }
    if file == "-" {
        return output.write(&loaded.case.bytes).map(|()| Status::Done);
    }
    keep::write_output(file, &loaded.case.bytes, force, &[source])?;
    output.say(&format!("{}: {}\n", shown(file), show::size(&loaded)))?;
    Ok(Status::Done)
}

/// Prints the source of a case. Of one that is given as source, the same in the one form that this command writes.
pub fn source(case: &Source, output: &mut Output) -> Result<Status, Failure> {
    let loaded = Loaded::from(case)?;
    output.say(&source_text::text(&loaded.case)).map(|()| Status::Done)
}
