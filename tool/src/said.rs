//! What a command has to say of a case, as text or as an object, and how it ends.

use crate::failure::{Failure, Status};
use crate::input::Source;
use crate::json::Json;
use crate::objects;
use crate::output::Output;

pub struct Said {
    /// For standard output, also where it ends in a failure.
    pub text: String,
    pub ended: Result<Status, Failure>,
}

impl Said {
    pub fn object(object: &Json, status: Status) -> Said {
        Said { text: format!("{object}\n"), ended: Ok(status) }
    }

    /// A failure at this input: its message is told besides, and an object only where objects are wanted.
    pub fn failed(command: &str, case: &Source, input: &Source, failure: Failure, json: bool) -> Said {
        Said::failed_with(command, case, input, failure, json, Vec::new())
    }

    /// The same, with more fields of the object.
    pub fn failed_with(
        command: &str,
        case: &Source,
        input: &Source,
        failure: Failure,
        json: bool,
        own: Vec<(&'static str, Json)>,
    ) -> Said {
        let text = match json {
            true => format!("{}\n", objects::failed_with(command, &case.name(), &input.name(), &failure, own)),
            false => String::new(),
        };
        Said { text, ended: Err(failure) }
    }

    pub fn tell(self, output: &mut Output) -> Result<Status, Failure> {
        output.say(&self.text)?;
        self.ended
    }
}
