//! How a call of the command ends, and its exit status.

use crate::name::shown;
use menduvo::Refusal;
use std::io::Write;
use std::path::Path;

/// A call that did its work.
#[derive(Clone, Copy, Debug, PartialEq, Eq)]
pub enum Status {
    /// Exit status 0.
    Done,
    /// A violation was found, or an assignment fails: exit status 1.
    Found,
}

impl Status {
    /// How a call ends with this exit status, where what failed was told.
    pub fn of(number: i32) -> Result<Status, Failure> {
        match number {
            0 => Ok(Status::Done),
            1 => Ok(Status::Found),
            status => Err(Failure::Told(status)),
        }
    }

    pub fn number(self) -> i32 {
        match self {
            Status::Done => 0,
            Status::Found => 1,
        }
    }
}

/// A message on standard error.
pub fn note(message: &str) {
    // Where standard error is closed there is no place left to say so; the exit status stands.
    let _ = writeln!(std::io::stderr(), "menduvo: {message}");
}

/// A call that did not.
#[derive(Debug)]
pub enum Failure {
    /// The library refused an input: exit status 2, or 1 where the refusal is that an assignment fails.
    ByLibrary(Refusal, String),
    /// An input is no case, no list of numbers and no model: exit status 2.
    Refused(String),
    /// Something else failed, as a file or a solver: exit status 3.
    Other(String),
    /// What failed was told in the output: exit status 3, or 2 where inputs were refused, and no message.
    Told(i32),
    /// Nobody reads what is printed any more: exit status 3, and no message, as there is no fault to tell.
    BrokenPipe,
}

impl Failure {
    pub const STATUS_REFUSED: i32 = 2;
    pub const STATUS_OTHER: i32 = 3;

    /// What the system says of a file or folder.
    pub fn of_file(path: impl AsRef<Path>, error: &std::io::Error) -> Failure {
        Failure::Other(format!("{}: {error}", shown(path.as_ref().as_os_str())))
    }

    /// The library refused this input. The details say more about it, a line each.
    pub fn of_refusal(refusal: Refusal, input: &str, details: &[String]) -> Failure {
        let mut message = format!("{input}: {refusal}");
        for detail in details {
            message.push_str("\n  ");
            message.push_str(detail);
        }
        match refusal.number {
            // The slices that this command lends are as long as any result.
            10 => Failure::Other(message),
            _ => Failure::ByLibrary(refusal, message),
        }
    }

    pub fn status(&self) -> i32 {
        match self {
            // The input was taken, and is an assignment that fails.
            Failure::ByLibrary(Refusal { number: 15, .. }, _) => Status::Found.number(),
            Failure::ByLibrary(..) | Failure::Refused(_) => Failure::STATUS_REFUSED,
            Failure::Told(status) => *status,
            Failure::Other(_) | Failure::BrokenPipe => Failure::STATUS_OTHER,
        }
    }

    /// What failed, in lines; nothing where there is nothing to tell.
    pub fn message(&self) -> Option<&str> {
        match self {
            Failure::ByLibrary(_, message) | Failure::Refused(message) | Failure::Other(message) => Some(message),
            Failure::Told(_) | Failure::BrokenPipe => None,
        }
    }

    /// The library's refusal, where there is one.
    pub fn refusal(&self) -> Option<Refusal> {
        match self {
            Failure::ByLibrary(refusal, _) => Some(*refusal),
            _ => None,
        }
    }

    /// The message, on standard error.
    pub fn report(&self) {
        if let Some(message) = self.message() {
            note(message);
        }
    }
}
