//! The answers of the calls, and each in words.

use crate::Refusal;
use std::fmt::{self, Display, Formatter};

/// Whether the calls take a case.
#[derive(Clone, Copy, Debug, PartialEq, Eq)]
pub enum Verdict {
    Accepted,
    Refused { number: u16, place: u16 },
}

/// The encoder wrote the table, with so many constraints over so many variables, or refused.
#[derive(Clone, Copy, Debug, PartialEq, Eq)]
pub enum Encoded {
    Table { constraints: u16, variables: u16 },
    Refused { number: u16, place: u16 },
}

/// The assignment meets the constraints, or fails one of them, the first, counted from 1.
#[derive(Clone, Copy, Debug, PartialEq, Eq)]
pub enum Checked {
    Meets,
    Fails(u16),
    Refused { number: u16, place: u16 },
}

/// The decoder wrote a schedule of so many numbers, or refused.
#[derive(Clone, Copy, Debug, PartialEq, Eq)]
pub enum Decoded {
    Schedule { numbers: u16 },
    Refused { number: u16, place: u16 },
}

/// The run is legal and violates, first at this record: a zero assert, or an unlock by a stranger, a thread that does not hold the
/// mutex, which the record's kind tells. Or it is legal and does not violate; or it is cut off at this record, whose assume or lock
/// failed, whatever came before; or the schedule is refused.
#[derive(Clone, Copy, Debug, PartialEq, Eq)]
pub enum Replayed {
    Violated(u16),
    Clean,
    CutOff(u16),
    Refused { number: u16, place: u16 },
}

/// The assignment that stands for the schedule was written, so many numbers of it, or the schedule was refused.
#[derive(Clone, Copy, Debug, PartialEq, Eq)]
pub enum Filled {
    Assignment { numbers: u16 },
    Refused { number: u16, place: u16 },
}

/// The listing was written, so many bytes of it, or did not fit.
#[derive(Clone, Copy, Debug, PartialEq, Eq)]
pub enum Listed {
    Text { bytes: u16 },
    Refused { number: u16, place: u16 },
}

/// A line was taken, and these are the records of the copies that its names have before it, 0 where there is none: of the guard's
/// local, of operand a (for a load of the global a), of operand b and of the target. Or it was refused.
#[derive(Clone, Copy, Debug, PartialEq, Eq)]
pub enum Taken {
    Copies { guard: u16, a: u16, b: u16, target: u16 },
    Refused { number: u16, place: u16 },
}

impl Display for Verdict {
    fn fmt(&self, to: &mut Formatter) -> fmt::Result {
        match *self {
            Verdict::Accepted => to.write_str("accepted"),
            Verdict::Refused { number, place } => Refusal { number, place }.fmt(to),
        }
    }
}

impl Display for Encoded {
    fn fmt(&self, to: &mut Formatter) -> fmt::Result {
        match *self {
            Encoded::Table { constraints, variables } => {
                let constraints = count(constraints, "constraint", "constraints");
                write!(to, "{constraints} over {}", count(variables, "variable", "variables"))
            }
            Encoded::Refused { number, place } => Refusal { number, place }.fmt(to),
        }
    }
}

impl Display for Checked {
    fn fmt(&self, to: &mut Formatter) -> fmt::Result {
        match *self {
            Checked::Meets => to.write_str("meets: the assignment meets every constraint"),
            Checked::Fails(constraint) => write!(to, "fails: the first constraint that the assignment fails is {constraint}"),
            Checked::Refused { number, place } => Refusal { number, place }.fmt(to),
        }
    }
}

impl Display for Decoded {
    fn fmt(&self, to: &mut Formatter) -> fmt::Result {
        match *self {
            Decoded::Schedule { numbers } => write!(to, "a schedule of {}", count(numbers, "number", "numbers")),
            Decoded::Refused { number, place } => Refusal { number, place }.fmt(to),
        }
    }
}

impl Display for Replayed {
    fn fmt(&self, to: &mut Formatter) -> fmt::Result {
        match *self {
            Replayed::Violated(record) => {
                write!(to, "violated: a zero assert or an unlock by a stranger, first at record {record}")
            }
            Replayed::Clean => to.write_str("clean: the run is legal and does not violate"),
            Replayed::CutOff(record) => write!(to, "cut off: the assume or lock of record {record} failed"),
            Replayed::Refused { number, place } => Refusal { number, place }.fmt(to),
        }
    }
}

impl Display for Filled {
    fn fmt(&self, to: &mut Formatter) -> fmt::Result {
        match *self {
            Filled::Assignment { numbers } => write!(to, "an assignment of {}", count(numbers, "number", "numbers")),
            Filled::Refused { number, place } => Refusal { number, place }.fmt(to),
        }
    }
}

impl Display for Listed {
    fn fmt(&self, to: &mut Formatter) -> fmt::Result {
        match *self {
            Listed::Text { bytes } => write!(to, "a listing of {}", count(bytes, "byte", "bytes")),
            Listed::Refused { number, place } => Refusal { number, place }.fmt(to),
        }
    }
}

impl Display for Taken {
    fn fmt(&self, to: &mut Formatter) -> fmt::Result {
        match *self {
            Taken::Copies { guard, a, b, target } => {
                let [guard, a, b, target] = [guard, a, b, target].map(copy);
                write!(to, "the copies before it: guard {guard}, a {a}, b {b}, target {target}")
            }
            Taken::Refused { number, place } => Refusal { number, place }.fmt(to),
        }
    }
}

/// `record 3`, or `none` for 0.
fn copy(number: u16) -> String {
    match number {
        0 => "none".to_string(),
        _ => format!("record {number}"),
    }
}

/// `1 byte`, `2 bytes`.
fn count(number: u16, one: &str, many: &str) -> String {
    match number {
        1 => format!("1 {one}"),
        _ => format!("{number} {many}"),
    }
}
