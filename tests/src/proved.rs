//! The proved library, through its safe wrapper in `bindings/rust`.

use crate::calls::{Calls, Checked, Decoded, Encoded, Filled, Listed, Replayed, Spelled, Taken, Verdict, NAMES};

pub struct Proved;

impl Calls for Proved {
    fn accept(&self, case: &[u8]) -> Verdict {
        match menduvo::accept(case) {
            menduvo::Verdict::Accepted => Verdict::Accepted,
            menduvo::Verdict::Refused { number, place } => Verdict::Refused { number, place },
        }
    }

    fn encode(&self, case: &[u8], table: &mut [u16]) -> Encoded {
        match menduvo::encode(case, table) {
            menduvo::Encoded::Table { constraints, variables } => Encoded::Table { constraints, variables },
            menduvo::Encoded::Refused { number, place } => Encoded::Refused { number, place },
        }
    }

    fn check(&self, case: &[u8], assignment: &[u16]) -> Checked {
        match menduvo::check(case, assignment) {
            menduvo::Checked::Meets => Checked::Meets,
            menduvo::Checked::Fails(constraint) => Checked::Fails(constraint),
            menduvo::Checked::Refused { number, place } => Checked::Refused { number, place },
        }
    }

    fn decode(&self, case: &[u8], assignment: &[u16], schedule: &mut [u16]) -> Decoded {
        match menduvo::decode(case, assignment, schedule) {
            menduvo::Decoded::Schedule { numbers } => Decoded::Schedule { numbers },
            menduvo::Decoded::Refused { number, place } => Decoded::Refused { number, place },
        }
    }

    fn replay(&self, case: &[u8], schedule: &[u16], items: &mut [u16]) -> Replayed {
        match menduvo::replay(case, schedule, items) {
            menduvo::Replayed::Violated(record) => Replayed::Violated(record),
            menduvo::Replayed::Clean => Replayed::Clean,
            menduvo::Replayed::CutOff(record) => Replayed::CutOff(record),
            menduvo::Replayed::Refused { number, place } => Replayed::Refused { number, place },
        }
    }

    fn fill(&self, case: &[u8], schedule: &[u16], assignment: &mut [u16]) -> Filled {
        match menduvo::fill(case, schedule, assignment) {
            menduvo::Filled::Assignment { numbers } => Filled::Assignment { numbers },
            menduvo::Filled::Refused { number, place } => Filled::Refused { number, place },
        }
    }

    fn listing(&self, case: &[u8], text: &mut [u8]) -> Listed {
        match menduvo::listing(case, text) {
            menduvo::Listed::Text { bytes } => Listed::Text { bytes },
            menduvo::Listed::Refused { number, place } => Listed::Refused { number, place },
        }
    }

    fn smt_length(&self, case: &[u8]) -> Spelled {
        spelled(menduvo::smt_length(case))
    }

    fn smt_text(&self, case: &[u8], text: &mut [u8]) -> Spelled {
        spelled(menduvo::smt_text(case, text))
    }

    fn take_line(&self, globals: u16, mutexes: u16, number: u16, record: &[u16; 8], held: &mut [u16; NAMES]) -> Taken {
        match menduvo::take_line(globals, mutexes, number, record, held) {
            menduvo::Taken::Copies { guard, a, b, target } => Taken::Copies { guard, a, b, target },
            menduvo::Taken::Refused { number, place } => Taken::Refused { number, place },
        }
    }
}

fn spelled(answer: Result<usize, menduvo::Refusal>) -> Spelled {
    match answer {
        Ok(bytes) => Spelled::Text { bytes },
        Err(menduvo::Refusal { number, place, .. }) => Spelled::Refused { number, place },
    }
}
