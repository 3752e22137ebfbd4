//! The ten calls of the library and their replies.
//!
//! Both the second implementation and the proved library stand behind the
//! trait `Calls`, so that each test can be run on either of them.

/// "Each comes with a place, 0 unless stated".
#[derive(Clone, Copy, Debug, PartialEq, Eq)]
pub struct Refusal {
    pub number: u16,
    pub place: u16,
}

#[derive(Clone, Copy, Debug, PartialEq, Eq)]
pub enum Verdict {
    Accepted,
    Refused { number: u16, place: u16 },
}

#[derive(Clone, Copy, Debug, PartialEq, Eq)]
pub enum Encoded {
    Table { constraints: u16, variables: u16 },
    Refused { number: u16, place: u16 },
}

#[derive(Clone, Copy, Debug, PartialEq, Eq)]
pub enum Checked {
    Meets,
    /// The first failed constraint, counted from 1.
    Fails(u16),
    Refused {
        number: u16,
        place: u16,
    },
}

#[derive(Clone, Copy, Debug, PartialEq, Eq)]
pub enum Decoded {
    /// How many numbers were written.
    Schedule {
        numbers: u16,
    },
    Refused {
        number: u16,
        place: u16,
    },
}

#[derive(Clone, Copy, Debug, PartialEq, Eq)]
pub enum Replayed {
    /// "the first of either sort" in running order: a zero assert, or an unlock
    /// by a thread that does not hold the mutex
    Violated(u16),
    Clean,
    /// "the line whose assume or lock failed first"
    CutOff(u16),
    Refused {
        number: u16,
        place: u16,
    },
}

#[derive(Clone, Copy, Debug, PartialEq, Eq)]
pub enum Filled {
    /// How many numbers were written.
    Assignment {
        numbers: u16,
    },
    Refused {
        number: u16,
        place: u16,
    },
}

#[derive(Clone, Copy, Debug, PartialEq, Eq)]
pub enum Listed {
    /// How many bytes were written.
    Text {
        bytes: u16,
    },
    Refused {
        number: u16,
        place: u16,
    },
}

#[derive(Clone, Copy, Debug, PartialEq, Eq)]
pub enum Spelled {
    /// How many bytes the text of the constraints has.
    Text {
        bytes: usize,
    },
    Refused {
        number: u16,
        place: u16,
    },
}

/// How many numbers are held for a thread: 16 locals, 8 globals, 4 mutexes.
pub const NAMES: usize = 28;

#[derive(Clone, Copy, Debug, PartialEq, Eq)]
pub enum Taken {
    /// The copies of the line's names, 0 where there is none.
    Copies {
        guard: u16,
        a: u16,
        b: u16,
        target: u16,
    },
    Refused {
        number: u16,
        place: u16,
    },
}

pub trait Calls {
    fn accept(&self, case: &[u8]) -> Verdict;
    fn encode(&self, case: &[u8], table: &mut [u16]) -> Encoded;
    fn check(&self, case: &[u8], assignment: &[u16]) -> Checked;
    fn decode(&self, case: &[u8], assignment: &[u16], schedule: &mut [u16]) -> Decoded;
    fn replay(&self, case: &[u8], schedule: &[u16], items: &mut [u16]) -> Replayed;
    fn fill(&self, case: &[u8], schedule: &[u16], assignment: &mut [u16]) -> Filled;
    fn listing(&self, case: &[u8], text: &mut [u8]) -> Listed;
    fn smt_length(&self, case: &[u8]) -> Spelled;
    fn smt_text(&self, case: &[u8], text: &mut [u8]) -> Spelled;
    fn take_line(&self, globals: u16, mutexes: u16, number: u16, record: &[u16; 8], held: &mut [u16; NAMES]) -> Taken;
}

/// Every reply can be made from a refusal.
macro_rules! replies_that_can_refuse {
    ($($reply:ident),*) => { $(
        impl From<Refusal> for $reply {
            fn from(refusal: Refusal) -> Self {
                $reply::Refused { number: refusal.number, place: refusal.place }
            }
        }
    )* };
}

replies_that_can_refuse!(Verdict, Encoded, Checked, Decoded, Replayed, Filled, Listed, Spelled, Taken);

impl Verdict {
    pub fn refusal(self) -> Option<Refusal> {
        match self {
            Verdict::Accepted => None,
            Verdict::Refused { number, place } => Some(Refusal { number, place }),
        }
    }
}
