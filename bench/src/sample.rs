//! The inputs of the benchmark: a case, an assignment that meets its constraints, and the schedule that this decodes to, whose
//! run violates.

use crate::made;
use crate::plain::case::Case;

pub struct Sample {
    pub name: &'static str,
    pub case: Vec<u8>,
    pub assignment: Vec<u16>,
    pub schedule: Vec<u16>,
    /// The first line that violates.
    pub violation: u16,
    /// For each thread its lines, front to back.
    pub lines: [Vec<Line>; 4],
}

/// The number and the fields of a record.
pub type Line = (u16, [u16; 8]);

/// Which lines of a run violate.
#[derive(Clone, Copy, PartialEq, Eq)]
pub enum Faults {
    /// The last line, which is an assert, and unlocks by strangers before it.
    Strangers,
    /// The last line alone, which is an assert.
    LastAssert,
    /// The last line alone, which is an unlock.
    LastUnlock,
}

/// What a case is made to have.
#[derive(Clone, Copy)]
pub struct Shape {
    pub name: &'static str,
    /// How many lines each thread runs, and how many more it has.
    pub lines: &'static [usize],
    pub left: usize,
    pub switches: usize,
    pub globals: usize,
    pub mutexes: usize,
    pub faults: Faults,
}

/// The most of everything: 256 records, 15 switches, 12 items.
pub const LARGEST: Shape =
    Shape { name: "largest", lines: &[64; 4], left: 0, switches: 15, globals: 8, mutexes: 4, faults: Faults::Strangers };
/// As many records, of which the run leaves half.
const STOPPED: Shape = Shape { name: "stopped", lines: &[32; 4], left: 32, ..LARGEST };
const MIDDLE: Shape = Shape { name: "middle", lines: &[22, 21, 21], switches: 8, globals: 4, mutexes: 2, ..LARGEST };
/// These have one line that violates. They are not measured.
const LAST_ASSERT: Shape = Shape { name: "last assert", faults: Faults::LastAssert, ..LARGEST };
const LAST_UNLOCK: Shape = Shape { name: "last unlock", faults: Faults::LastUnlock, ..LARGEST };
const LAST_UNLOCK_OF_TWO: Shape = Shape { lines: &[9, 9], switches: 3, ..LAST_UNLOCK };

/// A case with a text as long as one can make it: six inputs, and in all other lines a guarded store of a comparison of variables.
pub const LONGEST_TEXT: &[u8] = include_bytes!("../longest.case");

/// All inputs, by the tables that they are for; the last are for none, and only compared.
pub struct Samples {
    pub sizes: [Sample; 4],
    pub by_records: [Sample; 4],
    pub by_switches: [Sample; 4],
    compared: [Sample; 3],
}

impl Samples {
    pub fn all() -> Samples {
        let lines: [&[usize]; 4] = [&[8; 4], &[16; 4], &[32; 4], &[64; 4]];
        Samples {
            sizes: [Sample::small(), Sample::made(MIDDLE), Sample::made(LARGEST), Sample::made(STOPPED)],
            by_records: lines.map(|lines| Sample::made(Shape { lines, ..LARGEST })),
            by_switches: [3, 7, 11, 15].map(|switches| Sample::made(Shape { switches, ..LARGEST })),
            compared: [LAST_ASSERT, LAST_UNLOCK, LAST_UNLOCK_OF_TWO].map(Sample::made),
        }
    }

    pub fn iter(&self) -> impl Iterator<Item = &Sample> {
        self.sizes.iter().chain(&self.by_records).chain(&self.by_switches).chain(&self.compared)
    }
}

impl Sample {
    /// Document 01's case A, with the schedule and the assignment of P1 and P6.
    pub fn small() -> Sample {
        let case = include_bytes!("../../cases/case-a.case").to_vec();
        Sample::new("small", case, vec![0, 0, 0, 1, 2, 5, 2, 0, 1, 5, 1, 5], vec![2, 1, 2], 4)
    }

    pub fn made(shape: Shape) -> Sample {
        let (case, assignment, schedule, violation) = made::made(shape);
        Sample::new(shape.name, case, assignment, schedule, violation)
    }

    fn new(name: &'static str, case: Vec<u8>, assignment: Vec<u16>, schedule: Vec<u16>, violation: u16) -> Sample {
        let Ok(accepted) = Case::accept(&case) else { unreachable!("every sample is an accepted case") };
        let chain = |thread| accepted.chain(thread).map(|(number, record)| (number, record.fields()));
        let lines = std::array::from_fn(|thread| chain(thread).collect());
        Sample { name, case, assignment, schedule, violation, lines }
    }

    fn field(&self, j: usize) -> usize {
        usize::from(u16::from_le_bytes([self.case[2 * j], self.case[2 * j + 1]]))
    }

    pub fn threads(&self) -> usize {
        self.field(0)
    }

    pub fn records(&self) -> usize {
        (self.case.len() - 32) / 16
    }

    pub fn switches(&self) -> usize {
        self.field(1)
    }

    pub fn globals(&self) -> usize {
        self.field(2)
    }

    pub fn mutexes(&self) -> usize {
        self.field(3)
    }

    pub fn items(&self) -> usize {
        self.globals() + self.mutexes()
    }
}
