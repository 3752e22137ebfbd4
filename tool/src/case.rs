//! The fields of a case, as document 01 lays them out: what is needed to put a case into words. Whether a case is taken is for
//! the library to say.

use crate::names::{Name, Names};

/// What a line does.
#[derive(Clone, Copy, Debug, PartialEq, Eq)]
pub enum Kind {
    Compute,
    Store,
    Load,
    Input,
    Assert,
    Assume,
    Lock,
    Unlock,
    /// Not of document 01: only in a case that the library refuses.
    Unknown,
}

/// A record, with its number from 1.
#[derive(Clone, Copy, Debug)]
pub struct Record {
    pub number: u16,
    /// A number that no thread has where it is in none: only in a case that the library refuses.
    pub thread: usize,
    /// Next, kind, guard, target, op, a, b, c.
    pub fields: [u16; 8],
    pub kind: Kind,
    pub next: u16,
    pub guard: u16,
    pub target: u16,
    pub op: u16,
    pub a: u16,
    pub b: u16,
    pub c: u16,
}

/// The operand that stands for the constant c.
pub const CONSTANT: u16 = 16;

impl Record {
    fn new(number: u16, fields: [u16; 8]) -> Record {
        let [next, kind, guard, target, op, a, b, c] = fields;
        let kind = match kind {
            1 => Kind::Compute,
            2 => Kind::Store,
            3 => Kind::Load,
            4 => Kind::Input,
            5 => Kind::Assert,
            6 => Kind::Assume,
            7 => Kind::Lock,
            8 => Kind::Unlock,
            _ => Kind::Unknown,
        };
        Record { number, thread: usize::MAX, fields, kind, next, guard, target, op, a, b, c }
    }

    /// A local of its thread.
    pub fn local(&self, local: u16) -> Name {
        Name::Local(self.thread, local)
    }

    /// The local that the guard looks at.
    pub fn guard_local(&self) -> Option<u16> {
        match self.guard {
            0 => None,
            1..=16 => Some(self.guard - 1),
            guard => Some(guard - 17),
        }
    }

    /// Whether the guard is true where its local has this value.
    pub fn guard_is_true(&self, local: u16) -> bool {
        match self.guard {
            0 => true,
            1..=16 => local != 0,
            _ => local == 0,
        }
    }

    /// What the mutex of a lock or unlock has while the line's thread holds it: the thread's number and 1.
    pub fn holder(&self) -> u16 {
        self.thread as u16 + 1
    }

    /// Whether other threads can tell when the line runs: load, store, lock and unlock touch shared items.
    pub fn is_visible(&self) -> bool {
        matches!(self.kind, Kind::Load | Kind::Store | Kind::Lock | Kind::Unlock)
    }

    /// Whether a run can violate at this line.
    pub fn can_violate(&self) -> bool {
        matches!(self.kind, Kind::Assert | Kind::Unlock)
    }

    pub fn has_expression(&self) -> bool {
        matches!(self.kind, Kind::Compute | Kind::Store | Kind::Assert | Kind::Assume)
    }

    /// Op 0 gives a, and has no b.
    pub fn has_b(&self) -> bool {
        self.has_expression() && self.op != 0
    }

    /// What the expression gives for these operands.
    pub fn expression(&self, a: u16, b: u16) -> u16 {
        match self.op {
            0 => a,
            1 => a.wrapping_add(b),
            2 => a.wrapping_sub(b),
            3 => a & b,
            4 => a | b,
            5 => u16::from(a == b),
            _ => u16::from(a < b),
        }
    }
}

/// The largest n of a case.
pub const MOST_SWITCHES: u16 = 15;

/// Puts this n into the bytes of a case: the header's second field. Bytes that are too few to have it stay as they are.
pub fn set_switches(bytes: &mut [u8], switches: u16) {
    if let Some(field) = bytes.get_mut(2..4) {
        field.copy_from_slice(&switches.to_le_bytes());
    }
}

/// A case: T, n, G, M, the header's other fields, the records, and each thread's record numbers in chain order.
#[derive(Clone, Debug)]
pub struct Case {
    pub bytes: Vec<u8>,
    pub header: [u16; 16],
    pub threads: usize,
    pub switches: usize,
    pub globals: usize,
    pub mutexes: usize,
    pub records: Vec<Record>,
    pub chains: Vec<Vec<u16>>,
    pub names: Names,
}

impl Case {
    /// The fields of these bytes, if there are enough for a header and whole records. The case may be one that is refused: its
    /// chains then end where a number leads nowhere, or to a record that was met before.
    pub fn of(bytes: Vec<u8>) -> Option<Case> {
        if bytes.len() < 32 || !bytes.len().is_multiple_of(16) || bytes.len() > menduvo::MOST_CASE_BYTES {
            return None;
        }
        let fields: Vec<u16> = bytes.chunks_exact(2).map(|pair| u16::from_le_bytes([pair[0], pair[1]])).collect();
        let header: [u16; 16] = std::array::from_fn(|field| fields[field]);
        let chunks = fields[16..].chunks_exact(8).zip(1..);
        let records = chunks.map(|(chunk, number)| Record::new(number, std::array::from_fn(|field| chunk[field])));
        let mut case = Case {
            bytes,
            header,
            threads: usize::from(header[0]),
            switches: usize::from(header[1]),
            globals: usize::from(header[2]),
            mutexes: usize::from(header[3]),
            records: records.collect(),
            chains: Vec::new(),
            names: Names::default(),
        };
        let mut met = vec![false; case.records.len()];
        case.chains = (0..case.threads.min(4)).map(|thread| case.chain(thread, &mut met)).collect();
        for (thread, chain) in case.chains.iter().enumerate() {
            chain.iter().for_each(|&number| case.records[usize::from(number) - 1].thread = thread);
        }
        Some(case)
    }

    fn chain(&self, thread: usize, met: &mut [bool]) -> Vec<u16> {
        let mut chain = Vec::new();
        let mut next = self.first(thread);
        while (1..=self.records.len()).contains(&usize::from(next)) && !met[usize::from(next) - 1] {
            met[usize::from(next) - 1] = true;
            chain.push(next);
            next = self.record(next).next;
        }
        chain
    }

    pub fn first(&self, thread: usize) -> u16 {
        self.header[4 + thread]
    }

    pub fn record(&self, number: u16) -> &Record {
        &self.records[usize::from(number) - 1]
    }

    /// Globals and mutexes together.
    pub fn items(&self) -> usize {
        self.globals + self.mutexes
    }

    /// The items' values at the start: the globals' initial values, and 0 for each mutex.
    pub fn items_at_start(&self) -> Vec<u16> {
        let globals = self.header[8..8 + self.globals].iter().copied();
        globals.chain(std::iter::repeat_n(0, self.mutexes)).collect()
    }

    pub fn variables(&self) -> usize {
        2 * self.records.len() + self.switches * self.items()
    }

    /// The variable that has the value of an item at the end of a block.
    pub fn block_value(&self, block: usize, item: usize) -> usize {
        2 * self.records.len() + block * self.items() + item
    }

    /// The block number of a line that was not run: n + 1.
    pub fn unrun(&self) -> u16 {
        self.switches as u16 + 1
    }

    pub fn thread_of_block(&self, block: usize) -> usize {
        block % self.threads
    }

    /// The blocks of a thread.
    pub fn blocks_of(&self, thread: usize) -> Vec<usize> {
        (0..=self.switches).filter(|&block| self.thread_of_block(block) == thread).collect()
    }

    /// The input lines, by thread and then by chain.
    pub fn inputs(&self) -> Vec<u16> {
        let lines = self.chains.iter().flatten().copied();
        lines.filter(|&line| self.record(line).kind == Kind::Input).collect()
    }

    /// The lines at which a run can violate, by thread and then by chain: constraint 7 has a part for each.
    pub fn asserts_and_unlocks(&self) -> Vec<u16> {
        let lines = self.chains.iter().flatten().copied();
        lines.filter(|&line| self.record(line).can_violate()).collect()
    }

    /// The thread of a record, and its line there, from 1.
    pub fn position(&self, number: u16) -> Option<(usize, usize)> {
        self.chains.iter().enumerate().find_map(|(thread, chain)| {
            let line = chain.iter().position(|&record| record == number)?;
            Some((thread, line + 1))
        })
    }
}
