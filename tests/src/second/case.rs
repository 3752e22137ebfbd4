//! A case that was read: its fields, and what follows from them.

use super::wrong::Wrong;

/// "Record: next, kind, guard, target, op, a, b, c."
#[derive(Clone, Copy, Debug)]
pub struct Record {
    pub next: u16,
    pub kind: u16,
    pub guard: u16,
    pub target: u16,
    pub op: u16,
    pub a: u16,
    pub b: u16,
    pub c: u16,
}

pub const COMPUTE: u16 = 1;
pub const STORE: u16 = 2;
pub const LOAD: u16 = 3;
pub const INPUT: u16 = 4;
pub const ASSERT: u16 = 5;
pub const ASSUME: u16 = 6;
pub const LOCK: u16 = 7;
pub const UNLOCK: u16 = 8;

/// "A name is a local, a global or a mutex".
#[derive(Clone, Copy, PartialEq, Eq)]
pub enum Name {
    Local(u16),
    Global(u16),
    Mutex(u16),
}

impl Record {
    /// The name that the line has as target; "assert and assume have no
    /// target".
    pub fn target_name(&self) -> Option<Name> {
        match self.kind {
            COMPUTE | LOAD | INPUT => Some(Name::Local(self.target)),
            STORE => Some(Name::Global(self.target)),
            LOCK | UNLOCK => Some(Name::Mutex(self.target)),
            _ => None,
        }
    }

    /// The local that the guard looks at, if there is a guard: "1 to 16 means
    /// local (guard − 1) is not zero; 17 to 32 means local (guard − 17) is
    /// zero".
    pub fn guard_local(&self) -> Option<u16> {
        match self.guard {
            0 => None,
            1..=16 => Some(self.guard - 1),
            _ => Some(self.guard - 17),
        }
    }

    /// Whether the guard is true when its local has the given value.
    pub fn guard_is_true(&self, local: u16) -> bool {
        match self.guard {
            0 => true,
            1..=16 => local != 0,
            _ => local == 0,
        }
    }

    pub fn has_expression(&self) -> bool {
        matches!(self.kind, COMPUTE | STORE | ASSERT | ASSUME)
    }

    /// "Ops: 0 gives a (then b is 0); 1 sum and 2 difference, both taken
    /// modulo 65,536; 3 bitwise and; 4 bitwise or; 5 equal; 6 less
    /// (unsigned). Ops 5 and 6 give 1 or 0."
    pub fn expression(&self, a: u16, b: u16) -> u16 {
        match self.op {
            0 => a,
            1 => a.wrapping_add(b),
            2 => a.wrapping_sub(b),
            3 => a & b,
            4 => a | b,
            5 => u16::from(a == b),
            _ => u16::from(a < b),
        }
    }
}

/// An accepted case (while it is being read, one that is on its way there).
pub struct Case {
    /// T
    pub threads: usize,
    /// n
    pub switches: usize,
    /// G
    pub globals: usize,
    /// M
    pub mutexes: usize,
    /// "the first record of threads 0 to 3 (0: no lines)"
    pub firsts: [u16; 4],
    /// "the initial values of globals 0 to 7"
    pub initial: [u16; 8],
    /// Record k stands at k − 1.
    pub records: Vec<Record>,
    /// For each thread its record numbers in chain order.
    pub chains: Vec<Vec<u16>>,
    pub wrong: Wrong,
}

impl Case {
    pub fn record(&self, number: u16) -> &Record {
        &self.records[usize::from(number) - 1]
    }

    /// Globals and mutexes together.
    pub fn items(&self) -> usize {
        self.globals + self.mutexes
    }

    /// "Record k has variable 2(k − 1) [...] and 2(k − 1) + 1 [...]. After
    /// these 2R come block values".
    pub fn variables(&self) -> usize {
        2 * self.records.len() + self.switches * self.items()
    }

    /// "n + 1 block lengths, then one value for each input line".
    pub fn schedule_numbers(&self) -> usize {
        self.switches + 1 + self.inputs().len()
    }

    /// The input lines "by thread and then by chain".
    pub fn inputs(&self) -> Vec<u16> {
        let lines = self.chains.iter().flatten().copied();
        lines.filter(|&line| self.record(line).kind == INPUT).collect()
    }

    /// "Block i (0 to n) belongs to thread i modulo T".
    pub fn thread_of_block(&self, block: usize) -> usize {
        let skipped = self.wrong == Wrong::EmptyThreadPassedOver && self.chains[0].is_empty();
        (block + usize::from(skipped)) % self.threads
    }

    /// The thread that has the line in its chain.
    pub fn thread_of_line(&self, line: u16) -> usize {
        let thread = self.chains.iter().position(|chain| chain.contains(&line));
        thread.expect("each line is in a chain")
    }

    /// "A lock by thread t now puts t + 1 in the mutex".
    pub fn holder(&self, thread: usize) -> u16 {
        match self.wrong {
            Wrong::HolderIsThread => thread as u16,
            _ => thread as u16 + 1,
        }
    }

    /// Whether an unlock by the thread is no violation: the mutex reads t + 1.
    pub fn is_holder(&self, thread: usize, mutex: u16) -> bool {
        let free_is_own = self.wrong == Wrong::FreeIsOwn && mutex == 0;
        mutex == self.holder(thread) || free_is_own
    }

    /// What an unlock leaves in a mutex; one by a stranger "still frees the mutex".
    pub fn unlocked(&self, thread: usize, mutex: u16) -> u16 {
        match self.wrong {
            Wrong::StrangerFreesNot if !self.is_holder(thread, mutex) => mutex,
            _ => 0,
        }
    }

    /// "Load, store, lock and unlock are visible."
    pub fn is_visible(&self, line: u16) -> bool {
        let kind = self.record(line).kind;
        let mistaken = self.wrong == Wrong::SeenOtherwise(kind);
        matches!(kind, LOAD | STORE | LOCK | UNLOCK) != mistaken
    }

    /// "A line with block number n + 1 was not run".
    pub fn unrun_block(&self) -> u16 {
        self.switches as u16 + 1
    }

    /// The value of a line that was not run: "the value is 0, or 1 for assert
    /// and assume".
    pub fn unrun_value(&self, record: &Record) -> u16 {
        match record.kind {
            ASSERT if self.wrong == Wrong::UnrunAssertBroken => 0,
            ASSERT | ASSUME => 1,
            _ => 0,
        }
    }

    /// Items are numbered "globals first, then mutexes".
    pub fn item_name(&self, item: usize) -> Name {
        if item < self.globals {
            Name::Global(item as u16)
        } else {
            Name::Mutex((item - self.globals) as u16)
        }
    }

    pub fn item_number(&self, name: Name) -> Option<usize> {
        match name {
            Name::Local(_) => None,
            Name::Global(global) => Some(usize::from(global)),
            Name::Mutex(mutex) => Some(self.globals + usize::from(mutex)),
        }
    }

    /// "A mutex starts at 0."
    pub fn initial_value(&self, item: usize) -> u16 {
        if item < self.globals {
            self.initial[item]
        } else {
            0
        }
    }
}
