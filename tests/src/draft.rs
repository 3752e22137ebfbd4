//! A case as the tests make it, before it is turned into bytes. A draft can
//! be damaged: nothing here demands that it would be accepted.

use std::fmt::{self, Display, Formatter};

use crate::line::{Line, INPUT};

#[derive(Clone)]
pub struct Draft {
    /// T, n, G and M; larger than allowed in damaged drafts.
    pub threads: u16,
    pub switches: u16,
    pub globals: u16,
    pub mutexes: u16,
    pub firsts: [u16; 4],
    pub initial: [u16; 8],
    /// Record k stands at k − 1.
    pub records: Vec<Line>,
}

impl Draft {
    /// A case without lines.
    pub fn new(threads: u16, switches: u16) -> Draft {
        Draft { threads, switches, globals: 0, mutexes: 0, firsts: [0; 4], initial: [0; 8], records: Vec::new() }
    }

    pub fn with_globals(mut self, initial: &[u16]) -> Draft {
        self.globals = initial.len() as u16;
        self.initial[..initial.len()].copy_from_slice(initial);
        self
    }

    pub fn with_mutexes(mut self, mutexes: u16) -> Draft {
        self.mutexes = mutexes;
        self
    }

    /// Gives a thread its lines; they get the next free record numbers.
    pub fn with_thread(mut self, thread: usize, lines: &[Line]) -> Draft {
        if !lines.is_empty() {
            self.firsts[thread] = self.records.len() as u16 + 1;
        }
        for (position, line) in lines.iter().enumerate() {
            let is_last = position + 1 == lines.len();
            let next = if is_last { 0 } else { self.records.len() as u16 + 2 };
            self.records.push(Line { next, ..*line });
        }
        self
    }

    /// The same case with other record numbers: record k becomes
    /// `numbers[k − 1]`.
    pub fn renumbered(&self, numbers: &[u16]) -> Draft {
        let renumber = |link: u16| match link {
            0 => 0,
            link => numbers[usize::from(link) - 1],
        };
        let mut other = self.clone();
        other.firsts = self.firsts.map(renumber);
        for (old, line) in self.records.iter().enumerate() {
            let place = usize::from(numbers[old]) - 1;
            other.records[place] = Line { next: renumber(line.next), ..*line };
        }
        other
    }

    /// The case file.
    pub fn bytes(&self) -> Vec<u8> {
        let mut fields = vec![self.threads, self.switches, self.globals, self.mutexes];
        fields.extend(self.firsts);
        fields.extend(self.initial);
        fields.extend(self.records.iter().flat_map(Line::fields));
        fields.into_iter().flat_map(u16::to_le_bytes).collect()
    }

    /// Record k.
    pub fn line(&self, number: u16) -> &Line {
        &self.records[usize::from(number) - 1]
    }

    /// A thread's record numbers in chain order.
    pub fn chain(&self, thread: usize) -> Vec<u16> {
        let mut chain = Vec::new();
        let mut number = self.firsts[thread];
        while number != 0 {
            chain.push(number);
            number = self.line(number).next;
        }
        chain
    }

    /// All chains, by thread.
    pub fn chains(&self) -> Vec<Vec<u16>> {
        (0..usize::from(self.threads)).map(|thread| self.chain(thread)).collect()
    }

    /// The thread that has a line in its chain.
    pub fn thread_of(&self, number: u16) -> usize {
        self.chains().iter().position(|chain| chain.contains(&number)).expect("the line is in a chain")
    }

    /// Input lines by thread and then by chain.
    pub fn inputs(&self) -> Vec<u16> {
        let lines = self.chains().into_iter().flatten();
        lines.filter(|&number| self.line(number).kind == INPUT).collect()
    }

    pub fn items(&self) -> usize {
        usize::from(self.globals + self.mutexes)
    }

    pub fn blocks(&self) -> usize {
        usize::from(self.switches) + 1
    }

    /// The block number of a line that was not run.
    pub fn unrun_block(&self) -> u16 {
        self.switches + 1
    }

    pub fn variables(&self) -> usize {
        2 * self.records.len() + usize::from(self.switches) * self.items()
    }

    pub fn schedule_numbers(&self) -> usize {
        self.blocks() + self.inputs().len()
    }

    /// How many constraints there are: a 3, a 1 or 2 and a 4 for each line, a
    /// 5 for each assume and lock, an 8 for each invisible line but a thread's
    /// first, the 6s, and the 7.
    pub fn constraints(&self) -> usize {
        let demands = self.records.iter().filter(|line| matches!(line.kind, 6 | 7)).count();
        let later_lines = self.chains().into_iter().flat_map(|chain| chain.into_iter().skip(1));
        let staying = later_lines.filter(|&number| !self.line(number).is_visible()).count();
        3 * self.records.len() + demands + staying + usize::from(self.switches) * self.items() + 1
    }

    /// The values of all items when a run begins.
    pub fn items_at_start(&self) -> Vec<u16> {
        let mut items = self.initial[..usize::from(self.globals)].to_vec();
        items.resize(self.items(), 0);
        items
    }
}

/// As document 01 writes a case down: the header, then the records.
impl Display for Draft {
    fn fmt(&self, out: &mut Formatter) -> fmt::Result {
        let Draft { threads, switches, globals, mutexes, firsts, initial, records } = self;
        write!(out, "T {threads}, n {switches}, G {globals}, M {mutexes}, ")?;
        write!(out, "first records {firsts:?}, initial values {initial:?}, records")?;
        records.iter().try_for_each(|line| write!(out, " {:?}", line.fields()))
    }
}
