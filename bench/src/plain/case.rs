//! A case: its header, its records where they lie, and checks 1 to 9.

use super::record::{Record, ASSUME, INPUT, LOCK};

pub struct Refusal {
    pub number: u16,
    pub place: u16,
}

/// The refusal with this number and no place, if the condition holds.
pub fn refuse_if(condition: bool, number: u16) -> Result<(), Refusal> {
    if condition {
        return Err(Refusal { number, place: 0 });
    }
    Ok(())
}

/// What a mutex has that a thread holds.
pub fn holder(thread: usize) -> u16 {
    thread as u16 + 1
}

pub struct Case<'a> {
    pub threads: usize,
    pub switches: usize,
    pub globals: usize,
    pub mutexes: usize,
    pub initial: [u16; 8],
    firsts: [u16; 4],
    records: &'a [[u8; 16]],
    /// How many lines each thread has, and how many of them are inputs.
    pub lines: [usize; 4],
    pub inputs: [usize; 4],
    /// How many lines have a 5, and how many have an 8.
    demands: usize,
    stays: usize,
}

impl<'a> Case<'a> {
    /// Checks 1 to 9.
    pub fn accept(bytes: &'a [u8]) -> Result<Case<'a>, Refusal> {
        let mut case = Case::split(bytes).ok_or(Refusal { number: 1, place: 0 })?;
        refuse_if(!(2..=4).contains(&case.threads), 2)?;
        refuse_if(case.switches > 15, 3)?;
        refuse_if(case.globals > 8 || case.mutexes > 4, 4)?;
        let absent = case.firsts[case.threads..].iter().chain(&case.initial[case.globals..]);
        refuse_if(absent.into_iter().any(|&field| field != 0), 5)?;
        refuse_if(!case.links_are_in_range() || !case.follow_chains(), 6)?;
        refuse_if(case.lines.iter().sum::<usize>() < case.records.len(), 7)?;
        refuse_if(case.lines.iter().any(|&lines| lines > 64), 8)?;
        match case.lowest_broken_record() {
            0 => Ok(case),
            place => Err(Refusal { number: 9, place }),
        }
    }

    /// The fields of a file that passes check 1.
    fn split(bytes: &'a [u8]) -> Option<Case<'a>> {
        let (header, rest) = bytes.split_first_chunk::<32>()?;
        let (records, []) = rest.as_chunks::<16>() else { return None };
        if records.len() > 256 {
            return None;
        }
        let field = |j: usize| u16::from_le_bytes([header[2 * j], header[2 * j + 1]]);
        Some(Case {
            threads: usize::from(field(0)),
            switches: usize::from(field(1)),
            globals: usize::from(field(2)),
            mutexes: usize::from(field(3)),
            firsts: std::array::from_fn(|thread| field(4 + thread)),
            initial: std::array::from_fn(|global| field(8 + global)),
            records,
            lines: [0; 4],
            inputs: [0; 4],
            demands: 0,
            stays: 0,
        })
    }

    fn links_are_in_range(&self) -> bool {
        let is_in_range = |link: u16| usize::from(link) <= self.records.len();
        self.firsts.iter().all(|&first| is_in_range(first))
            && self.records.iter().all(|bytes| is_in_range(Record::read(bytes).next))
    }

    /// Counts the lines of the threads; false if a record is reached twice.
    fn follow_chains(&mut self) -> bool {
        let mut reached = [false; 257];
        for thread in 0..self.threads {
            let mut line = self.firsts[thread];
            while line != 0 {
                if std::mem::replace(&mut reached[usize::from(line)], true) {
                    return false;
                }
                let record = self.record(line);
                self.lines[thread] += 1;
                self.inputs[thread] += usize::from(record.kind == INPUT);
                self.demands += usize::from(matches!(record.kind, ASSUME | LOCK));
                self.stays += usize::from(line != self.firsts[thread] && !record.is_visible());
                line = record.next;
            }
        }
        true
    }

    /// 0 if none is broken.
    fn lowest_broken_record(&self) -> u16 {
        let (globals, mutexes) = (self.globals as u16, self.mutexes as u16);
        let broken = self.records.iter().position(|bytes| !Record::read(bytes).keeps_the_rules(globals, mutexes));
        broken.map_or(0, |place| place as u16 + 1)
    }

    pub fn records(&self) -> usize {
        self.records.len()
    }

    pub fn record(&self, line: u16) -> Record {
        Record::read(&self.records[usize::from(line) - 1])
    }

    /// The lines of a thread in chain order, each with its record.
    pub fn chain(&self, thread: usize) -> impl Iterator<Item = (u16, Record)> + '_ {
        self.lines_from(self.firsts[thread])
    }

    /// A line and those that follow in its thread.
    pub fn lines_from(&self, mut line: u16) -> impl Iterator<Item = (u16, Record)> + '_ {
        std::iter::from_fn(move || {
            let this = line;
            if this == 0 {
                return None;
            }
            let record = self.record(this);
            line = record.next;
            Some((this, record))
        })
    }

    /// The first line of a thread; 0 if it has none.
    pub fn first(&self, thread: usize) -> u16 {
        self.firsts[thread]
    }

    pub fn items(&self) -> usize {
        self.globals + self.mutexes
    }

    /// The values of all items at the start.
    pub fn items_at_start(&self) -> [u16; 12] {
        let mut items = [0; 12];
        items[..self.globals].copy_from_slice(&self.initial[..self.globals]);
        items
    }

    pub fn constraints(&self) -> usize {
        3 * self.records.len() + self.demands + self.stays + self.switches * self.items() + 1
    }

    /// The block number of a line that was not run.
    pub fn unrun_block(&self) -> u16 {
        self.switches as u16 + 1
    }

    /// Whether a line with this block number was run.
    pub fn was_run(&self, block: u16) -> bool {
        block != self.unrun_block()
    }

    /// Where the block values begin in an assignment.
    pub fn first_block_value(&self) -> usize {
        2 * self.records.len()
    }

    pub fn variables(&self) -> usize {
        self.first_block_value() + self.switches * self.items()
    }

    pub fn schedule_numbers(&self) -> usize {
        self.switches + 1 + self.inputs.iter().sum::<usize>()
    }
}
