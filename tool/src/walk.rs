//! A walk through the run of a schedule, for display: which line runs in which block, and with which values. What the run comes
//! to is the library's word; `run` compares the two.

use crate::calls::Ending;
use crate::case::{Case, Kind, Record, CONSTANT};
use crate::fault::{whose, Fault};
use crate::names::Name;
use crate::words::named_value;

/// What came of a line.
#[derive(Clone, Debug, PartialEq, Eq)]
pub enum Event {
    /// The target got a value.
    Set(Name, u16),
    /// An assert or an assume holds.
    Holds(String),
    /// An assert is zero.
    Broken(String),
    /// The mutex is free now, and its thread did not hold it: what it found there.
    Stranger(Name, u16),
    /// The guard is false.
    Skipped(String),
    /// The run ends here.
    CutOff(String),
}

impl Event {
    /// What came of the line, in a word.
    pub fn word(&self) -> &'static str {
        match self {
            Event::Set(..) => "set",
            Event::Holds(_) => "holds",
            Event::Broken(_) => "broken",
            Event::Stranger(..) => "stranger",
            Event::Skipped(_) => "skipped",
            Event::CutOff(_) => "cut off",
        }
    }

    /// The values that show it.
    pub fn values(&self, case: &Case) -> String {
        match self {
            Event::Set(name, value) => named_value(case, *name, *value),
            Event::Stranger(mutex, found) => whose(case, *mutex, *found),
            Event::Holds(words) | Event::Broken(words) | Event::Skipped(words) | Event::CutOff(words) => words.clone(),
        }
    }

    /// Both, as a run shows them; what is wrong is in capitals.
    pub fn words(&self, case: &Case) -> String {
        let (word, values) = (self.word(), self.values(case));
        match self {
            Event::Set(..) => values,
            Event::Holds(_) | Event::Skipped(_) => format!("{word}: {values}"),
            Event::Broken(_) | Event::Stranger(..) | Event::CutOff(_) => format!("{}: {values}", word.to_uppercase()),
        }
    }
}

/// A line that ran.
#[derive(Clone, Debug)]
pub struct Step {
    pub block: usize,
    /// From 1, within the thread.
    pub line: usize,
    pub record: u16,
    pub event: Event,
    /// All items after the line.
    pub items: Vec<u16>,
}

/// A run as this walk sees it.
pub struct Walk {
    pub steps: Vec<Step>,
    pub ending: Ending,
    pub items: Vec<u16>,
}

/// Walks through a schedule that the library took.
pub fn walk(case: &Case, schedule: &[u16]) -> Walk {
    let mut machine = Machine::new(case, schedule[case.switches + 1..].to_vec());
    let mut steps: Vec<Step> = Vec::new();
    for (block, &length) in schedule[..=case.switches].iter().enumerate() {
        for _ in 0..length {
            let Some(step) = machine.step(block) else {
                break;
            };
            steps.push(step);
            if is_cut_off(&steps) {
                return Walk::of(case, steps);
            }
        }
    }
    Walk::of(case, steps)
}

/// Whether the run ends with the last of these lines.
pub fn is_cut_off(steps: &[Step]) -> bool {
    steps.last().is_some_and(|step| matches!(step.event, Event::CutOff(_)))
}

/// The first line of a run that violates.
pub fn first_fault(steps: &[Step]) -> Option<Fault> {
    steps.iter().find_map(|step| match step.event {
        Event::Broken(_) => Some(Fault { record: step.record, found: None }),
        Event::Stranger(_, found) => Some(Fault { record: step.record, found: Some(found) }),
        _ => None,
    })
}

impl Walk {
    /// The walk that made these steps, and no more.
    pub fn of(case: &Case, steps: Vec<Step>) -> Walk {
        let ending = match steps.last() {
            Some(last) if is_cut_off(&steps) => Ending::CutOff(last.record),
            _ => first_fault(&steps).map_or(Ending::Clean, Ending::Violated),
        };
        let items = steps.last().map_or_else(|| case.items_at_start(), |last| last.items.clone());
        Walk { steps, ending, items }
    }
}

/// Threads and items between two lines.
#[derive(Clone)]
pub struct Machine<'a> {
    case: &'a Case,
    /// A value for each input line, by thread and then by chain.
    pub inputs: Vec<u16>,
    /// How many lines each thread has run.
    lines: Vec<usize>,
    pub locals: Vec<[u16; 16]>,
    pub items: Vec<u16>,
}

impl<'a> Machine<'a> {
    pub fn new(case: &'a Case, inputs: Vec<u16>) -> Machine<'a> {
        let (lines, locals) = (vec![0; case.threads], vec![[0; 16]; case.threads]);
        Machine { case, inputs, lines, locals, items: case.items_at_start() }
    }

    /// The records that a thread has not run yet.
    pub fn left(&self, thread: usize) -> &'a [u16] {
        &self.case.chains[thread][self.lines[thread]..]
    }

    /// Whether a record of this thread would run now, and would not be skipped.
    pub fn guard_is_true(&self, record: &Record) -> bool {
        record.guard_local().is_none_or(|local| record.guard_is_true(self.local(record.thread, local)))
    }

    /// Runs the next line of the block's thread.
    pub fn step(&mut self, block: usize) -> Option<Step> {
        let thread = self.case.thread_of_block(block);
        let number = *self.left(thread).first()?;
        self.lines[thread] += 1;
        let record = *self.case.record(number);
        let event = match record.guard_local() {
            Some(local) if !self.guard_is_true(&record) => {
                let name = self.case.names.called(record.local(local));
                Event::Skipped(format!("{name} is {}", self.local(thread, local)))
            }
            _ => self.run(thread, &record),
        };
        Some(Step { block, line: self.lines[thread], record: number, event, items: self.items.clone() })
    }

    /// Runs a line whose guard is true.
    fn run(&mut self, thread: usize, record: &Record) -> Event {
        match record.kind {
            Kind::Compute | Kind::Store => self.set(thread, record, self.expression(thread, record)),
            Kind::Load => self.set(thread, record, self.items[usize::from(record.a)]),
            Kind::Input => self.set(thread, record, self.input(record.number)),
            Kind::Assert | Kind::Assume => self.demand(thread, record),
            Kind::Lock => match self.mutex(record) {
                0 => self.set(thread, record, record.holder()),
                holder => {
                    let name = self.case.names.called(Name::Mutex(record.target));
                    Event::CutOff(format!("thread {} holds {name}", holder - 1))
                }
            },
            Kind::Unlock => {
                let found = self.mutex(record);
                let set = self.set(thread, record, 0);
                if found == record.holder() {
                    set
                } else {
                    Event::Stranger(Name::Mutex(record.target), found)
                }
            }
            Kind::Unknown => Event::CutOff("of an unknown kind".to_string()),
        }
    }

    /// The mutex that is the target of a lock or unlock; of any other line 0.
    pub fn mutex(&self, record: &Record) -> u16 {
        match record.kind {
            Kind::Lock | Kind::Unlock => self.items[self.case.globals + usize::from(record.target)],
            _ => 0,
        }
    }

    fn demand(&self, thread: usize, record: &Record) -> Event {
        let (a, b) = self.operands(thread, record);
        let value = record.expression(a, b);
        let words = match (record.op, value) {
            (0, _) => format!("{} is {value}", record.expression_words(&self.case.names)),
            (5 | 6, 0) => format!("{} is false", record.expression_of(&a.to_string(), &b.to_string())),
            (5 | 6, _) => record.expression_of(&a.to_string(), &b.to_string()),
            _ => format!("{} is {value}", record.expression_of(&a.to_string(), &b.to_string())),
        };
        match (record.kind, value) {
            (Kind::Assert, 0) => Event::Broken(words),
            (_, 0) => Event::CutOff(words),
            _ => Event::Holds(words),
        }
    }

    fn set(&mut self, thread: usize, record: &Record, value: u16) -> Event {
        let name = record.target_name().unwrap_or(record.local(0));
        match name {
            Name::Local(_, local) => self.locals[thread][usize::from(local)] = value,
            Name::Global(global) => self.items[usize::from(global)] = value,
            Name::Mutex(mutex) => self.items[self.case.globals + usize::from(mutex)] = value,
        }
        Event::Set(name, value)
    }

    fn expression(&self, thread: usize, record: &Record) -> u16 {
        let (a, b) = self.operands(thread, record);
        record.expression(a, b)
    }

    fn operands(&self, thread: usize, record: &Record) -> (u16, u16) {
        let operand = |operand: u16| match operand {
            CONSTANT => record.c,
            local => self.local(thread, local),
        };
        (operand(record.a), operand(record.b))
    }

    fn local(&self, thread: usize, local: u16) -> u16 {
        self.locals[thread][usize::from(local)]
    }

    /// The schedule's value for an input line.
    fn input(&self, record: u16) -> u16 {
        let place = self.case.inputs().iter().position(|&input| input == record);
        place.and_then(|place| self.inputs.get(place)).copied().unwrap_or_default()
    }
}
