//! `menduvo step`: a run by hand. The user picks the thread of each next line, sees the line and the values, can go back, and
//! gets the schedule at the end, replayed by the library.

use crate::by_hand::ByHand;
use crate::calls::Loaded;
use crate::case::{Kind, Record};
use crate::failure::{Failure, Status};
use crate::filed;
use crate::help;
use crate::input::Source;
use crate::keep;
use crate::name::shown;
use crate::numbers::decimal;
use crate::orders::{Order, Orders};
use crate::output::Output;
use crate::run::{self, Run};
use crate::values;
use crate::walk::{first_fault, is_cut_off};
use crate::words::{count, items_in_words, numbers_in_lines, record_in_words};
use std::ffi::OsString;

pub struct Stepping {
    pub case: Source,
    /// Where the schedule goes, besides being printed.
    pub file: Option<OsString>,
    /// Whether a file that is there is replaced.
    pub force: bool,
}

pub fn step(stepping: &Stepping, output: &mut Output) -> Result<Status, Failure> {
    let loaded = Loaded::from(&stepping.case)?;
    let file = stepping.file.as_deref();
    // What is in the way is told before the work, and not after it.
    file.map_or(Ok(()), |file| keep::may_write(file, stepping.force, &[&stepping.case]))?;
    let mut talk =
        Talk { loaded: &loaded, run: ByHand::new(&loaded.case), earlier: Vec::new(), orders: Orders::standard(), output };
    talk.begin()?;
    while talk.goes_on()? {}
    talk.end(stepping)
}

/// Why a command goes no further.
enum Stop {
    /// It cannot be done.
    Wrong(String),
    /// It is the last one, or the input ends.
    Ended,
    Failed(Failure),
}

impl From<String> for Stop {
    fn from(problem: String) -> Stop {
        Stop::Wrong(problem)
    }
}

impl From<Failure> for Stop {
    fn from(failure: Failure) -> Stop {
        Stop::Failed(failure)
    }
}

struct Talk<'a> {
    loaded: &'a Loaded,
    run: ByHand<'a>,
    /// Each command that changed the run, with the run before it.
    earlier: Vec<(String, ByHand<'a>)>,
    orders: Orders,
    output: &'a mut Output,
}

impl Talk<'_> {
    fn begin(&mut self) -> Result<(), Failure> {
        let case = &self.loaded.case;
        self.output.say(&format!(
            "{}: {}, {} at most; 'help' lists the commands\nstart: {}\n",
            self.loaded.name,
            count(case.threads, "thread", "threads"),
            count(case.switches, "switch", "switches"),
            items_in_words(case, &case.items_at_start()),
        ))?;
        self.say_where()
    }

    /// Does the next command; false where there is none, or it was the last.
    fn goes_on(&mut self) -> Result<bool, Failure> {
        let Some(text) = self.orders.next(self.output)? else {
            return Ok(false);
        };
        match self.obey(&text) {
            Ok(()) => Ok(true),
            Err(Stop::Wrong(problem)) => self.orders.refuse(&problem, self.output).map(|()| true),
            Err(Stop::Ended) => Ok(false),
            Err(Stop::Failed(failure)) => Err(failure),
        }
    }

    fn obey(&mut self, text: &str) -> Result<(), Stop> {
        match Order::of(text)? {
            Order::Line(thread) => self.change(text, |talk| talk.line(thread)),
            Order::Rest(thread) => self.change(text, |talk| talk.rest(thread)),
            Order::Switch => self.change(text, |talk| Ok(talk.run.switch().map(|()| true)?)),
            Order::Undo => self.undo(),
            Order::Values => Ok(self.output.say(&self.all_values())?),
            Order::Schedule => Ok(self.output.say(&self.schedule()?)?),
            Order::Help => Ok(self.output.say(help::named("step").map_or("", |page| page.more))?),
            Order::Quit => Err(Stop::Ended),
        }
    }

    /// Does a command that changes the run, and keeps the run before it. The command says whether it was done, or taken back.
    fn change(&mut self, text: &str, how: impl FnOnce(&mut Self) -> Result<bool, Stop>) -> Result<(), Stop> {
        let before = self.run.clone();
        match how(self)? {
            true => self.earlier.push((text.to_string(), before)),
            false => self.run = before,
        }
        Ok(self.say_where()?)
    }

    /// Runs the thread's next line, and shows it with the values after it; false where the user takes it back.
    fn line(&mut self, thread: usize) -> Result<bool, Stop> {
        let (record, block) = self.run.next(thread)?;
        let value = if self.run.takes_value(record) { self.value(record.number)? } else { Some(0) };
        let Some(value) = value else {
            return Ok(false);
        };
        let before = self.run.machine.clone();
        let step = self.run.run(thread, value)?;
        let case = &self.loaded.case;
        let head = match self.run.lengths[block] {
            1 => format!("block {block}: thread {thread}\n"),
            _ => String::new(),
        };
        let items = values::items(case, &before.items, &step.items);
        let locals = values::locals(case, thread, &before.locals[thread], &self.run.machine.locals[thread]);
        let (items, locals) = (values::lines(3, "items", &items), values::lines(3, &locals_of(thread), &locals));
        self.output.say(&(head + &run::line(case, &step, 0) + &items + &locals))?;
        Ok(true)
    }

    /// Runs all lines that the thread has left, as far as the run goes.
    fn rest(&mut self, thread: usize) -> Result<bool, Stop> {
        let mut done = self.line(thread)?;
        while done && !is_cut_off(&self.run.steps) && !self.run.machine.left(thread).is_empty() {
            done = self.line(thread)?;
        }
        Ok(done)
    }

    /// Asks for the value of an input line; nothing where the user takes the command back.
    fn value(&mut self, record: u16) -> Result<Option<u16>, Stop> {
        let record = record_in_words(&self.loaded.case, record);
        self.output.say(&format!("{record} takes a value, 0 to 65535; 'undo' takes the command back\n"))?;
        loop {
            let Some(text) = self.orders.next(self.output)? else {
                return Err(Stop::Ended);
            };
            match (text.as_str(), decimal(&text)) {
                ("undo", _) => return Ok(None),
                ("quit", _) => return Err(Stop::Ended),
                (_, Ok(value)) => return Ok(Some(value)),
                (_, Err(problem)) => self.orders.refuse(&problem, self.output)?,
            }
        }
    }

    fn undo(&mut self) -> Result<(), Stop> {
        let Some((text, before)) = self.earlier.pop() else {
            return Err(Stop::Wrong("there is nothing to undo: this is the start".to_string()));
        };
        self.run = before;
        let items = items_in_words(&self.loaded.case, &self.run.machine.items);
        self.output.say(&format!("'{text}' is taken back\n   items: {items}\n"))?;
        Ok(self.say_where()?)
    }

    /// All items, and the locals of every thread.
    fn all_values(&self) -> String {
        let (case, machine) = (&self.loaded.case, &self.run.machine);
        let locals = (0..case.threads).map(|thread| {
            let locals = &machine.locals[thread];
            values::lines(3, &locals_of(thread), &values::locals(case, thread, locals, locals))
        });
        values::lines(3, "items", &values::items(case, &machine.items, &machine.items)) + &locals.collect::<String>()
    }

    /// Says where the run stands: each thread's next line, or what the run comes to.
    fn say_where(&mut self) -> Result<(), Failure> {
        let text = match self.run.is_over() {
            true => {
                let conclusion = self.conclusion()?;
                format!("{conclusion}'undo' goes back, 'quit' gives the schedule\n")
            }
            false => self.next_lines(),
        };
        self.output.say(&text)
    }

    fn next_lines(&self) -> String {
        let (case, block) = (&self.loaded.case, self.run.block);
        let next = (0..case.threads).map(|thread| self.run.machine.left(thread).first().map(|&number| case.record(number)));
        let next: Vec<Option<&Record>> = next.collect();
        let width = next.iter().flatten().map(|record| record.words(&case.names).chars().count()).max().unwrap_or(0);
        let mut text = format!(
            "now in block {block}, thread {}'s: {} used, {} left\n",
            case.thread_of_block(block),
            count(block, "switch", "switches"),
            case.switches - block
        );
        for (thread, record) in next.into_iter().enumerate() {
            let line = record.map_or("done".to_string(), |record| {
                let line = case.chains[thread].len() - self.run.machine.left(thread).len() + 1;
                let words = record.words(&case.names);
                format!("line {line:>2}  record {:>3}  {words:width$}  {}", record.number, self.notes(thread, record))
            });
            text.push_str(format!("   thread {thread}  {line}").trim_end());
            text.push('\n');
        }
        if let Some(fault) = first_fault(&self.run.steps) {
            text.push_str(&format!("record {} {}: a run that stops here violates\n", fault.record, fault.predicate()));
        }
        text
    }

    /// What is to be known of a thread's next line before it is picked.
    fn notes(&self, thread: usize, record: &Record) -> String {
        let guard = record.guard_local().map(|_| format!("guard {}", self.run.machine.guard_is_true(record)));
        let mutex = self.run.machine.guard_is_true(record).then(|| self.mutex(record)).flatten();
        let turn = match self.run.turn(thread) {
            None => Some("no block left, so it is not run".to_string()),
            Some(block) if block == self.run.block => None,
            Some(block) => Some(format!("in block {block}, after {}", count(block - self.run.block, "switch", "switches"))),
        };
        [guard, mutex, turn].into_iter().flatten().collect::<Vec<_>>().join("; ")
    }

    /// Who holds the mutex that a line cannot lock, or unlocks as a stranger.
    fn mutex(&self, record: &Record) -> Option<String> {
        let value = self.run.machine.mutex(record);
        match (record.kind, value.checked_sub(1)) {
            (Kind::Lock, Some(holder)) => Some(format!("thread {holder} holds it")),
            (Kind::Unlock, Some(holder)) if value != record.holder() => Some(format!("thread {holder} holds it")),
            (Kind::Unlock, None) => Some("it is free".to_string()),
            _ => None,
        }
    }

    /// The library's word on the run so far.
    fn replayed(&self) -> Result<Run, Failure> {
        run::confirmed(self.loaded, "the schedule", &self.run.schedule(), || self.run.walk())
    }

    /// What it comes to, in lines.
    fn conclusion(&self) -> Result<String, Failure> {
        Ok(self.replayed()?.conclusion(&self.loaded.case, &self.run.schedule()))
    }

    /// The schedule, and what it comes to.
    fn schedule(&self) -> Result<String, Failure> {
        Ok(format!("schedule:\n{}{}", numbers_in_lines(&self.run.schedule()), self.conclusion()?))
    }

    /// Prints the schedule, and writes it to the file.
    fn end(&mut self, stepping: &Stepping) -> Result<Status, Failure> {
        let text = self.schedule()?;
        let text_of_file = filed::schedule(self.loaded, &self.run.schedule());
        let file = stepping.file.as_deref();
        let written = file
            .map(|file| keep::write_output(file, text_of_file.as_bytes(), stepping.force, &[&stepping.case]).map(|()| file));
        // A schedule that could not be written is printed all the same.
        self.output.say(&text)?;
        if let Some(file) = written.transpose()? {
            self.output.say(&format!("the schedule is in {}\n", shown(file)))?;
        }
        Ok(self.replayed()?.status())
    }
}

fn locals_of(thread: usize) -> String {
    format!("locals of thread {thread}")
}
