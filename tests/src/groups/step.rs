//! Random schedules, typed line by line into `menduvo step`: the same schedule
//! comes back, with what the second implementation says of its run.

use std::fs;

use super::answers::{program, Folder};
use crate::ask::replay;
use crate::calls::{Calls, Replayed};
use crate::draft::Draft;
use crate::enumerate::{lines_run, runs_all_lines};
use crate::generate::{accepted, Shape, ANY, BUSY_WITH_INPUTS, FOUR_THREADS, HOLDERS_WITH_INPUTS, LONG, MANY_HOLDERS};
use crate::line::INPUT;
use crate::program;
use crate::random::Random;
use crate::report::{Outcome, Report, Tally};
use crate::second;
use crate::table::table_of;
use crate::vary::schedule;
use crate::watch::written_down;

pub fn run(_: &dyn Calls, report: &mut Report) {
    report.check("inputs", |tally| {
        compare(BUSY_WITH_INPUTS, 160, tally)?;
        let all = ["violated", "clean", "cut off", "asked", "skipped", "left", "all lines", "lines left"];
        all.iter().try_for_each(|what| tally.saw_often(what, 5))
    });
    report.check("four threads", |tally| compare(FOUR_THREADS, 60, tally));
    report.check("long threads", |tally| compare(LONG, 40, tally));
    report.check("holders", |tally| {
        compare(HOLDERS_WITH_INPUTS, 60, tally)?;
        compare(MANY_HOLDERS, 40, tally)?;
        ["violated", "clean", "cut off"].iter().try_for_each(|what| tally.saw_often(what, 5))
    });
    report.check("any case", |tally| {
        compare(ANY, 40, tally)?;
        ["switch", "rest", "undo"].iter().try_for_each(|what| tally.saw_often(what, 5))
    });
}

fn compare(shape: Shape, cases: u64, tally: &mut Tally) -> Outcome {
    let program = program()?;
    let folder = Folder::new("step");
    fs::create_dir_all(&folder.0).map_err(|error| error.to_string())?;
    let file = folder.0.join("one.case");
    let name = file.to_str().ok_or("the folder's name is no text")?;
    for seed in 80_000_000..80_000_000 + cases {
        let mut random = Random::from_seed(seed);
        let draft = accepted(&mut random, shape);
        let schedule = schedule(&mut random, &draft);
        fs::write(&file, draft.bytes()).map_err(|error| error.to_string())?;
        let way = Way::of(&draft, schedule, tally)?;
        let typed = way.typed(&mut random, tally);
        let printed = program::run(&program, &["step", name], typed.as_bytes())?;
        way.comes_back(&printed, tally).map_err(|message| format!("seed {seed}: {message}; case {draft}; typed {typed:?}"))?;
    }
    Ok(())
}

/// A schedule, and what it comes to.
struct Way<'a> {
    draft: &'a Draft,
    schedule: Vec<u16>,
    /// The input lines that are run and whose guard is true.
    asked: Vec<u16>,
    reply: Replayed,
    items: Vec<u16>,
}

impl<'a> Way<'a> {
    /// An input line with a false guard, or one that is not run, has value 0,
    /// whatever it had.
    fn of(draft: &'a Draft, mut schedule: Vec<u16>, tally: &mut Tally) -> Result<Way<'a>, String> {
        let table = table_of(&second::RIGHT, &draft.bytes())?;
        let assignment = written_down(draft, &schedule);
        let lines_run = lines_run(draft, &schedule);
        tally.saw(if runs_all_lines(draft, &schedule) { "all lines" } else { "lines left" });
        let mut asked = Vec::new();
        for (place, record) in draft.inputs().into_iter().enumerate() {
            let copy = usize::from(table.value_row(record)?[2]);
            let local = if copy == 0 { 0 } else { assignment[2 * copy - 1] };
            if !lines_run.contains(&record) {
                tally.saw("left");
                schedule[draft.blocks() + place] = 0;
            } else if draft.line(record).guard_is_true(local) {
                tally.saw("asked");
                asked.push(record);
            } else {
                tally.saw("skipped");
                schedule[draft.blocks() + place] = 0;
            }
        }
        let (reply, items) = replay(&second::RIGHT, draft, &schedule);
        Ok(Way { draft, schedule, asked, reply, items })
    }

    /// What is to be typed: as few switches as lead to the block of each line,
    /// the rest of a thread now and then at once, and at times a command that
    /// is taken back and given again.
    fn typed(&self, random: &mut Random, tally: &mut Tally) -> String {
        let mut left = self.draft.chains();
        let (mut typed, mut open) = (String::new(), 0);
        for (block, &length) in self.schedule[..self.draft.blocks()].iter().enumerate() {
            let thread = block % usize::from(self.draft.threads);
            let mut lines = usize::from(length);
            while lines > 0 {
                while (open..).find(|block| block % usize::from(self.draft.threads) == thread) != Some(block) {
                    tally.saw("switch");
                    typed += "switch\n";
                    open += 1;
                }
                open = block;
                let (word, taken) = match lines == left[thread].len() && random.chance(40) {
                    true => ("rest ", lines),
                    false => ("", 1),
                };
                tally.saw(if word.is_empty() { "line" } else { "rest" });
                let records: Vec<u16> = left[thread].drain(..taken).collect();
                lines -= taken;
                let (values, is_cut_off) = self.values(&records);
                let command = format!("{word}{thread}\n{values}");
                if random.chance(20) {
                    tally.saw("undo");
                    typed += &format!("{command}undo\n");
                }
                typed += &command;
                if is_cut_off {
                    return typed + "values\n";
                }
            }
        }
        typed + "values\n"
    }

    /// The values that these lines ask for, and whether the run is cut off at
    /// one of them.
    fn values(&self, records: &[u16]) -> (String, bool) {
        let mut values = String::new();
        for &record in records {
            if self.reply == Replayed::CutOff(record) {
                return (values, true);
            }
            if self.draft.line(record).kind == INPUT && self.asked.contains(&record) {
                let place = self.draft.inputs().iter().position(|&input| input == record).expect("it is an input line");
                values += &format!("{}\n", self.schedule[self.draft.blocks() + place]);
            }
        }
        (values, false)
    }

    /// The schedule, the verdict and the items are printed. Of a run that is
    /// cut off the lines that never run may stand in other blocks.
    fn comes_back(&self, printed: &str, tally: &mut Tally) -> Outcome {
        let (talk, end) = printed.rsplit_once("\nschedule:\n").ok_or_else(|| format!("no schedule in {printed:?}"))?;
        let numbers: Vec<u16> = end.split_whitespace().map_while(|word| word.parse().ok()).collect();
        let verdict = match self.reply {
            Replayed::Violated(record) => format!("violated: record {record} ("),
            Replayed::Clean => "clean: ".to_string(),
            Replayed::CutOff(record) => format!("cut off: record {record} ("),
            Replayed::Refused { .. } => return Err(format!("{:?}: {:?}", self.schedule, self.reply)),
        };
        tally.saw(verdict.split(':').next().unwrap_or_default());
        tally.holds(end.contains(&verdict), || format!("it is {:?}, but {end:?}", self.reply))?;
        if let Replayed::CutOff(_) = self.reply {
            let again = replay(&second::RIGHT, self.draft, &numbers);
            tally.same(again, (self.reply, self.items.clone()), || format!("{numbers:?} for {:?}", self.schedule))?;
        } else {
            tally.same_numbers(&numbers, &self.schedule, || format!("{numbers:?} for {:?}", self.schedule))?;
        }
        let values = talk.rsplit_once("> values\n").map_or("", |(_, values)| values);
        let values: Vec<&str> = values.split_whitespace().collect();
        tally.holds(values.join(" ").starts_with(&self.items_in_words()), || {
            format!("the items are {:?}: {values:?}", self.items)
        })
    }

    fn items_in_words(&self) -> String {
        let globals = usize::from(self.draft.globals);
        let words = self.items.iter().enumerate().map(|(item, &value)| match (item < globals, value) {
            (true, _) => format!("G{item} = {value}"),
            (false, 0) => format!("M{} = 0 (free)", item - globals),
            (false, _) => format!("M{} = {value} (held by thread {})", item - globals, value - 1),
        });
        let words: Vec<String> = words.collect();
        match words.is_empty() {
            true => "items: none locals".to_string(),
            false => format!("items: {} locals", words.join(", ")),
        }
    }
}
