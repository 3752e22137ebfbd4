//! How many schedules the cases of a folder have, with and without the rule of
//! Five: all, those that keep it, and of both those that violate. It is printed
//! as a table. The inputs are held at the values of the schedule file beside the
//! case, or at 0, so that a schedule is its block lengths alone.
//!
//! Schedules are counted block by block: those that come to the same state are
//! one entry with their number. Where there are few, each is replayed besides,
//! and both must give the same numbers.

use std::collections::HashMap;
use std::fs;
use std::path::{Path, PathBuf};

use crate::ask::reply;
use crate::calls::{Calls, Replayed, Verdict};
use crate::draft::Draft;
use crate::enumerate::{block_lengths, lines_run};
use crate::line::{apply, holder, Line, ASSERT, ASSUME, COMPUTE, CONSTANT, INPUT, LOAD, LOCK, STORE, UNLOCK};
use crate::report::Outcome;

/// Cases with at most so many schedules are replayed schedule by schedule too.
const MOST_REPLAYED: u128 = 1_000_000;

/// The states of a block are too many to go on from here.
const MOST_STATES: usize = 2_000_000;

/// How many schedules there are, and how many of these violate, where that is
/// known.
#[derive(Clone, Copy, Debug, PartialEq, Eq)]
struct Counts {
    all: u128,
    violating: Option<u128>,
}

/// Whether every schedule is counted, or those that keep the rule.
#[derive(Clone, Copy, PartialEq, Eq)]
enum Which {
    All,
    Keeping,
}

/// Prints the table of a folder's cases.
pub fn print(calls: &dyn Calls, folder: &Path) -> Outcome {
    let files = fs::read_dir(folder).map_err(|error| format!("{}: {error}", folder.display()))?;
    let mut files: Vec<PathBuf> = files.filter_map(|file| Some(file.ok()?.path())).collect();
    files.retain(|file| file.extension().is_some_and(|end| end == "case"));
    files.sort();
    println!("| case | n | lines | inputs | schedules | keep the rule | violate | violate and keep it |");
    println!("|:--|--:|--:|:--|--:|--:|--:|--:|");
    for file in files {
        print_case(calls, &file).map_err(|why| format!("{}: {why}", file.display()))?;
    }
    Ok(())
}

fn print_case(calls: &dyn Calls, file: &Path) -> Outcome {
    let bytes = fs::read(file).map_err(|error| error.to_string())?;
    if calls.accept(&bytes) != Verdict::Accepted {
        return Err("the case is refused".to_string());
    }
    let draft = draft_of(&bytes);
    let inputs = inputs_of(&draft, &file.with_extension("schedule"));
    let [all, keeping] = [Which::All, Which::Keeping].map(|which| counted(&draft, &inputs, which));
    if all.all <= MOST_REPLAYED {
        let replayed = replayed(calls, &draft, &inputs)?;
        if replayed != [all, keeping] {
            return Err(format!("counted {:?}, and replayed {replayed:?}", [all, keeping]));
        }
    }
    let named: Vec<String> = inputs.iter().map(u16::to_string).collect();
    let inputs = if named.is_empty() { "none".to_string() } else { named.join(" ") };
    let violating = |counts: Counts| counts.violating.map_or("not counted".to_string(), with_commas);
    println!(
        "| `{}` | {} | {} | {inputs} | {} | {} | {} | {} |",
        file.file_stem().unwrap_or_default().to_string_lossy(),
        draft.switches,
        draft.records.len(),
        with_commas(all.all),
        with_commas(keeping.all),
        violating(all),
        violating(keeping),
    );
    Ok(())
}

/// The case of these bytes, which is accepted.
fn draft_of(bytes: &[u8]) -> Draft {
    let fields: Vec<u16> = bytes.chunks_exact(2).map(|pair| u16::from_le_bytes([pair[0], pair[1]])).collect();
    let record = |fields: &[u16]| Line::from(std::array::from_fn::<u16, 8, _>(|field| fields[field]));
    Draft {
        threads: fields[0],
        switches: fields[1],
        globals: fields[2],
        mutexes: fields[3],
        firsts: std::array::from_fn(|thread| fields[4 + thread]),
        initial: std::array::from_fn(|global| fields[8 + global]),
        records: fields[16..].chunks_exact(8).map(record).collect(),
    }
}

/// The values of a schedule file, one for each input; 0 where there is none.
fn inputs_of(draft: &Draft, file: &Path) -> Vec<u16> {
    let text = fs::read_to_string(file).unwrap_or_default();
    let lines = text.lines().map(|line| line.split('#').next().unwrap_or_default());
    let numbers = lines.flat_map(str::split_whitespace).filter_map(|word| word.parse().ok());
    let mut inputs: Vec<u16> = numbers.skip(draft.blocks()).collect();
    inputs.resize(draft.inputs().len(), 0);
    inputs
}

fn is_visible(line: &Line) -> bool {
    matches!(line.kind, LOAD | STORE | LOCK | UNLOCK)
}

/// Whether a block of a thread may begin after so many of its lines. The rule
/// looks at the first line of each block alone: the others have the block of the
/// line before them.
fn may_begin(draft: &Draft, chain: &[u16], lines: usize, which: Which) -> bool {
    which == Which::All || lines == 0 || is_visible(draft.line(chain[lines]))
}

/// What a run has come to between two blocks.
#[derive(Clone, PartialEq, Eq, Hash)]
struct State {
    /// How many lines each thread has run.
    lines: Vec<usize>,
    locals: Vec<[u16; 16]>,
    items: Vec<u16>,
    violates: bool,
}

fn counted(draft: &Draft, inputs: &[u16], which: Which) -> Counts {
    let chains = draft.chains();
    let threads = chains.iter().enumerate().map(|(thread, chain)| {
        let blocks = (0..draft.blocks()).filter(|block| block % chains.len() == thread).count();
        ways(draft, chain, blocks, 0, which)
    });
    Counts { all: threads.product(), violating: violating(draft, inputs, which) }
}

/// In how many ways a thread's lines from this one on, or some of them, go to so
/// many blocks.
fn ways(draft: &Draft, chain: &[u16], blocks: usize, lines: usize, which: Which) -> u128 {
    // From the last block back: the ways by how many lines were run before it.
    let mut ways = vec![1_u128; chain.len() + 1];
    for _ in 0..blocks {
        let before = |from: usize| {
            let some =
                if from < chain.len() && may_begin(draft, chain, from, which) { ways[from + 1..].iter().sum() } else { 0 };
            ways[from] + some
        };
        ways = (0..=chain.len()).map(before).collect();
    }
    ways[lines]
}

/// How many schedules violate; nothing where there are too many states.
fn violating(draft: &Draft, inputs: &[u16], which: Which) -> Option<u128> {
    let chains = draft.chains();
    let start = State {
        lines: vec![0; chains.len()],
        locals: vec![[0; 16]; chains.len()],
        items: draft.items_at_start(),
        violates: false,
    };
    let mut states = HashMap::from([(start, 1_u128)]);
    for block in 0..draft.blocks() {
        let thread = block % chains.len();
        let mut next: HashMap<State, u128> = HashMap::new();
        for (mut state, ways) in states {
            *next.entry(state.clone()).or_default() += ways;
            let lines = state.lines[thread];
            if lines == chains[thread].len() || !may_begin(draft, &chains[thread], lines, which) {
                continue;
            }
            for &number in &chains[thread][lines..] {
                if !step(draft, inputs, thread, number, &mut state) {
                    break;
                }
                *next.entry(state.clone()).or_default() += ways;
            }
        }
        if next.len() > MOST_STATES {
            return None;
        }
        states = next;
    }
    Some(states.into_iter().filter(|(state, _)| state.violates).map(|(_, ways)| ways).sum())
}

/// Runs a line; false where it cuts the run off.
fn step(draft: &Draft, inputs: &[u16], thread: usize, number: u16, state: &mut State) -> bool {
    let line = draft.line(number);
    state.lines[thread] += 1;
    let locals = state.locals[thread];
    if line.guard_local().is_some_and(|local| !line.guard_is_true(locals[local])) {
        return true;
    }
    let operand = |operand: u16| if operand == CONSTANT { line.c } else { locals[usize::from(operand)] };
    let expression = || apply(line.op, operand(line.a), operand(line.b));
    let target = usize::from(line.target);
    let mutex = usize::from(draft.globals) + target;
    match line.kind {
        COMPUTE => state.locals[thread][target] = expression(),
        STORE => state.items[target] = expression(),
        LOAD => state.locals[thread][target] = state.items[usize::from(line.a)],
        INPUT => {
            let place = draft.inputs().iter().position(|&input| input == number).expect("it is an input");
            state.locals[thread][target] = inputs[place];
        }
        ASSERT => state.violates |= expression() == 0,
        ASSUME => return expression() != 0,
        LOCK if state.items[mutex] != 0 => return false,
        LOCK => state.items[mutex] = holder(thread),
        UNLOCK => {
            state.violates |= state.items[mutex] != holder(thread);
            state.items[mutex] = 0;
        }
        _ => unreachable!("no such kind"),
    }
    true
}

/// The same by the library's replay of every schedule: of all, and of those that
/// keep the rule.
fn replayed(calls: &dyn Calls, draft: &Draft, inputs: &[u16]) -> Result<[Counts; 2], String> {
    let mut counts = [Counts { all: 0, violating: Some(0) }; 2];
    for lengths in block_lengths(draft) {
        let violates = u128::from(does_violate(calls, draft, &lengths, inputs)?);
        let which = if keeps_rule(draft, &lengths) { 2 } else { 1 };
        for count in &mut counts[..which] {
            count.all += 1;
            count.violating = count.violating.map(|violating| violating + violates);
        }
    }
    Ok(counts)
}

/// Whether no invisible line has another block than the line before it.
fn keeps_rule(draft: &Draft, lengths: &[u16]) -> bool {
    draft.chains().iter().enumerate().all(|(thread, chain)| {
        let own = lengths.iter().enumerate().filter(|(block, _)| block % usize::from(draft.threads) == thread);
        let blocks: Vec<usize> = own.flat_map(|(block, &length)| std::iter::repeat_n(block, length.into())).collect();
        blocks
            .windows(2)
            .zip(&chain[1.min(chain.len())..])
            .all(|(pair, &line)| pair[0] == pair[1] || is_visible(draft.line(line)))
    })
}

fn does_violate(calls: &dyn Calls, draft: &Draft, lengths: &[u16], inputs: &[u16]) -> Result<bool, String> {
    let (lines, run) = (draft.inputs(), lines_run(draft, lengths));
    let value = |(line, &value): (&u16, &u16)| if run.contains(line) { value } else { 0 };
    let mut values: Vec<u16> = lines.iter().zip(inputs).map(value).collect();
    loop {
        let schedule = [lengths, &values].concat();
        match reply(calls, draft, &schedule) {
            Replayed::Violated(_) => return Ok(true),
            Replayed::Clean | Replayed::CutOff(_) => return Ok(false),
            // An input with a false guard has value 0.
            Replayed::Refused { number: 14, place } => {
                let input = lines.iter().position(|&line| line == place).ok_or("14 at a line that is no input")?;
                values[input] = 0;
            }
            Replayed::Refused { number, place } => return Err(format!("refusal {number}, place {place} of {schedule:?}")),
        }
    }
}

/// 1234567 as 1,234,567.
fn with_commas(number: u128) -> String {
    let digits = number.to_string();
    let groups = digits.as_bytes().rchunks(3).rev();
    let groups: Vec<String> = groups.map(|group| String::from_utf8_lossy(group).into_owned()).collect();
    groups.join(",")
}
