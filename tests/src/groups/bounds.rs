//! What `menduvo solve` says with `--least`, `--each` and `--short` on random
//! small cases, beside what trying every schedule finds: the smallest n with a
//! violation, the answer of each assert and unlock alone, and the shortest run.

use crate::ask::reply;
use crate::calls::{Calls, Replayed};
use crate::draft::Draft;
use crate::enumerate::{block_lengths, schedules_with_all_values};
use crate::generate::{accepted, Shape, BUSY, FOUR_THREADS, HOLDERS, SMALL, TINY_WITH_INPUTS};
use crate::groups::answers::{lines_that_can_violate, model_is_filled, numbers, program, write_all, Folder, Legal};
use crate::line::{assert, compute, constant, input, load, store, CONSTANT, LESS, OR};
use crate::program;
use crate::random::Random;
use crate::report::{Outcome, Report, Tally};
use crate::second;
use crate::watch::watch;

/// The n up to which the smallest is looked for.
const MOST: u16 = 4;

pub fn run(_: &dyn Calls, report: &mut Report) {
    report.check("the smallest n", |tally| {
        least(&drafts(80_000_000, SMALL, 30), tally)?;
        least(&drafts(81_000_000, BUSY, 60), tally)?;
        ["first at 1", "first at 2", "none"].iter().try_for_each(|what| tally.saw_often(what, 3))
    });
    report.check("the smallest n, four threads", |tally| least(&drafts(82_000_000, FOUR_THREADS, 20), tally));
    report.check("the smallest n, holders", |tally| least(&drafts(87_000_000, HOLDERS, 30), tally));
    report.check("each assert and unlock alone", |tally| {
        drafts(83_000_000, BUSY, 50).iter().try_for_each(|draft| each(draft, tally))?;
        drafts(88_000_000, HOLDERS, 30).iter().try_for_each(|draft| each(draft, tally))?;
        ["violated", "unsat", "vacuous", "another is first"].iter().try_for_each(|what| tally.saw_often(what, 3))
    });
    report.check("the shortest run", |tally| {
        short(&drafts(84_000_000, BUSY, 110), block_lengths, tally)?;
        short(&drafts(85_000_000, FOUR_THREADS, 40), block_lengths, tally)?;
        short(&drafts(89_000_000, HOLDERS, 40), block_lengths, tally)?;
        tally.saw_often("violated", 20)?;
        tally.saw_often("lines left", 20)?;
        tally.saw_often("an empty block between", 2)
    });
    report.check("the shortest run with an input", |tally| {
        let fits = |draft: &Draft| draft.inputs().len() == 1 && block_lengths(draft).len() <= 9;
        let random = drafts(86_000_000, TINY_WITH_INPUTS, 500).into_iter().filter(fits).take(6);
        let drafts: Vec<Draft> = random.chain([1, 100, 40_000].map(with_an_input)).collect();
        short(&drafts, schedules_with_all_values, tally)?;
        tally.saw_often("an input over 0", 3)
    });
}

/// A case with a violation just where the input is not smaller than this, and
/// the other thread has written 0 before.
fn with_an_input(least: u16) -> Draft {
    let is_less = [LESS, 0, CONSTANT, least];
    let lines = [input(0), compute(2, is_less), load(1, 0), assert([OR, 1, 2, 0])];
    Draft::new(2, 2).with_globals(&[1]).with_thread(0, &lines).with_thread(1, &[store(0, constant(0))])
}

fn drafts(seed: u64, shape: Shape, cases: u64) -> Vec<Draft> {
    (0..cases).map(|number| accepted(&mut Random::from_seed(seed + number), shape)).collect()
}

fn violates(draft: &Draft, schedule: &[u16]) -> bool {
    matches!(reply(&second::RIGHT, draft, schedule), Replayed::Violated(_))
}

/// What the command prints about cases, as objects.
fn printed(folder: &Folder, drafts: &[Draft], options: &[&str]) -> Result<String, String> {
    write_all(&folder.0, drafts)?;
    let arguments = [&["solve", folder.name()?, "--json", "--solver", "z3", "--jobs", "2"], options].concat();
    program::run(&program()?, &arguments, &[])
}

/// The object of a case by its number that has this text.
fn object<'a>(printed: &'a str, number: usize, text: &str) -> Result<&'a str, String> {
    let case = format!("/{number:03}.case\",");
    let object = printed.lines().find(|line| line.contains(&case) && line.contains(text));
    object.ok_or_else(|| format!("no object of case {number} with {text}"))
}

fn least(drafts: &[Draft], tally: &mut Tally) -> Outcome {
    let folder = Folder::new("least");
    let printed = printed(&folder, drafts, &["--least", "--switches", &MOST.to_string()])?;
    for (number, draft) in drafts.iter().enumerate() {
        let object = object(&printed, number, "\"least\":true")?;
        let about = |wanted: &str| format!("it should say {wanted}; {object}; case {draft}");
        let legal = |switches: u16| Legal::of(&Draft { switches, ..draft.clone() });
        let bounds: Vec<Legal> = (0..=MOST).map(legal).collect();
        let first = bounds.iter().position(|legal| !legal.violating.is_empty());
        let unsat: Vec<usize> = (0..first.unwrap_or(bounds.len())).collect();
        let vacuous: Vec<usize> = unsat.iter().copied().filter(|&n| bounds[n].reached.is_empty()).collect();
        let first = first.map_or("null".to_string(), |first| first.to_string());
        tally.saw(if first == "null" { "none".to_string() } else { format!("first at {first}") });
        let list = |numbers: &[usize]| format!("{numbers:?}").replace(' ', "");
        for (field, wanted) in
            [("first", first.clone()), ("violated", first), ("unsat", list(&unsat)), ("vacuous", list(&vacuous))]
        {
            let wanted = format!("\"{field}\":{wanted},");
            tally.holds(object.contains(&wanted), || about(&wanted))?;
        }
    }
    Ok(())
}

fn each(draft: &Draft, tally: &mut Tally) -> Outcome {
    let folder = Folder::new("each");
    write_all(&folder.0, std::slice::from_ref(draft))?;
    let case = format!("{}/000.case", folder.name()?);
    let printed = program::run(&program()?, &["solve", &case, "--json", "--solver", "z3", "--each"], &[])?;
    let Legal { reached, violating } = Legal::of(draft);
    for record in lines_that_can_violate(draft) {
        let object = object(&printed, 0, &format!("\"assert\":{record},"))?;
        let word = match (violating.contains(&record), reached.contains(&record)) {
            (true, _) => "violated",
            (false, true) => "unsat",
            (false, false) => "vacuous",
        };
        tally.saw(word);
        let answer = format!("\"answer\":\"{word}\"");
        tally.holds(object.contains(&answer), || format!("record {record} is {word}; {object}; case {draft}"))?;
        if word == "violated" {
            let schedule = numbers(object, "\"schedule\":[")?;
            let violations = watch(draft, &schedule).violations;
            tally.holds(violations.contains(&record), || format!("not at {record}: {object}; case {draft}"))?;
            model_is_filled(draft, object, tally)?;
            let Replayed::Violated(first) = reply(&second::RIGHT, draft, &schedule) else {
                return Err(format!("the run is none of the case: {object}; case {draft}"));
            };
            if first != record {
                tally.saw("another is first");
            }
            tally.holds(object.contains(&format!("\"record\":{first},\"assignment\"")), || format!("{first}; {object}"))?;
        }
    }
    Ok(())
}

/// The last block with lines, how many have lines, the lines that are run, and
/// the inputs.
fn length(draft: &Draft, schedule: &[u16]) -> Vec<u16> {
    let (lengths, inputs) = schedule.split_at(draft.blocks());
    let used = lengths.iter().rposition(|&length| length > 0).unwrap_or(0) as u16;
    let blocks = lengths.iter().filter(|&&length| length > 0).count() as u16;
    [&[used, blocks, lengths.iter().sum()], inputs].concat()
}

/// `all` gives every schedule that may be the shortest.
fn short<All: IntoIterator<Item = Vec<u16>>>(drafts: &[Draft], all: impl Fn(&Draft) -> All, tally: &mut Tally) -> Outcome {
    let folder = Folder::new("short");
    let printed = printed(&folder, drafts, &["--short"])?;
    for (number, draft) in drafts.iter().enumerate() {
        let object = object(&printed, number, "\"constraints\"")?;
        let violating = all(draft).into_iter().filter(|schedule| violates(draft, schedule));
        let Some(shortest) = violating.map(|schedule| length(draft, &schedule)).min() else {
            tally.holds(!object.contains("\"short\""), || format!("it has no run; {object}; case {draft}"))?;
            continue;
        };
        tally.saw("violated");
        let schedule = numbers(object, "\"schedule\":[")?;
        tally.same(length(draft, &schedule), shortest.clone(), || format!("{object}; case {draft}"))?;
        model_is_filled(draft, object, tally)?;
        let (used, blocks, lines, inputs) = (shortest[0], shortest[1], shortest[2], &shortest[3..]);
        let values = format!("{inputs:?}").replace(' ', "");
        let wanted = format!("\"short\":{{\"switches\":{used},\"blocks\":{blocks},\"lines\":{lines},\"inputs\":{values},");
        tally.holds(object.contains(&wanted), || format!("it should say {wanted}; {object}; case {draft}"))?;
        tally.holds(object.contains("\"shortest\":true"), || format!("{object}; case {draft}"))?;
        if blocks <= used {
            tally.saw("an empty block between");
        }
        if lines < draft.records.len() as u16 {
            tally.saw("lines left");
        }
        if inputs.iter().any(|&input| input > 0) {
            tally.saw("an input over 0");
        }
    }
    Ok(())
}
