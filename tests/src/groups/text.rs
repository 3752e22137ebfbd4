//! The constraints as SMT-LIB text: the page's own example, and the text beside
//! the second implementation of the page, and beside the checker.

use std::fs;
use std::path::Path;

use crate::ask::reply;
use crate::calls::{Calls, Checked, Refusal, Replayed, Spelled};
use crate::compare_text::{same_text, same_text_in_each_room, same_truth, script_of, text_of, texts, truths, NOTED};
use crate::damage::{damaged, random_bytes, scratched};
use crate::demand3::small_case;
use crate::draft::Draft;
use crate::enumerate::schedules;
use crate::generate::{accepted, shuffled, BUSY, BUSY_WITH_INPUTS, FULL, HOLDERS, HOLDERS_WITH_INPUTS};
use crate::line::*;
use crate::random::Random;
use crate::report::{Outcome, Report, Tally};
use crate::rule::keeps_rule;
use crate::samples::{case_a, filled_up, guarded_counter, largest};
use crate::script::Script;
use crate::vary::seen;
use crate::watch::written_down;

const PAGE: &str = include_str!("../../../docs/SMT-TEXT.md");
/// "None is longer than two million bytes"
const MOST_BYTES: usize = 2_000_000;

pub fn run(calls: &dyn Calls, report: &mut Report) {
    report.check("the page's text of case A", |tally| page_text(calls, tally));
    report.check("the page's two assertions", |tally| page_assertions(calls, tally));
    report.check("shipped cases", |tally| shipped_cases(calls, tally));
    report.check("random and damaged cases", |tally| random_cases(calls, tally));
    report.check("refusals 1 to 9", |tally| refusals(calls, tally));
    report.check("room of every length", |tally| every_room(calls, tally));
    report.check("the largest texts", |tally| largest_texts(calls, tally));
    report.check("the first false assertion", |tally| first_false(calls, tally));
    report.check("assignments that meet all", |tally| meeting(calls, tally));
    report.check("a changed byte", |tally| changed_byte(calls, tally));
    report.check("what the reader refuses", |tally| refused_texts(calls, tally));
}

/// The blocks of the page that are fenced as text.
fn page_blocks() -> Vec<&'static str> {
    PAGE.split("```text\n").skip(1).filter_map(|rest| rest.split_once("```")).map(|(block, _)| block).collect()
}

fn page_text(calls: &dyn Calls, tally: &mut Tally) -> Outcome {
    let text = text_of(calls, &case_a().bytes())?;
    tally.same(String::from_utf8_lossy(&text).as_ref(), page_blocks()[0], || "case A".into())
}

/// "With an input at record 1, line 2 storing its local in global 0 and line 3
/// loading it, with copies 1 and 2 and T 2, n 1".
fn page_assertions(calls: &dyn Calls, tally: &mut Tally) -> Outcome {
    let draft = Draft::new(2, 1).with_globals(&[0]).with_thread(0, &[input(0), store(0, local(0)), load(1, 0)]);
    let text = text_of(calls, &draft.bytes())?;
    let text = String::from_utf8_lossy(&text);
    let lines: Vec<&str> = text.lines().collect();
    let (first, block) = (1 + draft.variables() + 7, page_blocks()[1]);
    tally.same(lines[first..first + 2].join("\n") + "\n", block.into(), || "assertions 8 and 9".into())
}

fn shipped_cases(calls: &dyn Calls, tally: &mut Tally) -> Outcome {
    let folder = Path::new(env!("CARGO_MANIFEST_DIR")).join("../cases");
    let entries = fs::read_dir(&folder).map_err(|error| format!("{}: {error}", folder.display()))?;
    let mut files = entries
        .map(|entry| entry.map(|entry| entry.path()))
        .collect::<Result<Vec<_>, _>>()
        .map_err(|error| error.to_string())?;
    files.retain(|file| file.extension().is_some_and(|end| end == "case"));
    tally.holds(files.len() >= 5, || format!("only {} cases are shipped", files.len()))?;
    for file in files {
        let case = fs::read(&file).map_err(|error| format!("{}: {error}", file.display()))?;
        same_text_in_each_room(calls, &case, &mut Random::from_seed(1), tally)?;
        Script::read(&text_of(calls, &case)?)?;
    }
    Ok(())
}

fn random_cases(calls: &dyn Calls, tally: &mut Tally) -> Outcome {
    texts(calls, 600, tally)?;
    for spelled in NOTED {
        tally.saw_often(spelled, 50)?;
    }
    for number in 1..=10 {
        tally.saw_often(&format!("refused {number}"), 50)?;
    }
    tally.saw_often("text", 1_200)
}

/// Both calls refuse what accept refuses, with its number and place, whatever
/// room there is.
fn refusals(calls: &dyn Calls, tally: &mut Tally) -> Outcome {
    for seed in 0..900 {
        let mut random = Random::from_seed(70_000_000 + seed);
        let number = 1 + (seed % 9) as u16;
        let damaged = damaged(&mut random, number, None);
        refused(calls, &damaged.bytes, damaged.refusal, tally)?;
        let draft = accepted(&mut random, BUSY_WITH_INPUTS);
        for file in [scratched(&mut random, &draft), random_bytes(&mut random)] {
            if let Some(refusal) = calls.accept(&file).refusal() {
                refused(calls, &file, refusal, tally)?;
            }
        }
    }
    (1..=9).try_for_each(|number| tally.saw_often(&format!("refusal {number}"), 100))
}

fn refused(calls: &dyn Calls, case: &[u8], refusal: Refusal, tally: &mut Tally) -> Outcome {
    tally.saw(format!("refusal {}", refusal.number));
    let about = || format!("case {case:?}");
    tally.same(calls.smt_length(case), Spelled::from(refusal), about)?;
    for room in [0, 1, 5_000] {
        let mut text = vec![0xa5; room];
        tally.same(calls.smt_text(case, &mut text), Spelled::from(refusal), about)?;
        tally.holds(text == vec![0xa5; room], || format!("{}: touched", about()))?;
    }
    Ok(())
}

/// From no byte to two more than are needed. A case without lines has the
/// shortest text.
fn every_room(calls: &dyn Calls, tally: &mut Tally) -> Outcome {
    let with_input = Draft::new(2, 1).with_globals(&[7]).with_thread(1, &[input(0), store(0, local(0)).guarded(1)]);
    for draft in [Draft::new(2, 0), case_a(), with_input] {
        let case = draft.bytes();
        let needed = text_of(calls, &case)?.len();
        for room in 0..=needed + 2 {
            same_text(calls, &case, room, tally)?;
        }
    }
    Ok(())
}

/// The largest text is below the page's limit, and larger than those of cases
/// that are as full of other lines.
fn largest_texts(calls: &dyn Calls, tally: &mut Tally) -> Outcome {
    let most = largest_text(calls, &largest(), tally)?;
    tally.holds((1_000_000..MOST_BYTES).contains(&most), || format!("{most} bytes"))?;
    let comparison = [LESS, 0, 0, 0];
    for line in [
        store(7, [EQUAL, 0, 0, 0]),
        compute(1, comparison),
        load(1, 0),
        input(1),
        assert(comparison),
        assume(comparison),
        lock(3),
        unlock(3),
    ] {
        let length = largest_text(calls, &filled_up(line), tally)?;
        tally.holds(length < most, || format!("{length} bytes of {line:?}"))?;
    }
    for seed in 0..12 {
        largest_text(calls, &accepted(&mut Random::from_seed(71_000_000 + seed), FULL), tally)?;
    }
    Ok(())
}

/// The length of a text, which is the second implementation's, can be read, and
/// says of some assignments what the checker says.
fn largest_text(calls: &dyn Calls, draft: &Draft, tally: &mut Tally) -> Result<usize, String> {
    let case = draft.bytes();
    let length = text_of(calls, &case)?.len();
    for room in [length - 1, length, length + 1, MOST_BYTES] {
        same_text(calls, &case, room, tally)?;
    }
    let script = script_of(calls, draft, tally)?;
    let mut random = Random::from_seed(74_000_000);
    for numbers in [seen(&mut random, draft), seen(&mut random, draft), random.words(draft.variables())] {
        same_truth(calls, draft, &script, &numbers, tally)?;
    }
    Ok(length)
}

fn first_false(calls: &dyn Calls, tally: &mut Tally) -> Outcome {
    truths(calls, 500, tally)?;
    tally.saw_often("failed", 1_000)?;
    tally.saw_often("met", 50)
}

/// Assignments of violating schedules that keep the rule make every assertion true,
/// and those of others make one false; so does a changed number. It is the one that
/// the checker names.
fn meeting(calls: &dyn Calls, tally: &mut Tally) -> Outcome {
    for seed in 0..300 {
        let mut random = Random::from_seed(72_000_000 + seed);
        let draft = small_case(&mut random, [BUSY, BUSY_WITH_INPUTS, HOLDERS, HOLDERS_WITH_INPUTS][seed as usize % 4]);
        let script = script_of(calls, &draft, tally)?;
        let violates = |schedule: &Vec<u16>| matches!(reply(calls, &draft, schedule), Replayed::Violated(_));
        for schedule in schedules(&draft, &[0, 3]).into_iter().filter(violates).take(6) {
            let mut numbers = written_down(&draft, &schedule);
            let meets = calls.check(&draft.bytes(), &numbers) == Checked::Meets;
            tally.same(meets, keeps_rule(&draft, &schedule), || format!("{schedule:?} of {draft}"))?;
            same_truth(calls, &draft, &script, &numbers, tally)?;
            let place = random.below(numbers.len());
            numbers[place] = numbers[place].wrapping_add(random.between(1, 3));
            same_truth(calls, &draft, &script, &numbers, tally)?;
        }
    }
    tally.saw_often("met", 300)?;
    tally.saw_often("failed", 200)
}

/// Any byte that is changed is seen: the text is not the same, and it reads as
/// something else or not at all.
fn changed_byte(calls: &dyn Calls, tally: &mut Tally) -> Outcome {
    let mut random = Random::from_seed(73_000_000);
    let draft = shuffled(&mut random, &guarded_counter());
    let text = text_of(calls, &draft.bytes())?;
    let schedule = schedules(&draft, &[]).into_iter().find(|schedule| reply(calls, &draft, schedule) != Replayed::Clean);
    let numbers = written_down(&draft, &schedule.ok_or("no schedule")?);
    let whole: Vec<bool> = Script::read(&text)?.truths(&numbers).collect();
    for place in 0..text.len() {
        let mut changed = text.clone();
        changed[place] ^= random.pick(&[1, 2, 4, 8]);
        match Script::read(&changed) {
            Err(_) => tally.saw("unread"),
            Ok(script) if script.truths(&numbers).eq(whole.iter().copied()) => tally.saw("another formula"),
            Ok(_) => tally.saw("another truth"),
        }
    }
    tally.saw_often("unread", text.len() as u64 / 2)?;
    tally.saw_often("another truth", 50)
}

/// The reader of these tests takes one spelling alone.
fn refused_texts(calls: &dyn Calls, tally: &mut Tally) -> Outcome {
    let text = String::from_utf8(text_of(calls, &case_a().bytes())?).map_err(|_| "no text")?;
    tally.holds(Script::read(text.as_bytes()).is_ok(), || "case A's own text".into())?;
    for (part, other) in [
        ("QF_BV", "QF_ABV"),
        ("(check-sat)\n", "(check-sat)"),
        ("(check-sat)\n", ""),
        ("(declare-fun v11 () (_ BitVec 16))\n", ""),
        ("(declare-fun v11 ", "(declare-fun v12 "),
        ("v9 #x0005", "v9  #x0005"),
        ("v9 #x0005", "v9 #x5"),
        ("v9 #x0005", "v9 #x000A"),
        ("v9 #x0005", "v09 #x0005"),
        ("(= v9 #x0005)", "(= v9 #x0005 )"),
        ("(= v9 #x0005)", "(= v9 #x0005 v9)"),
        ("(= v9 #x0005)", "(and true true true)"),
        ("(= v9 #x0005)", "(bvugt v9 #x0005)"),
        ("(= v9 #x0005)", "(= v9 true)"),
        ("(= v9 #x0005)", "v9"),
        ("(assert (bvule v8", " (assert (bvule v8"),
        ("(assert (bvule v8", "; a comment\n(assert (bvule v8"),
        ("(assert (bvule v8", "\n(assert (bvule v8"),
    ] {
        let changed = text.replacen(part, other, 1);
        tally.holds(changed != text && Script::read(changed.as_bytes()).is_err(), || format!("{other:?} for {part:?}"))?;
    }
    Ok(())
}
