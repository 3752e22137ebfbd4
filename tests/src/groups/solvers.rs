//! Solvers on the constraints' text as the library under test writes it, beside
//! exhaustive replay. Each must read it without a word of complaint.

use std::collections::BTreeSet;
use std::ops::Range;

use crate::ask::{check, decode, fill, reply};
use crate::calls::{Calls, Checked, Replayed};
use crate::compare_text::text_of;
use crate::demand3::small_case;
use crate::draft::Draft;
use crate::enumerate::{block_lengths, runs_all_lines, schedules, schedules_with_all_values};
use crate::generate::{
    Shape, BUSY, BUSY_WITH_INPUTS, FOUR_HOLDERS, FOUR_THREADS, HOLDERS, HOLDERS_WITH_INPUTS, SMALL, STRETCHES,
    STRETCHES_WITH_INPUTS, TINY, TINY_HOLDERS, TINY_WITH_INPUTS,
};
use crate::line::{assert, constant, Line, ASSERT, COMPUTE, INPUT, LOAD, UNLOCK};
use crate::random::Random;
use crate::report::{Outcome, Report, Tally};
use crate::rule::{first_late, keeps_rule, moved};
use crate::samples::{case_a, guarded_counter, handshake, largest, right_release, wrong_release};
use crate::solver::{other_than, Answer, Solver, ALL};
use crate::table::table_of;

/// Random cases for each solver: without inputs, with faults of one sort alone,
/// and with one input each.
const CASES: u64 = 150;
const ONLY_UNLOCKS: u64 = 40;
const WITH_AN_INPUT: usize = 10;
/// Cases that are asked with and without the 8s, and so many of them with an input.
const WITHOUT_EIGHTS: u64 = 60;
const WITHOUT_EIGHTS_AND_AN_INPUT: u64 = 24;
/// At least so many of those without inputs must be sat, and so many unsat.
const OF_EACH: u64 = 30;
/// The most block lengths of a case with an input.
const FEW: usize = 9;
/// Cases all of whose models are asked for, one after the other.
const ALL_MODELS: usize = 12;

type Check = fn(&dyn Calls, Solver, &mut Tally) -> Outcome;

const CHECKS: [(&str, Check); 10] = [
    ("cases by hand", by_hand),
    ("random cases", many),
    ("random cases in which unlocks alone violate", only_unlocks),
    ("random cases with an input", with_an_input),
    ("random cases with and without the 8s", with_and_without),
    ("random cases with an input, with and without the 8s", with_and_without_and_an_input),
    ("all models of a case", all_models),
    ("an assertion that is left out", left_out),
    ("an assertion that is changed", changed),
    ("the largest text", largest_text),
];

pub fn run(calls: &dyn Calls, report: &mut Report) {
    for solver in ALL {
        let is_there = solver.is_there();
        for (name, body) in CHECKS {
            let name = format!("{}: {name}", solver.name);
            if is_there || solver.is_needed {
                report.check(&name, |tally| body(calls, solver, tally));
            } else {
                report.leave_out(&name, "the solver is not installed");
            }
        }
    }
}

fn text(calls: &dyn Calls, draft: &Draft) -> Result<String, String> {
    String::from_utf8(text_of(calls, &draft.bytes())?).map_err(|_| format!("no text: {draft}"))
}

/// Case A, also with one switch less than it needs, larger cases, one of which
/// no run finishes, and one without any line; and wrong releases of a mutex, each
/// with its right twin. Each has at most one line that can violate.
fn by_hand(calls: &dyn Calls, solver: Solver, tally: &mut Tally) -> Outcome {
    let mut cases = vec![
        (case_a(), Some(4)),
        (short(), None),
        (guarded_counter(), Some(13)),
        (handshake(), Some(3)),
        (Draft { switches: 1, ..handshake() }, None),
        (Draft::new(2, 0), None),
        (Draft { switches: 0, ..wrong_release(2, [0, 1], 0) }, None),
    ];
    for (threads, both, mutex) in [(2, [0, 1], 0), (2, [1, 0], 1), (3, [2, 1], 2), (4, [1, 3], 3), (4, [3, 0], 0)] {
        cases.push((wrong_release(threads, both, mutex), Some(6)));
        cases.push((right_release(threads, both, mutex), None));
    }
    for (draft, line) in cases {
        let schedule = answers_like_replay(calls, solver, &draft, tally)?;
        let named = schedule.map(|schedule| reply(calls, &draft, &schedule));
        tally.same(named, line.map(Replayed::Violated), || format!("sat; case {draft}"))?;
    }
    Ok(())
}

/// Case A with one switch less than it needs.
fn short() -> Draft {
    Draft { switches: 1, ..case_a() }
}

fn case_of(seed: u64, shape: Shape) -> Draft {
    small_case(&mut Random::from_seed(50_000_000 + seed), shape)
}

fn many(calls: &dyn Calls, solver: Solver, tally: &mut Tally) -> Outcome {
    for seed in 0..CASES {
        let shape = [BUSY, SMALL, HOLDERS, BUSY, FOUR_THREADS, FOUR_HOLDERS][seed as usize % 6];
        let draft = case_of(seed, shape);
        answers_like_replay(calls, solver, &draft, tally).map_err(|message| format!("seed {seed}: {message}"))?;
    }
    ["sat", "unsat"].iter().try_for_each(|answer| tally.saw_often(answer, OF_EACH))?;
    ["an assert is named", "an unlock is named"].iter().try_for_each(|named| tally.saw_often(named, 15))
}

/// Every assert is made to hold, so that what violates is an unlock.
fn only_unlocks(calls: &dyn Calls, solver: Solver, tally: &mut Tally) -> Outcome {
    for seed in 0..ONLY_UNLOCKS {
        let draft = with_asserts_met(&case_of(40_000 + seed, [HOLDERS, FOUR_HOLDERS][seed as usize % 2]));
        let schedule =
            answers_like_replay(calls, solver, &draft, tally).map_err(|message| format!("seed {seed}: {message}"))?;
        if let Some(Replayed::Violated(line)) = schedule.map(|schedule| reply(calls, &draft, &schedule)) {
            tally.same(draft.line(line).kind, UNLOCK, || format!("the kind of line {line} of {draft}"))?;
        }
    }
    ["sat", "unsat"].iter().try_for_each(|answer| tally.saw_often(answer, 10))
}

fn with_asserts_met(draft: &Draft) -> Draft {
    let mut met = draft.clone();
    for line in met.records.iter_mut().filter(|line| line.kind == ASSERT) {
        *line = Line { next: line.next, guard: line.guard, ..assert(constant(1)) };
    }
    met
}

/// Without inputs: sat exactly when some schedule violates. Gives the schedule of
/// the model.
fn answers_like_replay(
    calls: &dyn Calls,
    solver: Solver,
    draft: &Draft,
    tally: &mut Tally,
) -> Result<Option<Vec<u16>>, String> {
    let violating = violating(calls, draft);
    let answer = solver.ask(&text(calls, draft)?, !violating.is_empty())?;
    let is_sat = matches!(answer, Answer::Sat(_));
    tally.same(is_sat, !violating.is_empty(), || format!("sat; case {draft}"))?;
    tally.saw(if is_sat { "sat" } else { "unsat" });
    let Answer::Sat(model) = answer else { return Ok(None) };
    let schedule = model_violates(calls, draft, &model, tally)?;
    tally.holds(violating.contains(&schedule), || format!("{schedule:?} decoded"))?;
    Ok(Some(schedule))
}

fn violates(calls: &dyn Calls, draft: &Draft, schedule: &[u16]) -> bool {
    matches!(reply(calls, draft, schedule), Replayed::Violated(_))
}

fn violating(calls: &dyn Calls, draft: &Draft) -> BTreeSet<Vec<u16>> {
    schedules(draft, &[0]).into_iter().filter(|schedule| violates(calls, draft, schedule)).collect()
}

/// A model meets the table, its schedule violates and keeps the rule, and is filled to
/// the model.
fn model_violates(calls: &dyn Calls, draft: &Draft, model: &[u16], tally: &mut Tally) -> Result<Vec<u16>, String> {
    let about = || format!("model {model:?} of {draft}");
    tally.same(check(calls, draft, model), Checked::Meets, about)?;
    let schedule = decode(calls, draft, model)?;
    tally.holds(keeps_rule(draft, &schedule), || format!("{}: {schedule:?} does not keep the rule", about()))?;
    tally.same(fill(calls, draft, &schedule)?.as_slice(), model, about)?;
    match reply(calls, draft, &schedule) {
        Replayed::Violated(line) if draft.line(line).kind == ASSERT => tally.saw("an assert is named"),
        Replayed::Violated(line) if draft.line(line).kind == UNLOCK => tally.saw("an unlock is named"),
        reply => return Err(format!("{}: {schedule:?} is replayed as {reply:?}", about())),
    }
    Ok(schedule)
}

/// The text without the assertions of the 8s.
fn text_without_eights(calls: &dyn Calls, draft: &Draft) -> Result<String, String> {
    let mut rows = table_of(calls, &draft.bytes())?.rows.into_iter();
    let mut is_8 = |line: &str| line.starts_with("(assert ") && rows.next().is_some_and(|row| row[0] == 8);
    let whole = text(calls, draft)?;
    Ok(whole.lines().filter(|line| !is_8(line)).map(|line| format!("{line}\n")).collect())
}

/// "Prove that the solver's yes or no is unchanged by the new constraint": both texts
/// are sat, or neither. Gives the answer. A model of the text without the 8s meets the
/// table but for an 8, where its schedule does not keep the rule; that schedule
/// violates, and so does the one that keeps the rule in its place.
fn same_without_eights(calls: &dyn Calls, solver: Solver, draft: &Draft, tally: &mut Tally) -> Result<bool, String> {
    let answer = solver.ask(&text(calls, draft)?, false)?;
    let without = text_without_eights(calls, draft)?;
    let dropped = text(calls, draft)?.lines().count() - without.lines().count();
    let eights = table_of(calls, &draft.bytes())?.rows.iter().filter(|row| row[0] == 8).count();
    tally.same(dropped, eights, || format!("8s; case {draft}"))?;
    tally.saw(if dropped == 0 { "no 8" } else { "some 8s" });
    let answer_without = solver.ask(&without, matches!(answer, Answer::Sat(_)))?;
    let is_sat = |answer: &Answer| matches!(answer, Answer::Sat(_));
    tally.same(is_sat(&answer), is_sat(&answer_without), || format!("sat with and without the 8s; case {draft}"))?;
    tally.saw(if is_sat(&answer) { "sat" } else { "unsat" });
    let (Answer::Sat(model), Answer::Sat(other)) = (answer, answer_without) else { return Ok(false) };
    model_violates(calls, draft, &model, tally)?;
    let about = || format!("model {other:?} of {draft} without the 8s");
    let schedule = counted(draft, &other);
    match first_late(draft, &schedule) {
        None => tally.same(check(calls, draft, &other), Checked::Meets, about)?,
        Some(late) => {
            tally.saw("a model that only the 8s exclude");
            let place = table_of(calls, &draft.bytes())?.place_of_8(late).ok_or_else(about)?;
            tally.same(check(calls, draft, &other), Checked::Fails(place as u16), about)?;
        }
    }
    for schedule in [moved(draft, &schedule), schedule] {
        tally.holds(violates(calls, draft, &schedule), || format!("{}: {schedule:?} does not violate", about()))?;
    }
    Ok(true)
}

/// The schedule of an assignment, by the counting of document 01, without asking the
/// decoder, which refuses what fails an 8.
fn counted(draft: &Draft, numbers: &[u16]) -> Vec<u16> {
    let block = |line: u16| usize::from(numbers[2 * (usize::from(line) - 1)]);
    let lines_in = |wanted: usize| (1..=draft.records.len() as u16).filter(move |&line| block(line) == wanted).count();
    let lengths = (0..draft.blocks()).map(|block| lines_in(block) as u16);
    // An input with a false guard keeps the old value of its target, and counts 0.
    let inputs = draft.inputs().into_iter().map(|line| match guard_was_true(draft, numbers, line) {
        true => numbers[2 * usize::from(line) - 1],
        false => 0,
    });
    lengths.chain(inputs).collect()
}

/// Whether the guard of a line is true by the value of the latest line of its thread
/// that has the guard's local as target; one that was not run has 0 for its value.
fn guard_was_true(draft: &Draft, numbers: &[u16], line: u16) -> bool {
    let guard_local = draft.line(line).guard_local();
    let chain = draft.chain(draft.thread_of(line));
    let earlier = chain.into_iter().take_while(|&other| other != line);
    let copies = earlier.filter(|&other| {
        let Line { kind, target, .. } = *draft.line(other);
        matches!(kind, COMPUTE | LOAD | INPUT) && guard_local == Some(target.into())
    });
    let value = copies.last().map_or(0, |copy| numbers[2 * usize::from(copy) - 1]);
    draft.line(line).guard_is_true(value)
}

fn with_and_without(calls: &dyn Calls, solver: Solver, tally: &mut Tally) -> Outcome {
    for seed in 0..WITHOUT_EIGHTS {
        let draft = case_of(60_000 + seed, [BUSY, SMALL, HOLDERS, FOUR_THREADS, STRETCHES][seed as usize % 5]);
        let is_sat = same_without_eights(calls, solver, &draft, tally).map_err(|message| format!("seed {seed}: {message}"))?;
        tally.same(is_sat, !violating(calls, &draft).is_empty(), || format!("sat; case {draft}"))?;
    }
    ["sat", "unsat", "some 8s"].iter().try_for_each(|answer| tally.saw_often(answer, 10))
}

/// Inputs may have any value here, so replay cannot be asked for all.
fn with_and_without_and_an_input(calls: &dyn Calls, solver: Solver, tally: &mut Tally) -> Outcome {
    let holders = Shape { switches: (1, 3), ..HOLDERS_WITH_INPUTS };
    for seed in 0..WITHOUT_EIGHTS_AND_AN_INPUT {
        let draft = case_of(70_000 + seed, [BUSY_WITH_INPUTS, holders, STRETCHES_WITH_INPUTS][seed as usize % 3]);
        same_without_eights(calls, solver, &draft, tally).map_err(|message| format!("seed {seed}: {message}"))?;
    }
    ["sat", "some 8s"].iter().try_for_each(|answer| tally.saw_often(answer, 5))
}

/// The first cases that fit, in a bounded search.
fn fitting_cases(seeds: Range<u64>, shape: Shape, count: usize, fits: impl Fn(&Draft) -> bool) -> Result<Vec<Draft>, String> {
    let drafts = seeds.map(|seed| case_of(seed, shape)).filter(fits);
    let drafts: Vec<Draft> = drafts.take(count).collect();
    if drafts.len() < count {
        return Err(format!("only {} cases fit", drafts.len()));
    }
    Ok(drafts)
}

/// One input each, and few block lengths, so that unsat can be tested with all
/// 65,536 values.
fn with_an_input(calls: &dyn Calls, solver: Solver, tally: &mut Tally) -> Outcome {
    let fits = |draft: &Draft| draft.inputs().len() == 1 && block_lengths(draft).len() <= FEW;
    let holders = Shape { inputs: 40, switches: (1, 2), together: 70, ..TINY_HOLDERS };
    let mut cases = fitting_cases(10_000..20_000, TINY_WITH_INPUTS, WITH_AN_INPUT, fits)?;
    cases.extend(fitting_cases(10_000..20_000, holders, WITH_AN_INPUT / 2, fits)?);
    for draft in cases {
        match solver.ask(&text(calls, &draft)?, false)? {
            Answer::Sat(model) => {
                model_violates(calls, &draft, &model, tally)?;
                tally.saw("sat");
            }
            Answer::Unsat => {
                tally.saw("unsat");
                for schedule in schedules_with_all_values(&draft) {
                    let violates = violates(calls, &draft, &schedule);
                    tally.holds(!violates, || format!("unsat, but {schedule:?}; case {draft}"))?;
                }
            }
        }
    }
    tally.saw_often("unsat", 2)
}

/// Asks for one model after the other, each time leaving out those known. The
/// schedules must be all that violate and keep the rule, each from one model.
fn all_models(calls: &dyn Calls, solver: Solver, tally: &mut Tally) -> Outcome {
    let keeping = |draft: &Draft| {
        let mut keeping = violating(calls, draft);
        keeping.retain(|schedule| keeps_rule(draft, schedule));
        keeping
    };
    let fits = |draft: &Draft| (2..=6).contains(&keeping(draft).len());
    let mut cases = fitting_cases(20_000..30_000, TINY, ALL_MODELS, fits)?;
    cases.extend(fitting_cases(20_000..30_000, TINY_HOLDERS, ALL_MODELS / 2, fits)?);
    let fits_with_others = |draft: &Draft| fits(draft) && keeping(draft).len() < violating(calls, draft).len();
    cases.extend(fitting_cases(30_000..40_000, TINY, ALL_MODELS / 2, fits_with_others)?);
    for draft in cases {
        let wanted = keeping(&draft);
        if wanted.len() < violating(calls, &draft).len() {
            tally.saw("some that violate do not keep the rule");
        }
        let mut text = text(calls, &draft)?;
        let mut found = BTreeSet::new();
        while let Answer::Sat(model) = solver.ask(&text, found.len() < wanted.len())? {
            let schedule = model_violates(calls, &draft, &model, tally)?;
            tally.saw(if runs_all_lines(&draft, &schedule) { "all lines" } else { "lines left" });
            tally.holds(found.insert(schedule), || format!("two models for {draft}"))?;
            tally.holds(found.len() <= wanted.len(), || format!("too many models of {draft}"))?;
            text = other_than(&text, &model)?;
        }
        tally.same(&found, &wanted, || format!("all models of {draft}"))?;
    }
    tally.saw_often("some that violate do not keep the rule", ALL_MODELS as u64 / 2)?;
    let all = ["all lines", "lines left", "an assert is named", "an unlock is named"];
    all.iter().try_for_each(|what| tally.saw_often(what, 10))
}

/// What is left of a text without the assertion of this number, from 1; or with
/// another formula in it.
fn with_assertion(text: &str, number: usize, formula: Option<&str>) -> String {
    let mut assertion = 0;
    let mut lines = String::new();
    for line in text.lines() {
        assertion += usize::from(line.starts_with("(assert"));
        match formula {
            _ if assertion != number || !line.starts_with("(assert") => lines += &format!("{line}\n"),
            Some(formula) => lines += &format!("(assert {formula})\n"),
            None => {}
        }
    }
    lines
}

/// Case A with one switch is unsat, since thread 0 has block 0 alone. Without
/// one assertion it is sat where the assert's value depends on that: a line of
/// thread 0 may then stand in block 4, where nothing says what is read, or the
/// assert's value or one that it comes from is open, or no assert is asked for.
/// A 3 does not matter: line 4 must be run, so the 1s and the 2 leave block 1 at
/// most, and that to line 4; nor does the 1 of line 3, since line 4 stays in its
/// block by the 8, nor the 8, nor do line 5 and the block value, which nobody reads.
fn left_out(calls: &dyn Calls, solver: Solver, tally: &mut Tally) -> Outcome {
    let whole = text(calls, &short())?;
    let last = short().constraints();
    for number in 1..=last {
        let text = with_assertion(&whole, number, None);
        tally.same(text.lines().count() + 1, whole.lines().count(), || format!("lines without {number}"))?;
        let wanted = [2, 4, 9, 12, 13, 14, 15, last].contains(&number);
        let is_sat = matches!(solver.ask(&text, wanted)?, Answer::Sat(_));
        tally.same(is_sat, wanted, || format!("sat without assertion {number}"))?;
    }
    Ok(())
}

/// Assertions of case A, each with a formula that makes the text unsat: line 4 not
/// run, or in the block of line 5, blocks below 2 alone, line 4 not run, thread 1 in
/// a block of thread 0, a load of 1, a block value that is not what thread 1 stored,
/// and no assert in the 7.
const UNSAT_CHANGES: [(usize, &str); 8] = [
    (8, "(= v6 #x0003)"),
    (8, "(or (= v6 #x0003) (= v6 v8))"),
    (9, "(bvult v6 #x0002)"),
    (9, "(= v6 #x0003)"),
    (10, "(= (bvurem v8 #x0002) #x0000)"),
    (14, "(= v5 #x0001)"),
    (18, "(= v11 v10)"),
    (19, "(or false false)"),
];

/// Assertions of case A with one switch, each with a formula that makes the text
/// sat: line 4 may stand in any block, and is 0 where it is not run.
const SAT_CHANGES: [(usize, &str); 2] = [(9, "true"), (15, "(ite (= v6 #x0002) (= v7 #x0000) (= v7 #x0001))")];

/// The 7 of a wrong release, number 22, so changed that the text is unsat: no line
/// counts, the holder's unlock alone counts, or the stranger's where it does not
/// find the holder's 1.
const WRONG_RELEASE_CHANGES: [(usize, &str); 3] = [
    (22, "false"),
    (22, "(not (or (= v6 #x0002) (ite (= v0 v6) (= #x0001 v1) (ite (= v6 #x0000) (= #x0001 #x0000) true))))"),
    (22, "(not (or (= v10 #x0002) (=> (not (= v9 #x0000)) (ite (= v10 #x0001) (= #x0001 v13) true))))"),
];

/// The 7 of a right release, number 26, so changed that the text is sat: the other
/// one's unlock counts where it was not run, or where its guard is false; the
/// holder's counts where it does not find 0.
const RIGHT_RELEASE_CHANGES: [(usize, &str); 3] = [
    (26, "(not (=> (not (= v9 #x0000)) (ite (= v10 v12) (= #x0002 v11) (ite (= v12 #x0001) (= #x0002 v15) true))))"),
    (26, "(not (or (= v12 #x0002) (ite (= v10 v12) (= #x0002 v11) (ite (= v12 #x0001) (= #x0002 v15) true))))"),
    (26, "(not (or (= v6 #x0002) (ite (= v0 v6) (= #x0000 v1) (ite (= v6 #x0000) (= #x0000 #x0000) true))))"),
];

/// Case A is sat, and is not with one formula changed; with one switch it is
/// unsat, and then is not. So with a wrong release, and a right one.
fn changed(calls: &dyn Calls, solver: Solver, tally: &mut Tally) -> Outcome {
    let (wrong, right) = (wrong_release(2, [0, 1], 0), right_release(2, [0, 1], 0));
    let unsat = UNSAT_CHANGES.iter().map(|change| (case_a(), change, false));
    let sat = SAT_CHANGES.iter().map(|change| (short(), change, true));
    let unsat = unsat.chain(WRONG_RELEASE_CHANGES.iter().map(|change| (wrong.clone(), change, false)));
    let sat = sat.chain(RIGHT_RELEASE_CHANGES.iter().map(|change| (right.clone(), change, true)));
    for (draft, &(number, formula), wanted) in unsat.chain(sat) {
        let whole = text(calls, &draft)?;
        let text = with_assertion(&whole, number, Some(formula));
        tally.holds(text != whole, || format!("assertion {number} is as before"))?;
        let is_sat = matches!(solver.ask(&text, wanted)?, Answer::Sat(_));
        tally.same(is_sat, wanted, || format!("sat with {formula} as assertion {number}"))?;
    }
    Ok(())
}

/// It has no assert and no unlock, and so no model.
fn largest_text(calls: &dyn Calls, solver: Solver, tally: &mut Tally) -> Outcome {
    let answer = solver.ask(&text(calls, &largest())?, false)?;
    tally.holds(matches!(answer, Answer::Unsat), || format!("{answer:?}"))
}
