//! Demand 3 on one case, by trying everything, inputs with some values: the
//! violating schedules that keep the rule of the 8s are exactly those decoded from
//! the assignments that meet the table, each from one assignment, to which it is
//! filled. All violating schedules are those of the assignments that meet the table
//! without its 8s, and each has one that keeps the rule.

use std::collections::BTreeSet;

use crate::ask::{check, decode, fill, fills, marks, replay};
use crate::calls::{Calls, Checked, Decoded, Refusal, Replayed};
use crate::compare_text::script_of;
use crate::determined::Determined;
use crate::draft::Draft;
use crate::enumerate::{runs_all_lines, schedules, with_each};
use crate::generate::{accepted, Shape};
use crate::random::Random;
use crate::report::{Outcome, Tally};
use crate::rule::{first_late, keeps_rule, moved};
use crate::script::Script;
use crate::search::block_numbers;
use crate::table::{table_of, Row, Table};
use crate::watch::{watch, written_down};

/// A random case with few enough inputs to try several values for each.
pub fn small_case(random: &mut Random, shape: Shape) -> Draft {
    let mut drafts = (0..1_000).map(|_| accepted(random, shape));
    let found = drafts.find(|draft| draft.inputs().len() <= 2);
    found.expect("such cases are not rare")
}

/// Compares on random cases; inputs take the values given, among which is 0.
/// What is met is noted, so that a test can demand that it was enough.
pub fn compare(calls: &dyn Calls, shape: Shape, cases: u64, input_values: &[u16], tally: &mut Tally) -> Outcome {
    for seed in 0..cases {
        let mut random = Random::from_seed(30_000_000 + seed);
        let draft = small_case(&mut random, shape);
        compare_case(calls, &draft, input_values, &mut random, tally)
            .map_err(|message| format!("seed {seed}: {message}; case {draft}"))?;
    }
    Ok(())
}

fn compare_case(calls: &dyn Calls, draft: &Draft, input_values: &[u16], random: &mut Random, tally: &mut Tally) -> Outcome {
    let written = Written::of(calls, draft, tally)?;
    tally.same(written.table.variables, draft.variables(), || "variables".into())?;
    let violating = violating_schedules(calls, draft, &written, input_values, tally)?;
    let keeping: Vec<Vec<u16>> = violating.iter().filter(|schedule| keeps_rule(draft, schedule)).cloned().collect();
    let Meeting { with_eights, without } = meeting_assignments(calls, draft, &written, input_values, tally)?;
    let mut decoded = Vec::new();
    for numbers in &with_eights {
        let schedule = decode(calls, draft, numbers)?;
        // "filling a decoded one restores the assignment"
        tally.same(&fill(calls, draft, &schedule)?, numbers, || format!("{schedule:?}, decoded, filled"))?;
        decoded.push(schedule);
    }
    decoded.sort();
    // Sorted lists, not sets: a schedule decoded from two assignments is found.
    tally.same(&decoded, &keeping, || "decoded schedules, and those that violate and keep the rule".into())?;
    // "the solver's yes or no is unchanged by the new constraint"
    tally.same(with_eights.is_empty(), without.is_empty(), || "nothing meets the table, with and without its 8s".into())?;
    let seen = |schedules: &[Vec<u16>]| schedules.iter().map(|schedule| written_down(draft, schedule)).collect::<BTreeSet<_>>();
    tally.same(&seen(&keeping), &with_eights, || "what is seen of schedules that keep the rule".into())?;
    tally.same(&seen(&violating), &without, || "what is seen, and what meets the table without its 8s".into())?;
    tally.same(without.len(), violating.len(), || "assignments and schedules".into())?;
    if keeping.len() < violating.len() {
        tally.saw("a case whose violating schedules do not all keep the rule");
    }
    values_are_determined(calls, draft, &with_eights, random, tally)
}

/// A case's table, and its text as it was read.
pub struct Written {
    pub table: Table,
    script: Script,
}

impl Written {
    /// Demands that each has as many constraints as the case should have.
    pub fn of(calls: &dyn Calls, draft: &Draft, tally: &mut Tally) -> Result<Written, String> {
        let table = table_of(calls, &draft.bytes())?;
        tally.same(table.rows.len(), draft.constraints(), || "constraints".into())?;
        Ok(Written { table, script: script_of(calls, draft, tally)? })
    }

    /// The first constraint that fails by the text and is no 8, from 1.
    fn first_failed_but_8s(&self, numbers: &[u16]) -> Option<usize> {
        let mut places = self.script.truths(numbers).zip(&self.table.rows);
        places.position(|(is_true, row)| !is_true && row[0] != 8).map(|place| place + 1)
    }
}

/// Replays every schedule and gives those that violate, in ascending order.
fn violating_schedules(
    calls: &dyn Calls,
    draft: &Draft,
    written: &Written,
    input_values: &[u16],
    tally: &mut Tally,
) -> Result<Vec<Vec<u16>>, String> {
    let mut violating = Vec::new();
    let all = schedules(draft, input_values);
    for schedule in &all {
        if let Replayed::Violated(_) = seen_alike(calls, draft, written, schedule, tally)? {
            violating.push(schedule.clone());
        }
    }
    match violating.len() {
        0 => tally.saw("a case without violation"),
        some if some < all.len() => tally.saw("a case with and without violation"),
        _ => tally.saw("a case that always violates"),
    }
    violating.sort();
    Ok(violating)
}

/// Replays one schedule, and demands that checker, decoder and text see its assignment
/// in the same way, but for the 8s where it does not keep the rule; that it is filled
/// just where it violates and keeps it; and that the schedule which keeps it in its
/// place has the same outcome. Gives the reply.
pub fn seen_alike(
    calls: &dyn Calls,
    draft: &Draft,
    written: &Written,
    schedule: &[u16],
    tally: &mut Tally,
) -> Result<Replayed, String> {
    let (reply, items) = replay(calls, draft, schedule);
    let watched = watch(draft, schedule);
    let (numbers, first) = (&watched.assignment, watched.violations.first());
    let failed = written.first_failed_but_8s(numbers);
    let rows = &written.table.rows;
    let agrees = match (reply, failed) {
        (Replayed::Violated(line), None) => first == Some(&line),
        // Only the 7, which is the last, is not met.
        (Replayed::Clean, Some(row)) => first.is_none() && row == rows.len(),
        // The 5 of the line that failed is not met, and maybe one before it.
        (Replayed::CutOff(line), Some(row)) => {
            let is_its_5 = |row: &Row| row[0] == 5 && row[1] == line;
            rows[row - 1][0] == 5 && rows[row - 1..].iter().any(is_its_5)
        }
        // Such a schedule stands for no run; filling it says nothing.
        (Replayed::Refused { number: 14, .. }, _) => true,
        _ => false,
    };
    tally.holds(agrees, || format!("{schedule:?}: {reply:?}, but constraint {failed:?} fails"))?;
    fills(calls, draft, schedule, filled_or_refused(draft, schedule, reply, numbers), tally)?;
    let checked = seen_by_checker(calls, draft, written, schedule, (numbers, failed), tally)?;
    if let Replayed::Violated(_) = reply {
        seen_by_decoder(calls, draft, schedule, numbers, checked, tally)?;
    }
    if matches!(reply, Replayed::Violated(_) | Replayed::Clean) {
        watched.note(tally);
        same_when_moved(calls, draft, schedule, (reply, items), &watched.violations, tally)?;
    }
    tally.saw(match reply {
        Replayed::Violated(_) if runs_all_lines(draft, schedule) => "violated by all lines",
        Replayed::Violated(_) => "violated",
        Replayed::Clean => "clean",
        Replayed::CutOff(_) => "cut off",
        Replayed::Refused { .. } => "refused 14",
    });
    Ok(reply)
}

/// What a schedule with this reply is filled to: the assignment, where it violates and
/// keeps the rule. Else the refusal that the replayer gives, or 16 where the run does
/// not violate, or 17 and the first line that is late.
pub fn filled_or_refused<'a>(
    draft: &Draft,
    schedule: &[u16],
    reply: Replayed,
    numbers: &'a [u16],
) -> Result<&'a [u16], Refusal> {
    match reply {
        Replayed::Violated(_) => first_late(draft, schedule).map_or(Ok(numbers), |place| Err(Refusal { number: 17, place })),
        Replayed::Clean | Replayed::CutOff(_) => Err(Refusal { number: 16, place: 0 }),
        Replayed::Refused { number, place } => Err(Refusal { number, place }),
    }
}

/// The checker names the first constraint that fails: where the schedule does not
/// keep the rule it is the 8 of the first line that is late, since the 1s, 2s and 3s
/// are met. Gives its answer.
fn seen_by_checker(
    calls: &dyn Calls,
    draft: &Draft,
    written: &Written,
    schedule: &[u16],
    (numbers, failed): (&[u16], Option<usize>),
    tally: &mut Tally,
) -> Result<Checked, String> {
    let failed = match first_late(draft, schedule) {
        Some(late) => {
            let place = written.table.place_of_8(late);
            Some(place.ok_or_else(|| format!("{schedule:?}: line {late} has no 8"))?)
        }
        None => failed,
    };
    let wanted = failed.map_or(Checked::Meets, |place| Checked::Fails(place as u16));
    tally.same(check(calls, draft, numbers), wanted, || format!("{schedule:?} written down, {numbers:?}"))?;
    Ok(wanted)
}

/// The decoder restores a violating schedule that keeps the rule, and refuses the
/// assignment of another with the constraint that the checker names.
fn seen_by_decoder(
    calls: &dyn Calls,
    draft: &Draft,
    schedule: &[u16],
    numbers: &[u16],
    checked: Checked,
    tally: &mut Tally,
) -> Outcome {
    let about = || format!("{schedule:?} written down, {numbers:?}");
    let Checked::Fails(place) = checked else {
        return tally.same(decode(calls, draft, numbers)?.as_slice(), schedule, about);
    };
    let decoded = calls.decode(&draft.bytes(), numbers, &mut marks(draft.schedule_numbers()));
    tally.same(decoded, Decoded::Refused { number: 15, place }, about)
}

/// What is noted of legal runs and the rule.
pub const MOVED: [&str; 5] = [
    "violated, and the rule kept",
    "clean, and the rule kept",
    "clean, and moved",
    "violated, and moved",
    "violated, and at another line first when moved",
];

/// A legal run has one that keeps the rule, with the same input values: it ends with
/// the same items, and violates at the same lines, though maybe in another order.
fn same_when_moved(
    calls: &dyn Calls,
    draft: &Draft,
    schedule: &[u16],
    (reply, items): (Replayed, Vec<u16>),
    violations: &[u16],
    tally: &mut Tally,
) -> Outcome {
    let moved = moved(draft, schedule);
    let about = || format!("{schedule:?} moved to {moved:?}");
    tally.same(keeps_rule(draft, schedule), moved == schedule, about)?;
    tally.holds(keeps_rule(draft, &moved), about)?;
    tally.same(&schedule[draft.blocks()..], &moved[draft.blocks()..], about)?;
    let (moved_reply, moved_items) = replay(calls, draft, &moved);
    let violates = |reply: Replayed| matches!(reply, Replayed::Violated(_));
    tally.same(violates(moved_reply), violates(reply), about)?;
    tally.holds(violates(reply) || moved_reply == Replayed::Clean, about)?;
    tally.same(moved_items, items, about)?;
    let in_order = |mut lines: Vec<u16>| {
        lines.sort();
        lines
    };
    let watched = watch(draft, &moved);
    fills(calls, draft, &moved, filled_or_refused(draft, &moved, moved_reply, &watched.assignment), tally)?;
    tally.same(in_order(watched.violations.clone()), in_order(violations.to_vec()), about)?;
    let place = match (moved == schedule, violates(reply)) {
        (true, true) => 0,
        (true, false) => 1,
        (false, false) => 2,
        (false, true) if moved_reply == reply => 3,
        (false, true) => 4,
    };
    tally.saw(MOVED[place]);
    Ok(())
}

/// All assignments that meet the table, and that meet it but for its 8s, whose free
/// inputs have one of the values.
struct Meeting {
    with_eights: BTreeSet<Vec<u16>>,
    without: BTreeSet<Vec<u16>>,
}

/// Block numbers are searched without asking the 8s; all else is then determined.
/// What a search with the 8s leaves is what the checker takes.
fn meeting_assignments(
    calls: &dyn Calls,
    draft: &Draft,
    written: &Written,
    input_values: &[u16],
    tally: &mut Tally,
) -> Result<Meeting, String> {
    let inputs = draft.inputs();
    let mut choices = vec![Vec::new()];
    for _ in &inputs {
        choices = with_each(&choices, input_values);
    }
    let table = &written.table;
    let staying: BTreeSet<Vec<u16>> = block_numbers(draft, table).into_iter().collect();
    let mut meeting = Meeting { with_eights: BTreeSet::new(), without: BTreeSet::new() };
    for blocks in block_numbers(draft, &table.without_eights()) {
        for choice in &choices {
            let mut by_record = vec![0; draft.records.len()];
            for (&record, &value) in inputs.iter().zip(choice) {
                by_record[usize::from(record) - 1] = value;
            }
            let numbers = Determined::assignment(draft, table, &blocks, &by_record)?;
            let meets = check(calls, draft, &numbers) == Checked::Meets;
            let meets_without = written.first_failed_but_8s(&numbers).is_none();
            tally.same(meets, meets_without && staying.contains(&blocks), || format!("{numbers:?} meets the table"))?;
            if meets {
                meeting.with_eights.insert(numbers.clone());
            }
            if meets_without {
                meeting.without.insert(numbers);
            }
        }
    }
    Ok(meeting)
}

/// Changing the value of a line that was not run must make an assignment fail
/// that meets the table; without inputs, so must changing any value or block
/// value. Then there is no second one with these block numbers.
fn values_are_determined(
    calls: &dyn Calls,
    draft: &Draft,
    meeting: &BTreeSet<Vec<u16>>,
    random: &mut Random,
    tally: &mut Tally,
) -> Outcome {
    let block_numbers_end = 2 * draft.records.len();
    let is_value = |variable: &usize| variable % 2 == 1 || *variable >= block_numbers_end;
    for numbers in meeting {
        let is_of_unrun = |variable: usize| variable < block_numbers_end && numbers[variable - 1] == draft.unrun_block();
        let is_determined = |variable: &usize| draft.inputs().is_empty() || is_of_unrun(*variable);
        let values: Vec<usize> = (0..draft.variables()).filter(is_value).filter(is_determined).collect();
        if values.is_empty() {
            continue;
        }
        let variable = random.pick(&values);
        let mut changed = numbers.clone();
        changed[variable] ^= 1 << random.below(16);
        let checked = check(calls, draft, &changed);
        tally.holds(matches!(checked, Checked::Fails(_)), || format!("v{variable} of {numbers:?} is not determined"))?;
    }
    Ok(())
}
