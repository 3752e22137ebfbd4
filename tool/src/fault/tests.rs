//! What violates in many runs, as the library and the display see it, of cases with many locks and unlocks.

use super::Fault;
use crate::calls::{Ending, Loaded};
use crate::case::Kind;
use crate::input::Source;
use crate::rule::{late_records, moved};
use crate::run;
use crate::source::Draft;
use crate::walk::{first_fault, walk, Event};
use menduvo::Refusal;
use std::collections::BTreeMap;
use std::ffi::OsStr;

/// Numbers that look like chance, and are the same in every run.
struct Dice(u64);

impl Dice {
    fn below(&mut self, limit: u16) -> u16 {
        self.0 = self.0.wrapping_mul(6364136223846793005).wrapping_add(1442695040888963407);
        ((self.0 >> 33) % u64::from(limit)) as u16
    }
}

/// A record's kind, guard, target, op, a, b and c: mostly locks and unlocks, among stores, loads, computes and asserts.
fn line(dice: &mut Dice, mutexes: u16) -> [u16; 7] {
    let guard = [0, 0, 1 + dice.below(2), 17 + dice.below(2)][usize::from(dice.below(4))];
    match dice.below(10) {
        0 => [1, guard, dice.below(2), 5, dice.below(2), 16, dice.below(2)],
        1 => [2, guard, 0, 1, dice.below(2), 16, 1],
        2 => [3, guard, dice.below(2), 0, 0, 0, 0],
        3 => [5, guard, 0, 0, dice.below(2), 0, 0],
        4 => [6, guard, 0, 4, dice.below(2), 16, dice.below(4)],
        5..=6 => [7, guard, dice.below(mutexes), 0, 0, 0, 0],
        _ => [8, guard, dice.below(mutexes), 0, 0, 0, 0],
    }
}

fn loaded(dice: &mut Dice) -> Loaded {
    let (threads, switches, mutexes) = (2 + dice.below(3), dice.below(8), 1 + dice.below(4));
    let mut header = vec![threads, switches, 1, mutexes, 0, 0, 0, 0, 0, 0, 0, 0, 0, 0, 0, 0];
    let mut records = Vec::new();
    for thread in 0..threads {
        let lines = dice.below(7);
        let first = records.len() as u16 / 8 + 1;
        header[4 + usize::from(thread)] = if lines > 0 { first } else { 0 };
        for line in 1..=lines {
            records.push(if line < lines { first + line } else { 0 });
            records.extend(self::line(dice, mutexes));
        }
    }
    let bytes = header.into_iter().chain(records).flat_map(u16::to_le_bytes).collect();
    Loaded::of(&Source::new(OsStr::new("random")), Draft::of_bytes(bytes)).expect("the case is accepted")
}

fn schedule(dice: &mut Dice, loaded: &Loaded) -> Vec<u16> {
    let case = &loaded.case;
    let mut left: Vec<u16> = case.chains.iter().map(|chain| chain.len() as u16).collect();
    let mut length = |block: usize| {
        let left = &mut left[case.thread_of_block(block)];
        let length = dice.below(*left + 1);
        *left -= length;
        length
    };
    (0..=case.switches).map(&mut length).collect()
}

/// What a line finds is what the display sees before it, and only where it is reached with a true guard.
#[test]
fn what_lines_find() {
    let mut dice = Dice(11);
    let mut seen: BTreeMap<&str, usize> = BTreeMap::new();
    let mut saw = |what: &'static str| *seen.entry(what).or_default() += 1;
    for number in 0..1500 {
        let loaded = loaded(&mut dice);
        let schedule = schedule(&mut dice, &loaded);
        let steps = walk(&loaded.case, &schedule).steps;
        let starts: Vec<Vec<u16>> =
            std::iter::once(loaded.case.items_at_start()).chain(steps.iter().map(|step| step.items.clone())).collect();
        for record in loaded.case.asserts_and_unlocks() {
            let place = steps.iter().position(|step| step.record == record && !matches!(step.event, Event::Skipped(_)));
            let wanted = place.map(|place| starts[place].clone());
            assert_eq!(loaded.items_before(record, &schedule), wanted, "case {number}, record {record}");
            if let Some(place) = place {
                // The same by the run of the case itself that stops right before the line.
                let cut: Vec<u16> = (0..=loaded.case.switches)
                    .map(|block| steps[..place].iter().filter(|step| step.block == block).count() as u16)
                    .collect();
                let (_, items) = loaded.replay("a run cut short", &cut).expect("it is taken");
                assert_eq!(Some(items), wanted, "case {number}, record {record}");
            }
            saw(if wanted.is_some() { "reached" } else { "not reached" });
            if loaded.case.record(record).kind == Kind::Unlock {
                let fault = place.and_then(|place| match steps[place].event {
                    Event::Stranger(_, found) => Some(Fault { record, found: Some(found) }),
                    _ => None,
                });
                assert_eq!(loaded.by_stranger(record, &schedule), fault, "case {number}, record {record}");
                saw(match fault {
                    None => "no stranger",
                    Some(Fault { found: Some(0), .. }) => "free",
                    Some(_) => "held",
                });
            }
        }
        // It fails where library and display disagree, also about whose a mutex was.
        let run = run::replay(&loaded, "a schedule", &schedule).expect("they agree");
        match run.ending {
            Ending::Violated(first) => {
                assert_eq!(Some(first), first_fault(&steps), "case {number}");
                saw(if first.found.is_none() { "first an assert" } else { "first an unlock" });
            }
            Ending::Clean => saw("clean"),
            Ending::CutOff(_) => saw(if run.fault_in_vain().is_some() { "in vain" } else { "cut off" }),
        }
    }
    let often =
        ["reached", "not reached", "no stranger", "free", "held", "first an assert", "first an unlock", "clean", "in vain"];
    assert!(often.iter().all(|what| seen.get(what).is_some_and(|&times| times >= 30)), "{seen:?}");
}

/// A schedule with its invisible lines in the block of the line before keeps the rule, and does the same: where it is legal it
/// violates at the same lines, and leaves the same items. So where the one violates the library fills the other, and refuses the one
/// at the line that this display finds late first.
#[test]
fn moved_schedules() {
    let mut dice = Dice(13);
    let mut seen: BTreeMap<&str, usize> = BTreeMap::new();
    for number in 0..5000 {
        let loaded = loaded(&mut dice);
        let (case, schedule) = (&loaded.case, schedule(&mut dice, &loaded));
        let moved = moved(case, &schedule);
        assert_eq!(late_records(case, &moved), [], "case {number}");
        assert_eq!(late_records(case, &schedule).is_empty(), moved == schedule, "case {number}");
        let (ending, items) = loaded.replay("a schedule", &schedule).expect("it is taken");
        let (moved_ending, moved_items) = loaded.replay("a moved schedule", &moved).expect("it is taken");
        let faults = |schedule: &[u16]| {
            let steps = walk(case, schedule).steps.into_iter();
            let faults = steps.filter(|step| matches!(step.event, Event::Broken(_) | Event::Stranger(..)));
            faults.map(|step| (step.record, step.event)).collect::<BTreeMap<u16, Event>>()
        };
        let (what, same) = match (ending, moved_ending) {
            (Ending::Violated(_), Ending::Violated(_)) => ("violated", faults(&schedule) == faults(&moved)),
            (Ending::Clean, Ending::Clean) => ("clean", true),
            (Ending::CutOff(_), Ending::CutOff(_)) => ("cut off", true),
            _ => ("another ending", false),
        };
        assert!(same, "case {number}: {ending:?}, {moved_ending:?}");
        assert!(matches!(ending, Ending::CutOff(_)) || items == moved_items, "case {number}");
        *seen.entry(if moved == schedule { "kept" } else { what }).or_default() += 1;
        let violates = matches!(ending, Ending::Violated(_));
        let refusal = match late_records(case, &schedule).first() {
            _ if !violates => Some(Refusal { number: 16, place: 0 }),
            Some(&place) => Some(Refusal { number: 17, place }),
            None => None,
        };
        assert_eq!(loaded.fill(&schedule).err(), refusal, "case {number}");
        let decoded = loaded.fill(&moved).map(|assignment| loaded.decode("what is filled", &assignment).expect("it meets"));
        assert_eq!(decoded.ok(), violates.then_some(moved), "case {number}");
    }
    assert!(
        ["kept", "violated", "clean", "cut off"].iter().all(|what| seen.get(what).is_some_and(|&times| times >= 30)),
        "{seen:?}"
    );
}

/// The library's text has a part for each assert and unlock: with all of them it is the text itself.
#[test]
fn every_line_has_a_part() {
    let mut dice = Dice(12);
    for number in 0..300 {
        let loaded = loaded(&mut dice);
        let (lines, text) = (loaded.case.asserts_and_unlocks(), loaded.text().expect("a text"));
        assert_eq!(loaded.text_about(&lines).expect("its parts"), text, "case {number}");
        for &record in &lines {
            let alone = loaded.text_about(&[record]).expect("its part");
            let part = alone.lines().rev().nth(1).and_then(|goal| goal.strip_prefix("(assert (or ")?.strip_suffix(" false))"));
            let part = part.unwrap_or_else(|| panic!("case {number}, record {record}: {alone}"));
            let variable = format!("v{}", 2 * record - 1);
            let block = format!("(not (or (= v{} ", 2 * record - 2);
            match loaded.case.record(record).kind {
                Kind::Assert => assert_eq!(part, format!("(= {variable} #x0000)"), "case {number}, record {record}"),
                _ => assert!(part.starts_with(&block), "case {number}, record {record}: {part}"),
            }
        }
    }
}
