//! `menduvo make` and `menduvo source` beside the second implementation of the
//! source language: on random cases, on sources written in many ways, on
//! damaged ones, and on both sides of every limit.

use crate::calls::{Calls, Refusal, Verdict};
use crate::command::{Answer, Menduvo};
use crate::compare::SHAPES;
use crate::damage_source::damaged;
use crate::draft::Draft;
use crate::generate::accepted;
use crate::groups::sources_by_hand::examples;
use crate::random::Random;
use crate::report::{outcome_of, Outcome, Report, Tally};
use crate::second::source::{make, source, Fault, Names, Place};
use crate::second::{accept, Wrong};
use crate::write_source::written;

/// How many cases are printed and made again.
const CASES: u64 = 2_000;
/// How many sources are written in many ways, and made and printed.
const WRITTEN: u64 = 1_000;
/// How many of them are shown.
const SHOWN: u64 = 100;
/// How many sources are damaged.
const DAMAGED: u64 = 3_000;

/// Deliberate mistakes, each of which must be found.
const MISTAKES: [Wrong; 6] = [
    Wrong::ColumnsInBytes,
    Wrong::PlainNameStays,
    Wrong::LongName,
    Wrong::TwoNumbers,
    Wrong::RecordAfterLargest,
    Wrong::RecordAtThread,
];

/// What the command was asked and what it answered. Mistakes in the second
/// implementation are held to the same answers.
#[derive(Default)]
struct Asked {
    /// Cases, their names if they have new ones, and their printed sources.
    printed: Vec<(Vec<u8>, Option<Names>, String)>,
    /// Texts, and what was made of them.
    made: Vec<(Vec<u8>, Answer)>,
}

pub fn run(_: &dyn Calls, report: &mut Report) {
    let mut asked = Asked::default();
    let menduvo = match Menduvo::find() {
        Ok(menduvo) => menduvo,
        Err(message) => return report.check("the command", |_| Err(message)),
    };
    report.check("sources worked out by hand", |tally| make_by_hand(&menduvo, &mut asked, tally));
    report.check("cases are printed and made again", |tally| {
        let drafts: Vec<Draft> = (0..CASES).map(|number| some_case(80_000_000 + number)).collect();
        print_and_make(&menduvo, &drafts, &mut asked, tally)
    });
    report.check("sources with names, written in many ways", |tally| make_written(&menduvo, &mut asked, tally));
    report.check("names are shown", |tally| names_are_shown(&menduvo, tally));
    report.check("damaged sources", |tally| {
        let texts: Vec<Vec<u8>> = (0..DAMAGED).map(|number| some_damaged(82_000_000 + number)).collect();
        make_all(&menduvo, texts, &mut asked, tally)?;
        for (what, least) in [("made", 200), ("wrong", 2_000), ("refused", 20), ("no source", 20)] {
            tally.saw_often(what, least)?;
        }
        Ok(())
    });
    for wrong in MISTAKES {
        report.check(&format!("{wrong:?} is found"), |tally| {
            let outcome = outcome_of(|tally| same_all(&asked, wrong, tally), tally);
            tally.holds(outcome.is_err(), || "not by what was asked".to_string())
        });
    }
}

/// An accepted case with its records in order, in turn, or shuffled.
fn some_case(seed: u64) -> Draft {
    let mut random = Random::from_seed(seed);
    let draft = accepted(&mut random, SHAPES[seed as usize % SHAPES.len()]);
    match random.below(3) {
        0 => renumbered(&draft, draft.chains().concat()),
        1 => renumbered(&draft, in_turn(draft.chains())),
        _ => draft,
    }
}

/// The case whose first record is the first of these, and so on.
fn renumbered(draft: &Draft, order: Vec<u16>) -> Draft {
    let mut numbers = vec![0; order.len()];
    for (new, old) in (1..).zip(order) {
        numbers[usize::from(old) - 1] = new;
    }
    draft.renumbered(&numbers)
}

/// The first of each chain, the second of each, and so on.
fn in_turn(chains: Vec<Vec<u16>>) -> Vec<u16> {
    let longest = chains.iter().map(Vec::len).max().unwrap_or(0);
    (0..longest).flat_map(|place| chains.iter().filter_map(move |chain| chain.get(place).copied())).collect()
}

fn some_damaged(seed: u64) -> Vec<u8> {
    let mut random = Random::from_seed(seed);
    let draft = accepted(&mut random, SHAPES[seed as usize % SHAPES.len()]);
    let (text, _) = written(&mut random, &draft);
    damaged(&mut random, &text)
}

/// What the command should make of a text: what the second implementation
/// makes of it.
fn answer(text: &[u8], wrong: Wrong) -> Answer {
    let made = match make(text, wrong) {
        Ok(made) => made,
        Err(Fault::At(place)) => return Answer::Wrong(place),
        Err(Fault::NoSource) => return judged(text.to_vec(), |_| None),
    };
    judged(made.bytes(), |number| made.place_of(number))
}

fn judged(case: Vec<u8>, place_of: impl Fn(u16) -> Option<Place>) -> Answer {
    match accept(&case) {
        Verdict::Accepted => Answer::Made(case),
        Verdict::Refused { number, place } => Answer::Refused(place_of(number), Refusal { number, place }),
    }
}

/// Texts whose answers were worked out beforehand.
fn make_by_hand(menduvo: &Menduvo, asked: &mut Asked, tally: &mut Tally) -> Outcome {
    let examples = examples();
    let answers = menduvo.each(&examples, |menduvo, (text, _)| menduvo.make(text.as_bytes()))?;
    for ((text, wanted), answer) in examples.into_iter().zip(answers) {
        tally.same(in_short(&answer).as_str(), wanted, || format!("making {text:?}"))?;
        same_make(text.as_bytes(), &answer, Wrong::Nothing, tally)?;
        asked.made.push((text.into_bytes(), answer));
    }
    Ok(())
}

fn in_short(answer: &Answer) -> String {
    match answer {
        Answer::Made(_) => "made".to_string(),
        Answer::Wrong(Place { line, column }) => format!("{line}:{column}"),
        Answer::Refused(Some(Place { line, column }), refusal) => format!("refusal {} at {line}:{column}", refusal.number),
        Answer::Refused(None, refusal) => format!("refusal {}", refusal.number),
    }
}

fn print_and_make(menduvo: &Menduvo, drafts: &[Draft], asked: &mut Asked, tally: &mut Tally) -> Outcome {
    let answers = menduvo.each(drafts, |menduvo, draft| {
        let printed = menduvo.print("source", &draft.bytes()).map_err(|message| format!("{message}; case {draft}"))?;
        let made = menduvo.make(printed.as_bytes())?;
        Ok((printed, made))
    })?;
    for (draft, (printed, made)) in drafts.iter().zip(answers) {
        let case = draft.bytes();
        same_print(&case, None, &printed, Wrong::Nothing, tally)?;
        tally.same(&made, &Answer::Made(case.clone()), || format!("making {printed}"))?;
        same_make(printed.as_bytes(), &made, Wrong::Nothing, tally)?;
        asked.made.push((printed.clone().into_bytes(), made));
        asked.printed.push((case, None, printed));
    }
    Ok(())
}

/// Makes sources, prints them, and makes what was printed.
fn make_written(menduvo: &Menduvo, asked: &mut Asked, tally: &mut Tally) -> Outcome {
    let sources: Vec<(Vec<u8>, Names, Draft)> = (0..WRITTEN).map(|number| some_written(81_000_000 + number)).collect();
    let answers = menduvo.each(&sources, |menduvo, (text, ..)| {
        let printed = menduvo.print("source", text).map_err(|message| format!("{message}; {}", shown(text)))?;
        Ok((menduvo.make(text)?, menduvo.make(printed.as_bytes())?, printed))
    })?;
    for ((text, names, draft), (made, made_again, printed)) in sources.into_iter().zip(answers) {
        let case = draft.bytes();
        tally.same(&made, &Answer::Made(case.clone()), || format!("making {}", shown(&text)))?;
        tally.same(&made_again, &made, || format!("making {printed}"))?;
        same_make(&text, &made, Wrong::Nothing, tally)?;
        same_print(&case, Some(&names), &printed, Wrong::Nothing, tally)?;
        let kept = make(&text, Wrong::Nothing).map(|made| made.names);
        tally.same(kept, Ok(names.clone()), || shown(&text))?;
        asked.made.push((text, made));
        asked.printed.push((case, Some(names), printed));
    }
    Ok(())
}

/// Demands that `show` says of each line what the source says of it.
fn names_are_shown(menduvo: &Menduvo, tally: &mut Tally) -> Outcome {
    let sources: Vec<(Vec<u8>, Names, Draft)> = (0..SHOWN).map(|number| some_written(81_000_000 + number)).collect();
    let shows = menduvo.each(&sources, |menduvo, (text, ..)| menduvo.print("show", text))?;
    for ((text, names, draft), show) in sources.into_iter().zip(shows) {
        let printed = source(&draft.bytes(), Some(&names), Wrong::Nothing).unwrap_or_default();
        let in_threads = printed.lines().filter_map(|line| line.strip_prefix("    "));
        let lines: Vec<&str> = in_threads.filter(|line| !line.starts_with("local ")).collect();
        let begins_with_number = |row: &&str| row.trim_start().starts_with(|first: char| first.is_ascii_digit());
        let rows: Vec<&str> = show.lines().filter(|row| row.starts_with("  ")).filter(begins_with_number).collect();
        tally.same(rows.len(), lines.len(), || format!("the lines of {}", shown(&text)))?;
        for (row, line) in rows.into_iter().zip(lines) {
            let (guard, action) = guard_and_action(line);
            let says = |words: &str| format!("{row}  ").contains(&format!("  {words}  "));
            tally.holds(says(guard) && says(action), || format!("{row} does not say {line}"))?;
        }
    }
    Ok(())
}

/// The parts of a printed line, without its record.
fn guard_and_action(line: &str) -> (&str, &str) {
    let line = behind("record ", line).map_or(line, |(_, rest)| rest);
    behind("when ", line).unwrap_or(("always", line))
}

/// What stands between this word and the colon, and what stands after it.
fn behind<'a>(word: &str, line: &'a str) -> Option<(&'a str, &'a str)> {
    line.strip_prefix(word)?.split_once(": ")
}

fn some_written(seed: u64) -> (Vec<u8>, Names, Draft) {
    let draft = some_case(seed);
    let (text, names) = written(&mut Random::from_seed(seed), &draft);
    (text, names, draft)
}

fn make_all(menduvo: &Menduvo, texts: Vec<Vec<u8>>, asked: &mut Asked, tally: &mut Tally) -> Outcome {
    let answers = menduvo.each(&texts, |menduvo, text| menduvo.make(text))?;
    for (text, answer) in texts.into_iter().zip(answers) {
        tally.saw(match &answer {
            Answer::Made(_) => "made",
            Answer::Wrong(_) => "wrong",
            Answer::Refused(Some(_), _) => "refused",
            Answer::Refused(None, _) => "no source",
        });
        same_make(&text, &answer, Wrong::Nothing, tally)?;
        asked.made.push((text, answer));
    }
    Ok(())
}

/// Everything that was asked, beside the second implementation with a mistake.
fn same_all(asked: &Asked, wrong: Wrong, tally: &mut Tally) -> Outcome {
    for (text, answer) in &asked.made {
        same_make(text, answer, wrong, tally)?;
    }
    let mut printed = asked.printed.iter();
    printed.try_for_each(|(case, names, printed)| same_print(case, names.as_ref(), printed, wrong, tally))
}

fn same_make(text: &[u8], made: &Answer, wrong: Wrong, tally: &mut Tally) -> Outcome {
    tally.same(made, &answer(text, wrong), || format!("making {}", shown(text)))
}

fn same_print(case: &[u8], names: Option<&Names>, printed: &str, wrong: Wrong, tally: &mut Tally) -> Outcome {
    let wanted = source(case, names, wrong).unwrap_or_default();
    tally.same(printed, &wanted, || "printing".to_string())
}

fn shown(text: &[u8]) -> String {
    format!("{:?}", String::from_utf8_lossy(text))
}
