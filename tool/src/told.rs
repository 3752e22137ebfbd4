//! `solve CASE` in words: what the solvers say, what the library makes of it, what it means, and which lines it is about.

use crate::calls::{Ending, Loaded};
use crate::failure::{Failure, Status};
use crate::input::Source;
use crate::name::shown;
use crate::output::Output;
use crate::reach::{has_no_block, plainly_nothing_in_words, Reach, Reached};
use crate::solve::{Found, Solved, Verdict, Wanted};
use crate::summary::Summary;
use crate::words::{all, count, enumeration, numbers_in_a_line, numbers_in_lines, record_in_words, these};
use std::ffi::OsStr;

/// `solve CASE`.
pub fn one(source: &Source, wanted: &Wanted, output: &mut Output) -> Result<Status, Failure> {
    let loaded = Loaded::from(source)?.asked_about(wanted.record())?;
    if let Some(keep) = &wanted.keep {
        keep.prepare(source)?;
    }
    output.say(&question(source, &loaded))?;
    if let Some(words) = plainly_nothing_in_words(&loaded) {
        output.say(&format!("{words}\n"))?;
    }
    let asking = wanted.settings.asking(false)?;
    if let Some(keep) = &wanted.keep {
        if let Some(filed) = keep.filed(&loaded, wanted, &asking)? {
            return resumed(&filed, &keep.folder, wanted, output);
        }
        keep.clear(&loaded.stem)?;
    }
    let names = asking.names();
    let mut told = Ok(());
    let solved = wanted.solve(&loaded, &asking, &mut |verdict| {
        let text = match verdict {
            Verdict::Violated(found) if wanted.short && found.short.is_none() => not_yet_short(&loaded, found),
            _ => answer(&loaded, &names, verdict),
        };
        if told.is_ok() {
            told = output.say(&text);
        }
        if let (Err(failure), None) = (&told, &wanted.keep) {
            // Nobody waits for the rest, which may take long. The guard ends what is still asked.
            failure.report();
            std::process::exit(failure.status());
        }
    })?;
    let told = told.and_then(|()| output.say(&format!("{}{}", reached(&loaded, &solved.reach), warning(&solved))));
    let summary = Summary::of_solved(&loaded, &asking, &solved, wanted.strict);
    let kept = wanted.keep.as_ref().map_or(Ok(()), |keep| keep.keep(&loaded, &asking, &solved, &summary));
    match (kept, &solved.verdict) {
        // A violation is not hidden by what happens to its files.
        (Err(failure), Verdict::Violated(_)) => failure.report(),
        (kept, _) => kept?,
    }
    // What cannot be told is kept all the same.
    told?;
    Status::of(solved.status(wanted.strict)).map_err(|_| Failure::Other(solved.verdict.message()))
}

/// What is asked: of which case, with which n where it was chosen, about which line where it is one alone, and how much.
fn question(source: &Source, loaded: &Loaded) -> String {
    let constraints = count(loaded.table.rows.len(), "constraint", "constraints");
    let variables = count(loaded.table.variables, "variable", "variables");
    let asked = loaded.asked.map(|record| format!("asked about {} alone\n", record_in_words(&loaded.case, record)));
    format!("{}: {constraints} over {variables}\n{}", source.name_and_bound(), asked.unwrap_or_default())
}

/// An answer that was filed before.
fn resumed(filed: &Summary, folder: &OsStr, wanted: &Wanted, output: &mut Output) -> Result<Status, Failure> {
    let by = filed.filed_by.as_deref().unwrap_or("a solver");
    output.say(&format!("filed in {} already, by {by}: {}: {}\n", shown(folder), filed.word, filed.note))?;
    Status::of(filed.status(wanted.strict))
}

/// What the solvers say, and what the library makes of it. Where there is no answer, the failure says why.
pub fn answer(loaded: &Loaded, solvers: &[&str], verdict: &Verdict) -> String {
    match (verdict.found(), verdict) {
        (Some(found), _) => violated(loaded, solvers, found),
        (None, Verdict::Unsat) => unsat(loaded, solvers),
        (None, _) => String::new(),
    }
}

fn violated(loaded: &Loaded, solvers: &[&str], found: &Found) -> String {
    let Found { solver, assignment, schedule, run, fault, left_out, short } = found;
    let left_out = left_out.as_ref().map(|words| format!("({words})\n")).unwrap_or_default();
    let asked = match run.ending {
        Ending::Violated(first) if first.record != fault.record => {
            let whose = fault.whose(&loaded.case).map(|whose| format!(" ({whose})")).unwrap_or_default();
            let (record, is, first) = (fault.record, fault.predicate(), first.record);
            format!("record {record}, which was asked about, {is} too{whose}, after record {first}\n")
        }
        _ => String::new(),
    };
    format!(
        "{solver} says sat. Its assignment:\n{}{left_out}checked: it meets {}\ndecoded: schedule {}\n{}{asked}{}",
        numbers_in_lines(assignment),
        all(loaded.table.rows.len(), "constraint", "constraints"),
        numbers_in_lines(schedule),
        run.text(&loaded.case, schedule),
        short.as_ref().map(|short| short.text(&loaded.case, solvers)).unwrap_or_default()
    )
}

/// The run that was found first, in short: making it short may take long, or be ended.
fn not_yet_short(loaded: &Loaded, found: &Found) -> String {
    let (solver, fault) = (&found.solver, loaded.fault_in_words(found));
    format!(
        "{solver} says sat, and a run is found: {fault}; schedule {}a shorter one is asked for\n",
        numbers_in_lines(&found.schedule)
    )
}

/// What unsat means, and what it does not.
fn unsat(loaded: &Loaded, solvers: &[&str]) -> String {
    let rows = loaded.table.rows.len();
    let switches = loaded.case.switches;
    let bound = if switches == 1 { "switch" } else { "switches" };
    let threads = loaded.case.threads;
    let (constraints, place, other) = match loaded.asked {
        None => (these(rows, "constraint", "constraints"), String::new(), "no run violates"),
        Some(record) => {
            let others = count(rows - 1, "constraint", "constraints");
            let constraints = format!("the part of record {record} in the last constraint and the {others} before it");
            (constraints, format!(" at record {record}"), "no run violates elsewhere, or there")
        }
    };
    let proved = match loaded.asked {
        None => "What the constraints say is proved. ",
        Some(_) => {
            "What the constraints say is proved, of the last one as a whole; what a part of it says is its definition's.\n"
        }
    };
    let names = enumeration(solvers);
    let (say, word) = match solvers.len() {
        1 => ("says", format!("{names}'s own")),
        _ => ("say", format!("{names}'s")),
    };
    format!(
        "{names} {say} unsat: nothing meets {constraints}.\n\
         It means: no legal run violates{place} within n = {switches} {bound}, in round robin: block i (0 to {switches})\n\
         belongs to thread i modulo {threads}, and a thread that runs no line still uses its turn. A run violates where an\n\
         assert is zero, or where a thread unlocks a mutex that it does not hold. It is legal when every assume\n\
         held and every lock was free; a thread may stop after any of its lines.\n\
         It does not mean: that {other} with more switches or in another order of threads; that\n\
         threads get to their ends, or cannot wait for each other for ever: a run that comes to a taken lock or a\n\
         failed assume does not count, only one that stops before it; that anything was checked of an assert or\n\
         unlock that no legal run reaches; that the case says what the controller does.\n\
         {proved}That nothing meets them is {word} word, and is not checked here.\n"
    )
}

/// For each assert and unlock whether it is reached.
pub fn reached(loaded: &Loaded, reach: &Reach) -> String {
    let n = loaded.case.switches;
    let mut text = format!("{}:\n", reach.sort.many());
    for (record, reached) in &reach.lines {
        let words = match reached {
            Reached::Yes(schedule) => format!("reached, e.g. schedule {}", numbers_in_a_line(schedule)),
            Reached::Never if has_no_block(&loaded.case, *record) => {
                format!("NEVER REACHED: its thread has no block within n = {n}, and nothing was checked of it")
            }
            Reached::Never => format!("NEVER REACHED within n = {n}: nothing was checked of it"),
            Reached::NotKnown(why) => {
                format!("not known whether it is reached: {}", why.lines().next().unwrap_or_default())
            }
        };
        text.push_str(&format!("  {}: {}\n", record_in_words(&loaded.case, *record), words.trim_end()));
    }
    let by_solvers = |(record, reached): &(u16, Reached)| *reached == Reached::Never && !has_no_block(&loaded.case, *record);
    if reach.lines.iter().any(by_solvers) {
        let names =
            reach.questions.last().map_or(Vec::new(), |last| last.asked.iter().map(|one| one.solver.as_str()).collect());
        text.push_str(&format!(
            "  (NEVER REACHED is the word of {}; a schedule is replayed by the proved library)\n",
            enumeration(&names)
        ));
    }
    if reach.lines.is_empty() {
        text.push_str("  none\n");
    }
    text
}

/// That an unsat says nothing, or not enough.
pub fn warning(solved: &Solved) -> String {
    let one = solved.reach.sort.one();
    match (&solved.verdict, solved.reach.note()) {
        (Verdict::Unsat, Some(_)) if solved.reach.is_vacuous() => {
            let why = match (&solved.reach.plain, solved.reach.lines.len()) {
                (Some(plain), _) => plain.clone(),
                (None, 1) => format!("no legal run within the bound reaches the {one} with a true guard"),
                (None, _) => format!("no legal run within the bound reaches an {one} with a true guard"),
            };
            format!("VACUOUS: this unsat says nothing: {why}.\n")
        }
        (Verdict::Unsat, Some(note)) => format!("This unsat does not say something about every {one}: {note}.\n"),
        _ => String::new(),
    }
}
