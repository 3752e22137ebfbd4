//! Case A, its listing, and the table P1 to P10 of document 01.

use crate::ask::{check, decode, listing, replay};
use crate::calls::{Calls, Checked, Refusal, Replayed, Verdict};
use crate::determined::Determined;
use crate::draft::Draft;
use crate::enumerate::{block_lengths, runs_all_lines};
use crate::report::{Outcome, Report, Tally};
use crate::rule::keeps_rule;
use crate::samples::{case_a, CASE_A_LISTING};
use crate::search::block_numbers;
use crate::table::table_of;

const P1_ASSIGNMENT: [u16; 12] = [0, 0, 0, 1, 2, 5, 2, 0, 1, 5, 1, 5];
const P2_ASSIGNMENT: [u16; 12] = [2, 5, 2, 6, 2, 6, 2, 0, 1, 5, 0, 5];

pub fn run(calls: &dyn Calls, report: &mut Report) {
    report.check("listing", |tally| {
        let text = listing(calls, &case_a().bytes())?;
        tally.same(text.as_str(), CASE_A_LISTING, || "the listing".into())
    });
    report.check("table", |tally| {
        let text = table_of(calls, &case_a().bytes())?.listing();
        tally.same(text.as_str(), CASE_A_LISTING, || "the table".into())
    });
    report.check("listing of a refused case", |tally| refused_listings(calls, tally));
    // Name, schedule, reply, and the global at the end.
    let replays = [
        ("P1", [2, 1, 2], Replayed::Violated(4), 5),
        ("P2", [0, 1, 4], Replayed::Violated(4), 6),
        ("P3", [1, 1, 3], Replayed::Clean, 1),
        ("P4", [3, 1, 1], Replayed::Clean, 5),
        ("P5", [4, 1, 0], Replayed::Clean, 5),
    ];
    for (name, schedule, reply, global) in replays {
        report.check(name, |tally| {
            let got = replay(calls, &case_a(), &schedule);
            tally.same(got, (reply, vec![global]), || format!("schedule {schedule:?}"))
        });
    }
    report.check("P1 to P5 are all schedules that run all lines", |tally| {
        let mut all = block_lengths(&case_a());
        all.retain(|schedule| runs_all_lines(&case_a(), schedule));
        let listed = [[0, 1, 4], [1, 1, 3], [2, 1, 2], [3, 1, 1], [4, 1, 0]];
        tally.same(all, listed.map(Vec::from).to_vec(), || "all schedules".into())
    });
    report.check("P1 and P2 alone violate", |tally| only_these_violate(calls, 2, &[&[0, 1, 4], &[2, 1, 2]], tally));
    report.check("P6", |tally| passes(calls, &P1_ASSIGNMENT, [2, 1, 2], tally));
    report.check("P7", |tally| passes(calls, &P2_ASSIGNMENT, [0, 1, 4], tally));
    report.check("P8", |tally| only_these_violate(calls, 0, &[], tally));
    report.check("P9", |tally| only_these_violate(calls, 1, &[], tally));
    report.check("P10", |tally| nothing_meets(calls, tally));
    report.check("a changed number fails", |tally| changed_number_fails(calls, tally));
}

/// "For a refused case it prints the number and place on one line."
fn refused_listings(calls: &dyn Calls, tally: &mut Tally) -> Outcome {
    let too_many_switches = case_a_with_switches(16);
    let mut no_such_kind = case_a();
    no_such_kind.records[3].kind = 9;
    for (draft, line) in [(too_many_switches, "3 0\n"), (no_such_kind, "9 4\n")] {
        let text = listing(calls, &draft.bytes())?;
        tally.same(text.as_str(), line, || draft.to_string())?;
    }
    Ok(())
}

fn passes(calls: &dyn Calls, numbers: &[u16], schedule: [u16; 3], tally: &mut Tally) -> Outcome {
    let draft = case_a();
    tally.same(check(calls, &draft, numbers), Checked::Meets, || "the checker".into())?;
    let decoded = decode(calls, &draft, numbers)?;
    tally.same(decoded, schedule.to_vec(), || "the decoder".into())
}

fn case_a_with_switches(switches: u16) -> Draft {
    Draft { switches, ..case_a() }
}

/// "Case A keeps its two violating schedules; P8 and P9 become: every run is
/// clean." Every schedule is tried, some that are refused, and everything that
/// the 1s, 2s, 3s and 8s leave: as much as there are schedules that keep the rule,
/// and without the 8s as much as there are schedules.
fn only_these_violate(calls: &dyn Calls, switches: u16, violating: &[&[u16]], tally: &mut Tally) -> Outcome {
    let draft = case_a_with_switches(switches);
    let all = block_lengths(&draft);
    for schedule in &all {
        let wanted = match violating.contains(&schedule.as_slice()) {
            true => Replayed::Violated(4),
            false => Replayed::Clean,
        };
        tally.same(replay(calls, &draft, schedule).0, wanted, || format!("schedule {schedule:?}"))?;
    }
    for first in [5, 6, 65_535] {
        let longer = [&[first], vec![0; usize::from(switches)].as_slice()].concat();
        let refused = Replayed::from(Refusal { number: 13, place: 0 });
        tally.same(replay(calls, &draft, &longer).0, refused, || format!("schedule {longer:?}"))?;
    }
    let table = table_of(calls, &draft.bytes())?;
    let blocks = block_numbers(&draft, &table);
    let keeping = all.iter().filter(|schedule| keeps_rule(&draft, schedule)).count();
    tally.same(blocks.len(), keeping, || "block numbers".into())?;
    let without_eights = block_numbers(&draft, &table.without_eights());
    tally.same(without_eights.len(), all.len(), || "block numbers without the 8s".into())?;
    // No inputs, so the numbers that are left are determined; at most the 7 fails.
    let mut decoded = Vec::new();
    for blocks in blocks {
        let numbers = Determined::assignment(&draft, &table, &blocks, &[0; 5])?;
        match check(calls, &draft, &numbers) {
            Checked::Meets => decoded.push(decode(calls, &draft, &numbers)?),
            failed => tally.same(failed, Checked::Fails(table.rows.len() as u16), || format!("{numbers:?}"))?,
        }
    }
    decoded.sort();
    tally.same(decoded.iter().map(Vec::as_slice).collect::<Vec<_>>().as_slice(), violating, || "what meets the table".into())
}

/// "a case with R 0 and n 0 has one constraint, which nothing meets".
fn nothing_meets(calls: &dyn Calls, tally: &mut Tally) -> Outcome {
    let draft = Draft::new(2, 0);
    tally.same(calls.accept(&draft.bytes()), Verdict::Accepted, || "accepted".into())?;
    let table = table_of(calls, &draft.bytes())?;
    tally.same(table.rows, vec![[7, 0, 0, 0, 0, 0]], || "the table".into())?;
    tally.same(table.variables, 0, || "variables".into())?;
    let text = listing(calls, &draft.bytes())?;
    tally.same(text.as_str(), "1 0\n7 0 0 0 0 0\n", || "the listing".into())?;
    // The only assignment has no numbers.
    tally.same(check(calls, &draft, &[]), Checked::Fails(1), || "the checker".into())?;
    let (reply, _) = replay(calls, &draft, &[0]);
    tally.same(reply, Replayed::Clean, || "the only schedule".into())
}

/// Changing any one number of P6 by one makes some constraint fail; which one
/// is first was worked out by hand.
fn changed_number_fails(calls: &dyn Calls, tally: &mut Tally) -> Outcome {
    // Block number 3 is that of a line that was not run: line 3 then stands after
    // line 4, and line 4 has the value of one that was run.
    let firsts = [1, 12, 3, 13, 6, 14, 15, 15, 10, 16, 17, 14];
    for (variable, first) in firsts.into_iter().enumerate() {
        let mut numbers = P1_ASSIGNMENT;
        numbers[variable] += 1;
        let got = check(calls, &case_a(), &numbers);
        tally.same(got, Checked::Fails(first), || format!("v{variable} one up"))?;
    }
    // An even block number over n + 1 passes its 3. It fails the 8 of the last line,
    // or its 2 where the line before it is as far out, however large it is; no value
    // may be looked at before.
    for block in [4, 16, 40, 256, 65_534] {
        let mut numbers = P1_ASSIGNMENT;
        for (variable, first) in [(6, 8), (4, 9)] {
            numbers[variable] = block;
            let got = check(calls, &case_a(), &numbers);
            tally.same(got, Checked::Fails(first), || format!("v{variable} is {block}"))?;
        }
    }
    Ok(())
}
