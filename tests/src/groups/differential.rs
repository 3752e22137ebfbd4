//! The library under test beside the second implementation. Each check also
//! demands that every reply was met often.

use crate::calls::Calls;
use crate::compare::{checks, decodings, fillings, lengths, listings, replays, tables, verdicts, Comparison};
use crate::compare_lines::single_lines;
use crate::report::Report;

/// How often each reply must have been met at least.
const OFTEN: u64 = 50;

const VERDICTS: [&str; 10] = [
    "accepted",
    "refused 1",
    "refused 2",
    "refused 3",
    "refused 4",
    "refused 5",
    "refused 6",
    "refused 7",
    "refused 8",
    "refused 9",
];

const CHECKS: [&str; 10] = [
    "met",
    "constraint 1 failed first",
    "constraint 2 failed first",
    "constraint 3 failed first",
    "constraint 4 failed first",
    "constraint 5 failed first",
    "constraint 6 failed first",
    "constraint 7 failed first",
    "constraint 8 failed first",
    "refused 11",
];

const DECODINGS: [&str; 4] = ["decoded", "refused 10", "refused 11", "refused 15"];

const REPLAYS: [&str; 8] = [
    "violated by an assert",
    "violated by an unlock",
    "clean",
    "cut off",
    "refused 10",
    "refused 12",
    "refused 13",
    "refused 14",
];

const FILLINGS: [&str; 16] = [
    "filled",
    "refused 1",
    "refused 2",
    "refused 3",
    "refused 4",
    "refused 5",
    "refused 6",
    "refused 7",
    "refused 8",
    "refused 9",
    "refused 10",
    "refused 12",
    "refused 13",
    "refused 14",
    "refused 16",
    "refused 17",
];

const LISTINGS: [&str; 11] = [
    "listed",
    "refusal 1 listed",
    "refusal 2 listed",
    "refusal 3 listed",
    "refusal 4 listed",
    "refusal 5 listed",
    "refusal 6 listed",
    "refusal 7 listed",
    "refusal 8 listed",
    "refusal 9 listed",
    "refused 10",
];

const LINES: [&str; 11] = [
    "kind 1 taken",
    "kind 2 taken",
    "kind 3 taken",
    "kind 4 taken",
    "kind 5 taken",
    "kind 6 taken",
    "kind 7 taken",
    "kind 8 taken",
    "refused 4",
    "refused 6",
    "refused 9",
];

const COMPARISONS: [(&str, Comparison, u64, &[&str]); 9] = [
    ("verdicts", verdicts, 20_000, &VERDICTS),
    ("tables", tables, 10_000, &["encoded", "refused 6", "refused 9"]),
    ("checks", checks, 6_000, &CHECKS),
    ("decodings", decodings, 6_000, &DECODINGS),
    ("replays", replays, 30_000, &REPLAYS),
    ("fillings", fillings, 20_000, &FILLINGS),
    ("listings", listings, 2_000, &LISTINGS),
    ("single lines", single_lines, 20_000, &LINES),
    ("every length of every slice", lengths, 200, &["encoded", "refused 10", "decoded", "filled", "listed"]),
];

pub fn run(calls: &dyn Calls, report: &mut Report) {
    for (name, comparison, rounds, replies) in COMPARISONS {
        report.check(name, |tally| {
            comparison(calls, rounds, tally)?;
            replies.iter().try_for_each(|reply| tally.saw_often(reply, OFTEN))
        });
    }
}
