//! Deliberate mistakes in the second implementation. Each must be found by
//! every comparison named for it; the right one must pass them all.

use super::{fill, holders, visible};
use crate::calls::Calls;
use crate::compare::{checks, decodings, fillings, lengths, listings, replays, tables, verdicts, Comparison};
use crate::compare_lines::{single_lines, whole_threads};
use crate::compare_text::{texts, truths};
use crate::demand3::compare;
use crate::generate::{BUSY, BUSY_WITH_INPUTS, HOLDERS, SMALL, STRETCHES};
use crate::line::{ASSERT, ASSUME, COMPUTE, INPUT, LOAD, LOCK, STORE, UNLOCK};
use crate::report::{outcome_of, Outcome, Report, Tally};
use crate::second::{Second, Wrong, RIGHT};

/// Rounds for each comparison: few, since a mistake should be found soon.
const ROUNDS: u64 = 150;

const MISTAKES: [(Wrong, &[Comparison]); 103] = [
    (Wrong::StrayNextUnseen, &[verdicts]),
    (Wrong::DropsA6, &[tables, demand_3]),
    (Wrong::FivesLast, &[tables]),
    (Wrong::GuardedStoreIsNoCopy, &[tables, demand_3]),
    (Wrong::EmptyThreadPassedOver, &[replays, demand_3_small]),
    (Wrong::CopyFromEarlierBlock, &[checks, demand_3, texts]),
    (Wrong::NoWalkBack, &[checks, demand_3, texts]),
    (Wrong::ValuesBeforeBlocks, &[checks]),
    (Wrong::FalseInputKept, &[decodings, demand_3_with_inputs]),
    (Wrong::GoesOnAfterAssume, &[replays, demand_3]),
    (Wrong::ViolatedThoughCutOff, &[replays, fillings, demand_3, fill_by_hand]),
    (Wrong::LengthsWrap, &[replays, fillings, fill_by_hand]),
    (Wrong::LengthBeforeRoom, &[decodings, fillings, lengths, fill_by_hand]),
    (Wrong::WritesThoughRefused, &[replays, lengths]),
    (Wrong::ClearsTheTail, &[tables, decodings, replays, fillings, listings, lengths, texts, fill_by_hand]),
    (Wrong::UnrunPastN, &[checks, texts]),
    (Wrong::UnrunTooLate, &[checks, demand_3, texts]),
    (Wrong::UnrunHasThread, &[checks, demand_3, texts]),
    (Wrong::RunAfterUnrun, &[checks, texts]),
    (Wrong::UnrunAssertBroken, &[checks, demand_3, texts]),
    (Wrong::UnrunInLastBlock, &[checks, demand_3, texts]),
    (Wrong::DemandOfUnrun, &[checks, demand_3, texts]),
    (Wrong::UnrunInputFree, &[checks, decodings, demand_3_with_inputs, texts]),
    (Wrong::UnrunCounted, &[decodings, demand_3]),
    (Wrong::NoThreadStops, &[replays, demand_3]),
    (Wrong::MoreThanLines, &[replays, fillings, fill_by_hand]),
    (Wrong::StrayLeftFirst, &[replays, fillings, fill_by_hand]),
    (Wrong::StrayLeftUnseen, &[replays, demand_3_with_inputs]),
    (Wrong::StrayLeftByRecord, &[replays, fill_by_hand]),
    (Wrong::HolderIsThread, &[checks, replays, fillings, demand_3_holders, texts, holders_by_hand]),
    (Wrong::FreeIsOwn, &[checks, replays, demand_3_holders, holders_by_hand]),
    (Wrong::StrangerFreesNot, &[checks, replays, demand_3_holders, holders_by_hand]),
    (Wrong::PassedUnlockViolates, &[checks, replays, demand_3_holders, texts, holders_by_hand]),
    (Wrong::UnrunUnlockViolates, &[checks, replays, demand_3_holders, holders_by_hand]),
    (Wrong::OnlyAssertsIn7, &[checks, decodings, demand_3_holders, texts, holders_by_hand]),
    (Wrong::AssertNamedFirst, &[replays, demand_3_holders, holders_by_hand]),
    (Wrong::LastNamed, &[replays, demand_3, demand_3_holders, holders_by_hand]),
    (Wrong::SeenOtherwise(COMPUTE), &[tables, checks, demand_3_long, texts, visible_by_hand]),
    (Wrong::SeenOtherwise(STORE), &[tables, checks, demand_3, texts, visible_by_hand]),
    (Wrong::SeenOtherwise(LOAD), &[tables, checks, demand_3, texts, visible_by_hand]),
    (Wrong::SeenOtherwise(INPUT), &[tables, checks, demand_3_with_inputs, texts, visible_by_hand]),
    (Wrong::SeenOtherwise(ASSERT), &[tables, checks, demand_3, texts, visible_by_hand]),
    (Wrong::SeenOtherwise(ASSUME), &[tables, checks, demand_3, texts, visible_by_hand]),
    (Wrong::SeenOtherwise(LOCK), &[tables, checks, demand_3_holders, texts, visible_by_hand]),
    (Wrong::SeenOtherwise(UNLOCK), &[tables, checks, demand_3_holders, texts, visible_by_hand]),
    (Wrong::EightOfFirst, &[tables, checks, demand_3, texts, visible_by_hand]),
    (Wrong::EightOfVisible, &[tables, checks, demand_3, texts, visible_by_hand]),
    (Wrong::LineAfter, &[tables, checks, demand_3, texts, visible_by_hand]),
    (Wrong::RecordBefore, &[tables, checks, demand_3, texts, visible_by_hand]),
    (Wrong::FirstStays, &[tables, checks, demand_3, texts, visible_by_hand]),
    (Wrong::VisibleBefore, &[tables, texts, visible_by_hand]),
    (Wrong::GuardedMayMove, &[tables, checks, demand_3, texts, visible_by_hand]),
    (Wrong::NoStopAtInvisible, &[checks, demand_3, texts, visible_by_hand]),
    (Wrong::EightBefore3, &[tables, texts, visible_by_hand]),
    (Wrong::EightLast, &[tables, texts, visible_by_hand]),
    (Wrong::LateRefused, &[replays, demand_3, visible_by_hand]),
    (Wrong::CountedWithBefore, &[decodings, demand_3, visible_by_hand]),
    (Wrong::BlockValuesLate, &[fillings, demand_3, fill_by_hand]),
    (Wrong::UnrunInputCopied, &[fillings, demand_3_with_inputs, fill_by_hand]),
    (Wrong::PassedInputCopied, &[demand_3_with_inputs, fill_by_hand]),
    (Wrong::PassedLine0, &[fillings, demand_3, fill_by_hand]),
    (Wrong::TestHasItsExpression, &[fillings, demand_3, fill_by_hand]),
    (Wrong::UnrunInBlockN, &[fillings, demand_3, fill_by_hand]),
    (Wrong::UnrunFilledWith0, &[fillings, demand_3, fill_by_hand]),
    (Wrong::CleanIsFilled, &[fillings, demand_3, fill_by_hand]),
    (Wrong::CutOffIsFilled, &[fillings, demand_3, fill_by_hand]),
    (Wrong::StrayAfterClean, &[fillings, demand_3_with_inputs, fill_by_hand]),
    (Wrong::LateBeforeClean, &[fillings, demand_3, fill_by_hand]),
    (Wrong::LineBeforeNamed, &[fillings, demand_3, fill_by_hand]),
    (Wrong::LateByRun, &[fillings, demand_3_long, fill_by_hand]),
    (Wrong::LateByRecord, &[fillings, demand_3_long, fill_by_hand]),
    (Wrong::UnrunLate, &[fillings, demand_3, fill_by_hand]),
    (Wrong::VisibleLate, &[fillings, demand_3, fill_by_hand]),
    (Wrong::WrittenBeforeKnown, &[fillings, lengths, demand_3, fill_by_hand]),
    (Wrong::GuardedLineNotTaken, &[single_lines, whole_threads]),
    (Wrong::FirstLineStays, &[single_lines, whole_threads]),
    (Wrong::MutexAmongGlobals, &[single_lines, whole_threads]),
    (Wrong::TakenBeforeRead, &[single_lines, whole_threads]),
    (Wrong::AssertTaken, &[single_lines, whole_threads]),
    (Wrong::HeldThoughRefused, &[single_lines]),
    (Wrong::FieldsBeforeNumber, &[single_lines]),
    (Wrong::NextLookedAt, &[single_lines, whole_threads]),
    (Wrong::ConstantHasCopy, &[single_lines, whole_threads]),
    (Wrong::UnusedOperandHasCopy, &[single_lines, whole_threads]),
    (Wrong::LoadOfLocal, &[single_lines, whole_threads]),
    (Wrong::PlaceBeforeNumber, &[listings, lengths]),
    (Wrong::WritesThoughShort, &[listings, lengths, texts]),
    (Wrong::NoLastLineEnd, &[texts, truths]),
    (Wrong::SeventhSource, &[texts]),
    (Wrong::SourcesByThread, &[texts]),
    (Wrong::LinksOfConstants, &[texts]),
    (Wrong::LastBlockElse, &[texts]),
    (Wrong::ReaderBeforeCopy, &[texts]),
    (Wrong::FactsOnce, &[texts]),
    (Wrong::NoFalseInnermost, &[texts]),
    (Wrong::LessOrEqual, &[texts, truths]),
    (Wrong::InitialValueForgotten, &[texts, truths]),
    (Wrong::OldValueOpen, &[texts, truths]),
    (Wrong::LineBeforeFirst, &[texts, visible_by_hand]),
    (Wrong::AtMostInText, &[texts, visible_by_hand]),
    (Wrong::ThreadAskedFor, &[texts, truths, holders_by_hand]),
    (Wrong::UnrunPartHolds, &[texts, truths, holders_by_hand]),
    (Wrong::UnlocksBehindAsserts, &[texts, holders_by_hand]),
];

const ALL: [Comparison; 20] = [
    verdicts,
    tables,
    checks,
    decodings,
    replays,
    fillings,
    listings,
    lengths,
    single_lines,
    whole_threads,
    texts,
    truths,
    demand_3,
    demand_3_small,
    demand_3_with_inputs,
    demand_3_holders,
    demand_3_long,
    holders_by_hand,
    visible_by_hand,
    fill_by_hand,
];

pub fn run(_: &dyn Calls, report: &mut Report) {
    report.check("no mistake", |tally| {
        let mut all = ALL.iter();
        all.try_for_each(|comparison| comparison(&RIGHT, ROUNDS, tally))
    });
    for (wrong, comparisons) in MISTAKES {
        report.check(&format!("{wrong:?} is found"), |tally| {
            let mistaken = Second { wrong };
            for (place, comparison) in comparisons.iter().enumerate() {
                let outcome = outcome_of(|tally| comparison(&mistaken, ROUNDS, tally), tally);
                tally.holds(outcome.is_err(), || format!("not by comparison {place}"))?;
            }
            Ok(())
        });
    }
}

fn demand_3(calls: &dyn Calls, rounds: u64, tally: &mut Tally) -> Outcome {
    compare(calls, BUSY, rounds, &[0], tally)
}

fn demand_3_small(calls: &dyn Calls, rounds: u64, tally: &mut Tally) -> Outcome {
    compare(calls, SMALL, rounds, &[0], tally)
}

fn demand_3_with_inputs(calls: &dyn Calls, rounds: u64, tally: &mut Tally) -> Outcome {
    compare(calls, BUSY_WITH_INPUTS, rounds, &[0, 3], tally)
}

fn demand_3_holders(calls: &dyn Calls, rounds: u64, tally: &mut Tally) -> Outcome {
    compare(calls, HOLDERS, rounds, &[0], tally)
}

fn demand_3_long(calls: &dyn Calls, rounds: u64, tally: &mut Tally) -> Outcome {
    compare(calls, STRETCHES, rounds, &[0], tally)
}

fn visible_by_hand(calls: &dyn Calls, _: u64, tally: &mut Tally) -> Outcome {
    visible::all(calls, tally)
}

fn fill_by_hand(calls: &dyn Calls, _: u64, tally: &mut Tally) -> Outcome {
    fill::all(calls, tally)
}

fn holders_by_hand(calls: &dyn Calls, _: u64, tally: &mut Tally) -> Outcome {
    holders::all(calls, tally)
}
