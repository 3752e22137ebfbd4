//! Asking the library under test, with slices of the right size, and with
//! marked slices that show what was touched.

use crate::calls::{Calls, Checked, Decoded, Encoded, Filled, Listed, Refusal, Replayed, Spelled, Verdict};
use crate::draft::Draft;
use crate::report::{Outcome, Tally};
use crate::table::{MOST_LISTING_BYTES, MOST_NUMBERS};

/// Numbers to put in a slice before a call: different from place to place, and
/// none that a call has a reason to write there.
pub fn marks(length: usize) -> Vec<u16> {
    (0..length).map(|place| 0xa5c3 ^ (place as u16).wrapping_mul(0x9e37)).collect()
}

/// Such marks for a slice of bytes; none of them stands in a text of ASCII.
pub fn byte_marks(length: usize) -> Vec<u8> {
    let marks = marks(length).into_iter();
    marks.map(|mark| mark as u8 | 0x80).collect()
}

/// The reply to a schedule, and the items' values.
pub fn replay(calls: &dyn Calls, draft: &Draft, schedule: &[u16]) -> (Replayed, Vec<u16>) {
    let mut items = marks(draft.items());
    let reply = calls.replay(&draft.bytes(), schedule, &mut items);
    (reply, items)
}

/// The reply to a schedule alone.
pub fn reply(calls: &dyn Calls, draft: &Draft, schedule: &[u16]) -> Replayed {
    replay(calls, draft, schedule).0
}

/// The schedule that an assignment decodes to.
pub fn decode(calls: &dyn Calls, draft: &Draft, assignment: &[u16]) -> Result<Vec<u16>, String> {
    let mut schedule = marks(draft.schedule_numbers());
    match calls.decode(&draft.bytes(), assignment, &mut schedule) {
        Decoded::Schedule { numbers } if usize::from(numbers) == schedule.len() => Ok(schedule),
        other => Err(format!("{assignment:?} was decoded as {other:?}")),
    }
}

/// The assignment that a schedule is filled to.
pub fn fill(calls: &dyn Calls, draft: &Draft, schedule: &[u16]) -> Result<Vec<u16>, String> {
    let mut assignment = marks(draft.variables());
    match calls.fill(&draft.bytes(), schedule, &mut assignment) {
        Filled::Assignment { numbers } if usize::from(numbers) == assignment.len() => Ok(assignment),
        other => Err(format!("{schedule:?} was filled as {other:?}")),
    }
}

/// Demands that a schedule is filled to this assignment or meets this refusal, and
/// that nothing else is touched, in a slice with room for so many numbers.
pub fn fills_in(
    room: usize,
    calls: &dyn Calls,
    draft: &Draft,
    schedule: &[u16],
    wanted: Result<&[u16], Refusal>,
    tally: &mut Tally,
) -> Outcome {
    let about = || format!("{schedule:?} filled, room for {room}");
    let mut assignment = marks(room);
    let reply = calls.fill(&draft.bytes(), schedule, &mut assignment);
    let length = wanted.map_or(0, <[u16]>::len);
    let wanted_reply = wanted.map_or_else(Filled::from, |numbers| Filled::Assignment { numbers: numbers.len() as u16 });
    tally.same(reply, wanted_reply, about)?;
    tally.same_numbers(&assignment[..length], wanted.unwrap_or(&[]), about)?;
    tally.holds(assignment[length..] == marks(room)[length..], || format!("{}: more was touched", about()))
}

/// The same in a slice with some room to spare.
pub fn fills(
    calls: &dyn Calls,
    draft: &Draft,
    schedule: &[u16],
    wanted: Result<&[u16], Refusal>,
    tally: &mut Tally,
) -> Outcome {
    fills_in(draft.variables() + 2, calls, draft, schedule, wanted, tally)
}

pub fn check(calls: &dyn Calls, draft: &Draft, assignment: &[u16]) -> Checked {
    calls.check(&draft.bytes(), assignment)
}

/// The listing of any file, with room for every one.
pub fn listing(calls: &dyn Calls, case: &[u8]) -> Result<String, String> {
    let mut text = byte_marks(MOST_LISTING_BYTES);
    match calls.listing(case, &mut text) {
        Listed::Text { bytes } => text.truncate(usize::from(bytes)),
        refused => return Err(format!("{case:?} was not listed: {refused:?}")),
    }
    String::from_utf8(text).map_err(|_| format!("the listing of {case:?} is no text"))
}

/// Demands that the listing of a case is one refusal, that each of the other
/// eight calls on a case meets it, and that none of these touches what it was
/// lent.
pub fn refused_by_all(calls: &dyn Calls, case: &[u8], refusal: Refusal, tally: &mut Tally) -> Outcome {
    let about = || format!("case {case:?}");
    tally.same(calls.accept(case), Verdict::from(refusal), about)?;
    let line = format!("{} {}\n", refusal.number, refusal.place);
    tally.same(listing(calls, case)?, line, about)?;
    tally.same(calls.smt_length(case), Spelled::from(refusal), about)?;
    for room in [0, MOST_NUMBERS] {
        let [mut table, mut schedule, mut items, mut assignment] = [(); 4].map(|()| marks(room));
        tally.same(calls.encode(case, &mut table), Encoded::from(refusal), about)?;
        tally.same(calls.check(case, &marks(room)), Checked::from(refusal), about)?;
        let decoded = calls.decode(case, &marks(room), &mut schedule);
        tally.same(decoded, Decoded::from(refusal), about)?;
        let replayed = calls.replay(case, &marks(room), &mut items);
        tally.same(replayed, Replayed::from(refusal), about)?;
        let filled = calls.fill(case, &marks(room), &mut assignment);
        tally.same(filled, Filled::from(refusal), about)?;
        for slice in [table, schedule, items, assignment] {
            tally.holds(slice == marks(room), || format!("{}: a slice was touched", about()))?;
        }
        let mut text = byte_marks(room);
        tally.same(calls.smt_text(case, &mut text), Spelled::from(refusal), about)?;
        tally.holds(text == byte_marks(room), || format!("{}: the text was touched", about()))?;
    }
    Ok(())
}
