//! The constraints as text: beside the second implementation byte for byte,
//! and, read by the second reader, beside the checker.

use crate::ask::byte_marks;
use crate::calls::{Calls, Checked, Spelled, Verdict};
use crate::compare::{files, rounds_of};
use crate::draft::Draft;
use crate::generate::{
    Shape, ANY, BUSY, FULL, HOLDERS, HOLDERS_WITH_INPUTS, LONG, LONG_STRETCHES, MANY_HOLDERS, MANY_INPUTS, SMALL,
    SMALL_WITH_INPUTS, STRETCHES_WITH_INPUTS,
};
use crate::random::Random;
use crate::report::{Outcome, Tally};
use crate::script::Script;
use crate::second;
use crate::vary::assignments;

const SHAPES: [Shape; 12] = [
    SMALL,
    SMALL_WITH_INPUTS,
    MANY_INPUTS,
    ANY,
    BUSY,
    LONG,
    FULL,
    HOLDERS,
    HOLDERS_WITH_INPUTS,
    MANY_HOLDERS,
    STRETCHES_WITH_INPUTS,
    LONG_STRETCHES,
];

/// The beginnings of a link, of a fact, of a fact about op 6, of what a guarded
/// lock or unlock asks, of an unlock's part in the 7, of two expressions, and the
/// end of what a line reads.
pub const NOTED: [&str; 8] =
    ["(not (xor (= ", "(=> (and (= ", "(not (xor (bvult ", "(=> (not ", "(not (or ", "(bvsub ", "(bvor ", " true)"];

/// The whole text of an accepted case, in a slice of just its length.
pub fn text_of(calls: &dyn Calls, case: &[u8]) -> Result<Vec<u8>, String> {
    let Spelled::Text { bytes } = calls.smt_length(case) else {
        return Err(format!("no length for {case:?}"));
    };
    let mut text = byte_marks(bytes);
    match calls.smt_text(case, &mut text) {
        Spelled::Text { bytes: written } if written == bytes => Ok(text),
        other => Err(format!("room for {bytes}, and {other:?}: {case:?}")),
    }
}

/// Texts of accepted, damaged and random files, with too little room, one byte
/// too little, just enough, and some to spare; and the lengths of them.
pub fn texts(calls: &dyn Calls, count: u64, tally: &mut Tally) -> Outcome {
    rounds_of(&SHAPES, 8_000_000, count, |random, draft| {
        for file in files(random, draft) {
            same_text_in_each_room(calls, &file, random, tally)?;
        }
        Ok(())
    })
}

pub fn same_text_in_each_room(calls: &dyn Calls, case: &[u8], random: &mut Random, tally: &mut Tally) -> Outcome {
    let length = second::smt_length(case);
    tally.same(calls.smt_length(case), length, || format!("length of the text of {case:?}"))?;
    // A refused case has no text; any room will do.
    let needed = match length {
        Spelled::Text { bytes } => bytes,
        Spelled::Refused { number, place } => {
            let verdict = Verdict::Refused { number, place };
            tally.same(second::accept(case), verdict, || format!("refused, {case:?}"))?;
            50
        }
    };
    let (short, spare) = (random.below(needed), 1 + random.below(100));
    for room in [0, short, needed - 1, needed, needed + spare] {
        same_text(calls, case, room, tally)?;
    }
    Ok(())
}

pub fn same_text(calls: &dyn Calls, case: &[u8], room: usize, tally: &mut Tally) -> Outcome {
    let (mut got, mut wanted) = (byte_marks(room), byte_marks(room));
    let reply = calls.smt_text(case, &mut got);
    let wanted_reply = second::smt_text(case, &mut wanted);
    match wanted_reply {
        Spelled::Text { bytes } => note(&wanted[..bytes], tally),
        Spelled::Refused { number, .. } => tally.saw(format!("refused {number}")),
    }
    let about = || format!("text with room for {room} of {case:?}");
    tally.same(reply, wanted_reply, about)?;
    tally.same_numbers(&got, &wanted, about)
}

/// Notes what stands in a text, so that a test can demand that all did.
fn note(text: &[u8], tally: &mut Tally) {
    tally.saw("text");
    let text = String::from_utf8_lossy(text);
    for spelled in NOTED {
        if text.contains(spelled) {
            tally.saw(spelled);
        }
    }
}

/// The first false assertion of a text is the constraint that the checker
/// names, and there is none where it says yes.
pub fn truths(calls: &dyn Calls, count: u64, tally: &mut Tally) -> Outcome {
    rounds_of(&SHAPES, 9_000_000, count, |random, draft| {
        let script = script_of(calls, draft, tally)?;
        for numbers in assignments(random, draft) {
            if numbers.len() == script.variables {
                same_truth(calls, draft, &script, &numbers, tally)?;
            }
        }
        Ok(())
    })
}

/// The case's text, read: as many variables and assertions as the table has.
pub fn script_of(calls: &dyn Calls, draft: &Draft, tally: &mut Tally) -> Result<Script, String> {
    let script = Script::read(&text_of(calls, &draft.bytes())?)?;
    let counts = (script.variables, script.assertions());
    tally.same(counts, (draft.variables(), draft.constraints()), || format!("variables and assertions of {draft}"))?;
    Ok(script)
}

pub fn same_truth(calls: &dyn Calls, draft: &Draft, script: &Script, numbers: &[u16], tally: &mut Tally) -> Outcome {
    let checked = calls.check(&draft.bytes(), numbers);
    tally.saw(if checked == Checked::Meets { "met" } else { "failed" });
    let found = match script.first_false(numbers) {
        None => Checked::Meets,
        Some(assertion) => Checked::Fails(assertion as u16),
    };
    tally.same(found, checked, || format!("the first false assertion for {numbers:?}; case {draft}"))
}
