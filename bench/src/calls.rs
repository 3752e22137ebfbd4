//! The ten calls on a sample, proved and in plain Rust: that they agree, how long they take, and one of them by itself.

use std::hint::black_box;

use crate::measure::{compare, Times};
use crate::plain::{self, case::Case};
use crate::sample::Sample;
use crate::spelling::Spelling;
use menduvo::{Checked, Decoded, Encoded, Filled, Listed, Refusal, Replayed, Taken, Verdict};

pub const CALLS: usize = 10;
/// The last is made for every line of the case.
pub const NAMES: [&str; CALLS] =
    ["accept", "encode", "check", "decode", "replay", "fill", "listing", "smt_length", "smt_text", "take_line"];

/// No case has a longer text.
const MOST_SMT_BYTES: usize = 2_000_000;

/// The slices that calls write to, each as long as any case needs.
#[derive(Clone, PartialEq)]
pub struct Buffers {
    table: Vec<u16>,
    schedule: Vec<u16>,
    items: Vec<u16>,
    assignment: Vec<u16>,
    text: Vec<u8>,
    smt: Vec<u8>,
    /// For each line, thread by thread, what its taking answered; and what is held for each thread.
    taken: Vec<Taken>,
    held: [Held; 4],
}

type Held = [u16; menduvo::NAMES];

impl Buffers {
    /// No result leaves all of them as they are here.
    pub fn new() -> Buffers {
        Buffers {
            table: vec![0xA5A5; menduvo::MOST_TABLE_NUMBERS],
            schedule: vec![0xA5A5; menduvo::MOST_SCHEDULE_NUMBERS],
            items: vec![0xA5A5; menduvo::MOST_ITEMS],
            assignment: vec![0xA5A5; menduvo::MOST_VARIABLES],
            text: vec![0xA5; menduvo::MOST_LISTING_BYTES],
            smt: vec![0xA5; MOST_SMT_BYTES],
            taken: vec![Taken::Refused { number: 0xA5A5, place: 0xA5A5 }; 256],
            held: [[0xA5A5; menduvo::NAMES]; 4],
        }
    }
}

/// All answers for a sample.
type Texted = Result<usize, Refusal>;
type Answers = (Verdict, Encoded, Checked, Decoded, Replayed, Filled, Listed, Texted, Texted);

/// That both give the same answers and leave the same in the buffers, and the answers that the sample was made for.
pub fn agree(sample: &Sample) -> Result<(), String> {
    let Sample { name, case, assignment, schedule, .. } = sample;
    let failure = |message: String| Err(format!("{name} (R {}, n {}): {message}", sample.records(), sample.switches()));
    let (mut proved_buffers, mut plain_buffers) = (Buffers::new(), Buffers::new());
    let b = &mut proved_buffers;
    let proved: Answers = (
        menduvo::accept(case),
        menduvo::encode(case, &mut b.table),
        menduvo::check(case, assignment),
        menduvo::decode(case, assignment, &mut b.schedule),
        menduvo::replay(case, schedule, &mut b.items),
        menduvo::fill(case, schedule, &mut b.assignment),
        menduvo::listing(case, &mut b.text),
        menduvo::smt_length(case),
        menduvo::smt_text(case, &mut b.smt),
    );
    take_lines(sample, b, menduvo::take_line);
    let b = &mut plain_buffers;
    let plain: Answers = (
        plain::accept(case),
        plain::encode(case, &mut b.table),
        plain::check(case, assignment),
        plain::decode(case, assignment, &mut b.schedule),
        plain::replay(case, schedule, &mut b.items),
        plain::fill(case, schedule, &mut b.assignment),
        plain::listing(case, &mut b.text),
        plain::smt_length(case),
        plain::smt_text(case, &mut b.smt),
    );
    take_lines(sample, b, plain::take_line);
    if proved != plain {
        return failure(format!("the library answers {proved:?}, plain Rust {plain:?}"));
    }
    if proved_buffers != plain_buffers {
        return failure("the library and plain Rust leave different buffers".to_string());
    }
    if let Err(message) = texts_agree(case).and_then(|()| schedules_agree(sample)).and_then(|()| lines_agree(sample)) {
        return failure(message);
    }
    let (_, _, checked, _, replayed, ..) = proved;
    let decoded = &proved_buffers.schedule[..schedule.len()];
    let filled = &proved_buffers.assignment[..assignment.len()];
    let goes_round = decoded == schedule && filled == assignment;
    if checked != Checked::Meets || !goes_round || replayed != Replayed::Violated(sample.violation) {
        return failure(format!("not the answers that it was made for: {proved:?}"));
    }
    Ok(())
}

/// That both write the text which the spellings have for it, so that what solvers are measured on is the text, and do the same with
/// a slice as long as the text and with one that is a byte shorter.
pub fn texts_agree(case: &[u8]) -> Result<(), String> {
    let spelling = Spelling::named("text").expect("there is a spelling of this name");
    let text = Case::accept(case).map(|case| spelling.text(&case)).map_err(|_| "it is refused".to_string())?;
    for room in [text.len(), text.len() - 1] {
        let (mut proved, mut plain) = (vec![0xA5; room], vec![0xA5; room]);
        let answers = (menduvo::smt_text(case, &mut proved), plain::smt_text(case, &mut plain));
        if answers.0 != answers.1 || proved != plain {
            return Err(format!("with room for {room} bytes of text the library and plain Rust differ: {answers:?}"));
        }
        if room == text.len() && plain != text.as_bytes() {
            return Err("plain Rust's text is not the spelling named text".to_string());
        }
    }
    Ok(())
}

/// That both replay and fill the schedule of a sample alike, and schedules that differ from it in one number, in two blocks of a
/// thread, or in their length; with room for the assignment, and with one number less. Many of these are refused.
fn schedules_agree(sample: &Sample) -> Result<(), String> {
    let Sample { schedule, .. } = sample;
    let blocks = sample.switches() + 1;
    let mut changed = vec![schedule.clone(), schedule[1..].to_vec(), [&schedule[..], &[0]].concat()];
    for (place, &number) in schedule.iter().enumerate() {
        for value in [0, 1, number.wrapping_sub(1), number.wrapping_add(1), 65_535] {
            changed.push(schedule.clone());
            changed.last_mut().expect("one was pushed")[place] = value;
        }
    }
    for (first, second) in (0..blocks).zip(sample.threads()..blocks) {
        for lines in 1..=schedule[first] {
            changed.push(schedule.clone());
            let last = changed.last_mut().expect("one was pushed");
            last[first] -= lines;
            last[second] += lines;
        }
    }
    changed.iter().try_for_each(|schedule| schedule_agrees(sample, schedule))
}

fn schedule_agrees(Sample { case, assignment, .. }: &Sample, schedule: &[u16]) -> Result<(), String> {
    let (mut proved, mut plain) = ([0xA5A5; menduvo::MOST_ITEMS], [0xA5A5; menduvo::MOST_ITEMS]);
    let answers = (menduvo::replay(case, schedule, &mut proved), plain::replay(case, schedule, &mut plain));
    if answers.0 != answers.1 || proved != plain {
        return Err(format!("replaying {schedule:?} the library and plain Rust differ: {answers:?}"));
    }
    for room in [assignment.len() - 1, assignment.len()] {
        let (mut proved, mut plain) = (vec![0xA5A5; room], vec![0xA5A5; room]);
        let answers = (menduvo::fill(case, schedule, &mut proved), plain::fill(case, schedule, &mut plain));
        if answers.0 != answers.1 || proved != plain {
            return Err(format!("filling {schedule:?} with room for {room} the library and plain Rust differ: {answers:?}"));
        }
    }
    Ok(())
}

/// Takes every line of a sample, each thread's front to back, as a builder hands them on.
fn take_lines(sample: &Sample, buffers: &mut Buffers, take: impl Fn(u16, u16, u16, &[u16; 8], &mut Held) -> Taken) {
    let (globals, mutexes) = (sample.globals() as u16, sample.mutexes() as u16);
    let mut answers = buffers.taken.iter_mut();
    for (lines, held) in sample.lines.iter().zip(&mut buffers.held) {
        *held = [0; menduvo::NAMES];
        for ((number, record), answer) in lines.iter().zip(answers.by_ref()) {
            *answer = take(globals, mutexes, *number, record, held);
        }
    }
}

/// That both do the same with each line of a sample, and with lines that differ from it in one field, in their number, or in the
/// number of globals or mutexes: most of these are refused.
fn lines_agree(sample: &Sample) -> Result<(), String> {
    for (number, fields) in sample.lines.iter().flatten() {
        let line = [&[sample.globals() as u16, sample.mutexes() as u16, *number], &fields[..]].concat();
        for place in 0..line.len() {
            for value in [line[place], 0, 1, 4, 5, 7, 8, 9, 15, 16, 17, 32, 33, 256, 257, 65_535] {
                let mut changed = line.clone();
                changed[place] = value;
                line_agrees(&changed)?;
            }
        }
    }
    Ok(())
}

/// That both do the same with a line: G, M, its number and its fields. What is held is another number for each name.
fn line_agrees(line: &[u16]) -> Result<(), String> {
    let (&[globals, mutexes, number], record) = line.split_first_chunk().expect("three numbers stand before the fields");
    let record = record.try_into().expect("a record has eight fields");
    let mut proved: Held = std::array::from_fn(|name| 0xA5A5 ^ name as u16);
    let mut plain = proved;
    let answers = (
        menduvo::take_line(globals, mutexes, number, record, &mut proved),
        plain::take_line(globals, mutexes, number, record, &mut plain),
    );
    if answers.0 != answers.1 || proved != plain {
        return Err(format!(
            "taking a line with G, M, number and fields {line:?} the library and plain Rust differ: {answers:?}"
        ));
    }
    Ok(())
}

/// The times of the ten calls, in the order of their names. Both write to the same buffers.
pub fn times(sample: &Sample, buffers: &mut Buffers) -> [Times; CALLS] {
    let Sample { case, assignment, schedule, .. } = sample;
    [
        compare(buffers, |_| menduvo::accept(black_box(case)), |_| plain::accept(black_box(case))),
        compare(
            buffers,
            |b| menduvo::encode(black_box(case), black_box(&mut b.table)),
            |b| plain::encode(black_box(case), black_box(&mut b.table)),
        ),
        compare(
            buffers,
            |_| menduvo::check(black_box(case), black_box(assignment)),
            |_| plain::check(black_box(case), black_box(assignment)),
        ),
        compare(
            buffers,
            |b| menduvo::decode(black_box(case), black_box(assignment), black_box(&mut b.schedule)),
            |b| plain::decode(black_box(case), black_box(assignment), black_box(&mut b.schedule)),
        ),
        compare(
            buffers,
            |b| menduvo::replay(black_box(case), black_box(schedule), black_box(&mut b.items)),
            |b| plain::replay(black_box(case), black_box(schedule), black_box(&mut b.items)),
        ),
        compare(
            buffers,
            |b| menduvo::fill(black_box(case), black_box(schedule), black_box(&mut b.assignment)),
            |b| plain::fill(black_box(case), black_box(schedule), black_box(&mut b.assignment)),
        ),
        compare(
            buffers,
            |b| menduvo::listing(black_box(case), black_box(&mut b.text)),
            |b| plain::listing(black_box(case), black_box(&mut b.text)),
        ),
        compare(buffers, |_| menduvo::smt_length(black_box(case)), |_| plain::smt_length(black_box(case))),
        compare(
            buffers,
            |b| menduvo::smt_text(black_box(case), black_box(&mut b.smt)),
            |b| plain::smt_text(black_box(case), black_box(&mut b.smt)),
        ),
        compare(
            buffers,
            |b| take_lines(black_box(sample), black_box(b), menduvo::take_line),
            |b| take_lines(black_box(sample), black_box(b), plain::take_line),
        ),
    ]
}

/// The call of this name and side, if there is one.
pub fn call(name: &str, side: &str) -> Option<fn(&Sample, &mut Buffers)> {
    let call: fn(&Sample, &mut Buffers) = match (name, side) {
        ("accept", "proved") => |s, _| done(menduvo::accept(&s.case)),
        ("accept", "plain") => |s, _| done(plain::accept(&s.case)),
        ("encode", "proved") => |s, b| done(menduvo::encode(&s.case, &mut b.table)),
        ("encode", "plain") => |s, b| done(plain::encode(&s.case, &mut b.table)),
        ("check", "proved") => |s, _| done(menduvo::check(&s.case, &s.assignment)),
        ("check", "plain") => |s, _| done(plain::check(&s.case, &s.assignment)),
        ("decode", "proved") => |s, b| done(menduvo::decode(&s.case, &s.assignment, &mut b.schedule)),
        ("decode", "plain") => |s, b| done(plain::decode(&s.case, &s.assignment, &mut b.schedule)),
        ("replay", "proved") => |s, b| done(menduvo::replay(&s.case, &s.schedule, &mut b.items)),
        ("replay", "plain") => |s, b| done(plain::replay(&s.case, &s.schedule, &mut b.items)),
        ("fill", "proved") => |s, b| done(menduvo::fill(&s.case, &s.schedule, &mut b.assignment)),
        ("fill", "plain") => |s, b| done(plain::fill(&s.case, &s.schedule, &mut b.assignment)),
        ("listing", "proved") => |s, b| done(menduvo::listing(&s.case, &mut b.text)),
        ("listing", "plain") => |s, b| done(plain::listing(&s.case, &mut b.text)),
        ("smt_length", "proved") => |s, _| done(menduvo::smt_length(&s.case)),
        ("smt_length", "plain") => |s, _| done(plain::smt_length(&s.case)),
        ("smt_text", "proved") => |s, b| done(menduvo::smt_text(&s.case, &mut b.smt)),
        ("smt_text", "plain") => |s, b| done(plain::smt_text(&s.case, &mut b.smt)),
        ("take_line", "proved") => |s, b| take_lines(s, b, menduvo::take_line),
        ("take_line", "plain") => |s, b| take_lines(s, b, plain::take_line),
        _ => return None,
    };
    Some(call)
}

/// Nothing is done with an answer, but it must not be left out.
fn done<Answer>(answer: Answer) {
    black_box(answer);
}
