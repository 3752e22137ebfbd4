//! Cases that are refused, each with the refusal that must be given.

use crate::calls::Refusal;
use crate::draft::Draft;
use crate::generate::{accepted, Shape, SMALL};
use crate::line::*;
use crate::random::Random;

/// A case file and the refusal it must meet.
pub struct Damaged {
    pub bytes: Vec<u8>,
    pub refusal: Refusal,
}

/// Some room for faults: absent globals, and at least one line in a thread.
const BASE: Shape = Shape { globals: (1, 5), mutexes: (1, 3), lines: (1, 5), ..SMALL };

/// A case with one fault, or with two faults of which the lower number must be
/// given. The later fault is put in first, so that it cannot mend the other.
pub fn damaged(random: &mut Random, number: u16, later: Option<u16>) -> Damaged {
    let mut draft = accepted(random, BASE);
    let mut place = 0;
    for fault in later.into_iter().chain([number]) {
        place = put_in(random, &mut draft, fault);
    }
    let mut bytes = draft.bytes();
    if number == 1 {
        break_length(random, &mut bytes);
    }
    Damaged { bytes, refusal: Refusal { number, place } }
}

/// Puts one of the faults 2 to 9 in the draft and gives its place.
fn put_in(random: &mut Random, draft: &mut Draft, fault: u16) -> u16 {
    match fault {
        2 => draft.threads = random.pick(&[0, 1, 5, 6, 256, 65_535]),
        3 => draft.switches = random.pick(&[16, 17, 31, 256, 32_768, 65_535]),
        4 => too_many_items(random, draft),
        5 => use_absent_field(random, draft),
        6 => break_links(random, draft),
        7 => add_stray_record(random, draft),
        8 => lengthen_a_thread(random, draft),
        9 => return break_a_record(random, draft),
        // Fault 1 is put in the bytes.
        _ => {}
    }
    0
}

/// "The case is not 32 + 16R bytes with R from 0 to 256."
fn break_length(random: &mut Random, bytes: &mut Vec<u8>) {
    match random.below(4) {
        0 => bytes.truncate(random.below(32)),
        1 => bytes.truncate(bytes.len() - 1 - random.below(15)),
        2 => bytes.extend(vec![0; 1 + random.below(15)]),
        _ => bytes.resize(32 + 16 * (257 + random.below(40)), 0),
    }
}

/// "G is over 8 or M is over 4."
fn too_many_items(random: &mut Random, draft: &mut Draft) {
    if random.chance(50) {
        draft.globals = random.pick(&[9, 10, 256, 65_535]);
    } else {
        draft.mutexes = random.pick(&[5, 6, 256, 65_535]);
    }
}

/// "A header field of an absent thread or global is not 0."
fn use_absent_field(random: &mut Random, draft: &mut Draft) {
    let value = 1 + random.between(0, 3);
    if draft.threads < 4 && random.chance(50) {
        let absent = random.between(draft.threads, 3);
        draft.firsts[usize::from(absent)] = value;
    } else {
        let absent = random.between(draft.globals, 7);
        draft.initial[usize::from(absent)] = value;
    }
}

/// "A first or next number is over R, or a record is reached twice."
fn break_links(random: &mut Random, draft: &mut Draft) {
    let records = draft.records.len() as u16;
    let thread = random.below(usize::from(draft.threads));
    let chain = draft.chain(thread);
    let over = random.pick(&[records + 1, records + 2, 257, 65_534]);
    match random.below(5) {
        0 => draft.firsts[thread] = over,
        1 => draft.records[random.below(usize::from(records))].next = over,
        // In no chain, so that only looking at every record finds it.
        2 => draft.records.push(Line { next: over + 1, ..compute(0, constant(1)) }),
        3 => {
            // The chain runs into itself.
            let last = usize::from(*chain.last().expect("each thread has a line"));
            draft.records[last - 1].next = random.pick(&chain);
        }
        _ => {
            // Another thread begins in the middle of this one.
            let other = (thread + 1) % usize::from(draft.threads);
            draft.firsts[other] = random.pick(&chain);
        }
    }
}

/// "A record is in no chain": one that ends, one that points into a chain, or
/// one that points at itself.
fn add_stray_record(random: &mut Random, draft: &mut Draft) {
    let number = draft.records.len() as u16 + 1;
    let next = random.between(0, number);
    draft.records.push(Line { next, ..compute(0, constant(1)) });
}

/// "A thread has over 64 lines": adds 64 to 70 lines in front of one.
fn lengthen_a_thread(random: &mut Random, draft: &mut Draft) {
    let thread = random.below(usize::from(draft.threads));
    for _ in 0..random.between(64, 70) {
        let next = draft.firsts[thread];
        draft.records.push(Line { next, ..compute(0, constant(1)) });
        draft.firsts[thread] = draft.records.len() as u16;
    }
}

/// "A record breaks the rules of its fields; the place is the lowest such
/// record."
fn break_a_record(random: &mut Random, draft: &mut Draft) -> u16 {
    let mut lowest = u16::MAX;
    for _ in 0..random.between(1, 2) {
        let number = random.between(1, draft.records.len() as u16);
        let broken = broken_line(random, draft, draft.line(number));
        draft.records[usize::from(number) - 1] = broken;
        lowest = lowest.min(number);
    }
    lowest
}

/// The line with one field that its kind does not allow. (A line that is
/// already broken stays broken: its kind or guard may be out of range, and the
/// change below only takes one field further out.)
pub fn broken_line(random: &mut Random, draft: &Draft, line: &Line) -> Line {
    let mut line = *line;
    match random.below(7) {
        0 => line.kind = random.pick(&[0, 9, 10, 256, 65_535]),
        1 => line.guard = random.pick(&[33, 34, 256, 65_535]),
        2 => line.target = first_wrong_target(draft, &line) + random.between(0, 2),
        3 => line.op = if line.has_expression() { 7 } else { 1 } + random.between(0, 2),
        4 => line.a = first_wrong_a(draft, &line) + random.between(0, 2),
        5 => line.b = first_wrong_b(&line) + random.between(0, 2),
        _ if uses_constant(&line) => line.a = 17,
        _ => line.c = 1 + random.between(0, 2),
    }
    line
}

fn first_wrong_target(draft: &Draft, line: &Line) -> u16 {
    match line.kind {
        COMPUTE | LOAD | INPUT => 16,
        STORE => draft.globals,
        LOCK | UNLOCK => draft.mutexes,
        _ => 1,
    }
}

fn first_wrong_a(draft: &Draft, line: &Line) -> u16 {
    match line.kind {
        LOAD => draft.globals,
        _ if line.has_expression() => 17,
        _ => 1,
    }
}

fn first_wrong_b(line: &Line) -> u16 {
    if line.has_expression() && line.op != COPY {
        17
    } else {
        1
    }
}

fn uses_constant(line: &Line) -> bool {
    let uses_b = line.op != COPY;
    line.has_expression() && (line.a == CONSTANT || (uses_b && line.b == CONSTANT))
}

/// Random bytes: some with a likely header, so that reading goes further.
pub fn random_bytes(random: &mut Random) -> Vec<u8> {
    let records = random.below(6);
    let length = if random.chance(70) { 32 + 16 * records } else { random.below(120) };
    let small = random.chance(60);
    let mut bytes: Vec<u8> = (0..length).map(|_| random.any() as u8).collect();
    if small {
        // Small numbers: high bytes are 0 and low bytes keep few bits.
        for (place, byte) in bytes.iter_mut().enumerate() {
            *byte = if place % 2 == 1 { 0 } else { *byte & 3 };
        }
    }
    if bytes.len() >= 2 && random.chance(80) {
        bytes[0] = 2 + random.below(3) as u8;
        bytes[1] = 0;
    }
    bytes
}

/// An accepted case with one to three random bytes changed, or with its end
/// cut off or lengthened: what refusal it meets is not known beforehand.
pub fn scratched(random: &mut Random, draft: &Draft) -> Vec<u8> {
    let mut bytes = draft.bytes();
    match random.below(10) {
        0 => bytes.truncate(random.below(bytes.len() + 1)),
        1 => bytes.extend(vec![0; random.below(40)]),
        _ => {
            for _ in 0..random.between(1, 3) {
                let place = random.below(bytes.len());
                bytes[place] = random.pick(&[0, 1, 2, 3, 16, 17, 33, 255]);
            }
        }
    }
    bytes
}
