//! Reading a case file: refusals 1 to 9, in checking order.

use super::case::{Case, Record, ASSERT, ASSUME, COMPUTE, INPUT, LOAD, LOCK, STORE, UNLOCK};
use super::wrong::Wrong;
use crate::calls::Refusal;

/// A refusal whose place is not stated, so that it is 0.
pub fn refusal(number: u16) -> Refusal {
    Refusal { number, place: 0 }
}

pub fn refuse_if(condition: bool, number: u16) -> Result<(), Refusal> {
    if condition {
        Err(refusal(number))
    } else {
        Ok(())
    }
}

/// "Calls on a case make checks 1 to 9 first."
pub fn read(bytes: &[u8], wrong: Wrong) -> Result<Case, Refusal> {
    refuse_if(!has_whole_records(bytes), 1)?;
    let mut case = split(bytes, wrong);
    refuse_if(!(2..=4).contains(&case.threads), 2)?;
    refuse_if(case.switches > 15, 3)?;
    refuse_if(has_too_many_items(case.globals, case.mutexes), 4)?;
    refuse_if(!absent_fields_are_zero(&case), 5)?;
    case.chains = follow_chains(&case).ok_or(refusal(6))?;
    let reached: usize = case.chains.iter().map(Vec::len).sum();
    refuse_if(reached < case.records.len(), 7)?;
    refuse_if(case.chains.iter().any(|chain| chain.len() > 64), 8)?;
    match lowest_broken_record(&case) {
        Some(place) => Err(Refusal { number: 9, place }),
        None => Ok(case),
    }
}

/// "32 + 16R bytes with R from 0 to 256".
fn has_whole_records(bytes: &[u8]) -> bool {
    (0..=256).any(|records| bytes.len() == 32 + 16 * records)
}

/// "Fields are unsigned, 16 bits wide, low byte first".
fn split(bytes: &[u8], wrong: Wrong) -> Case {
    let fields: Vec<u16> = bytes.chunks_exact(2).map(|pair| u16::from_le_bytes([pair[0], pair[1]])).collect();
    let (header, rest) = fields.split_at(16);
    Case {
        threads: usize::from(header[0]),
        switches: usize::from(header[1]),
        globals: usize::from(header[2]),
        mutexes: usize::from(header[3]),
        firsts: [header[4], header[5], header[6], header[7]],
        initial: std::array::from_fn(|global| header[8 + global]),
        records: rest.chunks_exact(8).map(record).collect(),
        chains: Vec::new(),
        wrong,
    }
}

pub fn record(fields: &[u16]) -> Record {
    Record {
        next: fields[0],
        kind: fields[1],
        guard: fields[2],
        target: fields[3],
        op: fields[4],
        a: fields[5],
        b: fields[6],
        c: fields[7],
    }
}

/// "G is over 8 or M is over 4."
pub fn has_too_many_items(globals: usize, mutexes: usize) -> bool {
    globals > 8 || mutexes > 4
}

/// "Fields of absent threads and globals are 0."
fn absent_fields_are_zero(case: &Case) -> bool {
    let threads = &case.firsts[case.threads..];
    let globals = &case.initial[case.globals..];
    threads.iter().chain(globals).all(|&field| field == 0)
}

/// The chains from the threads' first records; none if "a first or next
/// number is over R, or a record is reached twice".
///
/// Every record's next number counts, also where no chain reaches the record.
/// A record is reached from the threads' first records only, so a stray cycle
/// is left to refusal 7.
fn follow_chains(case: &Case) -> Option<Vec<Vec<u16>>> {
    let records = case.records.len();
    let is_over = |link: u16| usize::from(link) > records;
    let nexts_count = case.wrong != Wrong::StrayNextUnseen;
    let first_is_over = case.firsts.iter().any(|&first| is_over(first));
    let next_is_over = case.records.iter().any(|record| is_over(record.next));
    if first_is_over || (next_is_over && nexts_count) {
        return None;
    }
    let mut reached = vec![false; records];
    let firsts = &case.firsts[..case.threads];
    firsts.iter().map(|&first| follow_chain(case, first, &mut reached)).collect()
}

fn follow_chain(case: &Case, first: u16, reached: &mut [bool]) -> Option<Vec<u16>> {
    let mut chain = Vec::new();
    let mut line = first;
    // "zero ends the chain"
    while line != 0 {
        let mark = reached.get_mut(usize::from(line) - 1)?;
        if *mark {
            return None;
        }
        *mark = true;
        chain.push(line);
        line = case.record(line).next;
    }
    Some(chain)
}

/// "A record breaks the rules of its fields; the place is the lowest such
/// record."
fn lowest_broken_record(case: &Case) -> Option<u16> {
    let is_broken = |record: &Record| !keeps_the_rules(case.globals, case.mutexes, record);
    let broken = case.records.iter().position(is_broken)?;
    Some(broken as u16 + 1)
}

/// The rules of Kinds, with so many globals and mutexes, and "A field that its
/// kind does not use is 0".
pub fn keeps_the_rules(globals: usize, mutexes: usize, record: &Record) -> bool {
    let target_is_local = record.target <= 15;
    let target_is_global = usize::from(record.target) < globals;
    let target_is_mutex = usize::from(record.target) < mutexes;
    let a_is_global = usize::from(record.a) < globals;
    let no_op_b_c = record.op == 0 && record.b == 0 && record.c == 0;
    let no_expression = no_op_b_c && record.a == 0;
    let kind_is_kept = match record.kind {
        COMPUTE => target_is_local && is_expression(record),
        STORE => target_is_global && is_expression(record),
        LOAD => target_is_local && a_is_global && no_op_b_c,
        INPUT => target_is_local && no_expression,
        // "the expression must not be zero; target is 0"
        ASSERT | ASSUME => record.target == 0 && is_expression(record),
        LOCK | UNLOCK => target_is_mutex && no_expression,
        _ => false,
    };
    // "Guard 0 is always; 1 to 16 [...]; 17 to 32".
    kind_is_kept && record.guard <= 32
}

/// "An operand 0 to 15 is a local, 16 is the constant c", "0 gives a (then b
/// is 0)", and "c is 0 unless a used operand is 16".
fn is_expression(record: &Record) -> bool {
    let uses_b = record.op != 0;
    let b_is_kept = if uses_b { record.b <= 16 } else { record.b == 0 };
    let uses_c = record.a == 16 || (uses_b && record.b == 16);
    record.op <= 6 && record.a <= 16 && b_is_kept && (uses_c || record.c == 0)
}
