//! The schedule that an assignment stands for.

use super::check::Assigned;
use super::encode::{value_row_of, Row};
use super::wrong::Wrong;

/// The block lengths, then the input values "by thread and then by chain".
pub fn schedule(assigned: &Assigned) -> Vec<u16> {
    let case = assigned.case;
    let blocks = 0..=case.switches;
    let mut schedule: Vec<u16> = blocks.map(|block| block_length(assigned, block)).collect();
    schedule.extend(case.inputs().iter().map(|&line| input_value(assigned, line)));
    schedule
}

/// "the length of block i is the number of lines of thread i modulo T whose
/// block number is i"
fn block_length(assigned: &Assigned, block: usize) -> u16 {
    let case = assigned.case;
    let lines = case.chains[case.thread_of_block(block)].iter();
    let counts_unrun = case.wrong == Wrong::UnrunCounted && block == case.switches;
    let number = |line: u16| assigned.block(counted_line(assigned, line));
    let is_counted = |line: u16| usize::from(number(line)) == block || counts_unrun && !assigned.was_run(line);
    lines.filter(|&&line| is_counted(line)).count() as u16
}

/// The line by whose block number a line is counted: itself, but by mistake.
fn counted_line(assigned: &Assigned, line: u16) -> u16 {
    let is_its_8 = |row: &&Row| row[0] == 8 && row[1] == line;
    match assigned.rows.iter().find(is_its_8) {
        Some(row) if assigned.case.wrong == Wrong::CountedWithBefore => row[2],
        _ => line,
    }
}

/// "a run input line with a true guard has its variable's value, any other
/// input line 0"
fn input_value(assigned: &Assigned, line: u16) -> u16 {
    let record = assigned.case.record(line);
    let [_, _, guard_copy, ..] = value_row_of(assigned.rows, line);
    let guarded_in = assigned.guard_is_true(record, guard_copy);
    match assigned.case.wrong {
        Wrong::FalseInputKept => assigned.value(line),
        Wrong::UnrunInputFree if !assigned.was_run(line) => assigned.value(line),
        _ if assigned.was_run(line) && guarded_in => assigned.value(line),
        _ => 0,
    }
}
