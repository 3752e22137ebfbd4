//! The text that the listing program prints.

use super::encode::Row;
use super::wrong::Wrong;
use crate::calls::Refusal;

/// "the count of constraints and of variables, then one constraint a line"
pub fn of_table(rows: &[Row], variables: usize) -> String {
    let counts = line(&[rows.len() as u16, variables as u16]);
    let constraints = rows.iter().map(|row| line(row));
    [counts].into_iter().chain(constraints).collect()
}

/// "For a refused case it prints the number and place on one line."
pub fn of_refusal(refusal: Refusal, wrong: Wrong) -> String {
    let Refusal { number, place } = refusal;
    match wrong {
        Wrong::PlaceBeforeNumber => line(&[place, number]),
        _ => line(&[number, place]),
    }
}

/// Numbers in base ten, a space between two of them, and the line's end.
fn line(numbers: &[u16]) -> String {
    let numbers: Vec<String> = numbers.iter().map(u16::to_string).collect();
    numbers.join(" ") + "\n"
}
