//! The listing of a case, accepted or refused. No table is made: each constraint becomes a line as it comes.

use super::case::{Case, Refusal};
use super::encode::put_rows;

/// No number of 16 bits has more, with the byte that ends it.
const MOST_NUMBER_BYTES: usize = 6;

/// Whether the text fits in so many bytes. It is measured only where there is not room for every text with as many numbers.
pub fn fits(case: &Result<Case, Refusal>, room: usize) -> bool {
    let constraints = case.as_ref().map_or(0, Case::constraints);
    room >= MOST_NUMBER_BYTES * (2 + 6 * constraints) || room >= text_bytes(case)
}

fn text_bytes(case: &Result<Case, Refusal>) -> usize {
    let line_bytes = |numbers: &[u16]| numbers.iter().map(|&n| number_bytes(n)).sum::<usize>();
    let mut bytes = line_bytes(&first_line(case));
    if let Ok(case) = case {
        put_rows(case, |row| bytes += line_bytes(&row));
    }
    bytes
}

/// Its digits, and the byte that ends it.
fn number_bytes(n: u16) -> usize {
    2 + usize::from(n >= 10) + usize::from(n >= 100) + usize::from(n >= 1_000) + usize::from(n >= 10_000)
}

/// Writes the text to a slice that it fits in; how many bytes it has.
pub fn write_text(case: &Result<Case, Refusal>, text: &mut [u8]) -> usize {
    let mut at = put_line(text, 0, first_line(case));
    if let Ok(case) = case {
        put_rows(case, |row| at = put_line(text, at, row));
    }
    at
}

fn first_line(case: &Result<Case, Refusal>) -> [u16; 2] {
    match case {
        Ok(case) => [case.constraints() as u16, case.variables() as u16],
        Err(Refusal { number, place }) => [*number, *place],
    }
}

/// Some numbers on a line, from a place on; the place after them.
fn put_line<const N: usize>(text: &mut [u8], mut at: usize, numbers: [u16; N]) -> usize {
    for (j, n) in numbers.into_iter().enumerate() {
        at = put_number(text, at, n, if j + 1 < N { b' ' } else { b'\n' });
    }
    at
}

fn put_number(text: &mut [u8], at: usize, n: u16, end: u8) -> usize {
    let digit = |n: u16| b'0' + (n % 10) as u8;
    match n {
        0..10 => put(text, at, [digit(n), end]),
        10..100 => put(text, at, [digit(n / 10), digit(n), end]),
        100..1_000 => put(text, at, [digit(n / 100), digit(n / 10), digit(n), end]),
        1_000..10_000 => put(text, at, [digit(n / 1_000), digit(n / 100), digit(n / 10), digit(n), end]),
        _ => put(text, at, [digit(n / 10_000), digit(n / 1_000), digit(n / 100), digit(n / 10), digit(n), end]),
    }
}

fn put<const N: usize>(text: &mut [u8], at: usize, bytes: [u8; N]) -> usize {
    text[at..at + N].copy_from_slice(&bytes);
    at + N
}
