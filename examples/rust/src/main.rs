//! Replays a schedule on a case, with Menduvo's proved calls:
//!
//! ```text
//! replay CASE NUMBER..
//! ```
//!
//! The numbers are the block lengths, one for each block, and then a value for each input line. README.md, "From C and Rust", has
//! the line that builds it. The exit status is that of `menduvo replay`: 1 where the run violates, 2 where the case or the schedule is
//! refused, 3 where something else failed.
#![forbid(unsafe_code)]

use menduvo::{Encoded, Refusal, Replayed, Verdict, MOST_ITEMS, MOST_TABLE_NUMBERS};
use std::process::ExitCode;

/// What was refused or failed, in words, and the exit status.
struct Failure(String, u8);

fn main() -> ExitCode {
    let arguments: Vec<String> = std::env::args().skip(1).collect();
    match replay(&arguments) {
        Ok(Replayed::Violated(_)) => ExitCode::from(1),
        Ok(_) => ExitCode::SUCCESS,
        Err(Failure(message, status)) => {
            eprintln!("replay: {message}");
            ExitCode::from(status)
        }
    }
}

fn replay(arguments: &[String]) -> Result<Replayed, Failure> {
    let (file, words) = arguments.split_first().ok_or(Failure("usage: replay CASE NUMBER..".to_string(), 3))?;
    let case = std::fs::read(file).map_err(|error| Failure(format!("{file}: {error}"), 3))?;
    if let Verdict::Refused { number, place } = menduvo::accept(&case) {
        return Err(refused(file, number, place));
    }
    // Room of the largest size is never too short.
    match menduvo::encode(&case, &mut [0; MOST_TABLE_NUMBERS]) {
        Encoded::Refused { number, place } => return Err(refused(file, number, place)),
        table => println!("{file}: {table}"),
    }

    let schedule: Vec<u16> = words.iter().map(|word| number(word)).collect::<Result<_, _>>()?;
    let mut items = [0; MOST_ITEMS];
    let run = menduvo::replay(&case, &schedule, &mut items);
    if let Replayed::Refused { number, place } = run {
        return Err(refused("the schedule", number, place));
    }
    // Bytes 4 to 7 of a case are the numbers of globals and of mutexes, low byte first.
    let items = &items[..usize::from(case[4]) + usize::from(case[6])];
    println!("items:{}", items.iter().map(|value| format!(" {value}")).collect::<String>());
    match run {
        // The kind of the record tells the two sorts apart.
        Replayed::Violated(record) if is_unlock(&case, record) => {
            println!("violated: record {record} is an unlock by a stranger")
        }
        Replayed::Violated(record) => println!("violated: record {record} is a zero assert"),
        other => println!("{other}"),
    }
    Ok(run)
}

/// Whether a record of the case is an unlock: its second field, low byte first, is the kind.
fn is_unlock(case: &[u8], record: u16) -> bool {
    case[32 + 16 * (usize::from(record) - 1) + 2] == 8
}

/// A number of 16 bits, decimal and nothing else.
fn number(word: &str) -> Result<u16, Failure> {
    let plain = word.bytes().all(|byte| byte.is_ascii_digit());
    let number = word.parse().ok().filter(|_| plain);
    number.ok_or_else(|| Failure(format!("{word}: not a number from 0 to 65535"), 3))
}

/// Which input was refused, where, and what that means.
fn refused(input: &str, number: u16, place: u16) -> Failure {
    Failure(format!("{input}: {}", Refusal { number, place }), 2)
}
