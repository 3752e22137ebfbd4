//! How fast the proved calls are, beside the same calls in plain Rust built for release: nanoseconds for one call, and ratios.
//! Nothing passes or fails by its speed. The program fails where the two give different answers.
//!
//! With the argument --answers it times nothing: it compares the answers on every sample, and its last line is 'N passed, M
//! failed'. With the arguments CALL SIDE TIMES it makes just this call, so many times on the largest case, and prints nothing:
//! that is for `bench/instructions`. With --spelling NAME CASE it prints the constraints of a case in this spelling: that
//! is for `bench/spellings`. Other arguments are an error.
#![forbid(unsafe_code)]

mod calls;
mod made;
mod measure;
mod plain;
mod report;
mod sample;
mod spelling;

use std::fs;
use std::hint::black_box;
use std::process::ExitCode;

use calls::Buffers;
use plain::case::Case;
use sample::{Sample, Samples, LARGEST, LONGEST_TEXT};
use spelling::Spelling;

const USAGE: &str = "usage: menduvo-bench [--answers | CALL SIDE TIMES | --spelling NAME CASE], SIDE proved or plain";

fn main() -> ExitCode {
    let arguments: Vec<String> = std::env::args().skip(1).collect();
    let arguments: Vec<&str> = arguments.iter().map(String::as_str).collect();
    let result = match arguments[..] {
        [] => measure_all(),
        ["--answers"] => return compare_answers(),
        ["--spelling", name, case] => print_spelling(name, case),
        [name, side, times] => repeat(name, side, times),
        _ => Err(USAGE.to_string()),
    };
    match result {
        Ok(()) => ExitCode::SUCCESS,
        Err(message) => {
            eprintln!("menduvo-bench: {message}");
            ExitCode::FAILURE
        }
    }
}

/// Makes one call so many times on the largest case.
fn repeat(name: &str, side: &str, times: &str) -> Result<(), String> {
    let call = calls::call(name, side).ok_or(USAGE)?;
    let times: u32 = times.parse().map_err(|_| USAGE)?;
    let (sample, mut buffers) = (Sample::made(LARGEST), Buffers::new());
    for _ in 0..times {
        call(black_box(&sample), black_box(&mut buffers));
    }
    Ok(())
}

fn print_spelling(name: &str, case: &str) -> Result<(), String> {
    let spelling = Spelling::named(name).ok_or(USAGE)?;
    let bytes = fs::read(case).map_err(|error| format!("{case}: {error}"))?;
    let accepted = Case::accept(&bytes).map_err(|refusal| format!("{case}: refusal {}", refusal.number))?;
    print!("{}", spelling.text(&accepted));
    Ok(())
}

fn compare_answers() -> ExitCode {
    let (mut passed, mut failed) = (0, 0);
    let samples = Samples::all();
    let longest = calls::texts_agree(LONGEST_TEXT).map_err(|message| format!("longest text: {message}"));
    for outcome in samples.iter().map(calls::agree).chain([longest]) {
        match outcome {
            Ok(()) => passed += 1,
            Err(message) => {
                failed += 1;
                println!("FAILED: {message}");
            }
        }
    }
    println!("{passed} passed, {failed} failed");
    ExitCode::from(u8::from(failed > 0))
}

fn measure_all() -> Result<(), String> {
    let samples = Samples::all();
    samples.iter().try_for_each(calls::agree)?;
    let mut buffers = Buffers::new();
    let mut measure = |sample: &Sample| calls::times(sample, &mut buffers);
    report::heading();
    report::sizes(&samples.sizes.each_ref().map(|sample| (sample, measure(sample))));
    report::growth(
        "How time grows with R, the number of records (4 threads, n 15, 12 items)",
        &samples.by_records.each_ref().map(|sample| (format!("R {}", sample.records()), measure(sample))),
    );
    report::growth(
        "How time grows with n, the number of switches (4 threads, R 256, 12 items)",
        &samples.by_switches.each_ref().map(|sample| (format!("n {}", sample.switches()), measure(sample))),
    );
    Ok(())
}
