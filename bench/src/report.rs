//! What is printed: tables in Markdown.

use crate::calls::{CALLS, NAMES};
use crate::measure::{Times, SAMPLES};
use crate::sample::Sample;

pub fn heading() {
    println!("Nanoseconds for one call of the proved library and of plain Rust built for release, on the same input.");
    println!("Each is the median of {SAMPLES} samples, taken in turns; the ratio is that of the medians.");
    println!("Both write to the same buffers, as long as any case needs; they are not cleared between calls.");
    println!(
        "In the rows take_line every line of the case is taken, each thread's front to back: as many calls as it has records."
    );
}

pub fn sizes(measured: &[(&Sample, [Times; CALLS])]) {
    println!("\n| case    |   R |  n | items | call       |  proved |   plain | ratio |");
    println!("|:--------|----:|---:|------:|:-----------|--------:|--------:|------:|");
    for (sample, times) in measured {
        for (call, times) in NAMES.iter().zip(times) {
            let (name, records, switches, items) = (sample.name, sample.records(), sample.switches(), sample.items());
            print!("| {name:7} | {records:3} | {switches:2} | {items:5} | {call:10} ");
            println!("| {:7.0} | {:7.0} | {:5.2} |", times.proved, times.plain, times.ratio());
        }
    }
}

/// A line for each call and each side, a column for each sample.
pub fn growth(title: &str, measured: &[(String, [Times; CALLS])]) {
    println!("\n{title}:\n");
    print!("| call       |        |");
    measured.iter().for_each(|(name, _)| print!(" {name:>7} |"));
    print!("\n|:-----------|:-------|");
    measured.iter().for_each(|_| print!("--------:|"));
    println!();
    for (call, name) in NAMES.iter().enumerate() {
        growth_line(name, "proved", measured, |times| format!("{:.0}", times[call].proved));
        growth_line(name, "plain", measured, |times| format!("{:.0}", times[call].plain));
        growth_line(name, "ratio", measured, |times| format!("{:.2}", times[call].ratio()));
    }
}

fn growth_line(call: &str, side: &str, measured: &[(String, [Times; CALLS])], figure: impl Fn(&[Times; CALLS]) -> String) {
    print!("| {call:10} | {side:6} |");
    measured.iter().for_each(|(_, times)| print!(" {:>7} |", figure(times)));
    println!();
}
