//! What the Rust package has without a library: the refusals' texts, a line each; and then every answer in words.
#![forbid(unsafe_code)]

use menduvo::{Checked, Decoded, Encoded, Filled, Listed, Refusal, Replayed, Taken, Verdict};
use std::error::Error;

fn main() {
    for number in 0..=18 {
        println!("{number} {}", Refusal { number, place: 0 }.meaning());
    }
    println!("{}", Verdict::Accepted);
    println!("{}", Verdict::Refused { number: 1, place: 0 });
    println!("{}", Encoded::Table { constraints: 18, variables: 12 });
    println!("{}", Encoded::Table { constraints: 1, variables: 1 });
    println!("{}", Encoded::Refused { number: 9, place: 3 });
    println!("{}", Checked::Meets);
    println!("{}", Checked::Fails(13));
    println!("{}", Checked::Refused { number: 11, place: 0 });
    println!("{}", Decoded::Schedule { numbers: 3 });
    println!("{}", Decoded::Refused { number: 15, place: 2 });
    println!("{}", Replayed::Violated(4));
    println!("{}", Replayed::Clean);
    println!("{}", Replayed::CutOff(7));
    println!("{}", Replayed::Refused { number: 14, place: 5 });
    println!("{}", Filled::Assignment { numbers: 12 });
    println!("{}", Filled::Assignment { numbers: 1 });
    println!("{}", Filled::Refused { number: 16, place: 0 });
    println!("{}", Filled::Refused { number: 17, place: 4 });
    println!("{}", Listed::Text { bytes: 220 });
    println!("{}", Listed::Refused { number: 10, place: 0 });
    println!("{}", Taken::Copies { guard: 0, a: 3, b: 0, target: 256 });
    println!("{}", Taken::Refused { number: 6, place: 0 });
    let error: Box<dyn Error> = Box::new(Refusal { number: 2, place: 0 });
    println!("{error}");
}
