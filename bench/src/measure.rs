//! Times of two calls that do the same, taken in turns, so that both meet the same machine.

use std::hint::black_box;
use std::time::Instant;

/// How many samples of each there are. It is odd, so that one of them is the median.
pub const SAMPLES: usize = 1_001;

/// A sample repeats its call for about this long: far longer than it takes to read the clock, and far shorter than the turns
/// that the system gives to programs, so that most samples are not interrupted.
const SAMPLE_NANOSECONDS: f64 = 50_000.0;

/// Medians, in nanoseconds for one call.
#[derive(Clone, Copy)]
pub struct Times {
    pub proved: f64,
    pub plain: f64,
}

impl Times {
    pub fn ratio(&self) -> f64 {
        self.proved / self.plain
    }
}

/// Both calls get the same buffers, which are not cleared between calls.
pub fn compare<Buffers, Answer>(
    buffers: &mut Buffers,
    proved: impl Fn(&mut Buffers) -> Answer,
    plain: impl Fn(&mut Buffers) -> Answer,
) -> Times {
    let proved_calls = calls_in_a_sample(buffers, &proved);
    let plain_calls = calls_in_a_sample(buffers, &plain);
    let (mut proved_times, mut plain_times) = (Vec::new(), Vec::new());
    for turn in 0..SAMPLES {
        if turn % 2 == 0 {
            proved_times.push(time(buffers, &proved, proved_calls));
            plain_times.push(time(buffers, &plain, plain_calls));
        } else {
            plain_times.push(time(buffers, &plain, plain_calls));
            proved_times.push(time(buffers, &proved, proved_calls));
        }
    }
    Times { proved: median(proved_times), plain: median(plain_times) }
}

/// How many calls fill a sample; finding out warms up too.
fn calls_in_a_sample<Buffers, Answer>(buffers: &mut Buffers, call: &impl Fn(&mut Buffers) -> Answer) -> u32 {
    let mut calls = 1;
    while time(buffers, call, calls) * f64::from(calls) < SAMPLE_NANOSECONDS {
        calls *= 2;
    }
    calls
}

/// Nanoseconds for one of so many calls.
fn time<Buffers, Answer>(buffers: &mut Buffers, call: &impl Fn(&mut Buffers) -> Answer, calls: u32) -> f64 {
    let begin = Instant::now();
    for _ in 0..calls {
        black_box(call(buffers));
    }
    begin.elapsed().as_nanos() as f64 / f64::from(calls)
}

fn median(mut times: Vec<f64>) -> f64 {
    times.sort_by(f64::total_cmp);
    times[times.len() / 2]
}
