//! Times reading alone, in one process: `cue_samples` of the static library, which reads a sheet and counts its samples, and
//! the Rust's `parse`, by turns. For each sheet that is named it prints the samples and the least nanoseconds of each.

#![allow(dead_code)]

mod engine;
#[cfg(not(given))]
mod ruled;
#[cfg(not(given))]
mod table;

use std::hint::black_box;
use std::time::{Duration, Instant};

// The mode of the library's call; the Rust has no other.
const PLAIN: u32 = 0;
const ROUNDS: usize = 20;
const ENOUGH: Duration = Duration::from_millis(150);

extern "C" {
    fn cue_samples(source: *const u8, len: usize, mode: u32, refusal: *mut u32, line: *mut usize) -> usize;
}

fn samples(text: &str) -> usize {
    let (mut refusal, mut line) = (0, 0);
    // SAFETY: the text is lent for the call, and the two numbers are this function's.
    let count = unsafe { cue_samples(text.as_ptr(), text.len(), PLAIN, &mut refusal, &mut line) };
    assert_eq!((refusal, line), (0, 0), "a sheet of the benchmark is accepted");
    count
}

/// How long one call takes; what it answers is dropped after the clock has stopped.
fn timed<T>(call: impl Fn(&str) -> T, text: &str) -> Duration {
    let begun = Instant::now();
    let answer = black_box(call(black_box(text)));
    let time = begun.elapsed();
    drop(answer);
    time
}

fn main() {
    for name in std::env::args().skip(1) {
        let text = std::fs::read_to_string(name).expect("the sheet can be read");
        let (mut here, mut there) = (Duration::MAX, Duration::MAX);
        let begun = Instant::now();
        let mut rounds = 0;
        while rounds < ROUNDS || begun.elapsed() < ENOUGH {
            here = here.min(timed(samples, &text));
            there = there.min(timed(engine::parser::parse, &text));
            rounds += 1;
        }
        println!("{} {} {}", samples(&text), here.as_nanos(), there.as_nanos());
    }
}
