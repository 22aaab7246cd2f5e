//! The front of the three rivals, as light as it can be: a sheet from standard input, and to standard output its WAV
//! file or one line that says what is wrong. `--cfg` says which of the three is built.

#![allow(dead_code)]

mod engine;
#[cfg(fast)]
mod fast;
#[cfg(not(given))]
mod ruled;
#[cfg(not(given))]
mod table;

use std::fs::File;
use std::io::{Read, Write};
use std::os::fd::FromRawFd;

/// Standard input or output without the locks and lines of `std::io`.
fn plain(fd: i32) -> File {
    // SAFETY: each is opened once here, and nothing else uses it.
    unsafe { File::from_raw_fd(fd) }
}

fn sheet() -> String {
    let mut bytes = Vec::with_capacity(1 << 15);
    plain(0).read_to_end(&mut bytes).expect("standard input can be read");
    String::from_utf8(bytes).expect("the sheet is a text")
}

/// The engine buffers its bytes itself.
fn play() {
    match engine::run(&sheet()) {
        Ok(wave) => engine::generate_wave(wave, plain(1)).expect("standard output can be written"),
        Err(text) => writeln!(plain(1), "{text}").expect("standard output can be written"),
    }
}

fn count_notes() {
    let read = engine::parser::parse(&sheet()).expect("the sheet is accepted");
    println!("{}", read.parts.values().map(Vec::len).sum::<usize>());
}

fn main() {
    let words: Vec<String> = std::env::args().skip(1).collect();
    match words.iter().map(String::as_str).collect::<Vec<_>>()[..] {
        [] => play(),
        ["notes"] => count_notes(),
        #[cfg(fast)]
        ["sines", step] => println!("{}", fast::compare(step.parse().expect("a step"))),
        _ => panic!("no such words"),
    }
}
