//! The front of the two oracle programs `given` and `ruled`; `--cfg ruled` tells them apart.
//! It asks the Rust engine one kind of question per mode and prints floats as bit patterns,
//! so that an answer can be compared byte for byte.
//!
//! Modes, each with what it reads from standard input and what it writes:
//!   notes        a sheet; `err`, or parts, notes, instruments and commands
//!   batch        escaped sheets, one a line; for each the answer of `notes` and a line `.`
//!   message      a sheet; the engine's error text, or `ok`
//!   wav          a sheet; the WAV bytes, or `err`
//!   raw          a sheet; its samples as little-endian f32, or `err`
//!   samples      little-endian f32 samples; the WAV bytes of them
//!   numbers      requests as crates/ask_numbers takes them; the answers (numbers.rs)
//!   instruments  records as crates/ask_instrument takes them; the answers (instruments.rs)
//!   thrown       random bytes; requests for `numbers` made of them (thrown.rs)

// The engine's own file front is not called here.
#![allow(dead_code)]

mod engine;
mod instruments;
mod numbers;
#[cfg(ruled)]
mod ruled;
#[cfg(ruled)]
mod table;
mod thrown;

use engine::instrument::{Command, Instrument, Operator};
use engine::note::Note;
use engine::parser::{self, ParsedInfo};
use std::fmt::Write as _;
use std::io::{self, Read, Write};
use std::panic;
use std::process::exit;

const NOT_UTF8: &str = "not utf-8\n";
const ERR: &str = "err\n";

fn main() {
    let mode = std::env::args().nth(1).unwrap_or_default();
    let bytes = input();
    match mode.as_str() {
        "notes" => put(notes(&bytes).as_bytes()),
        "batch" => batch(&bytes),
        "message" => put((message(&bytes) + "\n").as_bytes()),
        "wav" => put(&sound(&bytes, wave_bytes)),
        "raw" => put(&sound(&bytes, raw_bytes)),
        "samples" => put(&wave_bytes(samples(&bytes))),
        "numbers" => put(&numbers::answers(&bytes)),
        "instruments" => put(&instruments::answers(&bytes)),
        "thrown" => put(&thrown::requests(&bytes)),
        _ => fail("no such mode"),
    }
}

fn fail(what: &str) -> ! {
    eprintln!("oracle: {what}");
    exit(2)
}

fn input() -> Vec<u8> {
    let mut bytes = Vec::new();
    if io::stdin().lock().read_to_end(&mut bytes).is_err() {
        fail("standard input cannot be read");
    }
    bytes
}

fn put(bytes: &[u8]) {
    let mut out = io::stdout().lock();
    if out.write_all(bytes).and_then(|_| out.flush()).is_err() {
        fail("standard output cannot be written");
    }
}

/// Bits of a float, with one pattern for every NaN.
fn bits(x: f32) -> u32 {
    if x.is_nan() { 0x7fc0_0000 } else { x.to_bits() }
}

/// The little-endian number at a place of a record.
fn word(record: &[u8], at: usize) -> u32 {
    u32::from_le_bytes(record[at..at + 4].try_into().unwrap())
}

// Sheets.

fn notes(sheet: &[u8]) -> String {
    match std::str::from_utf8(sheet) {
        Err(_) => NOT_UTF8.to_string(),
        Ok(text) => parser::parse(text).map_or(ERR.to_string(), |info| dump(&info)),
    }
}

fn message(sheet: &[u8]) -> String {
    match std::str::from_utf8(sheet) {
        Err(_) => NOT_UTF8.trim_end().to_string(),
        Ok(text) => parser::parse(text).map_or_else(|text| text, |_| "ok".to_string()),
    }
}

fn batch(bytes: &[u8]) {
    panic::set_hook(Box::new(|_| {}));
    for line in bytes.split_inclusive(|b| *b == b'\n') {
        let sheet = unescape(line.strip_suffix(b"\n").unwrap_or(line));
        let answer = panic::catch_unwind(|| notes(&sheet)).unwrap_or("panic\n".to_string());
        put((answer + ".\n").as_bytes());
    }
}

/// A sheet from its one-line form: `\HH` is a byte, all else stands for itself.
fn unescape(line: &[u8]) -> Vec<u8> {
    let mut sheet = Vec::new();
    let mut i = 0;
    while i < line.len() {
        if line[i] == b'\\' {
            sheet.push(hex_byte(line.get(i + 1..i + 3)));
            i += 3;
        } else {
            sheet.push(line[i]);
            i += 1;
        }
    }
    sheet
}

fn hex_byte(digits: Option<&[u8]>) -> u8 {
    digits
        .and_then(|d| std::str::from_utf8(d).ok())
        .and_then(|d| u8::from_str_radix(d, 16).ok())
        .unwrap_or_else(|| fail("a backslash stands before two hex digits"))
}

fn dump(info: &ParsedInfo) -> String {
    let mut out = String::new();
    for (name, notes) in parts(info) {
        dump_part(&mut out, name, notes);
    }
    for inst in &info.insts {
        dump_instrument(&mut out, inst);
    }
    out
}

/// The parts in a fixed order: of first appearance in `ruled`, by name in `given`, whose map
/// has none.
fn parts(info: &ParsedInfo) -> Vec<(&String, &Vec<Note>)> {
    let mut list: Vec<_> = info.parts.iter().collect();
    if cfg!(not(ruled)) {
        list.sort_by_key(|(name, _)| *name);
    }
    list
}

fn dump_part(out: &mut String, name: &str, notes: &[Note]) {
    let hex: String = name.bytes().map(|b| format!("{b:02x}")).collect();
    writeln!(out, "part {hex} {}", notes.len()).unwrap();
    for n in notes {
        let (a, f, d) = (bits(n.amplitude), bits(n.frequency), bits(n.duration));
        writeln!(out, "note {a:08x} {f:08x} {d:08x} {}", n.instrument).unwrap();
    }
}

fn dump_instrument(out: &mut String, inst: &Instrument) {
    writeln!(out, "inst {:08x} {}", bits(inst.release), inst.cmds.len()).unwrap();
    for cmd in &inst.cmds {
        match cmd {
            Command::Operator(op) => dump_operator(out, op),
            Command::Stack(n) => writeln!(out, "stack {n}").unwrap(),
        }
    }
}

fn dump_operator(out: &mut String, op: &Operator) {
    let stages = [op.attack, op.decay, op.sustain, op.release];
    let fields = [&[op.amplitude, op.freqratio][..], &stages].concat();
    let hex: Vec<_> = fields.iter().map(|x| format!("{:08x}", bits(*x))).collect();
    writeln!(out, "op {} {}", hex.join(" "), op.feedback).unwrap();
}

// Sound.

/// The sound of a sheet in the given form.
fn sound(sheet: &[u8], form: fn(Vec<f32>) -> Vec<u8>) -> Vec<u8> {
    match std::str::from_utf8(sheet) {
        Err(_) => NOT_UTF8.into(),
        Ok(text) => engine::run(text).map_or(ERR.into(), form),
    }
}

fn wave_bytes(wave: Vec<f32>) -> Vec<u8> {
    let mut out = Vec::new();
    if engine::generate_wave(wave, &mut out).is_err() {
        fail("the WAV cannot be written");
    }
    out
}

fn raw_bytes(wave: Vec<f32>) -> Vec<u8> {
    wave.iter().flat_map(|x| x.to_le_bytes()).collect()
}

fn samples(bytes: &[u8]) -> Vec<f32> {
    if bytes.len() % 4 != 0 {
        fail("samples are four bytes each");
    }
    let sample = |c| f32::from_bits(word(c, 0));
    bytes.chunks_exact(4).map(sample).collect()
}
