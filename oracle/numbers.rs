//! What the Rust answers to the requests of tools/compare/numbers, whose other half is the proved
//! program `ask_numbers`: crates/ask_numbers/README.md has the form of both.

use crate::engine::evaluator;
use crate::engine::note::Note;
use crate::engine::parser::{self, SEMINOTE_STEP};
use crate::{bits, word};

pub const DECIMAL: u8 = 1;
pub const DIGITS32: u8 = 2;
pub const DIGITS64: u8 = 3;
pub const SINE: u8 = 4;
pub const FREQUENCY: u8 = 5;
pub const DURATION: u8 = 6;
pub const LENGTH: u8 = 7;
pub const SINES: u8 = 8;

/// The most bytes that a request's text has.
pub const TEXT: usize = 29;

/// The most digits that a decimal may have; the Rust itself has no such limit.
const DECIMAL_DIGITS: usize = 18;

/// The most samples that one note may have; the Rust itself has no such limit.
const NOTE_MOST: f32 = 16_777_216.0;

#[derive(Clone, Copy, PartialEq)]
pub struct Request(pub [u8; 32]);

impl Request {
    pub fn of_text(kind: u8, text: &str, place: u8) -> Self {
        let mut bytes = [0; 32];
        bytes[0] = kind;
        bytes[1] = text.len() as u8;
        bytes[2] = place;
        bytes[3..3 + text.len()].copy_from_slice(text.as_bytes());
        Request(bytes)
    }

    pub fn of_words(kind: u8, words: &[u32]) -> Self {
        let mut bytes = [0; 32];
        bytes[0] = kind;
        let numbers = words.iter().flat_map(|w| w.to_le_bytes());
        bytes[4..].iter_mut().zip(numbers).for_each(|(b, n)| *b = n);
        Request(bytes)
    }

    fn kind(&self) -> u8 {
        self.0[0]
    }

    fn text(&self) -> &str {
        let end = 3 + (self.0[1] as usize).min(TEXT);
        std::str::from_utf8(&self.0[3..end]).unwrap_or_else(|_| crate::fail("a text is not utf-8"))
    }

    fn place(&self) -> usize {
        self.0[2] as usize
    }

    /// Number i of the request's numbers.
    fn word(&self, i: usize) -> u32 {
        word(&self.0, 4 + 4 * i)
    }

    fn float(&self, i: usize) -> f32 {
        f32::from_bits(self.word(i))
    }
}

const NO_SUCH_KIND: Answer = tagged(0);
const NO_NUMBER: Answer = tagged(2);
const TOO_LONG: Answer = tagged(3);
const NOT_A_NUMBER: Answer = tagged(4);
const NEGATIVE: Answer = tagged(5);
const TOO_MANY: Answer = tagged(6);

/// Tag, value and place.
type Answer = (u32, u64, u32);

const fn tagged(tag: u32) -> Answer {
    (tag, 0, 0)
}

fn value(value: u64, place: usize) -> Answer {
    (1, value, place as u32)
}

fn float(x: f32) -> Answer {
    value(bits(x) as u64, 0)
}

/// The requests are of 32 bytes each.
pub fn answers(bytes: &[u8]) -> Vec<u8> {
    let mut out = Vec::with_capacity(bytes.len() / 2);
    for request in bytes.chunks_exact(32) {
        let (tag, value, place) = answer(&Request(request.try_into().unwrap()));
        out.extend(tag.to_le_bytes());
        out.extend(value.to_le_bytes());
        out.extend(place.to_le_bytes());
    }
    out
}

fn answer(r: &Request) -> Answer {
    match r.kind() {
        DECIMAL => decimal(r.text(), r.place()),
        DIGITS32 => digits(parser::eat_int::<u32>(r.text(), r.place())),
        DIGITS64 => digits(parser::eat_int::<u64>(r.text(), r.place())),
        SINE => float(sine(r.float(0))),
        FREQUENCY => float(frequency(r.word(0))),
        DURATION => {
            let dotted = r.word(3) & 0xff != 0;
            float(duration(r.word(0), r.word(1), r.word(2), dotted))
        }
        LENGTH => length(r.float(0), r.word(1)),
        SINES => value(sines(r.word(0), r.word(1)), 0),
        _ => NO_SUCH_KIND,
    }
}

fn decimal(text: &str, at: usize) -> Answer {
    match parser::eat_float::<f32>(text, at) {
        (None, _) => NO_NUMBER,
        (Some(_), next) if digit_count(&text[at..next]) > DECIMAL_DIGITS => TOO_LONG,
        (Some(x), next) => value(bits(x) as u64, next),
    }
}

fn digit_count(text: &str) -> usize {
    text.bytes().filter(u8::is_ascii_digit).count()
}

fn digits<T: Into<u64>>(found: (Option<T>, usize)) -> Answer {
    match found {
        (Some(n), next) => value(n.into(), next),
        (None, _) => NO_NUMBER,
    }
}

#[cfg(ruled)]
fn sine(x: f32) -> f32 {
    crate::ruled::turn_sine(x)
}

#[cfg(not(ruled))]
fn sine(x: f32) -> f32 {
    x.sin()
}

/// Where a sheet can have the semitone the engine is asked, by a sheet of one note, since a power worked
/// out here could be folded by the compiler; elsewhere its words are repeated.
fn frequency(s: u32) -> f32 {
    const NAMES: [&str; 16] = [
        "c--", "c-", "c", "c+", "d", "d+", "e", "f", "f+", "g", "g+", "a", "a+", "b", "b+", "b++",
    ];
    if !(10..=109).contains(&s) {
        return 440.0 * power(SEMINOTE_STEP, s as i32 - 57);
    }
    let octave = (s / 12).clamp(1, 8);
    let name = NAMES[(s + 2 - 12 * octave) as usize];
    only_note(&format!("p o{octave}{name}")).frequency
}

fn only_note(sheet: &str) -> Note {
    let info = parser::parse(sheet).unwrap_or_else(|e| crate::fail(&e));
    crate::parts(&info)[0].1[0].clone()
}

#[cfg(ruled)]
fn power(x: f32, k: i32) -> f32 {
    crate::ruled::power(x, k)
}

#[cfg(not(ruled))]
fn power(x: f32, k: i32) -> f32 {
    x.powi(k)
}

/// Where a sheet can say so the engine is asked; elsewhere its words are repeated here.
fn duration(tempo: u32, denom: u32, value: u32, dotted: bool) -> f32 {
    if (1..=1000).contains(&tempo) && (1..=128).contains(&denom) && (1..=128).contains(&value) {
        let dot = if dotted { "." } else { "" };
        return only_note(&format!("#tempo {tempo}\n#denom {denom}\np c{value}{dot}")).duration;
    }
    let duration = (60.0 / tempo as f32) * (denom as f32 / value as f32);
    if dotted {
        duration * 1.5
    } else {
        duration
    }
}

/// At the engine's rate the engine is asked; at others its words are repeated here.
fn length(seconds: f32, rate: u32) -> Answer {
    let samples = seconds * rate as f32;
    if samples.is_nan() {
        NOT_A_NUMBER
    } else if samples < 0.0 {
        NEGATIVE
    } else if samples > NOTE_MOST {
        TOO_MANY
    } else if rate as f32 == evaluator::SAMPLE_RATE {
        value(evaluator::sec_to_len(seconds) as u64, 0)
    } else {
        value(samples.ceil() as u64, 0)
    }
}

/// The checksum over the sines of `count` bit patterns from `start` on, in the field of the prime
/// 2^40 - 87.
fn sines(start: u32, count: u32) -> u64 {
    let pattern = |i| f32::from_bits(start.wrapping_add(i));
    (0..count).fold(0, |sum, i| {
        (sum * 7_368_787 + bits(sine(pattern(i))) as u64) % 1_099_511_627_689
    })
}
