//! Requests for tools/compare/numbers, most of them near a limit or a tie. What the dice show is read
//! off random bytes, so that a run has one source of chance: oracle/dice.py.

use crate::numbers::*;
use std::f64::consts::PI;

/// Dice that show what is written on a tape of random bytes.
struct Dice<'a>(&'a [u8]);

/// No request throws the dice more often.
const THROWS: usize = 48;

impl Dice<'_> {
    fn word(&mut self) -> u32 {
        let word = crate::word(self.0, 0);
        self.0 = &self.0[4..];
        word
    }

    fn below(&mut self, limit: u64) -> u64 {
        self.word() as u64 % limit
    }

    fn between(&mut self, least: u64, most: u64) -> u64 {
        least + self.below(most - least + 1)
    }

    fn chance(&mut self, one_in: u64) -> bool {
        self.below(one_in) == 0
    }

    fn pick<T: Copy>(&mut self, choices: &[T]) -> T {
        choices[self.below(choices.len() as u64) as usize]
    }

    /// A number of 32 bits in which every size is as likely as any other.
    fn sized(&mut self) -> u32 {
        let size = self.below(33);
        (self.word() as u64 & ((1 << size) - 1)) as u32
    }
}

/// As many requests as the tape is long enough for.
pub fn requests(tape: &[u8]) -> Vec<u8> {
    let dice = &mut Dice(tape);
    let mut all = Vec::new();
    while dice.0.len() >= 4 * THROWS {
        all.extend(thrown(dice).0);
    }
    all
}

/// Of 16 requests ten are decimals: rounding is where most can go wrong.
fn thrown(dice: &mut Dice) -> Request {
    match dice.below(16) {
        10 => digit_run(dice, DIGITS32, 1 << 32),
        11 => digit_run(dice, DIGITS64, 1 << 64),
        12 | 13 => Request::of_words(SINE, &[sine_pattern(dice)]),
        14 => duration(dice),
        15 => length(dice),
        _ => decimal(dice),
    }
}

// Texts.

fn decimal(dice: &mut Dice) -> Request {
    let number = match dice.below(8) {
        0 => any_digits(dice, 1, 20),
        1 => return free_text(dice, DECIMAL),
        2 => zeros_first(dice),
        3 | 4 => near_a_midpoint(dice),
        5 => whole_tie(dice),
        6 => any_digits(dice, 17, 20),
        _ => printed(dice),
    };
    in_a_text(dice, DECIMAL, &number)
}

/// So many digits, with a point in them or none.
fn any_digits(dice: &mut Dice, least: u64, most: u64) -> String {
    let n = dice.between(least, most);
    let digits: String = (0..n).map(|_| digit(dice)).collect();
    let at = dice.below(n + 1);
    if dice.chance(4) {
        digits
    } else {
        with_point(&digits, at as usize)
    }
}

fn digit(dice: &mut Dice) -> char {
    (b'0' + dice.below(10) as u8) as char
}

fn with_point(digits: &str, at: usize) -> String {
    format!("{}.{}", &digits[..at], &digits[at..])
}

fn zeros_first(dice: &mut Dice) -> String {
    let zeros = dice.between(1, 12) as usize;
    format!("{}{}", "0".repeat(zeros), any_digits(dice, 1, 8))
}

/// The number half way between two neighbouring floats, cut to 18 digits or fewer, and its
/// neighbours in the last digit. Where all its digits fit it is a tie.
fn near_a_midpoint(dice: &mut Dice) -> String {
    // The exponent's field from 2^-40 up to 2^59; half of the time where ties fit in 18 digits.
    let field = if dice.chance(2) {
        dice.between(127 + 10, 127 + 24)
    } else {
        dice.between(127 - 40, 127 + 59)
    };
    let m = (1 << 23) + dice.below(1 << 23);
    let digits = if dice.chance(4) {
        dice.between(14, 17)
    } else {
        18
    };
    let (number, places) = expansion(2 * m as u128 + 1, 151 - field as i32, digits);
    let number = number + dice.below(3) as u128 - 1;
    placed(number, places)
}

/// n / 2^down in decimal, cut to so many digits: the digits as one number, and how many of them
/// stand after the point.
fn expansion(n: u128, down: i32, digits: u64) -> (u128, usize) {
    if down <= 0 {
        return (n << -down, 0);
    }
    let mut whole = n >> down;
    let mut rest = n & ((1 << down) - 1);
    let most = 10u128.pow(digits as u32 - 1);
    let mut places = 0;
    // A zero before the point is a digit too.
    while rest != 0 && whole < most && places + 1 < digits as usize {
        rest *= 10;
        whole = whole * 10 + (rest >> down);
        rest &= (1 << down) - 1;
        places += 1;
    }
    (whole, places)
}

fn placed(number: u128, places: usize) -> String {
    if places == 0 {
        return number.to_string();
    }
    let digits = format!("{number:0>width$}", width = places + 1);
    with_point(&digits, digits.len() - places)
}

/// A whole number half way between two floats, or next to it.
fn whole_tie(dice: &mut Dice) -> String {
    let size = dice.between(24, 59);
    let step = 1u64 << (size - 23);
    let float = (1u64 << size) + step * dice.below(1 << 23);
    let number = float + step / 2 + dice.below(3) - 1;
    if dice.chance(3) {
        format!("{number}.0")
    } else {
        number.to_string()
    }
}

/// A float as Rust writes it, or with some digits after the point.
fn printed(dice: &mut Dice) -> String {
    let field = dice.between(127 - 20, 127 + 20) as u32;
    let x = f32::from_bits((field << 23) + dice.below(1 << 23) as u32);
    let text = if dice.chance(2) {
        x.to_string()
    } else {
        format!("{x:.*}", dice.below(13) as usize)
    };
    text.chars().take(20).collect()
}

fn digit_run(dice: &mut Dice, kind: u8, limit: u128) -> Request {
    let number = match dice.below(4) {
        0 => (limit - 4 + dice.below(8) as u128).to_string(),
        1 => {
            let zeros = "0".repeat(dice.between(1, 5) as usize);
            zeros + &(limit - 2 + dice.below(4) as u128).to_string()
        }
        2 => (0..dice.below(22)).map(|_| digit(dice)).collect(),
        _ => return free_text(dice, kind),
    };
    in_a_text(dice, kind, &number)
}

/// A number with something before it, digits even, and something after it.
fn in_a_text(dice: &mut Dice, kind: u8, number: &str) -> Request {
    let before = dice.pick(&["", "", "", "v", "0", "9.", " ,"]);
    let after = dice.pick(&["", "", "", ".", ",7", "e3", "x", " 1", "..", "5"]);
    let text = format!("{before}{number}{after}");
    Request::of_text(kind, &text[..text.len().min(TEXT)], before.len() as u8)
}

fn free_text(dice: &mut Dice, kind: u8) -> Request {
    let letters: Vec<char> = "0011223456789...,e-+ a".chars().collect();
    let length = dice.below(TEXT as u64 + 1);
    let text: String = (0..length).map(|_| dice.pick(&letters)).collect();
    Request::of_text(kind, &text, dice.below(length + 2) as u8)
}

// Floats.

fn any_pattern(dice: &mut Dice) -> u32 {
    const SPECIAL: [u32; 12] = [
        0,
        1,
        0x7f_ffff,
        0x80_0000,
        0x3f80_0000,
        0x4f00_0000,
        0x4b80_0000,
        0x7f7f_ffff,
        0x7f80_0000,
        0x7f80_0001,
        0x7fc0_0000,
        0x7fff_ffff,
    ];
    match dice.below(4) {
        0 => dice.pick(&SPECIAL) ^ (dice.below(2) as u32) << 31,
        _ => dice.word(),
    }
}

/// The next pattern or one of its neighbours.
fn beside(dice: &mut Dice, x: f64) -> u32 {
    let steps = dice.below(5) as u32;
    let pattern = (x as f32).to_bits().wrapping_add(steps).wrapping_sub(2);
    pattern ^ (dice.below(2) as u32) << 31
}

/// Any pattern, or one from 2^-32 up to past 2^31, or near a zero, a crest or a step of the table.
fn sine_pattern(dice: &mut Dice) -> u32 {
    match dice.below(4) {
        0 => any_pattern(dice),
        1 => (dice.between(95, 160) as u32) << 23 | dice.word() & 0x807f_ffff,
        2 => {
            let quarters = dice.sized();
            beside(dice, quarters as f64 * PI / 2.0)
        }
        _ => {
            let steps = dice.sized() >> 8;
            beside(dice, steps as f64 * PI / 2048.0)
        }
    }
}

/// Half of them as a sheet can have them.
fn duration(dice: &mut Dice) -> Request {
    let said = dice.chance(2);
    let mut figure = |most| {
        if said {
            dice.between(1, most) as u32
        } else {
            dice.sized()
        }
    };
    let (tempo, denom, value) = (figure(1000), figure(128), figure(128));
    Request::of_words(DURATION, &[tempo, denom, value, dice.below(2) as u32])
}

/// Any seconds, or some whose product with the rate is near a whole number.
fn length(dice: &mut Dice) -> Request {
    let rate = if dice.chance(2) { 44100 } else { dice.sized() };
    let seconds = if dice.chance(2) {
        any_pattern(dice)
    } else {
        let samples = dice.below((1 << 24) + 4) >> dice.below(24);
        beside(dice, samples as f64 / rate.max(1) as f64)
    };
    Request::of_words(LENGTH, &[seconds, rate])
}
