//! Document 01's turn sine, power rule and order of parts, for the `ruled` oracle.
//! The sine is whole-number arithmetic only and follows 01's words step by step, so that a
//! reader can hold the two side by side; speed and elegance do not count here.

use crate::table::{C, T};

/// A turn is 2^32 positions.
const TURN: u128 = 1 << 32;
const QUARTER: u128 = 1 << 30;
const STEP: u128 = 1 << 20;

/// The bits of infinity, and of 2^31, without the sign.
const NOT_FINITE: u32 = 0x7f80_0000;
const TOO_FAR: u32 = 0x4f00_0000;

/// 01's turn sine of x.
pub fn turn_sine(x: f32) -> f32 {
    let magnitude = x.to_bits() & 0x7fff_ffff;
    if magnitude >= NOT_FINITE {
        return f32::NAN;
    }
    if magnitude >= TOO_FAR {
        return 0.0;
    }
    let p = position(magnitude);
    let quarter = p / QUARTER;
    let value = height(p % QUARTER, quarter == 1 || quarter == 3) as f32 / 16777216.0;
    let value = if quarter >= 2 { -value } else { value };
    if x.is_sign_negative() { -value } else { value }
}

/// P = floor(|x| * C / 2^30) mod 2^32, for |x| given by its bits.
fn position(magnitude: u32) -> u128 {
    let exponent = magnitude >> 23;
    let fraction = (magnitude & 0x7f_ffff) as u128;
    // |x| is m / 2^down; the exponent field is below 158, so the shift below never falls under 0.
    let (m, down) = if exponent == 0 {
        (fraction, 149)
    } else {
        (fraction + (1 << 23), 150 - exponent as i32)
    };
    let shift = (down + 30) as u32;
    // The product is below 2^84: past that shift nothing is left.
    if shift >= 84 { 0 } else { ((m * C) >> shift) % TURN }
}

/// S for a place in a quarter, read backward in the second and fourth quarter.
fn height(u: u128, backward: bool) -> u128 {
    let u = if backward { QUARTER - u } else { u };
    let i = (u / STEP) as usize;
    let r = u % STEP;
    if i == 1024 {
        T[1024]
    } else {
        T[i] + (T[i + 1] - T[i]) * r / STEP
    }
}

/// 01's power: from the lowest bit of |k|, multiply where the bit is set, then square.
pub fn power(step: f32, k: i32) -> f32 {
    let mut result: f32 = 1.0;
    let mut square = step;
    let mut bits = k.unsigned_abs();
    while bits > 0 {
        if bits & 1 == 1 {
            result *= square;
        }
        square *= square;
        bits >>= 1;
    }
    if k < 0 { 1.0 / result } else { result }
}

/// A map that keeps the order of first appearance; the method names are those the engine calls.
pub struct Ordered<V> {
    entries: Vec<(String, V)>,
}

impl<V> Ordered<V> {
    pub fn new() -> Self {
        Self {
            entries: Vec::new(),
        }
    }

    pub fn is_empty(&self) -> bool {
        self.entries.is_empty()
    }

    pub fn contains_key(&self, name: &str) -> bool {
        self.entries.iter().any(|(n, _)| n == name)
    }

    /// The engine asks `contains_key` first, so a name is never put in twice.
    pub fn insert(&mut self, name: String, value: V) {
        self.entries.push((name, value));
    }

    pub fn get_mut(&mut self, name: &str) -> Option<&mut V> {
        self.entries
            .iter_mut()
            .find(|(n, _)| n == name)
            .map(|(_, v)| v)
    }

    pub fn iter(&self) -> impl Iterator<Item = (&String, &V)> {
        self.entries.iter().map(|(n, v)| (n, v))
    }

    pub fn values(&self) -> impl Iterator<Item = &V> {
        self.entries.iter().map(|(_, v)| v)
    }
}
