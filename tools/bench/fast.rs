//! Document 01's turn sine as fast as Rust has it: one high product and one shift for the position, one
//! load from the table, and no branch but that for arguments out of range.

use crate::ruled;
use crate::table::{C, T};

const SIGN: u32 = 1 << 31;
/// The bits of infinity, and of 2^31, without the sign.
const NOT_FINITE: u32 = 0x7f80_0000;
const TOO_FAR: u32 = 0x4f00_0000;

/// The high product of this and m * 2^40 is floor(m * C / 2^21).
const FACTOR: u64 = (C as u64) << 3;

/// Each entry of T with the rise to the next.
static STEPS: [[u32; 2]; 1025] = steps();

const fn steps() -> [[u32; 2]; 1025] {
    let mut all = [[T[1024] as u32, 0]; 1025];
    let mut i = 0;
    while i < 1024 {
        all[i] = [T[i] as u32, (T[i + 1] - T[i]) as u32];
        i += 1;
    }
    all
}

#[inline(always)]
pub fn turn_sine(x: f32) -> f32 {
    let magnitude = x.to_bits() & !SIGN;
    if magnitude >= TOO_FAR {
        return if magnitude >= NOT_FINITE { f32::NAN } else { 0.0 };
    }
    let p = position(magnitude);
    // In the second and fourth quarter the place is 2^30 - u, which is -p without its top bit.
    let backward = ((p << 1) as i32 >> 31) as u32;
    let u = (p ^ backward).wrapping_sub(backward) & !SIGN;
    // SAFETY: u is at most 2^30, and the index at most 1024.
    let [low, rise] = unsafe { *STEPS.get_unchecked((u >> 20) as usize) };
    let s = low + ((rise as u64 * (u & 0xf_ffff) as u64) >> 20) as u32;
    let value = s as i32 as f32 * (1.0 / 16777216.0);
    f32::from_bits(value.to_bits() ^ ((p ^ x.to_bits()) & SIGN))
}

/// P for |x| given by its bits. Below 2^-30 it is 0, so that subnormal numbers may count as others do.
#[inline(always)]
fn position(magnitude: u32) -> u32 {
    let m = (((magnitude << 8) | SIGN) as u64) << 32;
    let high = ((m as u128 * FACTOR as u128) >> 64) as u64;
    let down = 159 - (magnitude >> 23);
    (high >> down.min(63)) as u32
}

/// How many bit patterns were compared with the oracle's sine, which all must agree: every `step`-th, and 256
/// at each end of each exponent.
pub fn compare(step: usize) -> usize {
    let spread = (0..=u32::MAX).step_by(step);
    let edges = (0..512u32).flat_map(|e| (0..512u32).map(move |k| (e << 23).wrapping_add(k).wrapping_sub(256)));
    spread.chain(edges).map(agree).count()
}

fn agree(bits: u32) {
    let x = f32::from_bits(bits);
    let (here, there) = (turn_sine(x), ruled::turn_sine(x));
    let same = here.to_bits() == there.to_bits() || (here.is_nan() && there.is_nan());
    assert!(same, "the sine of {bits:08x} is {here}, and not {there}");
}
