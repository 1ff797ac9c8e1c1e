// Arguments for the functions on single numbers: random bit patterns and the places where an answer turns. Also the rules in
// whole numbers that answers are held against.
use crate::random::{Rng, nudge};
use std::f64::consts::{FRAC_PI_2, FRAC_PI_4};

pub const SPECIAL: [f64; 22] = [
    0.0,
    -0.0,
    1.0,
    -1.0,
    2.0,
    0.5,
    -0.5,
    f64::MIN_POSITIVE,
    -f64::MIN_POSITIVE,
    f64::MAX,
    f64::MIN,
    f64::INFINITY,
    f64::NEG_INFINITY,
    f64::NAN,
    12_000.0,
    -12_000.0,
    80.0,
    -80.0,
    f32::MAX as f64,
    f32::MIN_POSITIVE as f64,
    5e-324,
    -5e-324,
];

/// A special number or one of its neighbours.
fn special(rng: &mut Rng) -> f64 {
    let x = rng.pick(&SPECIAL);
    nudge(x, rng.from_to(0, 6) as i32 - 3)
}

fn subnormal(rng: &mut Rng) -> f64 {
    let shift = rng.below(52);
    f64::from_bits((rng.bits() >> 12) >> shift) * rng.sign()
}

/// What every function is asked: any bits, subnormals, special numbers.
fn common(rng: &mut Rng) -> f64 {
    match rng.below(4) {
        0 => subnormal(rng),
        1 => special(rng),
        _ => rng.pattern(),
    }
}

/// For the root: squares, the numbers nearest the square of a place halfway between two f64, and their neighbours.
pub fn for_root(rng: &mut Rng) -> f64 {
    match rng.below(4) {
        0 => common(rng),
        1 => rng.pattern().abs(),
        2 => {
            let x = f64::from_bits(rng.bits() >> 1);
            nudge(x * x, rng.from_to(0, 2) as i32 - 1)
        }
        _ => halfway_square(rng),
    }
}

/// (m + 1/2)² for a 53-bit m, rounded down or up, times a power of 4.
fn halfway_square(rng: &mut Rng) -> f64 {
    let odd = u128::from((rng.bits() >> 11) | (1 << 52)) * 2 + 1;
    let square = odd * odd;
    let shift = 128 - square.leading_zeros() - 53;
    let top = (square >> shift) as u64 + u64::from(rng.one_in(2));
    let power = 4f64.powi(rng.from_to(0, 480) as i32 - 240);
    top as f64 * (shift as f64).exp2() * power * 2f64.powi(-108)
}

/// For sine, cosine and tangent: near multiples of a quarter and half of π up to the range's ends, and at its ends.
pub fn for_sine(rng: &mut Rng) -> f64 {
    match rng.below(8) {
        0 => common(rng),
        1 => rng.between(-12_000.0, 12_000.0),
        2 => rng.between(-7.0, 7.0),
        3 => rng.log_between(1e-300, 12_000.0) * rng.sign(),
        4 => nudge(rng.pick(&[12_000.0, -12_000.0]), rng.from_to(0, 40) as i32 - 20),
        5 => {
            // Where n changes: an odd multiple of π/4.
            let k = 2 * rng.below(7640) + 1;
            nudge(k as f64 * FRAC_PI_4, rng.from_to(0, 8) as i32 - 4) * rng.sign()
        }
        _ => {
            let k = rng.below(7641);
            nudge(k as f64 * FRAC_PI_2, rng.from_to(0, 8) as i32 - 4) * rng.sign()
        }
    }
}

/// For narrowing: f32 numbers, places halfway between two, their neighbours, the ends of the f32 range.
pub fn for_narrow(rng: &mut Rng) -> f64 {
    let neighbour = rng.from_to(0, 2) as i32 - 1;
    match rng.below(4) {
        0 => common(rng),
        1 => {
            // In f32's range, all bits random.
            let exponent = rng.from_to(1023 - 152, 1023 + 129) as u64;
            f64::from_bits((rng.bits() & 0x800f_ffff_ffff_ffff) | exponent << 52)
        }
        2 => nudge(f64::from(f32::from_bits(rng.bits() as u32)), neighbour),
        _ => {
            let low = f32::from_bits(rng.bits() as u32 & 0x7fff_ffff);
            let high = f32::from_bits(low.to_bits().wrapping_add(1));
            let middle = (f64::from(low) + if high.is_finite() { f64::from(high) } else { 2f64.powi(128) }) / 2.0;
            nudge(middle, neighbour) * rng.sign()
        }
    }
}

/// For counts: halves of a count, the range's ends, and any bits.
pub fn for_counts(rng: &mut Rng) -> f64 {
    match rng.below(6) {
        0 => common(rng),
        1 => rng.between(-81.0, 81.0),
        2 => nudge(rng.pick(&[80.0, -80.0]), rng.from_to(0, 8) as i32 - 4),
        3 => nudge(rng.from_to(0, 40) as f64 / 32.0, rng.from_to(0, 2) as i32 - 1) * rng.sign(),
        _ => {
            let half = rng.from_to(0, 1_600_100) as f64 / 20_000.0;
            nudge(half, rng.from_to(0, 8) as i32 - 4) * rng.sign()
        }
    }
}

// ---- rules in whole numbers

/// A finite x as (negative, mantissa, exponent of two).
pub fn parts(x: f64) -> (bool, u64, i32) {
    let bits = x.to_bits();
    let (field, fraction) = ((bits >> 52 & 0x7ff) as i32, bits & ((1 << 52) - 1));
    let mantissa = if field == 0 { fraction } else { fraction | 1 << 52 };
    (bits >> 63 == 1, mantissa, field.max(1) - 1075)
}

/// The f64 nearest the exact root, by the integer root of the operand's mantissa. Halves do not arise.
pub fn exact_root(x: f64) -> f64 {
    if x == 0.0 || x.is_nan() || x == f64::INFINITY {
        return x;
    }
    let (negative, mantissa, exponent) = parts(x);
    if negative {
        return f64::NAN;
    }
    // 2^52 ≤ m < 2^54 with an even exponent, so that the root of m << 54 has 54 bits: one more than the answer.
    let shift = mantissa.leading_zeros() as i32 - 11;
    let odd = (exponent - shift) & 1;
    let wide = u128::from(mantissa) << (shift + odd + 54);
    let root = wide.isqrt() as u64;
    let power = (exponent - shift - odd - 54) / 2 + 1;
    ((root >> 1) + (root & 1)) as f64 * 2f64.powi(power)
}

/// v × 10,000, one f64 product, to the nearest whole number on its exact value, halves away from zero.
pub fn exact_counts(v: f64) -> Result<i64, u32> {
    if !(-80.0..=80.0).contains(&v) {
        return Err(12);
    }
    let (negative, mantissa, exponent) = parts(v * 10_000.0);
    let size = match exponent {
        0.. => (mantissa as i64) << exponent,
        -63.. => ((u128::from(mantissa) * 2 + (1u128 << -exponent)) >> (1 - exponent)) as i64,
        _ => 0,
    };
    Ok(if negative { -size } else { size })
}
