// The stand-ins in Rust, written from document 01's "Stand-ins" and "Values" and from Point 1 of document 02. The published source
// calls them once patched.
use crate::road::Across;
use std::cell::Cell;

/// The f64 nearest the exact root. IEEE 754 binds the machine's to that; the comparison holds it against whole numbers.
#[inline(always)]
pub fn root(x: f64) -> f64 {
    x.sqrt()
}

/// The f32 nearest the exact root, by the whole root of the operand's digits: its last digit says where to round, since the root of
/// an f32 is never halfway between two. Zeros and infinity are their own, below 0 is NaN.
pub fn root32(x: f32) -> f32 {
    if x == 0.0 || x.is_nan() || x == f32::INFINITY {
        return x;
    }
    if x < 0.0 {
        return f32::NAN;
    }
    let (field, fraction) = (x.to_bits() >> 23, x.to_bits() & 0x7f_ffff);
    let digits = if field == 0 { fraction } else { fraction | 1 << 23 };
    let shift = digits.leading_zeros() as i32 - 8;
    // x is digits × 2^exponent with 24 digits. 25 zeros behind them, or 26 so that the exponent is even: the root has 25 digits, one
    // more than the answer.
    let exponent = field.max(1) as i32 - 150 - shift;
    let zeros = 25 + ((exponent + 1) & 1);
    let root = (u64::from(digits) << (shift + zeros)).isqrt() as u32;
    let power = (exponent - zeros) / 2 + 1;
    // 2^24 after rounding is the next power of two, and so are the bits
    f32::from_bits((((power + 149) as u32) << 23) + (root >> 1) + (root & 1))
}

pub fn hypot(a: f64, b: f64) -> f64 {
    root(a * a + b * b)
}

/// n! of each coefficient, exact in f64 up to 16!.
const fn factorial(n: u64) -> f64 {
    let (mut product, mut k) = (1u64, 2);
    while k <= n {
        product *= k;
        k += 1;
    }
    product as f64
}

/// -1/15!, 1/13!, .. -1/3!.
const SINE: [f64; 7] = [
    -1.0 / factorial(15),
    1.0 / factorial(13),
    -1.0 / factorial(11),
    1.0 / factorial(9),
    -1.0 / factorial(7),
    1.0 / factorial(5),
    -1.0 / factorial(3),
];

/// 1/16!, -1/14!, .. -1/2!.
const COSINE: [f64; 8] = [
    1.0 / factorial(16),
    -1.0 / factorial(14),
    1.0 / factorial(12),
    -1.0 / factorial(10),
    1.0 / factorial(8),
    -1.0 / factorial(6),
    1.0 / factorial(4),
    -1.0 / factorial(2),
];

fn horner(coefficients: &[f64], z: f64) -> f64 {
    coefficients[1..].iter().fold(coefficients[0], |sum, c| sum * z + c)
}

pub fn sin_cos(h: f64) -> (f64, f64) {
    if !(-12000.0..=12000.0).contains(&h) {
        return (f64::NAN, f64::NAN);
    }
    let n = (h * f64::from_bits(0x3fe4_5f30_6dc9_c883) + 0.5).floor();
    let r = (h - n * f64::from_bits(0x3ff9_21fb_5440_0000)) - n * f64::from_bits(0x3dd0_b461_1a62_6331);
    let z = r * r;
    let s = r + r * (z * horner(&SINE, z));
    let c = 1.0 + z * horner(&COSINE, z);
    match (n as i64).rem_euclid(4) {
        0 => (s, c),
        1 => (c, -s),
        2 => (-s, -c),
        _ => (-c, s),
    }
}

pub fn sin(h: f64) -> f64 {
    sin_cos(h).0
}

pub fn cos(h: f64) -> f64 {
    sin_cos(h).1
}

pub fn tan(h: f64) -> f64 {
    let (sin, cos) = sin_cos(h);
    sin / cos
}

/// What `side_heights` turns a level lane back by: the tangent of a bank, or one that is given.
pub(crate) trait Tangent: Copy {
    fn tangent(self) -> f64;
}

impl Tangent for f64 {
    fn tangent(self) -> f64 {
        tan(self)
    }
}

#[derive(Clone, Copy)]
pub(crate) struct Given(pub f64);

impl Tangent for Given {
    fn tangent(self) -> f64 {
        self.0
    }
}

/// A lane's height at t with the fraction across the lane kept to 0..1, and 0 across a lane of width 0.
pub(crate) fn kept_height(lane: &Across, t: f64) -> f64 {
    let width = lane.outer_t - lane.inner_t;
    let fraction = if width == 0.0 { 0.0 } else { ((t - lane.inner_t) / width).clamp(0.0, 1.0) };
    lane.inner_height + (lane.outer_height - lane.inner_height) * fraction
}

/// Raised to 0 if below it, then lowered to the last sample's distance if above it.
#[inline(always)]
pub(crate) fn held(distance: f64, last: f64) -> f64 {
    let raised = if distance < 0.0 { 0.0 } else { distance };
    if raised > last { last } else { raised }
}

thread_local!(static BY_COUNT: Cell<bool> = const { Cell::new(false) });

/// How many leading samples have at most that distance: by the published search, which finds it where distances rise, or by count.
#[inline(always)]
pub(crate) fn leading(samples: &[(f64, f64, f64, f64)], distance: f64) -> usize {
    let near = |p: &(f64, f64, f64, f64)| p.0 <= distance;
    if BY_COUNT.get() { samples.iter().take_while(|p| near(p)).count() } else { samples.partition_point(near) }
}

/// Does something with leading samples counted, for samples that were not made from the road.
pub fn by_count<T>(f: impl FnOnce() -> T) -> T {
    let before = BY_COUNT.replace(true);
    let answer = f();
    BY_COUNT.set(before);
    answer
}

thread_local!(static MOVES: Cell<u32> = const { Cell::new(0) });

/// Counts one move of `locate`.
pub(crate) fn count_move() {
    MOVES.set(MOVES.get() + 1);
}

/// The moves since the last call of this.
pub fn take_moves() -> u32 {
    MOVES.replace(0)
}
