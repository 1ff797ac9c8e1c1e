// Exact arithmetic for the words of demand 3: answers as whole numbers of units, their squares and sums. No float operation is in a
// test; what is turned back into an f64 is only shown.
use crate::arguments::parts;
use std::cmp::Ordering;

/// Enough for the squares of two numbers under 2^64, in units of 2^-2148, times 10^12.
const LIMBS: usize = 37;

/// The least f64 is 2^-1074.
const UNIT: u32 = 1074;

/// A natural number, its least limb first.
#[derive(Clone, Copy, PartialEq, Eq)]
pub struct Natural([u64; LIMBS]);

const ZERO: Natural = Natural([0; LIMBS]);

impl Natural {
    /// value × 2^by.
    fn shifted(value: u128, by: u32) -> Self {
        let (mut limbs, at, low) = ([0; LIMBS], by as usize / 64, value << (by % 64));
        limbs[at] = low as u64;
        limbs[at + 1] = (low >> 64) as u64;
        limbs[at + 2] = (value >> 64 >> (64 - by % 64)) as u64;
        Self(limbs)
    }

    fn plus(self, other: Self) -> Self {
        let mut carry = false;
        let add = |i: usize| {
            let (sum, a) = self.0[i].overflowing_add(other.0[i]);
            let (sum, b) = sum.overflowing_add(u64::from(carry));
            carry = a || b;
            sum
        };
        Self(std::array::from_fn(add))
    }

    /// The difference, whichever is greater.
    fn apart(self, other: Self) -> Self {
        let (high, low) = if self < other { (other, self) } else { (self, other) };
        let mut borrow = false;
        let take = |i: usize| {
            let (rest, a) = high.0[i].overflowing_sub(low.0[i]);
            let (rest, b) = rest.overflowing_sub(u64::from(borrow));
            borrow = a || b;
            rest
        };
        Self(std::array::from_fn(take))
    }

    fn times(self, factor: u64) -> Self {
        let mut carry = 0;
        Self(self.0.map(|limb| {
            let wide = u128::from(limb) * u128::from(factor) + carry;
            carry = wide >> 64;
            wide as u64
        }))
    }

    /// self × 2^(64 limbs).
    fn raised(self, limbs: usize) -> Self {
        Self(std::array::from_fn(|i| if i < limbs { 0 } else { self.0[i - limbs] }))
    }

    fn square(self) -> Self {
        let part = |(i, limb): (usize, &u64)| self.times(*limb).raised(i);
        self.0.iter().enumerate().filter(|(_, limb)| **limb != 0).map(part).fold(ZERO, Self::plus)
    }

    /// About as much as an f64, where a unit is 2^-unit: to be shown.
    pub fn about(self, unit: u32) -> f64 {
        let exponent = |i: usize| 64 * i as i32 - unit as i32;
        let power = |n: i32| 2f64.powi(n / 2) * 2f64.powi(n - n / 2);
        self.0.iter().enumerate().map(|(i, &limb)| if limb == 0 { 0.0 } else { limb as f64 * power(exponent(i)) }).sum()
    }
}

impl Ord for Natural {
    fn cmp(&self, other: &Self) -> Ordering {
        self.0.iter().rev().cmp(other.0.iter().rev())
    }
}

impl PartialOrd for Natural {
    fn partial_cmp(&self, other: &Self) -> Option<Ordering> {
        Some(self.cmp(other))
    }
}

/// A number as mantissa × 2^shift units.
struct Units {
    negative: bool,
    mantissa: u64,
    shift: u32,
}

/// None where x is not finite or not under 2^64.
fn units(x: f64) -> Option<Units> {
    let (negative, mantissa, exponent) = parts(x);
    (exponent <= 11).then(|| Units { negative, mantissa, shift: (exponent + UNIT as i32) as u32 })
}

impl Units {
    fn size(&self) -> Natural {
        Natural::shifted(u128::from(self.mantissa), self.shift)
    }

    fn square(&self) -> Natural {
        Natural::shifted(u128::from(self.mantissa) * u128::from(self.mantissa), 2 * self.shift)
    }
}

/// Whether x is a number of size at most a whole one.
pub fn sized(x: f64, most: u64) -> bool {
    units(x).is_some_and(|x| x.size() <= Natural::shifted(u128::from(most), UNIT))
}

/// Whether a and b are numbers and a ≤ b.
pub fn ordered(a: f64, b: f64) -> bool {
    let (Some(a), Some(b)) = (units(a), units(b)) else { return false };
    match (a.negative, b.negative) {
        (false, false) => a.size() <= b.size(),
        (true, true) => b.size() <= a.size(),
        (true, false) => true,
        (false, true) => a.mantissa == 0 && b.mantissa == 0,
    }
}

/// Whether a and b are the same number.
pub fn equal(a: f64, b: f64) -> bool {
    ordered(a, b) && ordered(b, a)
}

/// Whether t lies between two borders, both included.
pub fn between([inner, outer]: [f64; 2], t: f64) -> bool {
    let within = |low, high| ordered(low, t) && ordered(t, high);
    within(inner, outer) || within(outer, inner)
}

/// Whether a lane's borders lie in order outward, of size at most 80, the inner at the outer of the lane before it.
pub fn outward(before: Option<f64>, [inner, outer]: [f64; 2], left: bool) -> bool {
    let in_order = if left { ordered(inner, outer) } else { ordered(outer, inner) };
    in_order && before.is_none_or(|before| equal(before, inner)) && sized(inner, 80) && sized(outer, 80)
}

/// Whether s lies in 0..length and |t| ≤ 80.
pub fn placed([s, t]: [f64; 2], length: f64) -> bool {
    ordered(0.0, s) && ordered(s, length) && sized(t, 80)
}

/// A sum of squares in units of 2^-2148.
pub struct Squares(Natural);

const ONE: u32 = 2 * UNIT;

impl Squares {
    /// Of the numbers of an axis.
    pub fn of_axis(axis: &[f64]) -> Option<Self> {
        axis.iter().try_fold(ZERO, |sum, &x| Some(sum.plus(units(x)?.square()))).map(Self)
    }

    /// Of the distances between two points, number by number.
    pub fn of_distance(a: [f64; 2], b: [f64; 2]) -> Option<Self> {
        let gap = |i: usize| {
            let (a, b) = (units(a[i])?, units(b[i])?);
            let (x, y) = (a.size(), b.size());
            Some(if a.negative == b.negative { x.apart(y) } else { x.plus(y) })
        };
        Some(Self(gap(0)?.square().plus(gap(1)?.square())))
    }

    /// Within 999/1000..1001/1000.
    pub fn near_one(&self) -> bool {
        let (sum, one) = (self.0.times(1000), |n| Natural::shifted(n, ONE));
        one(999) <= sum && sum <= one(1001)
    }

    /// Under (1/1,000,000)².
    pub fn under_a_micrometre(&self) -> bool {
        self.0.times(1_000_000_000_000) < Natural::shifted(1, ONE)
    }

    /// How far above 1, and how far below it: one of them is 0. To be shown.
    pub fn about_one(&self) -> [f64; 2] {
        let one = Natural::shifted(1, ONE);
        let apart = self.0.apart(one).about(ONE);
        if self.0 < one { [0.0, apart] } else { [apart, 0.0] }
    }

    /// The root of the sum. To be shown.
    pub fn about_root(&self) -> f64 {
        self.0.about(ONE).sqrt()
    }
}
