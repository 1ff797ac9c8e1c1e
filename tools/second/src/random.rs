// A small generator of random numbers (splitmix64). The same seed gives the same run everywhere.
pub struct Rng(u64);

impl Rng {
    /// A stream of its own for each name, so that a new comparison does not change what the others draw.
    pub fn new(seed: u64, name: &str) -> Self {
        let mix = name.bytes().fold(0xcbf2_9ce4_8422_2325, |h: u64, b| (h ^ u64::from(b)).wrapping_mul(0x100_0000_01b3));
        Self(seed ^ mix)
    }

    pub fn bits(&mut self) -> u64 {
        self.0 = self.0.wrapping_add(0x9e37_79b9_7f4a_7c15);
        let mut z = self.0;
        z = (z ^ (z >> 30)).wrapping_mul(0xbf58_476d_1ce4_e5b9);
        z = (z ^ (z >> 27)).wrapping_mul(0x94d0_49bb_1331_11eb);
        z ^ (z >> 31)
    }

    /// A whole number below n.
    pub fn below(&mut self, n: usize) -> usize {
        ((u128::from(self.bits()) * n as u128) >> 64) as usize
    }

    /// A whole number from low to high, both included.
    pub fn from_to(&mut self, low: usize, high: usize) -> usize {
        low + self.below(high - low + 1)
    }

    /// True once in n on average.
    pub fn one_in(&mut self, n: usize) -> bool {
        self.below(n) == 0
    }

    /// A number in 0..1.
    pub fn unit(&mut self) -> f64 {
        (self.bits() >> 11) as f64 / 9_007_199_254_740_992.0
    }

    pub fn between(&mut self, low: f64, high: f64) -> f64 {
        low + (high - low) * self.unit()
    }

    /// A number between low and high, even in its logarithm.
    pub fn log_between(&mut self, low: f64, high: f64) -> f64 {
        self.between(low.ln(), high.ln()).exp().clamp(low, high)
    }

    pub fn sign(&mut self) -> f64 {
        if self.one_in(2) { 1.0 } else { -1.0 }
    }

    pub fn pick<T: Copy>(&mut self, of: &[T]) -> T {
        of[self.below(of.len())]
    }

    /// Any f64: zeros, subnormals, infinities and NaNs too.
    pub fn pattern(&mut self) -> f64 {
        f64::from_bits(self.bits())
    }
}

/// x moved by some steps through the f64 numbers.
pub fn nudge(x: f64, steps: i32) -> f64 {
    (0..steps.unsigned_abs()).fold(x, |x, _| if steps > 0 { x.next_up() } else { x.next_down() })
}

/// Beside x: at it, a nanometre before it or after it, and a few f64 from there.
pub fn beside(rng: &mut Rng, x: f64) -> f64 {
    let near = match rng.below(8) {
        0 | 1 => x,
        2..5 => x - 1e-9,
        5 => x + 1e-9,
        6 => x + rng.pick(&[5e-10, -5e-10, 2e-9, -2e-9]),
        _ => x + rng.between(-3e-9, 3e-9),
    };
    if rng.one_in(3) { near } else { nudge(near, rng.from_to(0, 6) as i32 - 3) }
}
