//! Round values on an axis, and numbers as people read them.

/// Values of an axis that are whole multiples of a round step.
#[derive(Debug, Clone, PartialEq)]
pub struct Ticks {
    pub step: f64,
    pub values: Vec<f64>,
}

/// The steps of one power of ten.
const ROUND: [f64; 3] = [1.0, 2.0, 5.0];

/// A tick this part of a step past an end still counts as on it.
const SLACK: f64 = 1e-6;

/// Rounded sums carry no more digits than this.
const MOST_DECIMALS: i32 = 9;

/// The least of 1, 2 and 5 times a power of ten that is not below x (x over 0).
pub fn round_above(x: f64) -> f64 {
    let power = x.log10().floor() as i32;
    let found = ROUND.iter().map(|r| r * ten_to(power)).find(|r| *r >= x * (1.0 - SLACK));
    found.unwrap_or(ten_to(power + 1))
}

/// The greatest of them that is not above x.
pub fn round_below(x: f64) -> f64 {
    let power = x.log10().floor() as i32;
    let found = ROUND.iter().rev().map(|r| r * ten_to(power)).find(|r| *r <= x * (1.0 + SLACK));
    found.unwrap_or(ten_to(power))
}

/// A power of ten, as near as a division gives it: `powi` of a negative power is an ulp off.
fn ten_to(power: i32) -> f64 {
    if power < 0 { 1.0 / 10f64.powi(-power) } else { 10f64.powi(power) }
}

/// Round values from low to high, about as many as are asked for and no more.
pub fn ticks(low: f64, high: f64, most: usize) -> Ticks {
    Ticks::of(round_above((high - low) / most.max(1) as f64), low, high)
}

/// So many steps. A step below one is divided by its inverse, which is whole, so that 3 steps of 0.1 are 0.3.
fn value(steps: f64, step: f64) -> f64 {
    if step < 1.0 { steps / (1.0 / step).round() } else { steps * step }
}

/// No axis has more.
const MOST: f64 = 100.0;

impl Ticks {
    /// The multiples of a round step from low to high.
    pub fn of(step: f64, low: f64, high: f64) -> Self {
        let (first, last) = ((low / step - SLACK).ceil(), (high / step + SLACK).floor());
        let count = (last - first + 1.0).clamp(0.0, MOST) as usize;
        Self { step, values: (0..count).map(|i| value(first + i as f64, step)).collect() }
    }

    pub fn text(&self, value: f64) -> String {
        fixed(value, decimals(self.step))
    }
}

/// How many decimals a multiple of the step needs.
pub fn decimals(step: f64) -> usize {
    (-(step.log10() + SLACK).floor() as i32).clamp(0, MOST_DECIMALS) as usize
}

/// With so many decimals, and no minus before zeros.
pub fn fixed(value: f64, decimals: usize) -> String {
    let text = format!("{value:.decimals$}");
    match text.strip_prefix('-') {
        Some(rest) if rest.chars().all(|c| matches!(c, '0' | '.')) => rest.into(),
        _ => text,
    }
}

/// Numbers at least as large are written with an exponent: they are no road's.
const LARGE: f64 = 1e8;

/// As short as a millimetre allows, a hundredth of that below one.
pub fn short(value: f64) -> String {
    if !value.is_finite() || value.abs() >= LARGE {
        return format!("{value:e}");
    }
    let text = fixed(value, if value.abs() < 1.0 { 5 } else { 3 });
    if text.contains('.') { text.trim_end_matches('0').trim_end_matches('.').into() } else { text }
}

/// With all decimals, for a column of a table.
pub fn column(value: f64, decimals: usize) -> String {
    if value.is_finite() && value.abs() < LARGE { fixed(value, decimals) } else { format!("{value:.1e}") }
}

#[cfg(test)]
mod tests {
    use super::*;

    #[test]
    fn round_numbers() {
        assert_eq!([0.011, 0.2, 3.0, 50.0, 51.0].map(round_above), [0.02, 0.2, 5.0, 50.0, 100.0]);
        assert_eq!([0.011, 0.2, 3.0, 49.0, 99.0].map(round_below), [0.01, 0.2, 2.0, 20.0, 50.0]);
    }

    #[test]
    fn ticks_are_round_and_within() {
        assert_eq!(ticks(0.0, 100.0, 5).values, [0.0, 20.0, 40.0, 60.0, 80.0, 100.0]);
        assert_eq!(ticks(-0.05, 0.31, 4).values, [0.0, 0.1, 0.2, 0.3]);
        let far = ticks(999_999.995, 1_000_000.005, 5);
        assert_eq!(far.values.iter().map(|v| far.text(*v)).collect::<Vec<_>>()[..2], ["999999.996", "999999.998"]);
        assert!(ticks(3.1, 3.9, 1).values.is_empty());
    }

    #[test]
    fn ticks_are_never_more_than_one_over() {
        for most in 1..12 {
            for high in [0.011, 0.7, 1.0, 9.99, 10.0, 123.0, 10_000.0] {
                assert!(ticks(0.0, high, most).values.len() <= most + 1);
            }
        }
    }

    #[test]
    fn texts_of_numbers() {
        assert_eq!(ticks(0.0, 0.3, 3).text(0.30000000000000004), "0.3");
        assert_eq!(ticks(0.0, 100.0, 5).text(-0.0), "0");
        assert_eq!(fixed(-0.0004, 3), "0.000");
        assert_eq!([100.0, 60.5, 0.01, -0.000001, 2.0000001].map(short), ["100", "60.5", "0.01", "0", "2"]);
        assert_eq!(short(f64::NAN), "NaN");
        assert_eq!(column(1e300, 3), "1.0e300");
    }
}
