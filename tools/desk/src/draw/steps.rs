//! A height over t as runs that end where it steps, found by asking nearer and nearer.
use super::plane::Point;

/// On the other side of a step, if there is one.
pub const BESIDE: f64 = 1e-8;

/// Even steps across the road, and heights that differ by less at one place are one.
const STEPS: u16 = 400;
const STEP: f64 = 1e-4;

/// The offsets asked for: even ones, and each cut with a neighbour on both sides.
fn offsets(cuts: &[f64], (low, high): (f64, f64)) -> Vec<f64> {
    let even = (0..=STEPS).map(|i| low + (high - low) * (f64::from(i) / f64::from(STEPS)));
    let mut all: Vec<f64> = even.chain(cuts.iter().flat_map(|t| [t - BESIDE, *t, t + BESIDE])).collect();
    all.retain(|t| (low..=high).contains(t));
    all.sort_by(f64::total_cmp);
    all.dedup();
    all
}

/// The two neighbours between which most of the difference lies.
fn nearest(height: &dyn Fn(f64) -> f64, mut a: f64, mut b: f64) -> (f64, f64) {
    while b - a > BESIDE {
        let middle = (a + b) / 2.0;
        let (left, right) = ((height(middle) - height(a)).abs(), (height(b) - height(middle)).abs());
        if left > right { b = middle } else { a = middle }
    }
    (a, b)
}

/// What no step is: narrowed heights differ by that much themselves.
fn tolerance(height: f64) -> f64 {
    STEP.max(height.abs() * 4.0 * f64::from(f32::EPSILON))
}

pub fn runs(height: &dyn Fn(f64) -> f64, cuts: &[f64], ends: (f64, f64)) -> Vec<Vec<Point>> {
    let point = |t: f64| Point::new(t, height(t));
    let offsets = offsets(cuts, ends);
    let mut runs = vec![vec![point(offsets[0])]];
    for pair in offsets.windows(2) {
        let least = tolerance(height(pair[0]));
        let differ = |a: f64, b: f64| (height(b) - height(a)).abs() > least;
        let (a, b) = if differ(pair[0], pair[1]) { nearest(height, pair[0], pair[1]) } else { (pair[0], pair[1]) };
        if differ(a, b) {
            runs.last_mut().expect("a run").push(point(a));
            runs.push(vec![point(b)]);
        }
        runs.last_mut().expect("a run").push(point(pair[1]));
    }
    runs
}

#[cfg(test)]
mod tests {
    use super::*;

    #[test]
    fn a_step_parts_two_runs_wherever_it_is() {
        let found = runs(&|t| if t > 1.2345 { 0.125 } else { 0.0 }, &[], (-5.0, 5.0));
        assert_eq!(found.len(), 2);
        let (last, first) = (found[0].last().unwrap(), found[1][0]);
        assert!((last.x - 1.2345).abs() < 2.0 * BESIDE && (first.x - 1.2345).abs() < 2.0 * BESIDE);
        assert_eq!((last.y, first.y), (0.0, 0.125));
    }

    #[test]
    fn a_slope_is_no_step() {
        assert_eq!(runs(&|t| t, &[0.0], (-5.0, 5.0)).len(), 1);
    }

    #[test]
    fn a_step_at_a_cut_is_exact() {
        let found = runs(&|t| if t > 2.0 { 1.0 } else { 0.0 }, &[2.0], (0.0, 3.0));
        assert_eq!(found[0].last().unwrap().x, 2.0);
        assert_eq!(found[1][0].x, 2.0 + BESIDE);
    }
}
