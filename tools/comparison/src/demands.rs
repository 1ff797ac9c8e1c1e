// Demand 3 on the answers, in exact fractions: document 01, "The words of demand 3". What was largest is shown behind the
// comparison.
use crate::tally::{Tally, hex};
use second::exact::{Squares, outward, placed, sized};

/// Of a point as answered in f32: |x|, |y| ≤ 2,000,000 and |z| ≤ 20,000.
pub fn point(tally: &mut Tally, point: &[f64], input: impl Fn() -> String) {
    let limits = [("|x|", 2_000_000), ("|y|", 2_000_000), ("|z|", 20_000)];
    for ((what, most), &x) in limits.into_iter().zip(point) {
        tally.demand(what, x.abs(), sized(x, most), &input);
    }
}

/// The squares of along and up, each within 999/1000..1001/1000.
pub fn axes(tally: &mut Tally, axes: &[f64; 9], input: impl Fn() -> String) {
    for axis in [&axes[..3], &axes[6..]] {
        let squares = Squares::of_axis(axis);
        let holds = squares.as_ref().is_some_and(Squares::near_one);
        let [above, below] = squares.map_or([f64::INFINITY; 2], |s| s.about_one());
        tally.demand("squares above 1", above, holds, &input);
        tally.demand("squares below 1", below, holds, &input);
    }
}

/// Of a list of borders, so many of its lanes left.
pub fn borders(tally: &mut Tally, list: &[f64], left: usize) {
    for (i, lane) in list.chunks(3).enumerate() {
        let first = i == 0 || i == left;
        let before = if first { None } else { Some(list[3 * i - 2]) };
        let holds = outward(before, [lane[0], lane[1]], i < left);
        tally.demand("|border|", lane[0].abs().max(lane[1].abs()), holds, || hex(list));
    }
}

/// Of a pair that is met: where it lies, and the distance left under 1/1,000,000.
pub fn met(tally: &mut Tally, pair: [f64; 2], length: f64, target: [f64; 2], point: [f64; 2], input: impl Fn() -> String) {
    let squares = Squares::of_distance(target, point);
    let under = squares.as_ref().is_some_and(Squares::under_a_micrometre);
    let left = squares.map_or(f64::INFINITY, |s| s.about_root());
    tally.demand("distance left", left, under, &input);
    tally.demand("|t| when met", pair[1].abs(), placed(pair, length), &input);
}
