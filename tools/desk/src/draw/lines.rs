//! Lines from runs of points: a line goes on from run to run and ends where it jumps, so that no jump is drawn as a slope.
use super::plane::Point;

/// Points nearer than this to a line drawn without them are left out, in units of the paper.
pub const SEEN: f64 = 0.05;

/// Joins each run to the one before it unless they are farther apart than that.
pub fn joined(runs: impl IntoIterator<Item = Vec<Point>>, jump: f64) -> Vec<Vec<Point>> {
    let mut lines: Vec<Vec<Point>> = Vec::new();
    for run in runs {
        match (lines.last_mut(), run.first()) {
            (Some(line), Some(first)) if line.last().is_some_and(|last| last.distance(*first) <= jump) => line.extend(&run),
            (_, Some(_)) => lines.push(run),
            (_, None) => {}
        }
    }
    lines
}

/// A lane between two jumps: its inner and its outer border.
#[derive(Debug, Clone, PartialEq, Default)]
pub struct Band {
    pub inner: Vec<Point>,
    pub outer: Vec<Point>,
}

/// Joins bands likewise, where neither border jumps.
pub fn joined_bands(runs: impl IntoIterator<Item = Band>, jump: f64) -> Vec<Band> {
    let goes_on =
        |line: &[Point], run: &[Point]| matches!((line.last(), run.first()), (Some(a), Some(b)) if a.distance(*b) <= jump);
    let mut bands: Vec<Band> = Vec::new();
    for run in runs {
        match bands.last_mut() {
            Some(band) if goes_on(&band.inner, &run.inner) && goes_on(&band.outer, &run.outer) => {
                band.inner.extend(&run.inner);
                band.outer.extend(&run.outer);
            }
            _ => bands.push(run),
        }
    }
    bands
}

fn off_chord(p: Point, a: Point, b: Point) -> f64 {
    let (dx, dy) = (b.x - a.x, b.y - a.y);
    let along = ((p.x - a.x) * dx + (p.y - a.y) * dy) / (dx * dx + dy * dy);
    if along.is_finite() {
        p.distance(Point::new(a.x + dx * along.clamp(0.0, 1.0), a.y + dy * along.clamp(0.0, 1.0)))
    } else {
        p.distance(a)
    }
}

/// The same line with no more points than it needs to look the same.
pub fn simplified(line: &[Point], seen: f64) -> Vec<Point> {
    let mut keep = vec![false; line.len()];
    let mut open = vec![(0, line.len().saturating_sub(1))];
    for end in [keep.len().checked_sub(1), (!keep.is_empty()).then_some(0)].into_iter().flatten() {
        keep[end] = true;
    }
    while let Some((a, b)) = open.pop() {
        let far = (a + 1..b).map(|i| (i, off_chord(line[i], line[a], line[b]))).max_by(|x, y| x.1.total_cmp(&y.1));
        if let Some((i, far)) = far
            && far > seen
        {
            keep[i] = true;
            open.extend([(a, i), (i, b)]);
        }
    }
    line.iter().zip(keep).filter_map(|(p, keep)| keep.then_some(*p)).collect()
}

#[cfg(test)]
mod tests {
    use super::*;

    fn row(y: f64, xs: &[f64]) -> Vec<Point> {
        xs.iter().map(|x| Point::new(*x, y)).collect()
    }

    #[test]
    fn a_jump_ends_a_line() {
        let lines = joined([row(0.0, &[0.0, 1.0]), row(0.0, &[1.0, 2.0]), row(0.5, &[2.0, 3.0])], 0.001);
        assert_eq!(lines.iter().map(Vec::len).collect::<Vec<_>>(), [4, 2]);
        assert_eq!(lines[1], row(0.5, &[2.0, 3.0]));
    }

    #[test]
    fn a_band_ends_where_one_border_jumps() {
        let band = |inner, outer, xs: &[f64]| Band { inner: row(inner, xs), outer: row(outer, xs) };
        let bands = joined_bands([band(0.0, 3.0, &[0.0, 1.0]), band(0.0, 4.0, &[1.0, 2.0]), band(0.0, 4.0, &[2.0, 3.0])], 0.001);
        assert_eq!(bands, [band(0.0, 3.0, &[0.0, 1.0]), band(0.0, 4.0, &[1.0, 2.0, 2.0, 3.0])]);
    }

    #[test]
    fn points_on_a_chord_go_and_corners_stay() {
        let corner = [row(0.0, &[0.0, 1.0, 2.0]), row(5.0, &[2.0, 3.0])].concat();
        assert_eq!(simplified(&corner, 0.01), [row(0.0, &[0.0, 2.0]), row(5.0, &[2.0, 3.0])].concat());
        assert_eq!(simplified(&row(0.0, &[1.0]), 0.01).len(), 1);
        assert!(simplified(&[], 0.01).is_empty());
    }

    #[test]
    fn a_line_that_comes_back_keeps_its_far_end() {
        assert_eq!(simplified(&row(0.0, &[0.0, 9.0, 0.0]), 0.01).len(), 3);
        assert_eq!(simplified(&row(0.0, &[0.0, 9.0, 4.0]), 0.01).len(), 3);
    }
}
