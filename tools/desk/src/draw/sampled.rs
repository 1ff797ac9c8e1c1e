//! The library's answers along the road, piece by piece.
use riftkettle::Station;

use super::pieces::{self, Span};
use super::plane::Point;
use super::progress::Progress;
use super::subject::Subject;

/// Steps of the whole, and the fewest of a piece.
const STEPS: f64 = 600.0;
const FEWEST: f64 = 8.0;

/// The most that the heading turns in a step, in radians, where the points allow it.
const TURN: f64 = 0.03;

/// A step that turns more than this is no longer a picture of the curve.
const COARSE: f64 = 0.3;

/// The most points of all lines together that turns may ask for: more than are seen, and the picture stays under a megabyte.
const MOST_POINTS: f64 = 24_000.0;

/// Everything across the road at one s.
pub struct Cut {
    pub station: Station,
    /// The places of the borders of each side, as `Sides` has them.
    pub left: Vec<Point>,
    pub right: Vec<Point>,
}

impl Cut {
    pub fn of(subject: &Subject, s: f64) -> Self {
        let sides = subject.sides(s);
        let places = |side: &[f64]| side.iter().map(|t| subject.place(s, *t)).collect();
        Self { station: subject.station(s), left: places(&sides.left), right: places(&sides.right) }
    }

    pub fn center(&self) -> Point {
        Point::new(self.station.x, self.station.y)
    }

    pub fn points(&self) -> impl Iterator<Item = Point> + '_ {
        [self.center()].into_iter().chain(self.left.iter().copied()).chain(self.right.iter().copied())
    }
}

/// A part of the road in which nothing jumps.
pub struct Piece {
    pub section: usize,
    pub geometry: usize,
    pub cuts: Vec<Cut>,
}

pub struct Sampled {
    pub pieces: Vec<Piece>,
    /// How far apart points are where there were not points enough for the turns.
    pub coarse: Option<f64>,
}

impl Sampled {
    pub fn cuts(&self) -> impl DoubleEndedIterator<Item = &Cut> {
        self.pieces.iter().flat_map(|p| &p.cuts)
    }

    /// The first and the last s.
    pub fn ends(&self) -> Option<(f64, f64)> {
        Some((self.cuts().next()?.station.s, self.cuts().next_back()?.station.s))
    }
}

/// Even steps, before any curve is looked at.
fn even(span: Span, step: f64) -> Vec<f64> {
    let count = ((span.to - span.from) / step).ceil().max(FEWEST);
    let at = |i: usize| span.from + (span.to - span.from) * (i as f64 / count);
    let mut stations: Vec<f64> = (0..count as usize).map(at).collect();
    stations.push(span.to);
    stations.dedup();
    stations
}

/// How many parts each step needs so that no part turns more than that.
fn parts(headings: &[f64], turn: f64) -> Vec<usize> {
    headings.windows(2).map(|h| ((h[1] - h[0]).abs() / turn).ceil().max(1.0) as usize).collect()
}

/// The steps, each in so many parts.
fn divided(stations: &[f64], parts: &[usize]) -> Vec<f64> {
    let mut out: Vec<f64> = Vec::new();
    for (pair, n) in stations.windows(2).zip(parts) {
        out.extend((0..*n).map(|i| pair[0] + (pair[1] - pair[0]) * (i as f64 / *n as f64)));
    }
    out.extend(stations.last());
    out
}

/// The stations of every piece, and the step where it had to be too long for the curves.
fn stations(subject: &Subject, spans: &[Span], whole: f64) -> (Vec<Vec<f64>>, Option<f64>) {
    let steps: Vec<Vec<f64>> = spans.iter().map(|span| even(*span, whole / STEPS)).collect();
    let headings: Vec<Vec<f64>> = steps.iter().map(|list| list.iter().map(|s| subject.station(*s).heading).collect()).collect();
    let turned: f64 = headings.iter().flat_map(|list| list.windows(2)).map(|h| (h[1] - h[0]).abs()).sum();
    let lanes = subject.model.sections.iter().map(|s| s.left.len() + s.right.len()).max().unwrap_or(0);
    let turn = TURN.max(turned * (lanes as f64 + 2.0) / MOST_POINTS);
    let fine = steps.iter().zip(&headings).map(|(list, h)| divided(list, &parts(h, turn))).collect();
    (fine, (turn > COARSE).then(|| whole * turn / turned))
}

/// The road from one s to another.
pub fn sample(subject: &Subject, from: f64, to: f64, progress: &mut Progress) -> Sampled {
    let spans = pieces::of(&subject.model, from, to);
    let (stations, coarse) = stations(subject, &spans, to - from);
    let pieces = stations.into_iter().map(|list| piece(subject, &list, (from, to), progress)).collect();
    Sampled { pieces, coarse }
}

fn piece(subject: &Subject, stations: &[f64], (from, to): (f64, f64), progress: &mut Progress) -> Piece {
    let mut cuts = Vec::with_capacity(stations.len());
    for s in stations {
        cuts.push(Cut::of(subject, *s));
        progress.at((s - from) / (to - from));
    }
    Piece { section: subject.section(stations[0]), geometry: subject.geometry(stations[0]), cuts }
}

#[cfg(test)]
mod tests {
    use super::*;

    #[test]
    fn even_steps_keep_both_ends() {
        let found = even(Span { from: 2.0, to: 3.0 }, 0.5);
        assert_eq!((found.len(), found[0], found[8]), (9, 2.0, 3.0));
        assert_eq!(even(Span { from: 2.0, to: 2.0 }, 0.5), [2.0]);
    }

    #[test]
    fn turns_divide_a_step() {
        assert_eq!(parts(&[0.0, 0.25, 0.25, -0.5], 0.25), [1, 1, 3]);
        assert_eq!(divided(&[0.0, 1.0, 2.0], &[1, 4]), [0.0, 1.0, 1.25, 1.5, 1.75, 2.0]);
    }
}
