//! The road in a view: lanes, base, paint, reference line, and where sections and geometries start.
use second::model::Shape;

use super::jumps::{self, Jump};
use super::lines::{Band, SEEN, joined, joined_bands, simplified};
use super::plane::Point;
use super::sampled::{Cut, Piece, Sampled};
use super::style::KINDS;
use super::subject::Subject;
use super::svg::Svg;
use super::view::View;

/// How far lines across it reach past the road, or from the reference line where there are no lanes.
pub const PAST: f64 = 7.0;
const TICK: f64 = 4.0;

const DOT: f64 = 2.3;
const RING: f64 = 5.0;

pub struct Ground<'a> {
    pub subject: &'a Subject,
    pub sampled: &'a Sampled,
    pub view: &'a View,
}

/// A line across the road on the paper.
pub struct Crossing {
    pub left: Point,
    pub right: Point,
    /// The direction from right to left.
    pub leftward: Point,
}

/// The direction to the left of the reference line, on the paper.
pub fn leftward(heading: f64) -> Point {
    Point::new(-heading.sin(), -heading.cos())
}

pub fn kind(shape: Shape) -> usize {
    match shape {
        Shape::Line => 0,
        Shape::Arc(_) => 1,
        Shape::Spiral(..) => 2,
    }
}

impl Ground<'_> {
    pub fn draw(&self, svg: &mut Svg, jumps: &[Jump]) {
        let jump = jumps::tolerance(self.subject, self.sampled, self.view.scale);
        if self.sampled.coarse.is_some() {
            self.windings(svg);
        } else {
            self.lanes(svg, jump);
            self.base(svg, jump);
            self.paint(svg, jump);
            self.reference(svg, jump);
        }
        for section in self.subject.model.sections.iter().filter(|n| self.has(n.start)) {
            let at = self.crossing(section.start, PAST);
            svg.line("section", at.left, at.right);
        }
        for geom in self.subject.model.geoms.iter().filter(|g| self.has(g.s)) {
            let station = self.subject.station(geom.s);
            svg.circle("geometry", self.view.paper(Point::new(station.x, station.y)), DOT);
        }
        for end in jumps.iter().filter(|j| self.has(j.s)).flat_map(|j| j.ends).flatten() {
            svg.circle("jump", self.view.paper(end), RING);
        }
    }

    /// Whether that s is in the part that is drawn.
    pub fn has(&self, s: f64) -> bool {
        self.sampled.ends().is_some_and(|(from, to)| (from..=to).contains(&s))
    }

    /// Across the road at s, and so far past it.
    pub fn crossing(&self, s: f64, past: f64) -> Crossing {
        let leftward = leftward(self.subject.station(s).heading);
        let (right, left) = self.subject.sides(s).outermost().map_or((0.0, 0.0), |(r, l)| (r.min(0.0), l.max(0.0)));
        let end = |t: f64, past: f64| self.view.paper(self.subject.place(s, t)).toward(leftward, past);
        Crossing { left: end(left, past), right: end(right, -past), leftward }
    }

    /// A tick across the reference line.
    pub fn tick(&self, svg: &mut Svg, s: f64) {
        let station = self.subject.station(s);
        let (at, leftward) = (self.view.paper(Point::new(station.x, station.y)), leftward(station.heading));
        svg.line("mark", at.toward(leftward, TICK), at.toward(leftward, -TICK));
    }

    pub fn on_paper(&self, line: &[Point]) -> Vec<Point> {
        let line: Vec<Point> = line.iter().map(|p| self.view.paper(*p)).collect();
        simplified(&line, SEEN)
    }

    fn lanes(&self, svg: &mut Svg, jump: f64) {
        for pieces in self.sampled.pieces.chunk_by(|a, b| a.section == b.section) {
            let section = &self.subject.model.sections[pieces[0].section];
            for lane in 0..section.left.len() {
                self.lane(svg, ["left-a", "left-b"][lane % 2], pieces, |c| (c.left[lane], c.left[lane + 1]), jump);
            }
            for lane in 0..section.right.len() {
                self.lane(svg, ["right-a", "right-b"][lane % 2], pieces, |c| (c.right[lane], c.right[lane + 1]), jump);
            }
        }
    }

    /// One lane of a section. Each part of it between jumps is closed across the road, so that a jump is a step.
    fn lane(&self, svg: &mut Svg, class: &str, pieces: &[Piece], borders: impl Fn(&Cut) -> (Point, Point), jump: f64) {
        let band = |piece: &Piece| {
            let (inner, outer) = piece.cuts.iter().map(&borders).unzip();
            Band { inner, outer }
        };
        for band in joined_bands(pieces.iter().map(band), jump) {
            let (mut outline, outer) = (self.on_paper(&band.inner), self.on_paper(&band.outer));
            outline.extend(outer.iter().rev());
            svg.area(class, &outline);
        }
    }

    fn base(&self, svg: &mut Svg, jump: f64) {
        let run = |piece: &Piece| piece.cuts.iter().filter_map(|c| c.left.first().or(c.right.first()).copied()).collect();
        let lines: Vec<Vec<Point>> = joined(self.sampled.pieces.iter().map(run), jump).iter().map(|l| self.on_paper(l)).collect();
        svg.lines("base", &lines);
    }

    fn reference(&self, svg: &mut Svg, jump: f64) {
        for pieces in self.sampled.pieces.chunk_by(|a, b| a.geometry == b.geometry) {
            let runs = pieces.iter().map(|p| p.cuts.iter().map(Cut::center).collect());
            let lines: Vec<Vec<Point>> = joined(runs, jump).iter().map(|l| self.on_paper(l)).collect();
            svg.lines(self.class(&pieces[0]), &lines);
        }
    }

    fn class(&self, piece: &Piece) -> &'static str {
        KINDS[kind(self.subject.model.geoms[piece.geometry].shape)]
    }

    /// The points of the reference line alone. A line through points so far apart would be none of the road's, and thousands of
    /// turns of lanes take a renderer minutes.
    fn windings(&self, svg: &mut Svg) {
        for piece in &self.sampled.pieces {
            let points: Vec<Point> = piece.cuts.iter().map(|c| self.view.paper(c.center())).collect();
            svg.dots(&format!("{} dots", self.class(piece)), &points);
        }
    }
}

#[cfg(test)]
mod tests {
    use super::*;

    #[test]
    fn left_of_east_is_up_the_paper() {
        let found = leftward(0.0);
        assert!(found.x.abs() < 1e-12 && found.y == -1.0);
        assert!((leftward(std::f64::consts::FRAC_PI_2).x + 1.0).abs() < 1e-12);
    }
}
