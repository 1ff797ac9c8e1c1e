//! Places for labels: none over another, none out of its panel.
use super::plane::{Point, Rect};
use super::svg::{Anchor, Svg};

/// A letter's width and a line's height, in sizes of the letters: those of a wide sans-serif font.
const LETTER: f64 = 0.62;
const LINE: f64 = 1.15;

/// How far below the middle of a line its letters stand, in sizes of the letters.
const DROP: f64 = 0.36;

/// A line that labels keep off is a row of squares, so large and so far apart.
const SQUARE: f64 = 4.0;
const APART: f64 = 5.0;

pub struct Labels {
    within: Rect,
    /// What no label may cover, and what it had better not.
    taken: Vec<Rect>,
    avoided: Vec<Rect>,
}

/// What a label looks like.
#[derive(Clone, Copy)]
pub struct Look {
    pub class: &'static str,
    pub size: f64,
}

pub fn width(words: &str, size: f64) -> f64 {
    words.chars().count() as f64 * size * LETTER
}

/// The centers of places for a box beside a point, the nearest first: in the direction given, then farther off in it.
pub fn beside(at: Point, direction: Point, (w, h): (f64, f64)) -> impl Iterator<Item = Point> {
    let reach = (w / 2.0 / direction.x.abs()).min(h / 2.0 / direction.y.abs());
    [4.0, 10.0, 18.0, 28.0].into_iter().map(move |gap| at.toward(direction, reach + gap))
}

/// Likewise on all sides of it.
pub fn around(at: Point, size: (f64, f64)) -> impl Iterator<Item = Point> {
    const SIDES: [(f64, f64); 8] =
        [(0.7, -0.7), (-0.7, -0.7), (0.7, 0.7), (-0.7, 0.7), (0.0, -1.0), (0.0, 1.0), (1.0, 0.0), (-1.0, 0.0)];
    let rings = (0..4).map(|ring| 5.0 + 9.0 * f64::from(ring));
    rings.flat_map(move |gap| {
        SIDES.map(|(x, y)| {
            let reach = Point::new(x.signum() * x.abs().ceil() * size.0 / 2.0, y.signum() * y.abs().ceil() * size.1 / 2.0);
            at.moved(reach.x + x * gap, reach.y + y * gap)
        })
    })
}

impl Labels {
    pub fn new(within: Rect) -> Self {
        Self { within, taken: Vec::new(), avoided: Vec::new() }
    }

    pub fn take(&mut self, rect: Rect) {
        self.taken.push(rect);
    }

    pub fn take_line(&mut self, line: &[Point]) {
        let squares = squares(line, self.within);
        self.taken.extend(squares);
    }

    pub fn avoid_line(&mut self, line: &[Point]) {
        let squares = squares(line, self.within);
        self.avoided.extend(squares);
    }

    /// The first free place of that size, now taken: clear of all lines if there is one.
    pub fn find(&mut self, (w, h): (f64, f64), centers: impl IntoIterator<Item = Point>) -> Option<Point> {
        let free = |r: &&Rect| self.within.holds(**r) && !self.taken.iter().any(|t| t.meets(**r));
        let places: Vec<Rect> = centers.into_iter().map(|c| Rect::around(c, w, h)).collect();
        let clear = places.iter().filter(free).find(|r| !self.avoided.iter().any(|a| a.meets(**r)));
        let found = *clear.or_else(|| places.iter().find(free))?;
        self.taken.push(found);
        Some(found.center())
    }

    /// Writes a label at the first free place and answers where.
    pub fn write(&mut self, svg: &mut Svg, look: Look, words: &str, centers: impl IntoIterator<Item = Point>) -> Option<Point> {
        let found = self.find(size_of(words, look.size), centers)?;
        centered(svg, look, words, found);
        Some(found)
    }
}

fn squares(line: &[Point], within: Rect) -> Vec<Rect> {
    let along = |pair: &[Point]| {
        let (a, b) = (pair[0], pair[1]);
        let steps = (a.distance(b) / APART).ceil().max(1.0) as usize;
        (0..=steps).map(move |i| a.moved((b.x - a.x) * i as f64 / steps as f64, (b.y - a.y) * i as f64 / steps as f64))
    };
    line.windows(2).flat_map(along).filter(|p| within.has(*p)).map(|p| Rect::around(p, SQUARE, SQUARE)).collect()
}

pub fn size_of(words: &str, size: f64) -> (f64, f64) {
    (width(words, size), size * LINE)
}

/// Writes a label whose middle is at the point.
pub fn centered(svg: &mut Svg, look: Look, words: &str, at: Point) {
    svg.words(look.class, Anchor::Middle, at.moved(0.0, look.size * DROP), words);
}

#[cfg(test)]
mod tests {
    use super::*;

    #[test]
    fn labels_keep_apart_and_inside() {
        let mut labels = Labels::new(Rect::new(0.0, 0.0, 100.0, 100.0));
        let size = (20.0, 10.0);
        let at = Point::new(50.0, 50.0);
        let found: Vec<Point> = (0..12).filter_map(|_| labels.find(size, around(at, size))).collect();
        let boxes: Vec<Rect> = found.iter().map(|c| Rect::around(*c, size.0, size.1)).collect();
        assert!(found.len() >= 8);
        for (i, a) in boxes.iter().enumerate() {
            assert!(!a.has(at) && boxes[..i].iter().all(|b| !a.meets(*b)));
        }
        assert_eq!(labels.find(size, [Point::new(95.0, 5.0)]), None);
    }

    #[test]
    fn lines_are_kept_off_where_that_can_be() {
        let mut labels = Labels::new(Rect::new(0.0, 0.0, 100.0, 100.0));
        let (size, on, off) = ((10.0, 10.0), Point::new(50.0, 50.0), Point::new(50.0, 70.0));
        labels.avoid_line(&[Point::new(0.0, 50.0), Point::new(100.0, 50.0)]);
        assert_eq!(labels.find(size, [on, off]), Some(off));
        assert_eq!(labels.find(size, [on, off]), Some(on));
        labels.take_line(&[Point::new(20.0, 0.0), Point::new(20.0, 100.0)]);
        assert_eq!(labels.find(size, [Point::new(20.0, 20.0)]), None);
    }

    #[test]
    fn a_label_beside_a_point_does_not_cover_it() {
        let at = Point::new(0.0, 0.0);
        for (x, y) in [(1.0, 0.0), (0.0, -1.0), (-0.6, 0.8)] {
            assert!(beside(at, Point::new(x, y), (30.0, 12.0)).all(|c| !Rect::around(c, 30.0, 12.0).has(at)));
        }
    }
}
