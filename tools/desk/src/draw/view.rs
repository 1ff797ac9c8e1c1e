//! The ground on the paper: x to the right, y up, one scale for both.
use super::plane::{Point, Rect};
use super::scale::{Ticks, ticks};
use super::svg::{Anchor, Svg};

/// The least extent of ground that a view shows, in metres, so that a point has a scale too.
const LEAST: f64 = 1e-3;

/// The lines of the grid are about so far apart.
const APART: f64 = 100.0;

pub struct View {
    pub frame: Rect,
    /// Units of the paper a metre.
    pub scale: f64,
    middle: Point,
}

impl View {
    pub fn at(frame: Rect, middle: Point, scale: f64) -> Self {
        Self { frame, scale, middle }
    }

    /// All of that ground, with a margin of the paper around it.
    pub fn of(frame: Rect, ground: Rect, margin: f64) -> Self {
        let room = frame.inside(margin);
        let scale = (room.width / ground.width.max(LEAST)).min(room.height / ground.height.max(LEAST));
        Self::at(frame, ground.center(), scale)
    }

    pub fn paper(&self, ground: Point) -> Point {
        self.frame.center().moved((ground.x - self.middle.x) * self.scale, (self.middle.y - ground.y) * self.scale)
    }

    /// The ground's least and greatest x and y in the frame.
    pub fn seen(&self) -> Rect {
        Rect::around(self.middle, self.frame.width / self.scale, self.frame.height / self.scale)
    }

    /// A grid of squares with true coordinates: those of the ground and the origin's.
    pub fn grid(&self, svg: &mut Svg, origin: Point) {
        let seen = self.seen();
        let (left, low) = (seen.left + origin.x, seen.top + origin.y);
        let across = ticks(left, left + seen.width, (self.frame.width / APART).max(2.0) as usize);
        let up = Ticks::of(across.step, low, low + seen.height);
        for x in &across.values {
            let at = self.paper(Point::new(x - origin.x, 0.0)).x;
            svg.line("grid", Point::new(at, self.frame.top), Point::new(at, self.frame.bottom()));
            svg.words("small", Anchor::Middle, Point::new(at, self.frame.bottom() + 12.0), &across.text(*x));
        }
        for y in &up.values {
            let at = self.paper(Point::new(0.0, y - origin.y)).y;
            svg.line("grid", Point::new(self.frame.left, at), Point::new(self.frame.right(), at));
            svg.words("small", Anchor::End, Point::new(self.frame.left - 4.0, at + 3.5), &up.text(*y));
        }
    }
}

#[cfg(test)]
mod tests {
    use super::*;

    const FRAME: Rect = Rect::new(0.0, 0.0, 220.0, 120.0);

    #[test]
    fn both_axes_have_the_scale_of_the_tighter() {
        let view = View::of(FRAME, Rect::new(0.0, 0.0, 100.0, 10.0), 10.0);
        assert_eq!(view.scale, 2.0);
        assert_eq!(view.paper(Point::new(0.0, 0.0)), Point::new(10.0, 70.0));
        assert_eq!(view.paper(Point::new(100.0, 10.0)), Point::new(210.0, 50.0));
    }

    #[test]
    fn a_point_is_shown_in_the_middle() {
        let view = View::of(FRAME, Rect::new(7.0, 8.0, 0.0, 0.0), 10.0);
        assert_eq!(view.paper(Point::new(7.0, 8.0)), FRAME.center());
        assert!(view.scale.is_finite());
    }
}
