//! A graph's frame: two axes with round values.
use super::plane::{Point, Rect};
use super::scale::{Ticks, ticks};
use super::svg::{Anchor, Svg};

/// Values at the frame's left and right, and at its bottom and top. Left may be the greater.
pub struct Graph {
    pub frame: Rect,
    pub across: (f64, f64),
    pub up: (f64, f64),
}

/// The part of a range that is left free above and below what is drawn.
const MARGIN: f64 = 0.12;

/// The least and greatest of the values with a margin; where they differ by less than `least`, so much around them.
pub fn range(values: impl IntoIterator<Item = f64>, least: f64) -> (f64, f64) {
    let (low, high) = values.into_iter().fold((f64::INFINITY, f64::NEG_INFINITY), |(low, high), v| (low.min(v), high.max(v)));
    if low > high {
        return (-least, least);
    }
    let (middle, half) = ((low + high) / 2.0, ((high - low) * (0.5 + MARGIN)).max(least / 2.0));
    (middle - half, middle + half)
}

impl Graph {
    pub fn x(&self, value: f64) -> f64 {
        self.frame.left + (value - self.across.0) / (self.across.1 - self.across.0) * self.frame.width
    }

    pub fn y(&self, value: f64) -> f64 {
        self.frame.bottom() - (value - self.up.0) / (self.up.1 - self.up.0) * self.frame.height
    }

    pub fn paper(&self, p: Point) -> Point {
        Point::new(self.x(p.x), self.y(p.y))
    }

    /// The axis across has values from low to high, and each has about so many.
    pub fn axes(&self, svg: &mut Svg, (low, high): (f64, f64), most: (usize, usize)) {
        self.across_axis(svg, &ticks(low, high, most.0));
        self.up_axis(svg, &ticks(self.up.0, self.up.1, most.1));
        svg.rect("frame", self.frame);
    }

    fn across_axis(&self, svg: &mut Svg, ticks: &Ticks) {
        for value in &ticks.values {
            let at = Point::new(self.x(*value), self.frame.bottom());
            svg.line("grid", at, Point::new(at.x, self.frame.top));
            svg.line("axis", at, at.moved(0.0, 3.0));
            svg.words("small", Anchor::Middle, at.moved(0.0, 13.0), &ticks.text(*value));
        }
    }

    fn up_axis(&self, svg: &mut Svg, ticks: &Ticks) {
        for value in &ticks.values {
            let at = Point::new(self.frame.left, self.y(*value));
            svg.line("grid", at, Point::new(self.frame.right(), at.y));
            svg.line("axis", at, at.moved(-3.0, 0.0));
            svg.words("small", Anchor::End, at.moved(-5.0, 3.5), &ticks.text(*value));
        }
    }

    /// A line from bottom to top at a value of the axis across.
    pub fn upright(&self, svg: &mut Svg, class: &str, value: f64) {
        let x = self.x(value);
        svg.line(class, Point::new(x, self.frame.bottom()), Point::new(x, self.frame.top));
    }
}

#[cfg(test)]
mod tests {
    use super::*;

    #[test]
    fn a_flat_line_has_a_range() {
        assert_eq!(range([5.0, 5.0], 2.0), (4.0, 6.0));
        assert_eq!(range([], 2.0), (-2.0, 2.0));
        let (low, high) = range([0.0, 100.0], 2.0);
        assert!(low < 0.0 && high > 100.0 && low > -20.0);
    }

    #[test]
    fn an_axis_may_fall() {
        let graph = Graph { frame: Rect::new(10.0, 0.0, 100.0, 50.0), across: (5.0, -5.0), up: (0.0, 1.0) };
        assert_eq!(graph.paper(Point::new(5.0, 0.0)), Point::new(10.0, 50.0));
        assert_eq!(graph.paper(Point::new(-5.0, 1.0)), Point::new(110.0, 0.0));
    }
}
