//! The road that is drawn: the library's answers for it, and what lies in it as data.
use riftkettle::layout::{GEOM, GEOM_STRIDE};
use riftkettle::{Border, Refusal, Road, Station, SurfacePoint};
use second::model;

use super::paint::Paint;
use super::plane::{Point, Rect};
use crate::arguments::Failure;
use crate::dots::{Dotting, Extent};
use crate::joints::{self, Joint};

/// A record is in use from this much before its start.
const EARLY: f64 = 1e-9;

pub struct Want {
    pub s: f64,
    pub t: f64,
    pub answer: Result<SurfacePoint, Refusal>,
}

/// Points narrow to f32, which at a million metres are 0.06 m apart. So the picture asks for the points of the same road moved to
/// the origin, and adds the origin back where it writes coordinates. The wants' answers are those of the road as it is.
pub struct Subject {
    pub name: String,
    pub model: model::Road,
    pub paint: Paint,
    pub origin: Point,
    asked: Box<Road>,
    moved: Box<Road>,
}

/// The borders at a station: t of the base, then of each lane's outer border. Empty where a side has no lanes.
#[derive(Debug, Clone, PartialEq, Default)]
pub struct Sides {
    pub left: Vec<f64>,
    pub right: Vec<f64>,
}

impl Sides {
    pub fn both(&self) -> impl Iterator<Item = f64> + '_ {
        self.left.iter().chain(&self.right).copied()
    }

    /// The outermost t, right and left.
    pub fn outermost(&self) -> Option<(f64, f64)> {
        let fold = |f: fn(f64, f64) -> f64| self.both().reduce(f);
        Some((fold(f64::min)?, fold(f64::max)?))
    }

    pub fn base(&self) -> Option<f64> {
        self.both().next()
    }

    /// Each lane's id, inner and outer border.
    pub fn lanes(&self) -> impl Iterator<Item = (i32, f64, f64)> + '_ {
        let side = |list: &'_ [f64], sign: i32| -> Vec<(i32, f64, f64)> {
            list.windows(2).zip(1..).map(|(pair, n)| (sign * n, pair[0], pair[1])).collect()
        };
        side(&self.left, 1).into_iter().chain(side(&self.right, -1))
    }
}

fn side(lanes: &[Border]) -> Vec<f64> {
    lanes.first().map(|l| l.inner).into_iter().chain(lanes.iter().map(|l| l.outer)).collect()
}

/// The number of the record in use at s: the last that has started, else the first.
pub fn in_use(starts: impl Iterator<Item = f64>, s: f64) -> usize {
    starts.take_while(|start| *start <= s + EARLY).count().saturating_sub(1)
}

impl Subject {
    pub fn read(name: &str, text: &[u8]) -> Result<Self, Refusal> {
        let mut asked = Box::new(Road::new());
        asked.read(text)?;
        let lent = asked.lent();
        let model = model::Road::read(lent.words, lent.numbers);
        let (origin, moved) = near_origin(&asked, &model);
        Ok(Self { name: name.into(), paint: Paint::of(&model), model, origin, asked, moved })
    }

    pub fn length(&self) -> f64 {
        self.asked.length()
    }

    pub fn wants(&self) -> Vec<Want> {
        self.asked.wants().map(|(s, t)| Want { s, t, answer: self.asked.surface(s, t) }).collect()
    }

    /// The reference line at s, x and y from the picture's origin. Stations and offsets that are drawn lie on the road.
    pub fn station(&self, s: f64) -> Station {
        self.moved.station(s).expect("a station of the road")
    }

    pub fn surface(&self, s: f64, t: f64) -> SurfacePoint {
        self.moved.surface(s, t).expect("a place of the road")
    }

    /// The plan of the surface, from the picture's origin.
    pub fn place(&self, s: f64, t: f64) -> Point {
        let p = self.surface(s, t);
        Point::new(p.x.into(), p.y.into())
    }

    pub fn sides(&self, s: f64) -> Sides {
        let borders = self.moved.borders(s).expect("a station of the road");
        let (left, right) = borders.split_at(borders.partition_point(|border| border.id > 0));
        Sides { left: side(left), right: side(right) }
    }

    pub fn section(&self, s: f64) -> usize {
        in_use(self.model.sections.iter().map(|n| n.start), s)
    }

    pub fn geometry(&self, s: f64) -> usize {
        in_use(self.model.geoms.iter().map(|g| g.s), s)
    }

    /// The dots of a lane, on the road as it is, and its section's extent.
    pub fn dots(&self, asked: Dotting) -> Result<(Vec<f64>, Extent), Failure> {
        Ok((asked.dots(&self.asked)?, Extent::of(&self.asked, asked.section)))
    }

    /// The odd joints of geometries, x and y from the picture's origin.
    pub fn joints(&self) -> Vec<Joint> {
        joints::odd(&self.moved, &self.model)
    }

    /// The t that the road speaks of where it has no lanes: of its wants and of its profiles' shapes.
    pub fn named_offsets(&self) -> Vec<f64> {
        let wanted = self.wants().into_iter().filter(|w| w.answer.is_ok()).map(|w| w.t);
        wanted.chain(self.model.profiles.iter().flat_map(|p| p.shapes.iter().map(|c| c.start))).collect()
    }
}

/// The road with the middle of its geometries' starts at the origin. Should the moved road be refused, it stays where it is.
fn near_origin(asked: &Road, model: &model::Road) -> (Point, Box<Road>) {
    let starts = Rect::of(model.geoms.iter().map(|g| Point::new(g.x, g.y)));
    let middle = starts.map_or(Point::new(0.0, 0.0), Rect::center);
    let origin = Point::new(middle.x.round(), middle.y.round());
    let mut moved = Box::new(asked.clone());
    for line in moved.numbers_mut()[GEOM..][..model.geoms.len() * GEOM_STRIDE].chunks_mut(GEOM_STRIDE) {
        line[1] -= origin.x;
        line[2] -= origin.y;
    }
    match moved.make_samples() {
        Ok(()) => (origin, moved),
        Err(_) => (Point::new(0.0, 0.0), Box::new(asked.clone())),
    }
}

#[cfg(test)]
mod tests {
    use super::*;

    #[test]
    fn a_record_is_in_use_from_just_before_its_start() {
        let starts = [0.0, 5.0, 5.0, 7.0];
        let found = |s| in_use(starts.into_iter(), s);
        assert_eq!([0.0, 4.5, 5.0 - 5e-10, 6.0, 7.0].map(found), [0, 0, 2, 2, 3]);
    }

    #[test]
    fn lanes_by_side() {
        let sides = Sides { left: vec![0.5, 4.0, 6.0], right: vec![0.5, -3.0] };
        assert_eq!(sides.lanes().collect::<Vec<_>>(), [(1, 0.5, 4.0), (2, 4.0, 6.0), (-1, 0.5, -3.0)]);
        assert_eq!(sides.outermost(), Some((-3.0, 6.0)));
        assert_eq!(sides.base(), Some(0.5));
        assert_eq!(Sides::default().outermost(), None);
    }
}
