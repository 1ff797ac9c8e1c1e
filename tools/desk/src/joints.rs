//! What is odd where a geometry ends and the next begins, and where the last one meets the road's end. Holes and overlaps are admitted,
//! so a reference line may be broken there without a refusal. Poses are the library's answers.
use riftkettle::{Pose, Road};
use second::model::{self, Shape};

/// What is not odd yet: metres, in plan and along s, and degrees of heading.
pub const STEP: f64 = 0.001;
pub const TURN: f64 = 0.05;

/// Where a geometry hands over to the next, or the road ends.
#[derive(Debug, Clone)]
pub struct Joint {
    /// The geometry that ends here, from 0, and its shape.
    pub geometry: usize,
    pub shape: Shape,
    pub last: bool,
    pub s: f64,
    /// Where it is at s, and where the next one starts; twice the same at the road's end.
    pub from: Pose,
    pub to: Pose,
    /// How far s runs on past its length; below 0, how much of its length is left.
    past: f64,
}

/// The joints of an admitted road at which something is odd.
pub fn odd(road: &Road, model: &model::Road) -> Vec<Joint> {
    let all = (0..model.geoms.len()).map(|geometry| joint(road, model, geometry));
    all.filter(|joint| joint.apart().is_some() || joint.turn().is_some() || joint.past().is_some()).collect()
}

fn joint(road: &Road, model: &model::Road, geometry: usize) -> Joint {
    let (geom, next) = (&model.geoms[geometry], model.geoms.get(geometry + 1));
    let s = next.map_or(model.length, |next| next.s);
    let pose = |geometry: usize| road.pose(geometry, s).expect("a station of an admitted road");
    let from = pose(geometry);
    let to = next.map_or(from, |_| pose(geometry + 1));
    Joint { geometry, shape: geom.shape, last: next.is_none(), s, from, to, past: s - (geom.s + geom.length) }
}

impl Joint {
    /// The distance in plan, where it is odd.
    pub fn apart(&self) -> Option<f64> {
        let apart = (self.to.x - self.from.x).hypot(self.to.y - self.from.y);
        (apart > STEP).then_some(apart)
    }

    /// The degrees by which the next turns away, positive to the left, where they are odd. Whole turns are none: the direction is the same.
    pub fn turn(&self) -> Option<f64> {
        let turn = least_turn((self.to.heading - self.from.heading).to_degrees());
        (turn.abs() > TURN).then_some(turn)
    }

    /// How far s runs on past the geometry's length, or below 0 how much of it is left, where that is odd.
    pub fn past(&self) -> Option<f64> {
        (self.past.abs() > STEP).then_some(self.past)
    }
}

/// A turn of degrees without its whole turns.
fn least_turn(degrees: f64) -> f64 {
    (degrees + 180.0).rem_euclid(360.0) - 180.0
}

#[cfg(test)]
mod tests {
    use super::*;

    #[test]
    fn whole_turns_are_none() {
        assert_eq!([0.0, 360.0, -361.0, 190.0].map(least_turn), [0.0, 0.0, -1.0, -170.0]);
    }
}
