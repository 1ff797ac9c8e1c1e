// The C functions of crate `test_probes` behind safe ones: functions inside the library, without the check of the road.
use second::model::{Cubic, Memory};

mod c {
    use interface::asks;

    interface::probe_functions!(asks);
}

pub fn sin_cos(h: f64) -> (f64, f64) {
    let (mut sin, mut cos) = (0.0, 0.0);
    c::sin_cos(h, &mut sin, &mut cos);
    (sin, cos)
}

pub fn eval(c: &Cubic, s: f64) -> f64 {
    c::eval(c.start, c.a, c.b, c.c, c.d, s)
}

pub fn slope(c: &Cubic, s: f64) -> f64 {
    c::slope(c.start, c.a, c.b, c.c, c.d, s)
}

/// The number of the active record of a part of `numbers`, five a record.
pub fn active(part: &[f64], s: f64) -> Option<usize> {
    c::active(part, s).checked_sub(1)
}

pub struct Across {
    pub height: f64,
    pub shape: f64,
    pub cross: f64,
    /// The section at s.
    pub section: usize,
    /// How many lanes the section that was named has on a side.
    pub lanes: usize,
}

/// The height at (s, t) with its parts; and of a named section and a side the lanes. Every flag but 0 is the right.
pub fn across(m: &Memory, (s, t, toward): (f64, f64, f64), (section, right): (usize, u32)) -> Across {
    let mut all = Across { height: 1.5, shape: 1.5, cross: 1.5, section: 777, lanes: 777 };
    let (shape, cross, at, count) = (&mut all.shape, &mut all.cross, &mut all.section, &mut all.lanes);
    all.height = c::across(m, s, t, toward, section, right, shape, cross, at, count);
    all
}

/// Inner and outer border of the k-th lane of a side, then its heights there.
pub fn lane(m: &Memory, section: usize, (s, tangent): (f64, f64), right: bool, k: usize) -> [f64; 4] {
    let mut lane = [1.5; 4];
    let [it, ot, ih, oh] = &mut lane;
    c::lane(m, section, s, tangent, u32::from(right), k, it, ot, ih, oh);
    lane
}

/// The pose without the check of the road and of the samples, into place: a copy of it would be timed too.
pub fn pose(m: &Memory, samples: &[f64], geometry: usize, s: f64, pose: &mut [f64; 3]) {
    c::pose(m, samples, geometry, s, pose);
}
