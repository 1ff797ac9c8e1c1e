// Places on a road where answers turn: along it, across it, and beside them.
use crate::tally::hex;
use published::oracle::{Oracle, Records};
use second::arguments::SPECIAL;
use second::model::{Cubic, Road, Shape};
use second::random::{Rng, beside, nudge};

/// Any bits, or a number where something turns.
pub fn any(rng: &mut Rng) -> f64 {
    if rng.one_in(2) { rng.pattern() } else { nudge(rng.pick(&SPECIAL), rng.from_to(0, 4) as i32 - 2) }
}

// ---- where a call answers

pub fn on_road(road: &Road, s: f64) -> bool {
    0.0 <= s && s <= road.length
}

pub fn within_80(t: f64) -> bool {
    -80.0 <= t && t <= 80.0
}

// ---- along the road

/// Every start of what lies across the road, lane lists' too, measured along the road.
pub fn starts_across(road: &Road) -> Vec<f64> {
    let along = |list: &[Cubic]| list.iter().map(|c| c.start).collect::<Vec<f64>>();
    let mut all = [along(&road.offset), along(&road.tshift)].concat();
    all.extend(road.profiles.iter().map(|p| p.s));
    all.extend(road.strips.iter().flatten().flat_map(|s| &s.lists).flatten().map(|c| c.start));
    for section in &road.sections {
        all.push(section.start);
        for lane in section.left.iter().chain(&section.right) {
            let lists = lane.extents.iter().map(|c| c.start).chain(lane.heights.iter().map(|h| h.start));
            all.extend(lists.map(|start| section.start + start));
        }
    }
    all
}

/// Every start of the reference line, of its elevation and of its bank; where geometries end; and some of a spiral's samples.
pub fn starts_along(rng: &mut Rng, road: &Road) -> Vec<f64> {
    let mut all: Vec<f64> = road.elev.iter().chain(&road.bank).map(|c| c.start).collect();
    for g in &road.geoms {
        all.extend([g.s, g.s + g.length]);
        if matches!(g.shape, Shape::Spiral(..)) {
            let last = (g.length / 0.25) as usize;
            all.extend([1, last, rng.below(last + 1)].map(|k| g.s + 0.25 * k as f64));
        }
    }
    all
}

/// At a start, where it becomes active or not, and beside it.
fn around(rng: &mut Rng, start: f64) -> [f64; 3] {
    [start, nudge(start - 1e-9, rng.from_to(0, 6) as i32 - 3), beside(rng, start)]
}

/// Stations around every one of the starts, or around some where there are more than `most`; then others on the road.
pub fn stations(rng: &mut Rng, road: &Road, starts: Vec<f64>, most: usize) -> Vec<f64> {
    let mut all = starts;
    while all.len() > most {
        all.swap_remove(rng.below(all.len()));
    }
    let mut at: Vec<f64> = all.into_iter().flat_map(|x| around(rng, x)).collect();
    at.push(road.length * rng.unit());
    let end = rng.pick(&[0.0, -0.0, road.length]);
    at.push(beside(rng, end));
    at
}

/// For functions that answer for every s.
pub fn wide_stations(rng: &mut Rng, road: &Road, starts: Vec<f64>, most: usize) -> Vec<f64> {
    let mut at = stations(rng, road, starts, most);
    at.push(rng.pick(&[f64::NAN, f64::INFINITY, f64::NEG_INFINITY, -1.0, 1e300, -1e300, 2.0 * road.length]));
    at
}

// ---- across the road

/// Offsets at and beside what lies across the road at s: the base, the ridge, strips' edges, shapes' starts; some of them where
/// there are more than `most`.
pub fn offsets(rng: &mut Rng, road: &Road, oracle: &Oracle, s: f64, most: usize) -> Vec<f64> {
    let shift = Records::new(&road.tshift);
    let ridge = shift.active(s).map_or(0.0, |i| shift.eval(i, s));
    let edges = road.strips.iter().flatten().map(|strip| {
        let width = Records::new(&strip.lists[0]);
        width.active(s).map_or(0.0, |i| width.eval(i, s))
    });
    let mut all: Vec<f64> = edges.flat_map(|w| [ridge + w, ridge - w]).collect();
    all.extend([ridge, ridge + 1e-9, ridge - 1e-9, oracle.base(s)]);
    all.extend(road.profiles.iter().flat_map(|p| &p.shapes).map(|c| c.start));
    while all.len() > most {
        all.swap_remove(rng.below(all.len()));
    }
    let mut at: Vec<f64> = all.into_iter().map(|x| beside(rng, x)).collect();
    at.extend([rng.between(-80.0, 80.0), rng.pick(&[80.0, -80.0, 0.0, -0.0]), any(rng)]);
    at
}

/// Offsets at and beside every border at s, and beyond them.
pub fn near_borders(rng: &mut Rng, oracle: &Oracle, s: f64) -> Vec<f64> {
    let mut all: Vec<f64> = oracle.borders(oracle.section_at(s), s).iter().flat_map(|b| [b[0], b[1]]).collect();
    all.push(oracle.base(s));
    all.dedup();
    let mut at: Vec<f64> = all.into_iter().map(|t| nudge(t, rng.from_to(0, 2) as i32 - 1)).collect();
    at.extend([rng.between(-80.0, 80.0), nudge(80.0 * rng.sign(), rng.from_to(0, 2) as i32 - 1), any(rng)]);
    at
}

/// A road and its numbers for a message: short enough to read, whole enough to run again.
pub fn asked(road: &Road, s: f64) -> String {
    format!("at s {}: {road:?}", hex(&[s]))
}
