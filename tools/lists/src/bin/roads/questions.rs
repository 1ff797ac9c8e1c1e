// What is asked of each road: most stations lie where a record starts, at it or some nanometres beside it.
use crate::surfaces::Asked;
use crate::{List, roads};
use published::oracle::{Oracle, Records};
use second::model::*;
use second::random::{Rng, beside};

/// The starts of all records along the road, a lane's own added to its section's.
pub fn starts(road: &Road) -> Vec<f64> {
    let lists = [&road.elev, &road.bank, &road.offset, &road.tshift].into_iter();
    let strips = road.strips.iter().flatten().flat_map(|strip| &strip.lists);
    let mut all: Vec<f64> = lists.chain(strips).flatten().map(|c| c.start).collect();
    all.extend(road.geoms.iter().flat_map(|g| [g.s, g.s + g.length]));
    all.extend(road.profiles.iter().map(|p| p.s));
    for section in &road.sections {
        all.push(section.start);
        for lane in section.left.iter().chain(&section.right) {
            let own = lane.extents.iter().map(|c| c.start).chain(lane.heights.iter().map(|h| h.start));
            all.extend(own.map(|start| section.start + start));
        }
    }
    all
}

/// Beside one of some places.
fn beside_one(rng: &mut Rng, places: &[f64]) -> f64 {
    let x = rng.pick(places);
    beside(rng, x)
}

/// A station of the road.
pub fn station(rng: &mut Rng, road: &Road, starts: &[f64]) -> f64 {
    loop {
        let s = match rng.below(8) {
            0 => rng.pick(&[0.0, road.length]),
            1 => road.length * rng.unit(),
            _ => beside_one(rng, starts),
        };
        if 0.0 <= s && s <= road.length {
            return s;
        }
    }
}

// ---- samples and poses

/// A station of one geometry, if it has one on the road: beside a sample, or anywhere on it.
fn station_of(rng: &mut Rng, road: &Road, g: &Geom) -> Option<f64> {
    let sample = g.s + 0.25 * rng.below(1 + (4.0 * g.length) as usize) as f64;
    let s = match rng.below(4) {
        0 | 1 => beside_one(rng, &[sample, g.s + g.length]),
        _ => g.s + g.length * rng.unit(),
    };
    (0.0 <= s && s <= road.length).then_some(s)
}

fn sample_questions(list: &mut List, rng: &mut Rng, rust: &Oracle) {
    let made = rust.samples().len();
    list.samples(rust, made.min(24));
    if made > 24 {
        list.lent(made - 12, 16);
        for _ in 0..3 {
            list.lent(4 * rng.below(made / 4), 12);
        }
    }
}

/// Roads with a reference line only. The calls of the surface layer draw from a stream of their own.
pub fn lines(list: &mut List, rng: &mut Rng, calls: &mut Rng) {
    for _ in 0..48 {
        let road = roads::line(list, rng);
        let (rust, starts) = (Oracle::new(&road), starts(&road));
        sample_questions(list, rng, &rust);
        for _ in 0..24 {
            let geometry = rng.below(road.geoms.len());
            let own = station_of(rng, &road, &road.geoms[geometry]);
            let s = own.unwrap_or_else(|| station(rng, &road, &starts));
            list.pose(&rust, geometry, s);
        }
        let asked = Asked::new(&road, &rust);
        for _ in 0..3 {
            asked.all(list, calls);
        }
        asked.rare(list, calls);
    }
}

// ---- borders, heights, lanes named

/// Where the strips begin.
fn shift(road: &Road, s: f64) -> f64 {
    let shifts = Records::new(&road.tshift);
    shifts.active(s).map_or(0.0, |i| shifts.eval(i, s))
}

/// An offset: at a lane's border, a shape's start or where the strips begin, beside it, or anywhere.
pub fn offset(rng: &mut Rng, road: &Road, rust: &Oracle, s: f64) -> f64 {
    let mut places = rust.borders(rust.section_at(s), s).concat();
    places.extend(road.profiles.iter().flat_map(|p| &p.shapes).map(|c| c.start));
    places.extend([rust.base(s), 80.0, -80.0]);
    let t = match rng.below(6) {
        0 => rng.between(-30.0, 30.0),
        1 => beside_one(rng, &[shift(road, s)]),
        _ => beside_one(rng, &places),
    };
    t.clamp(-80.0, 80.0)
}

/// The ids of the lanes of a section.
pub fn ids(section: &Section) -> Vec<i32> {
    let side = |n: usize| 1..=n as i32;
    side(section.left.len()).chain(side(section.right.len()).map(|id| -id)).collect()
}

fn lane_questions(list: &mut List, rng: &mut Rng, road: &Road, rust: &Oracle, s: f64) {
    list.borders(rust, s, if rng.one_in(8) { 4 } else { 0 });
    let ids = ids(&road.sections[rust.section_at(s)]);
    if !ids.is_empty() {
        for _ in 0..2 {
            list.across(rust, s, rng.pick(&ids));
        }
    }
    let t = offset(rng, road, rust, s);
    list.named(rust, s, t);
    list.toward(rust, s, offset(rng, road, rust, s));
}

/// Roads with lanes, along a straight line.
pub fn lanes(list: &mut List, rng: &mut Rng, calls: &mut Rng) {
    for i in 0..36 {
        let road = roads::lanes(list, rng, roads::WITH[i % 3]);
        let (rust, starts) = (Oracle::new(&road), starts(&road));
        for _ in 0..13 {
            let s = station(rng, &road, &starts);
            lane_questions(list, rng, &road, &rust, s);
        }
        let asked = Asked::new(&road, &rust);
        for _ in 0..3 {
            asked.all(list, calls);
            asked.points(list, calls);
        }
        asked.rare(list, calls);
    }
}
