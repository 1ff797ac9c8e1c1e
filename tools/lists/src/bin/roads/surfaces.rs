// What is asked of the calls of the surface layer.
use crate::calls::{Located, located};
use crate::questions::{ids, offset, starts, station};
use crate::{List, roads};
use published::oracle::Oracle;
use second::model::{GEOM, Road, Shape};
use second::random::{Rng, nudge};

/// A road, and where its records start.
pub struct Asked<'a> {
    road: &'a Road,
    rust: &'a Oracle,
    starts: Vec<f64>,
}

impl<'a> Asked<'a> {
    pub fn new(road: &'a Road, rust: &'a Oracle) -> Self {
        Self { road, rust, starts: starts(road) }
    }

    fn station(&self, rng: &mut Rng) -> f64 {
        station(rng, self.road, &self.starts)
    }

    /// Each call once, that of a lane where there is one.
    pub fn all(&self, list: &mut List, rng: &mut Rng) {
        list.station(self.rust, self.station(rng));
        list.axes(self.rust, self.station(rng));
        self.points(list, rng);
        list.locate(self.rust, self.target(rng));
    }

    /// A point of the surface, and one of a lane.
    pub fn points(&self, list: &mut List, rng: &mut Rng) {
        let s = self.station(rng);
        list.surface(self.rust, s, offset(rng, self.road, self.rust, s));
        if let Some((id, t)) = self.lane(rng, s) {
            list.lane_surface(self.rust, id, s, t);
        }
    }

    /// A lane at s, mostly one with a width, and an offset, mostly in it.
    fn lane(&self, rng: &mut Rng, s: f64) -> Option<(i32, f64)> {
        let section = self.rust.section_at(s);
        let lanes = ids(&self.road.sections[section]).into_iter().filter_map(|id| Some((id, self.rust.lane(section, id, s)?)));
        let all: Vec<(i32, [f64; 4])> = lanes.collect();
        let wide: Vec<_> = all.iter().copied().filter(|(_, [inner, outer, ..])| inner != outer).collect();
        let some = if wide.is_empty() || rng.one_in(4) { &all } else { &wide };
        if some.is_empty() {
            return None;
        }
        let (id, [inner, outer, ..]) = rng.pick(some);
        let within = inner + (outer - inner) * rng.unit();
        Some((id, if rng.one_in(3) { offset(rng, self.road, self.rust, s) } else { within }))
    }

    // ---- locate

    /// A target and a guess: over a place of the road, beside it or anywhere; from near there or from anywhere.
    fn target(&self, rng: &mut Rng) -> [f64; 3] {
        let (s, length) = (self.station(rng), self.road.length);
        let [x, y, ..] = self.rust.xyz(s, offset(rng, self.road, self.rust, s));
        let beside = match rng.below(8) {
            0 => 2_000_000.0,
            1 => 500.0,
            2 => 0.001,
            _ => 0.0,
        };
        let [x, y] = [x, y].map(|x| (x + beside * rng.between(-1.0, 1.0)).clamp(-2_000_000.0, 2_000_000.0));
        let guess = match rng.below(8) {
            0 => rng.pick(&[f64::MAX, f64::MIN, -0.0, length]),
            1 => s,
            2 => rng.between(-1.0, 2.0) * length,
            _ => s + rng.between(-5.0, 5.0),
        };
        [x, y, guess]
    }

    /// Answers that few targets have, each if one of some targets has it.
    pub fn rare(&self, list: &mut List, rng: &mut Rng) {
        let kinds: [fn(&Located) -> bool; 3] =
            [|p| p.met && p.moves == 24, |p| !p.met && p.moves == 24, |p| p.met && (6..24).contains(&p.moves)];
        for wanted in kinds {
            let found = (0..400).map(|_| self.target(rng)).find(|&at| wanted(&located(self.rust, self.road.length, at)));
            if let Some(at) = found {
                list.locate(self.rust, at);
            }
        }
    }

    /// With one number of a spiral's sample spoilt, on the road around that sample. The Rust is given the same samples. Distances
    /// stay as they were made, so the Rust finds the segment of document 01's rule.
    fn spoilt(&self, list: &mut List, rng: &mut Rng) {
        let Some((sample, s)) = self.sample(rng) else { return };
        let bad = rng.pick(&[f64::NAN, f64::INFINITY, 20_000.0, -1e300]);
        list.spoil(4 * sample + if bad == 20_000.0 { 3 } else { rng.from_to(1, 3) }, bad);
        let rust = Oracle::with_samples(self.road, &list.lent);
        for _ in 0..3 {
            let s = (s + rng.between(-0.25, 0.25)).clamp(0.0, self.road.length);
            let t = offset(rng, self.road, self.rust, s);
            list.station(&rust, s);
            list.axes(&rust, s);
            list.surface(&rust, s, t);
            if let Some((id, t)) = self.lane(rng, s) {
                list.lane_surface(&rust, id, s, t);
            }
            let [x, y, ..] = self.rust.xyz(s, t);
            list.locate(&rust, [x, y, s + rng.between(-0.5, 0.5)]);
        }
    }

    /// A sample and its station, where its spiral is the geometry there.
    fn sample(&self, rng: &mut Rng) -> Option<(usize, f64)> {
        let (mut first, mut all) = (0, Vec::new());
        for (i, g) in self.road.geoms.iter().enumerate().filter(|(_, g)| matches!(g.shape, Shape::Spiral(..))) {
            let end = self.road.geoms.get(i + 1).map_or(self.road.length, |next| next.s.min(self.road.length));
            let n = second::admission::spiral_samples(g.length);
            let stations = (0..n).map(|k| (first + k, g.s + 0.25 * k as f64));
            all.extend(stations.filter(|&(_, s)| s < end));
            first += n;
        }
        (!all.is_empty()).then(|| rng.pick(&all))
    }

    // ---- refusals

    /// Arguments just outside their range, at its end, and several wrong at once: the first row counts.
    fn refusals(&self, list: &mut List, rng: &mut Rng) {
        let (rust, length) = (self.rust, self.road.length);
        let s = self.station(rng);
        let off = rng.pick(&[nudge(length, 1), -5e-324, -1e-9, f64::NAN, f64::INFINITY]);
        let wide = rng.pick(&[nudge(80.0, 1), nudge(-80.0, -1), f64::NAN, f64::NEG_INFINITY]);
        let id = rng.pick(&[0, 7, -7, i32::MIN, i32::MAX]);
        list.station(rust, off);
        list.axes(rust, off);
        list.surface(rust, off, wide);
        list.surface(rust, s, wide);
        list.surface(rust, length, rng.pick(&[80.0, -80.0]));
        list.lane_surface(rust, id, off, wide);
        list.lane_surface(rust, id, s, wide);
        list.lane_surface(rust, id, s, 0.0);
        let far = rng.pick(&[nudge(2_000_000.0, 1), nudge(-2_000_000.0, -1), f64::NAN, f64::INFINITY]);
        list.locate(rust, [far, 0.0, rng.pick(&[f64::NAN, f64::INFINITY])]);
        list.locate(rust, [far, 0.0, s]);
        list.locate(rust, [0.0, far, s]);
        list.locate(rust, [2_000_000.0, -2_000_000.0, s]);
    }

    /// A slice that ends with the last sample, then one that is a number shorter.
    fn short(&self, list: &mut List, rng: &mut Rng) {
        let (rust, needed) = (self.rust, self.rust.samples().len());
        list.set(0, needed);
        self.all(list, rng);
        list.set(0, needed - 1);
        let s = self.station(rng);
        list.station(rust, s);
        list.axes(rust, -1.0);
        list.surface(rust, s, 81.0);
        list.lane_surface(rust, 0, s, 0.0);
        list.locate(rust, [0.0, 0.0, f64::NAN]);
        list.set(0, 8000);
    }

    /// Without geometries, with an endless length, with a spiral of too many samples: rows 3, 4 and 5.
    fn refused_road(&self, list: &mut List, rng: &mut Rng) {
        let geometries = self.road.geoms.len() as u16;
        list.word(0, 0);
        self.all(list, rng);
        list.word(0, geometries);
        let spiral = self.road.geoms.iter().position(|g| matches!(g.shape, Shape::Spiral(..))).expect("a spiral");
        let long = GEOM.line(spiral) + 4;
        for (at, bad, good) in [(0, f64::INFINITY, self.road.length), (long, 10_000.0, self.road.geoms[spiral].length)] {
            list.number(at, bad);
            self.all(list, rng);
            list.number(at, good);
        }
    }
}

/// Roads with records of every kind.
pub fn whole(list: &mut List, rng: &mut Rng) {
    for i in 0..15 {
        let road = roads::whole(list, rng, roads::WITH[i % 3]);
        let rust = Oracle::new(&road);
        let asked = Asked::new(&road, &rust);
        list.samples(&rust, 4);
        for _ in 0..9 {
            asked.all(list, rng);
        }
        asked.rare(list, rng);
        asked.refusals(list, rng);
        asked.short(list, rng);
        if i % 4 == 0 {
            asked.refused_road(list, rng);
        }
        asked.spoilt(list, rng);
    }
}
