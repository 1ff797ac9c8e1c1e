// Comparisons of station, axes, surface and lane surface: at places where their answers turn, and with arguments of which several
// may be wrong at once, so that the rows are held to their order.
use crate::demands;
use crate::lent::{Lent, ROWS, before, check};
use crate::places::{any, near_borders, offsets};
use crate::tally::{Tally, hex};
use archive::riftkettle as ours;
use published::stand_ins;
use second::exact::between;
use second::random::{Rng, nudge};

/// A call that answers a point and a heading, as four numbers.
fn point(call: impl FnOnce(&mut [f32; 3], &mut f64) -> u32) -> (u32, [f64; 4]) {
    let [x, y, z, mut heading] = before();
    let mut point = [x, y, z].map(|x| x as f32);
    let code = call(&mut point, &mut heading);
    let [x, y, z] = point.map(f64::from);
    (code, [x, y, z, heading])
}

fn widened((point, heading): ([f32; 3], f64)) -> [f64; 4] {
    let [x, y, z] = point.map(f64::from);
    [x, y, z, heading]
}

impl Lent {
    fn check_station(&self, tally: &mut Tally, samples: &[f64], s: f64) {
        let expected = self.on_road(samples, s).map(|()| self.oracle.station(s));
        let mut to = before();
        let code = ours::station(&self.m, samples, s, &mut to);
        check(tally, "station", (code, to), expected, || self.asked(s));
    }

    fn check_axes(&self, tally: &mut Tally, samples: &[f64], s: f64) {
        let expected = self.on_road(samples, s).map(|()| self.oracle.axes(s));
        let mut to = before();
        let code = ours::axes(&self.m, samples, s, &mut to);
        check(tally, "axes", (code, to), expected, || self.asked(s));
        if code == 0 && self.own {
            demands::axes(tally, &to, || self.asked(s));
        }
    }

    fn check_surface(&self, tally: &mut Tally, samples: &[f64], s: f64, t: f64) {
        let expected = self.on_surface(samples, s, t).map(|()| widened(self.oracle.surface(s, t)));
        let found = point(|point, heading| ours::surface(&self.m, samples, s, t, point, heading));
        let input = || format!("t {} {}", hex(&[t]), self.asked(s));
        check(tally, "surface", found, expected, input);
        if found.0 == 0 && self.own {
            demands::point(tally, &found.1[..3], input);
        }
    }

    /// `lane` is the lane's line of the list of borders, where demand 3 is to be tested.
    fn check_lane(&self, tally: &mut Tally, samples: &[f64], id: i32, (s, t): (f64, f64), lane: Option<&[f64]>) {
        let expected = self.on_surface(samples, s, t).and_then(|()| {
            let section = self.oracle.section_at(s);
            let (left, right) = self.lanes(section);
            let there = id != 0 && -right <= id && id <= left;
            if there { Ok(widened(self.oracle.lane_surface(section, id, s, t))) } else { Err(10) }
        });
        let found = point(|point, heading| ours::lane_surface(&self.m, samples, id, s, t, point, heading));
        let input = || format!("lane {id}, t {} {}", hex(&[t]), self.asked(s));
        check(tally, "lane surface", found, expected, input);
        if found.0 == 0 && self.own && lane.is_some_and(|lane| between([lane[0], lane[1]], t)) {
            demands::point(tally, &found.1[..3], input);
        }
    }
}

// ---- the comparisons

/// A call at a station, and one whose arguments may be wrong.
type At = fn(&Lent, &mut Rng, &mut Tally, f64);
type Rows = fn(&Lent, &mut Rng, &mut Tally);

/// Stations on a road, around so many starts; then rows; then that nothing lent has changed.
fn on_a_road(rng: &mut Rng, tally: &mut Tally, most: usize, at: At, rows: Rows) {
    let on = Lent::new(rng);
    let before = on.copies();
    on.stations(rng, most).into_iter().for_each(|s| at(&on, rng, tally, s));
    (0..ROWS).for_each(|_| rows(&on, rng, tally));
    on.end(tally, before);
}

pub fn station(rng: &mut Rng, tally: &mut Tally) {
    on_a_road(rng, tally, 60, |on, _, tally, s| on.check_station(tally, &on.samples, s), Lent::station_rows);
}

pub fn axes(rng: &mut Rng, tally: &mut Tally) {
    on_a_road(rng, tally, 60, |on, _, tally, s| on.check_axes(tally, &on.samples, s), Lent::axes_rows);
}

pub fn surface(rng: &mut Rng, tally: &mut Tally) {
    on_a_road(rng, tally, 12, Lent::surfaces_at, Lent::surface_rows);
}

pub fn lane_surface(rng: &mut Rng, tally: &mut Tally) {
    on_a_road(rng, tally, 6, Lent::lanes_at, Lent::lane_rows);
}

impl Lent {
    fn surfaces_at(&self, rng: &mut Rng, tally: &mut Tally, s: f64) {
        let mut at = near_borders(rng, &self.oracle, s);
        at.extend(offsets(rng, &self.road, &self.oracle, s, 6));
        for t in at {
            self.check_surface(tally, &self.samples, s, t);
        }
    }

    /// Every lane of the section at s: t in it, on its borders and beside them, and past them; then ids that are not there.
    fn lanes_at(&self, rng: &mut Rng, tally: &mut Tally, s: f64) {
        let (mut list, mut count) = ([0.0; 36], 0);
        let code = ours::borders(&self.m, s, &mut list, &mut count);
        let (left, right) = self.lanes(self.oracle.section_at(s));
        if code == 0 {
            demands::borders(tally, &list[..3 * count], left as usize);
        }
        let ids = (1..=left).chain((1..=right).map(|k| -k));
        for (id, lane) in ids.zip(list.chunks(3)) {
            let beside = nudge(rng.pick(lane), rng.from_to(0, 2) as i32 - 1);
            let within = lane[0] + (lane[1] - lane[0]) * rng.unit();
            let past = rng.pick(&[80.0, -80.0, lane[1] + 1.0, 2.0 * lane[1] - lane[0], lane[0] - 1e-9]);
            for t in [lane[0], lane[1], beside, within, past, rng.between(-81.0, 81.0)] {
                self.check_lane(tally, &self.samples, id, (s, t), (code == 0).then_some(lane));
            }
        }
        let t = rng.pick(&[0.0, list[0], list[1], 80.0, 81.0]);
        for id in [0, left + 1, -right - 1, rng.pick(&[7, -7, i32::MAX, i32::MIN, 1 << 16, 256 + 1])] {
            self.check_lane(tally, &self.samples, id, (s, t), None);
        }
    }

    fn station_rows(&self, rng: &mut Rng, tally: &mut Tally) {
        self.check_station(tally, self.some_samples(rng), self.some_s(rng));
    }

    fn axes_rows(&self, rng: &mut Rng, tally: &mut Tally) {
        self.check_axes(tally, self.some_samples(rng), self.some_s(rng));
    }

    fn surface_rows(&self, rng: &mut Rng, tally: &mut Tally) {
        self.check_surface(tally, self.some_samples(rng), self.some_s(rng), some_t(rng));
    }

    fn lane_rows(&self, rng: &mut Rng, tally: &mut Tally) {
        let id = if rng.one_in(8) { rng.bits() as i32 } else { rng.from_to(0, 14) as i32 - 7 };
        self.check_lane(tally, self.some_samples(rng), id, (self.some_s(rng), some_t(rng)), None);
    }
}

/// Within -80..80, at its ends and beside them, far off, or no number.
fn some_t(rng: &mut Rng) -> f64 {
    match rng.below(4) {
        0 => rng.pick(&[f64::NAN, f64::INFINITY, f64::NEG_INFINITY, 80f64.next_up(), -80f64.next_up(), 1e300]),
        1 => rng.pick(&[80.0, -80.0, 0.0, -0.0, 80f64.next_down()]),
        2 => any(rng),
        _ => rng.between(-80.0, 80.0),
    }
}

/// All five calls on samples that were not made from the road: the answers follow what the slice holds.
pub fn foreign(rng: &mut Rng, tally: &mut Tally) {
    let on = Lent::foreign(rng, Lent::new);
    let before = on.copies();
    stand_ins::by_count(|| {
        for s in on.stations(rng, 8) {
            on.check_station(tally, &on.samples, s);
            on.check_axes(tally, &on.samples, s);
            let at = offsets(rng, &on.road, &on.oracle, s, 2);
            at.into_iter().for_each(|t| on.check_surface(tally, &on.samples, s, t));
            let t = rng.between(-80.0, 80.0);
            (-2..=2).for_each(|id| on.check_lane(tally, &on.samples, id, (s, t), None));
        }
        (0..8).for_each(|_| on.locate_somewhere(rng, tally));
    });
    on.end(tally, before);
}

/// On a refused road every call answers the road's number in place of any later one.
pub fn refused(rng: &mut Rng, tally: &mut Tally) {
    let on = Lent::near_limit(rng, Lent::new);
    let before = on.copies();
    if on.refused.is_some() {
        on.station_rows(rng, tally);
        on.axes_rows(rng, tally);
        on.surface_rows(rng, tally);
        on.lane_rows(rng, tally);
        on.locate_rows(rng, tally);
    }
    on.end(tally, before);
}
