// What is asked of each road.
use crate::{List, roads};
use second::admission::spiral_samples;
use second::dots::{self, Known};
use second::model::*;
use second::random::Rng;

/// Numbers of a lent list: each another, so that one which is moved shows; a NaN, a zero and an infinity among them.
fn marked(n: usize) -> Vec<f64> {
    let mark = |i: usize| match i % 16 {
        5 => f64::NAN,
        9 => -0.0,
        12 => f64::INFINITY,
        _ => -1000.5 - i as f64,
    };
    (0..n).map(mark).collect()
}

/// A spacing with room for the dots; then for one fewer, for fewer than all multiples, or for some.
fn by(list: &mut List, rng: &mut Rng, (section, id): (usize, i32), spacing: f32, times: usize) {
    let [kept, all] = list.kept(section, id, spacing).unwrap_or([2, 2]);
    // no line of the list is longer than its station lists
    let kept = kept.min(500);
    for k in 0..times {
        list.lend(&marked(match rng.below(4) {
            _ if k == 0 => kept + rng.pick(&[0, 0, 1, 4]),
            0 => kept.saturating_sub(1),
            1 => rng.below(kept.min(12) + 2),
            _ if kept < all && all < 40 => all - 1,
            _ => kept + rng.from_to(0, 2),
        }));
        list.dots(section, id, spacing);
    }
}

pub fn known(list: &mut List, rng: &mut Rng) {
    for Known { road, section, id, stations, spacings } in dots::known() {
        roads::put(list, rng, &road);
        list.stations(&stations);
        for spacing in spacings {
            by(list, rng, (section, id), spacing, 3);
        }
    }
    most(list, rng);
}

/// 65,536 multiples and one more, on a line whose span leaves few; the same list with room for few and for none.
fn most(list: &mut List, rng: &mut Rng) {
    let mut road = dots::known().swap_remove(4).road;
    road.sections[0].marks[0] = Mark { lane: 0, kind: 1, start: 8191.0, end: 8192.0 };
    roads::put(list, rng, &road);
    for end in [8191.875, 8192.0, 8191.875f64.next_down()] {
        list.stations(&[0.0, end]);
        for room in [8, 7, 20] {
            list.lend(&marked(room));
            list.dots(0, -1, 0.125);
        }
    }
}

/// So many roads, and so many lanes and lists on each.
const ROADS: usize = 40;
const LINES: usize = 5;

pub fn drawn(list: &mut List, rng: &mut Rng) {
    for i in 0..ROADS {
        let road = roads::drawn(list, rng, roads::WITH[i % 4]);
        for k in 0..LINES {
            line(list, rng, &road, k == 0 && i % 16 == 0);
        }
        if road.spirals() > 0 {
            foreign(list, rng, &road);
        }
    }
}

/// A lane by several spacings; now and then at as many stations as there may be.
fn line(list: &mut List, rng: &mut Rng, road: &Road, full: bool) {
    let (section, id) = dots::lane(rng, road);
    let (stations, met) = dots::list(rng, road, section);
    list.stations(&if full { dots::full(rng, dots::ends(road, section)) } else { stations });
    let length = list.length(section, id);
    for k in 0..3 {
        let spacing = if k == 0 && !full { met } else { None };
        let spacing = spacing.unwrap_or_else(|| dots::spacing(rng, length));
        let [kept, _] = list.kept(section, id, spacing).unwrap_or([0, 0]);
        if kept <= 24 {
            by(list, rng, (section, id), spacing, 2 + k % 2);
        }
    }
}

/// A number of a spiral's sample is another, and points are formed around there: a coordinate outside is 16, whatever else is right;
/// inside, the dots follow it. Then the road's own again.
fn foreign(list: &mut List, rng: &mut Rng, road: &Road) {
    for bad in [f64::NAN, f64::INFINITY, 3e6, -2_000_000.125, 1.5e6, 0.0] {
        let Some((sample, section, id, s)) = sample(rng, road) else { return };
        let [start, end] = dots::ends(road, section);
        let mut near: Vec<f64> = [-0.2, -0.1, 0.0, 0.1, 0.2].map(|by| s + by).to_vec();
        near.retain(|s| (start..=end).contains(s));
        list.spoil(4 * sample + rng.from_to(1, 2), bad);
        list.stations(&near);
        list.lend(&marked(rng.pick(&[0, 3])));
        for spacing in [dots::MOST, f32::NAN] {
            list.dots(section, id, spacing);
        }
    }
    list.samples();
}

/// A sample, and its station in a section with lanes where its spiral is the geometry.
fn sample(rng: &mut Rng, road: &Road) -> Option<(usize, usize, i32, f64)> {
    let (mut first, mut all) = (0, Vec::new());
    for (i, g) in road.geoms.iter().enumerate().filter(|(_, g)| matches!(g.shape, Shape::Spiral(..))) {
        let end = road.geoms.get(i + 1).map_or(road.length, |next| next.s);
        let n = spiral_samples(g.length);
        all.extend((0..n).map(|k| (first + k, g.s + 0.25 * k as f64)).filter(|&(_, s)| s < end));
        first += n;
    }
    let mut found = Vec::new();
    for (i, section) in road.sections.iter().enumerate().filter(|(_, s)| s.left.len() + s.right.len() > 0) {
        let [start, end] = dots::ends(road, i);
        let inside = all.iter().filter(|&&(_, s)| start + 0.1 < s && s + 0.1 < end);
        found.extend(inside.map(|&(sample, s)| (sample, i, section.id(0), s)));
    }
    (!found.is_empty()).then(|| rng.pick(&found))
}

// ---- the rows

/// Arguments that are wrong, each by itself and two at once, in the order of the rows.
pub fn rows(list: &mut List, rng: &mut Rng) {
    let road = roads::drawn(list, rng, roads::With::Spirals);
    wrong_arguments(list, rng, &road);
    wrong_stations(list, rng, &road);
    let lane = dots::lane(rng, &road);
    short_samples(list, &road, lane);
    refused_road(list, &road, lane);
}

/// Calls with all right and with each wrong from here on: no such lane, no such spacing, one station, no room.
fn each(list: &mut List, (section, id): (usize, i32), right: &[f64]) {
    for (id, spacing, stations, room) in [
        (id, dots::MOST, right, 9),
        (id, dots::MOST, right, 0),
        (id, dots::MOST, &right[..1], 0),
        (id, f32::NAN, &right[..1], 0),
        (0, f32::NAN, &right[..1], 0),
    ] {
        list.stations(stations);
        list.lend(&marked(room));
        list.dots(section, id, spacing);
    }
}

fn wrong_arguments(list: &mut List, rng: &mut Rng, road: &Road) {
    let (section, id) = dots::lane(rng, road);
    let right = dots::ends(road, section);
    each(list, (section, id), &right);
    list.stations(&right);
    list.lend(&marked(3));
    let of = &road.sections[section];
    let (left, past) = (of.left.len() as i32, -(of.right.len() as i32) - 1);
    for id in [0, left + 1, past, 7, -7, 257, -257, i32::MAX, i32::MIN] {
        list.dots(section, id, 1.0);
    }
    let sections = road.sections.len();
    for section in [sections, sections + 1, 16, 1 << 16, 1 << 32, usize::MAX] {
        list.dots(section, id, 1.0);
    }
    for spacing in dots::WRONG.map(f32::from_bits) {
        list.dots(section, id, spacing);
        list.dots(section, 0, spacing);
    }
    for spacing in [dots::LEAST, dots::LEAST.next_up(), dots::MOST.next_down(), dots::MOST] {
        list.dots(section, id, spacing);
    }
}

/// Lists that are damaged, with room and without; as many stations as there may be, and one more.
fn wrong_stations(list: &mut List, rng: &mut Rng, road: &Road) {
    for _ in 0..60 {
        let (section, id) = dots::lane(rng, road);
        let ends = dots::ends(road, section);
        let (right, _) = dots::list(rng, road, section);
        let damaged = dots::damaged(rng, right, ends);
        // a long list is a long line
        if damaged.len() < 50 {
            list.stations(&damaged);
            list.lend(&marked(rng.pick(&[0, 5])));
            list.dots(section, id, dots::MOST);
            list.dots(section, id, 0.0);
        }
    }
    let (section, id) = dots::lane(rng, road);
    let [start, end] = dots::ends(road, section);
    for n in [dots::STATIONS, dots::STATIONS + 1] {
        list.stations(&(0..n).map(|k| start + k as f64 * ((end - start) / 1024.0)).collect::<Vec<_>>());
        list.lend(&marked(20));
        list.dots(section, id, dots::MOST);
    }
}

fn short_samples(list: &mut List, road: &Road, lane: (usize, i32)) {
    let spirals = road.geoms.iter().filter(|g| matches!(g.shape, Shape::Spiral(..)));
    let needed = 4 * spirals.map(|g| spiral_samples(g.length)).sum::<usize>();
    let right = dots::ends(road, lane.0);
    for lending in [needed, needed - 1, 0] {
        list.lending(lending);
        each(list, lane, &right);
        list.samples();
    }
    list.lending(8000);
}

/// Without geometries, with an endless length, with a spiral of too many samples: rows 3, 4 and 5.
fn refused_road(list: &mut List, road: &Road, lane: (usize, i32)) {
    let right = dots::ends(road, lane.0);
    list.word(0, 0);
    each(list, lane, &right);
    list.word(0, road.geoms.len() as u16);
    let spiral = road.geoms.iter().position(|g| matches!(g.shape, Shape::Spiral(..))).expect("a spiral");
    let long = GEOM.line(spiral) + 4;
    for (at, bad, good) in [(0, f64::INFINITY, road.length), (long, 10_000.0, road.geoms[spiral].length)] {
        list.number(at, bad);
        each(list, lane, &right);
        list.samples();
        list.number(at, good);
    }
}
