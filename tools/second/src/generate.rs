// Random roads that documents 01 and 02 admit, with every feature: all tables, equal starts, starts within nanometres, level and
// border lanes, marks, strips, profiles, several spirals, numbers at their limits. Also two roads of known size for the benchmark.
use crate::admission::{self, bound, spiral_samples};
use crate::model::*;
use crate::random::{Rng, nudge};

/// A road that is admitted, with its memory.
pub fn admitted(rng: &mut Rng) -> (Road, Memory) {
    laid(rng, draft)
}

/// Drafts that break a limit or do not fit are drawn anew.
fn laid(rng: &mut Rng, draft: impl Fn(&mut Rng) -> Road) -> (Road, Memory) {
    loop {
        let road = draft(rng);
        let style = Style::random(rng);
        if let Some(memory) = road.lay(rng, style) {
            if admission::admit(&memory.words, &memory.numbers) == 0 {
                return (road, memory);
            }
        }
    }
}

/// A road that is meant to be admitted.
pub fn draft(rng: &mut Rng) -> Road {
    let length = length(rng);
    let crossed = rng.one_in(3);
    Road {
        length,
        geoms: geoms(rng, length),
        elev: steep_list(rng, length),
        bank: road_list(rng, 64, length, 0.75),
        offset: road_list(rng, 64, length, 8.0),
        tshift: if crossed { road_list(rng, 64, length, 8.0) } else { Vec::new() },
        sections: sections(rng, length),
        profiles: if rng.one_in(2) { profiles(rng, length) } else { Vec::new() },
        strips: if crossed { strips(rng, length) } else { Default::default() },
    }
}

/// A road for what lies across it: admitted, with its memory. Its reference line is one line; most have lanes of both kinds that
/// lie one beyond the other, with heights and level ones among them, and profiles or strips or both.
pub fn across(rng: &mut Rng) -> (Road, Memory) {
    laid(rng, draft_across)
}

fn draft_across(rng: &mut Rng) -> Road {
    let length = length(rng);
    let (crossed, shaped, outward) = (rng.one_in(2), rng.one_in(2), !rng.one_in(3));
    let geom = Geom { s: 0.0, x: 0.0, y: 0.0, hdg: 0.0, length, shape: Shape::Line };
    let mut road = Road {
        length,
        geoms: vec![geom],
        offset: road_list(rng, 64, length, 8.0),
        tshift: if crossed { road_list(rng, 64, length, 8.0) } else { Vec::new() },
        sections: sections(rng, length),
        profiles: if shaped { profiles(rng, length) } else { Vec::new() },
        strips: if crossed { strips(rng, length) } else { Default::default() },
        ..Road::default()
    };
    if outward {
        road.sections.iter_mut().for_each(|section| spread(rng, section));
    }
    road
}

/// A road for its surface: what lies across it as above, over any reference line, with elevation and bank. On one in four nothing
/// stands off the road's plane; some have lanes so thin that a fraction across them overflows.
pub fn surfaced(rng: &mut Rng) -> (Road, Memory) {
    laid(rng, draft_surfaced)
}

fn draft_surfaced(rng: &mut Rng) -> Road {
    let mut road = draft_across(rng);
    road.geoms = geoms(rng, road.length);
    road.elev = steep_list(rng, road.length);
    road.bank = road_list(rng, 64, road.length, 0.75);
    if rng.one_in(4) {
        lay_bare(&mut road);
    }
    if rng.one_in(12) {
        make_thin(rng, &mut road);
    }
    road
}

/// A road to dot: as for its surface, or with nothing but straight lanes, and most of its marks of kind 1.
pub fn dotted(rng: &mut Rng) -> (Road, Memory) {
    laid(rng, |rng| {
        let mut road = if rng.one_in(3) { draft_plain(rng) } else { draft_surfaced(rng) };
        paint(rng, &mut road);
        road
    })
}

/// One line, in half of them along x from the origin, sections of lanes that keep their widths, and at most a slope.
fn draft_plain(rng: &mut Rng) -> Road {
    let length = length(rng);
    let [x, hdg] = if rng.one_in(2) { [0.0; 2] } else { [rng.between(-3.0, 3.0) * 1e5, rng.between(-3.0, 3.0)] };
    let mut sections = sections(rng, length);
    for lane in sections.iter_mut().flat_map(|s| s.left.iter_mut().chain(&mut s.right)) {
        *lane = Lane { extents: vec![Cubic { a: rng.from_to(0, 8) as f64 * 0.5, ..Cubic::default() }], ..Lane::default() };
    }
    let b = rng.pick(&[0.0, 0.75, 1.0]);
    Road {
        length,
        geoms: vec![Geom { s: 0.0, x, y: 0.0, hdg, length, shape: Shape::Line }],
        elev: if b > 0.0 { vec![Cubic { b, ..Cubic::default() }] } else { Vec::new() },
        sections,
        ..Road::default()
    }
}

/// Puts the base at 0, and beside it lanes as wide as some subnormal number.
fn make_thin(rng: &mut Rng, road: &mut Road) {
    road.offset.clear();
    for lane in road.sections.iter_mut().flat_map(|s| s.left.first_mut().into_iter().chain(s.right.first_mut())) {
        let a = f64::from_bits(rng.bits() >> rng.from_to(12, 63));
        (lane.border, lane.extents) = (false, vec![Cubic { a, ..Cubic::default() }]);
    }
}

fn lay_bare(road: &mut Road) {
    for lane in road.sections.iter_mut().flat_map(|s| s.left.iter_mut().chain(&mut s.right)) {
        lane.heights.clear();
        lane.level = false;
    }
    road.profiles.clear();
    road.tshift.clear();
    road.strips = Default::default();
}

/// Makes most lanes wide, and most borders lie beyond the inner neighbour's.
fn spread(rng: &mut Rng, section: &mut Section) {
    for (side, sign) in [(&mut section.left, 1.0), (&mut section.right, -1.0)] {
        for (k, lane) in side.iter_mut().enumerate() {
            let outward = if lane.border { sign } else { 1.0 };
            for c in &mut lane.extents {
                if lane.border && rng.one_in(2) {
                    let a = sign * rng.between(0.8, 1.2) * 5.0 * (k + 1) as f64;
                    *c = Cubic { start: c.start, a, ..Cubic::default() };
                } else if c.a * outward < 0.0 && !rng.one_in(8) {
                    shrink(c, -1.0);
                }
            }
        }
    }
}

// ---- numbers

fn length(rng: &mut Rng) -> f64 {
    match rng.below(10) {
        0 => 0.01,
        1 => 10_000.0,
        2 => rng.log_between(0.01, 10.0),
        3 => rng.log_between(500.0, 10_000.0),
        4 => rng.from_to(1, 2000) as f64 * 0.25,
        _ => rng.between(10.0, 500.0),
    }
}

/// Mostly few, now and then up to the limit.
fn few(rng: &mut Rng, limit: usize) -> usize {
    match rng.below(12) {
        0 => limit,
        1 => rng.from_to(0, limit),
        2..5 => 0,
        _ => rng.from_to(0, limit.min(4)),
    }
}

/// A number of size at most the limit, the limit and zero among them.
fn sized(rng: &mut Rng, limit: f64) -> f64 {
    let size = match rng.below(12) {
        0 => limit,
        1 => 0.0,
        2 => f64::from_bits(rng.bits() % 0x0010_0000_0000_0000),
        3 => rng.log_between(limit * 1e-12, limit),
        _ => limit * rng.unit(),
    };
    size * rng.sign()
}

/// Starts that never fall, in low..high: equal ones, ones within nanometres, and the ends among them.
fn starts(rng: &mut Rng, n: usize, low: f64, high: f64) -> Vec<f64> {
    let mut all: Vec<f64> = (0..n)
        .map(|_| match rng.below(12) {
            0 => low,
            1 => high,
            _ => rng.between(low, high),
        })
        .collect();
    all.sort_by(f64::total_cmp);
    for i in 1..n {
        let last = all[i - 1];
        let close = match rng.below(8) {
            0 => last,
            1 => last + rng.between(0.0, 3e-9),
            2 => last + 1e-9,
            3 => nudge(last, rng.from_to(0, 3) as i32),
            _ => all[i],
        };
        all[i] = if last <= close && close <= high { close } else { all[i].max(last) };
    }
    all
}

/// Starts at least 0.001 apart by their f64 difference, many exactly at that limit. Fewer than n where the range is short.
fn apart(rng: &mut Rng, n: usize, low: f64, high: f64) -> Vec<f64> {
    let mut all: Vec<f64> = Vec::new();
    let mut next = if rng.one_in(2) { low } else { rng.between(low, high) };
    while all.len() < n && next <= high {
        all.push(next);
        let last = next;
        next = match rng.below(3) {
            0 => last + 0.001,
            1 => last + rng.between(0.001, 0.1),
            _ => last + 0.001 + rng.unit() * (high - last),
        };
        while next - last < 0.001 {
            next = next.next_up();
        }
    }
    all
}

// ---- cubics

/// Coefficients for each start so that B is at most the limit, now and then exactly it.
fn cubics(rng: &mut Rng, starts: &[f64], end: f64, limit: f64) -> Vec<Cubic> {
    let next = |i: usize| starts.get(i + 1).copied().unwrap_or(end);
    let reach = |i: usize| (next(i) - starts[i]).max(0.0) + 0.001;
    (0..starts.len()).map(|i| cubic(rng, starts[i], reach(i), limit)).collect()
}

fn cubic(rng: &mut Rng, start: f64, reach: f64, limit: f64) -> Cubic {
    let size = sized(rng, limit).abs();
    let weights = [0, 1, 2, 3].map(|_| if rng.one_in(3) { 0.0 } else { rng.unit() });
    let sum: f64 = weights.iter().sum();
    let [a, b, c, d] = weights.map(|w| if sum > 0.0 { size * (w / sum) * rng.sign() } else { 0.0 });
    let mut cubic = Cubic { start, a, b: b / reach, c: c / (reach * reach), d: d / (reach * reach * reach) };
    if sum == 0.0 {
        cubic.a = size * rng.sign();
    }
    while !(bound(cubic, reach) <= limit) {
        shrink(&mut cubic, 0.999_999);
    }
    cubic
}

fn shrink(c: &mut Cubic, by: f64) {
    (c.a, c.b, c.c, c.d) = (c.a * by, c.b * by, c.c * by, c.d * by);
}

/// A list along the road.
fn road_list(rng: &mut Rng, limit: usize, length: f64, size: f64) -> Vec<Cubic> {
    let n = few(rng, limit);
    let starts = starts(rng, n, 0.0, length);
    cubics(rng, &starts, length, size)
}

/// An elevation: its slope is limited too.
fn steep_list(rng: &mut Rng, length: f64) -> Vec<Cubic> {
    let mut list = road_list(rng, 64, length, 10_000.0);
    for i in 0..list.len() {
        let next = list.get(i + 1).map_or(length, |c| c.start);
        let reach = (next - list[i].start).max(0.0) + 0.001;
        let c = &mut list[i];
        let slope = |c: &Cubic| c.b.abs() + (2.0 * c.c.abs()) * reach + ((3.0 * c.d.abs()) * reach) * reach;
        let whole = slope(c);
        if whole > 1.0 {
            let size = rng.unit() / whole;
            (c.b, c.c, c.d) = (c.b * size, c.c * size, c.d * size);
        }
    }
    list
}

// ---- the reference line

fn curvature(rng: &mut Rng, least: f64) -> f64 {
    rng.sign() * if rng.one_in(12) { 1.0 } else { rng.log_between(least, 1.0) }
}

/// A shape, a spiral only where its samples fit into what is left.
fn shape(rng: &mut Rng, length: f64, left: &mut usize) -> Shape {
    let kind = rng.below(3);
    if kind == 2 && length < 501.0 && spiral_samples(length) <= *left {
        *left -= spiral_samples(length);
        return match rng.below(6) {
            0 => Shape::Spiral(sized(rng, 1.0), sized(rng, 1.0)),
            1 => Shape::Spiral(0.0, 0.0),
            _ => Shape::Spiral(sized(rng, 0.05), sized(rng, 0.05)),
        };
    }
    match (kind, rng.below(8)) {
        (0, _) => Shape::Line,
        (_, 0) => Shape::Arc(rng.pick(&[1e-9, -1e-9, 0.0, 1e-10, 0.00001, -0.00001, 1.0])),
        _ => Shape::Arc(curvature(rng, 0.00001)),
    }
}

fn geoms(rng: &mut Rng, length: f64) -> Vec<Geom> {
    if rng.one_in(2) { chained_geoms(rng, length) } else { free_geoms(rng, length) }
}

/// Geometries that follow one another without holes in s or jumps in plan (so far as lengths and limits allow).
fn chained_geoms(rng: &mut Rng, length: f64) -> Vec<Geom> {
    let n = rng.from_to(1, 8).min((length / 0.02) as usize).max(1);
    let mut cuts: Vec<f64> = (1..n).map(|_| rng.between(0.0, length)).collect();
    cuts.sort_by(f64::total_cmp);
    cuts.dedup_by(|b, a| *b - *a < 0.01);
    cuts.retain(|&s| s >= 0.01 && length - s >= 0.01);
    cuts.insert(0, 0.0);
    let (mut x, mut y, mut hdg, mut left) = (sized(rng, 900_000.0), sized(rng, 900_000.0), sized(rng, 4.0), 2000);
    let mut geoms: Vec<Geom> = Vec::new();
    for (i, &s) in cuts.iter().enumerate() {
        let end = cuts.get(i + 1).copied().unwrap_or(length);
        let mut shape = shape(rng, end - s, &mut left);
        if let Shape::Arc(k) = shape {
            shape = if rng.one_in(4) || k.abs() < 0.001 { shape } else { Shape::Arc(k * 0.1) };
        }
        let g = Geom { s, x, y, hdg, length: end - s, shape };
        (x, y, hdg) = end_of(&g);
        hdg = if hdg.abs() > 900.0 { hdg % std::f64::consts::TAU } else { hdg };
        geoms.push(g);
    }
    geoms
}

/// The pose at the end of a geometry, nearly: by the library's sine.
fn end_of(g: &Geom) -> (f64, f64, f64) {
    let heading = |u: f64| match g.shape {
        Shape::Line => g.hdg,
        Shape::Arc(k) => g.hdg + k * u,
        Shape::Spiral(k0, k1) => g.hdg + k0 * u + 0.5 * (k1 - k0) / g.length * u * u,
    };
    match g.shape {
        Shape::Arc(k) if k.abs() > 1e-9 => {
            let h = heading(g.length);
            (g.x + (h.sin() - g.hdg.sin()) / k, g.y - (h.cos() - g.hdg.cos()) / k, h)
        }
        Shape::Spiral(..) => {
            let (mut x, mut y, mut u) = (g.x, g.y, 0.0);
            while u < g.length - 1e-9 {
                let step = (g.length - u).min(0.25);
                x += heading(u + step / 2.0).cos() * step;
                y += heading(u + step / 2.0).sin() * step;
                u += step;
            }
            (x, y, heading(u))
        }
        _ => (g.x + g.length * g.hdg.cos(), g.y + g.length * g.hdg.sin(), g.hdg),
    }
}

/// Geometries that have nothing to do with one another.
fn free_geoms(rng: &mut Rng, length: f64) -> Vec<Geom> {
    let n = few(rng, 64).max(1);
    let mut at = starts(rng, n, 0.0, length);
    at[0] = if rng.one_in(8) { -0.0 } else { 0.0 };
    let mut left = 2000;
    at.into_iter()
        .map(|s| {
            let long = match rng.below(8) {
                0 => rng.pick(&[0.01, 10_000.0, 0.25, 0.5, 0.6, 0.5000000005, 499.75]),
                1 => rng.log_between(0.01, 10_000.0),
                2 => rng.from_to(1, 400) as f64 * 0.25 + rng.between(-2e-9, 2e-9),
                _ => rng.log_between(0.01, 60.0),
            };
            let shape = shape(rng, long, &mut left);
            let [x, y] = [1_000_000.0; 2].map(|limit| if rng.one_in(2) { sized(rng, limit) } else { sized(rng, 100.0) });
            let hdg = if rng.one_in(4) { sized(rng, 1_000.0) } else { rng.between(-7.0, 7.0) };
            Geom { s, x, y, hdg, length: long, shape }
        })
        .collect()
}

// ---- lanes

fn sections(rng: &mut Rng, length: f64) -> Vec<Section> {
    let n = few(rng, 16).max(1);
    let mut at = starts(rng, n, 0.0, length);
    at[0] = if rng.one_in(8) { -0.0 } else { 0.0 };
    for i in 1..n {
        at[i] = if at[i] > at[i - 1] { at[i] } else { at[i - 1].next_up() };
    }
    at.retain(|&s| s <= length);
    let crowded = at.len() > 6;
    let marked = rng.pick(MARKED);
    (0..at.len())
        .map(|i| {
            let extent = at.get(i + 1).copied().unwrap_or(length) - at[i];
            let side = |rng: &mut Rng| {
                let n = if rng.one_in(6) { 6 } else { rng.from_to(0, 4) };
                let lanes: Vec<Lane> = (0..n).map(|_| lane(rng, extent, crowded)).collect();
                if rng.one_in(6) { lanes.iter().map(|_| lanes[0].clone()).collect() } else { lanes }
            };
            let (left, right) = (side(rng), side(rng));
            let (n, lanes) = (rng.from_to(marked.0, marked.1), left.len() + right.len());
            Section { start: at[i], left, right, marks: marks(rng, n, lanes, extent) }
        })
        .collect()
}

// ---- marks

/// How many marks, least and most, each section of a road has that has lanes.
const MARKED: &[(usize, usize)] = &[(0, 0), (0, 0), (0, 2), (0, 2), (0, 16), (16, 16)];

/// Gives a road other marks.
pub fn mark_anew(rng: &mut Rng, road: &mut Road) {
    let ends: Vec<f64> = road.sections.iter().skip(1).map(|s| s.start).chain([road.length]).collect();
    for (section, end) in road.sections.iter_mut().zip(ends) {
        let (n, lanes) = (rng.from_to(0, 16), section.left.len() + section.right.len());
        section.marks = marks(rng, n, lanes, end - section.start);
    }
}

/// Makes most marks of kind 1. On some roads the marks are others, or they begin and end by quarters of a metre; on most roads most
/// lanes have one as long as their section, before their others.
fn paint(rng: &mut Rng, road: &mut Road) {
    if rng.one_in(2) {
        mark_anew(rng, road);
    }
    let (whole, quarters) = (!rng.one_in(3), rng.one_in(3));
    let ends: Vec<f64> = road.sections.iter().skip(1).map(|s| s.start).chain([road.length]).collect();
    for (section, end) in road.sections.iter_mut().zip(ends) {
        for mark in &mut section.marks {
            mark.kind = if rng.one_in(4) { mark.kind } else { 1 };
            let [start, end] = [mark.start, mark.end].map(|x| if quarters { (x * 4.0).floor() / 4.0 } else { x });
            (mark.start, mark.end) = (start, end);
        }
        for lane in 0..section.left.len() + section.right.len() {
            if whole && section.marks.len() < 16 && !rng.one_in(4) {
                section.marks.insert(0, Mark { lane, kind: 1, start: 0.0, end: end - section.start });
            }
        }
    }
}

/// So many marks on the lanes of a section, lanes in any order; none where there are no lanes.
fn marks(rng: &mut Rng, n: usize, lanes: usize, extent: f64) -> Vec<Mark> {
    if lanes == 0 {
        return Vec::new();
    }
    let on: Vec<usize> = (0..n).map(|_| rng.below(lanes)).collect();
    let mut at: Vec<Vec<f64>> =
        (0..lanes).map(|lane| mark_starts(rng, on.iter().filter(|&&k| k == lane).count(), extent)).collect();
    on.into_iter().map(|lane| mark(rng, lane, at[lane].remove(0), extent)).collect()
}

/// Starts of marks on one lane, equal ones and the section's ends among them.
fn mark_starts(rng: &mut Rng, n: usize, extent: f64) -> Vec<f64> {
    let zero = |x: f64, negative: bool| if x == 0.0 && negative { -0.0 } else { x };
    starts(rng, n, 0.0, extent).into_iter().map(|x| zero(x.min(extent), rng.one_in(4))).collect()
}

fn mark(rng: &mut Rng, lane: usize, start: f64, extent: f64) -> Mark {
    let end = match rng.below(6) {
        0 => start,
        1 | 2 => extent,
        3 => start.next_up(),
        _ => rng.between(start, extent),
    };
    let kind = if rng.one_in(2) { rng.pick(&[1, 255, 2, 254]) } else { rng.from_to(1, 255) as u16 };
    Mark { lane, kind, start, end: end.clamp(start, extent) }
}

/// Where a lane's list may start: mostly in its section, but any number is allowed.
fn lane_range(rng: &mut Rng, extent: f64) -> (f64, f64) {
    match rng.below(8) {
        0 => (-extent, 2.0 * extent),
        1 => (-5.0, 5.0),
        _ => (0.0, extent),
    }
}

fn lane(rng: &mut Rng, extent: f64, crowded: bool) -> Lane {
    let border = rng.one_in(4);
    let most = if crowded { 3 } else { 16 };
    let n = if rng.one_in(3) { 1 } else { few(rng, most) };
    let (low, high) = lane_range(rng, extent);
    let mut at = starts(rng, n, low, high);
    if n > 0 && !rng.one_in(4) {
        at[0] = at[0].min(0.0);
    }
    let extents = cubics(rng, &at, extent, if border { 36.0 } else { 8.0 });
    let n = if rng.one_in(2) { 0 } else { few(rng, if crowded { 2 } else { 8 }) };
    let (low, high) = lane_range(rng, extent);
    let heights = apart(rng, n, low, high).into_iter();
    let heights = heights.map(|start| Height { start, inner: sized(rng, 2.0), outer: sized(rng, 2.0) }).collect();
    Lane { border, level: rng.one_in(6), extents, heights }
}

// ---- profiles and strips

fn profiles(rng: &mut Rng, length: f64) -> Vec<Profile> {
    let n = few(rng, 16);
    let at = apart(rng, n, 0.0, length);
    at.into_iter()
        .map(|s| {
            let n = few(rng, 16).max(1);
            let starts = starts(rng, n, -80.0, 80.0);
            Profile { s, shapes: cubics(rng, &starts, 80.0, 40.0) }
        })
        .collect()
}

fn strips(rng: &mut Rng, length: f64) -> [Option<Strip>; 4] {
    [0, 1, 2, 3].map(|_| {
        let list = |rng: &mut Rng, limit: f64| road_list(rng, 8, length, limit);
        let mut weights = [0, 1, 2, 3].map(|_| rng.unit());
        let sum: f64 = weights.iter().sum();
        weights = weights.map(|w| 39.999 * w / sum);
        let [w0, w1, w2, w3] = weights;
        let strip = Strip {
            relative: rng.one_in(2),
            lists: [
                list(rng, 100.0),
                list(rng, w0),
                list(rng, w1 / 88.0),
                list(rng, w2 / (88.0 * 88.0)),
                list(rng, w3 / (88.0 * 88.0 * 88.0)),
            ],
        };
        if rng.one_in(4) { None } else { Some(strip) }
    })
}

// ---- roads of known size

fn plain(starts: impl Iterator<Item = f64>, a: f64) -> Vec<Cubic> {
    starts.map(|start| Cubic { start, a, b: 0.001, c: 0.00001, d: 0.0 }).collect()
}

fn plain_lane(border: bool, extents: usize, heights: usize, a: f64) -> Lane {
    let heights = (0..heights).map(|i| Height { start: i as f64, inner: 0.1, outer: 0.2 }).collect();
    Lane { border, level: false, extents: plain((0..extents).map(|i| i as f64), a), heights }
}

/// A road of 31 records: 3 geometries, 2 elevations, 2 banks, 2 offsets, 1 section, 4 lanes, 8 extents, 4 heights, 1 profile of 4
/// shapes.
pub fn small() -> Road {
    let geom = |s, length, shape| Geom { s, x: 10.0 + s, y: 20.0, hdg: 0.3, length, shape };
    let lane = |a| plain_lane(false, 2, 1, a);
    Road {
        length: 100.0,
        geoms: vec![geom(0.0, 40.0, Shape::Line), geom(40.0, 30.0, Shape::Arc(0.01)), geom(70.0, 30.0, Shape::Spiral(0.01, 0.0))],
        elev: plain([0.0, 50.0].into_iter(), 12.0),
        bank: plain([0.0, 50.0].into_iter(), 0.05),
        offset: plain([0.0, 50.0].into_iter(), 0.5),
        sections: vec![Section { left: vec![lane(3.5), lane(1.0)], right: vec![lane(3.5), lane(1.0)], ..Section::default() }],
        profiles: vec![Profile { s: 0.0, shapes: plain([-10.0, -5.0, 0.0, 5.0].into_iter(), 0.2) }],
        ..Road::default()
    }
}

/// A road with every table at its limit: 64 geometries of each kind in turn, 2,000 samples, 64 records in each list along it, 16
/// sections of 12 lanes and 16 marks, 512 extents, 512 heights, 16 profiles of 16 shapes, 4 strips of 40 cubics.
pub fn full() -> Road {
    let along = |n: usize, a| plain((0..n).map(move |i| i as f64 * 100.0 / n as f64), a);
    let kind = |i: usize| match i % 3 {
        0 => Shape::Line,
        1 => Shape::Arc(0.01),
        _ => Shape::Spiral(0.01, -0.01),
    };
    // 21 spirals; all but the last have 95 samples, the last 100.
    let long = |i: usize| if i == 62 { 24.75 } else { 23.5 };
    let geoms = (0..64).map(|i| Geom { s: i as f64 * 1.5, x: i as f64, y: 0.0, hdg: 0.1, length: long(i), shape: kind(i) });
    // 192 lanes: two of three have 3 extents and 3 heights, the others 2 and 2; that is 512 of each.
    let lane = |i: usize| if i % 3 == 2 { plain_lane(false, 2, 2, 3.0) } else { plain_lane(false, 3, 3, 3.0) };
    let side = |first: usize| (first..first + 6).map(lane).collect();
    let strip =
        || Strip { relative: true, lists: [along(8, 3.0), along(8, 0.1), plain_term(1e-4), plain_term(1e-6), plain_term(1e-8)] };
    Road {
        length: 100.0,
        geoms: geoms.collect(),
        elev: along(64, 12.0),
        bank: along(64, 0.05),
        offset: along(64, 0.5),
        tshift: along(64, 0.5),
        sections: (0..16)
            .map(|i| Section { start: i as f64 * 6.0, left: side(12 * i), right: side(12 * i + 6), marks: plain_marks() })
            .collect(),
        profiles: (0..16)
            .map(|i| Profile { s: i as f64, shapes: plain((0..16).map(|k| -80.0 + 10.0 * k as f64), 0.2) })
            .collect(),
        strips: [0, 1, 2, 3].map(|_| Some(strip())),
    }
}

/// 16 marks on 12 lanes, four of which have two.
fn plain_marks() -> Vec<Mark> {
    let mark = |k: usize| Mark { lane: k % 12, kind: k as u16 + 1, start: 0.25 * k as f64, end: 0.25 * k as f64 + 2.0 };
    (0..16).map(mark).collect()
}

fn plain_term(a: f64) -> Vec<Cubic> {
    (0..8).map(|i| Cubic { start: i as f64 * 12.5, a, b: 0.0, c: 0.0, d: 0.0 }).collect()
}
