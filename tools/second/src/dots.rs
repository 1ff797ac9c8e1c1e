// Dots of document 02, Point 4: the rows 10, 15, 16 and 17 and the list a second time, and a generator of station lists, of spacings and
// of arguments that are wrong. The points of a lane's outer border are given: this package has no surface.
use crate::model::*;
use crate::random::{Rng, beside, nudge};
use crate::tracks;

pub const STATIONS: usize = 512;
pub const MULTIPLES: usize = 65_536;

/// What is asked on a road: a section from 0, a lane's id, and how many dots are lent.
#[derive(Clone, Copy)]
pub struct Asked<'a> {
    pub section: usize,
    pub id: i32,
    pub spacing: f32,
    pub stations: &'a [f64],
    pub room: usize,
}

/// A section's lane by its place there, the left ones outward, then the right ones.
pub fn place(road: &Road, section: usize, id: i32) -> Option<usize> {
    let section = road.sections.get(section)?;
    (0..section.left.len() + section.right.len()).find(|&place| section.id(place) == id)
}

/// Where a section begins and ends.
pub fn ends(road: &Road, section: usize) -> [f64; 2] {
    let next = road.sections.get(section + 1);
    [road.sections[section].start, next.map_or(road.length, |next| next.start)]
}

/// 02: "an f32 spacing from 0.1 to 100 m".
fn spaced(spacing: f32) -> bool {
    (0.1..=100.0).contains(&spacing)
}

/// 02: "2 to 512 strictly rising f64 values from the section's start to the next one's (the last's: to the road length), both allowed".
pub fn listed(stations: &[f64], [start, end]: [f64; 2]) -> bool {
    let within = |s: &f64| (start..=end).contains(s);
    (2..=STATIONS).contains(&stations.len()) && stations.iter().all(within) && stations.windows(2).all(|w| w[0] < w[1])
}

/// The answer, or the row by which the call is refused. 02: "A section or lane that is not there is 10. Answers: 15, spacing outside or
/// NaN, after 10; 16, station list wrong or a line that is no track under Point 1, after 15; 17, the lent dot list shorter than the dots
/// kept or more than 65,536 multiples, last." The points, three f32 each, are asked for only where the list is right.
pub fn dots(road: &Road, asked: &Asked, points: impl FnOnce() -> Vec<f32>) -> Result<Vec<f64>, u32> {
    let Some(place) = place(road, asked.section, asked.id) else { return Err(10) };
    if !spaced(asked.spacing) {
        return Err(15);
    }
    if !listed(asked.stations, ends(road, asked.section)) {
        return Err(16);
    }
    let points = points();
    if tracks::refused(&points, None, &[]).is_some() {
        return Err(16);
    }
    let kept = kept(&Line::new(&points, asked.stations), asked.spacing, &road.sections[asked.section], place);
    kept.filter(|kept| kept.len() <= asked.room).ok_or(17)
}

// ---- the line

/// How far along the line each station lies, in f32, and how long the segment after it is.
struct Line<'a> {
    stations: &'a [f64],
    sums: Vec<f32>,
    steps: Vec<f32>,
}

impl<'a> Line<'a> {
    fn new(points: &[f32], stations: &'a [f64]) -> Self {
        let step = |w: &[f32]| tracks::lengths(w)[1];
        Self { stations, sums: tracks::lengths(points), steps: points.windows(6).step_by(3).map(step).collect() }
    }

    /// Sums never fall. The first segment that ends at or past the arc length has it; the last one where none does.
    fn station_at(&self, arc: f32) -> f64 {
        let last = self.steps.len() - 1;
        let i = self.sums[1..=last].partition_point(|&sum| sum < arc);
        let into = if self.steps[i] > 0.0 { (arc - self.sums[i]) / self.steps[i] } else { 0.0 };
        let into = f64::from(into).clamp(0.0, 1.0);
        self.stations[i] + (self.stations[i + 1] - self.stations[i]) * into
    }
}

/// 02: "Each multiple is k × spacing as one f32 product", from 0 to the line's length. None where they are too many.
fn kept(line: &Line, spacing: f32, section: &Section, place: usize) -> Option<Vec<f64>> {
    let length = line.sums[line.sums.len() - 1];
    let multiple = |k: usize| k as f32 * spacing;
    if multiple(MULTIPLES) <= length {
        return None;
    }
    // spans that cover nothing of the lane are left aside, for there may be many dots
    let spans: Vec<&Mark> = section.marks.iter().filter(|mark| mark.kind == 1 && mark.lane == place).collect();
    let dotted = |s: &f64| spans.iter().any(|span| span.covers(s - section.start));
    let arcs = (0..MULTIPLES).map(multiple).take_while(|&arc| arc <= length);
    Some(arcs.map(|arc| line.station_at(arc)).filter(dotted).collect())
}

// ---- lanes and station lists

/// A lane of a section that has lanes, for the most part one that a span of kind 1 names.
pub fn lane(rng: &mut Rng, road: &Road) -> (usize, i32) {
    let lanes = |section: usize| road.sections[section].left.len() + road.sections[section].right.len();
    let sections: Vec<usize> = (0..road.sections.len()).filter(|&section| lanes(section) > 0).collect();
    let section = rng.pick(&sections);
    let of = &road.sections[section];
    let painted: Vec<usize> = of.marks.iter().filter(|m| m.kind == 1).map(|m| m.lane).collect();
    let place = if painted.is_empty() || rng.one_in(6) { rng.below(lanes(section)) } else { rng.pick(&painted) };
    (section, of.id(place))
}

/// A list that is right, wherever the section has an extent, and where it was made of a spacing this one.
pub fn list(rng: &mut Rng, road: &Road, section: usize) -> (Vec<f64>, Option<f32>) {
    let ends = ends(road, section);
    if rng.one_in(4) {
        let spacing = spacing(rng, (ends[1] - ends[0]) as f32);
        return (at_multiples(rng, ends, spacing), Some(spacing));
    }
    let turns = turns(rng, road, section);
    (stations(rng, ends, &turns), None)
}

/// Where something begins or ends in a section: its spans, its lanes' records, what runs along the road; some where there are many.
fn turns(rng: &mut Rng, road: &Road, section: usize) -> Vec<f64> {
    let ([start, end], of) = (ends(road, section), &road.sections[section]);
    let mut all: Vec<f64> = of.marks.iter().flat_map(|m| [start + m.start, start + m.end]).collect();
    let lanes = of.left.iter().chain(&of.right);
    all.extend(lanes.flat_map(|l| l.extents.iter().map(|c| c.start).chain(l.heights.iter().map(|h| h.start))).map(|s| start + s));
    all.extend(road.geoms.iter().flat_map(|g| [g.s, g.s + g.length]));
    all.extend([&road.elev, &road.bank, &road.offset, &road.tshift].into_iter().flatten().map(|c| c.start));
    all.extend(road.profiles.iter().map(|p| p.s));
    all.retain(|s| start <= *s && *s <= end);
    while all.len() > 9 {
        all.swap_remove(rng.below(all.len()));
    }
    all
}

fn stations(rng: &mut Rng, [start, end]: [f64; 2], turns: &[f64]) -> Vec<f64> {
    let mut all = match rng.below(9) {
        0 => vec![start, end],
        1 => even(rng, [start, end]),
        2 => close(rng, [start, end]),
        3 => after_a_leap(rng, [start, end]),
        4 | 5 => turns.iter().map(|&s| beside(rng, s)).collect(),
        _ => some(rng, 7, [start, end]),
    };
    if rng.one_in(3) {
        all.push(rng.pick(&[start, end, nudge(end, -1)]));
    }
    right(rng, all, [start, end])
}

fn some(rng: &mut Rng, most: usize, [start, end]: [f64; 2]) -> Vec<f64> {
    (0..rng.from_to(2, most)).map(|_| rng.between(start, end)).collect()
}

/// By equal steps, many of them of whole or half metres.
fn even(rng: &mut Rng, [start, end]: [f64; 2]) -> Vec<f64> {
    let by = if rng.one_in(2) { rng.pick(&[0.25, 0.5, 1.0, 2.0, 3.0]) } else { (end - start) / rng.from_to(1, 12) as f64 };
    (0..rng.from_to(2, 20)).map(|k| start + k as f64 * by).collect()
}

/// The next f64 numbers, or next to them: in f32 their points are all alike.
fn close(rng: &mut Rng, [start, end]: [f64; 2]) -> Vec<f64> {
    let mut at = rng.between(start, end);
    let by = rng.pick(&[0.0, 0.0, 1e-9, 1e-6]);
    let next = |_| {
        at = nudge(at + by, 1);
        at
    };
    (0..rng.from_to(2, 9)).map(next).collect()
}

/// One long step and short ones after it, whose lengths the sum rounds by much of themselves.
fn after_a_leap(rng: &mut Rng, [start, end]: [f64; 2]) -> Vec<f64> {
    let (from, by) = (start + (end - start) * rng.between(0.5, 0.9), (end - start) * rng.log_between(1e-7, 1e-3));
    let steps = (0..rng.from_to(9, 40)).map(|k| from + k as f64 * by);
    [start].into_iter().chain(steps).collect()
}

/// As many as there may be, from the section's start or a little after it.
pub fn full(rng: &mut Rng, [start, end]: [f64; 2]) -> Vec<f64> {
    let from = start + (end - start) * rng.pick(&[0.0, 0.0, 0.5, 0.999]);
    let at = |k: usize| from + (end - from) * (k as f64 / (STATIONS - 1) as f64);
    let all = (0..STATIONS).map(at).collect();
    right(rng, all, [start, end])
}

/// Each a multiple of the spacing from the first on, and off it by less than an f32 has: on a straight line every dot is a point.
fn at_multiples(rng: &mut Rng, [start, end]: [f64; 2], spacing: f32) -> Vec<f64> {
    let off = rng.pick(&[0.0, 1e-13, 1e-10]);
    let at = |k: usize, rng: &mut Rng| start + f64::from(k as f32 * spacing) + off * rng.unit();
    let all = (0..rng.from_to(3, 40)).map(|k| at(k, rng)).collect();
    right(rng, all, [start, end])
}

/// In the section, rising, two at least; a zero at the start of either sign.
fn right(rng: &mut Rng, mut all: Vec<f64>, [start, end]: [f64; 2]) -> Vec<f64> {
    all.retain(|s| (start..=end).contains(s));
    all.sort_by(f64::total_cmp);
    all.dedup();
    if all.len() < 2 {
        all = vec![start, end];
    }
    if all[0] == 0.0 && rng.one_in(4) {
        all[0] = -all[0];
    }
    all
}

/// A list that a section does not take, most of the time; and as many as there may be, or one more.
pub fn damaged(rng: &mut Rng, mut all: Vec<f64>, [start, end]: [f64; 2]) -> Vec<f64> {
    let (n, i) = (all.len(), rng.from_to(1, all.len() - 1));
    match rng.below(12) {
        0 => all[rng.below(n)] = f64::NAN,
        1 => all[rng.pick(&[0, n - 1])] = rng.pick(&[f64::NEG_INFINITY, f64::INFINITY]),
        2 => all[i] = all[i - 1],
        3 => all.swap(i - 1, i),
        4 => all.truncate(rng.below(2)),
        5 => all[0] = nudge(start, -1),
        6 => all[n - 1] = nudge(end, 1),
        7 => all.splice(..0, [rng.pick(&[-0.0, start]), start]).for_each(drop),
        8 | 9 => {
            let (by, n) = ((end - start) / 1000.0, STATIONS + rng.from_to(0, 1));
            all = (0..n).map(|k| start + k as f64 * by).collect();
        }
        10 => all.push(end + rng.pick(&[1e-9, 1.0])),
        _ => all.reverse(),
    }
    all
}

// ---- spacings

/// The limits and their neighbours, and what is no number.
pub const LEAST: f32 = f32::from_bits(0x3dcc_cccd);
pub const MOST: f32 = f32::from_bits(0x42c8_0000);
pub const WRONG: [u32; 10] =
    [0x3dcc_cccc, 0x42c8_0001, 0x7fc0_0000, 0xffc0_0001, 0x7f80_0000, 0xff80_0000, 0, 0x8000_0000, 0x0000_0001, 0xbf80_0000];

/// Such that a line of that length has few dots, most of the time; thousands where it is long.
pub fn spacing(rng: &mut Rng, length: f32) -> f32 {
    let part = length / rng.from_to(1, 30) as f32;
    let x = match rng.below(8) {
        0 => rng.pick(&[MOST, tracks::nudge(MOST, -1)]),
        1 if length < 200.0 || rng.one_in(20) => rng.pick(&[LEAST, tracks::nudge(LEAST, 1), 0.125, 0.25, 0.5, 1.0, 2.0]),
        2 => tracks::nudge(part, rng.from_to(0, 4) as i32 - 2),
        3 => part,
        _ => (f64::from(part).max(1e-3) * rng.between(0.4, 1.6)) as f32,
    };
    x.clamp(LEAST, MOST)
}

// ---- arguments that are wrong

pub fn wrong_spacing(rng: &mut Rng) -> f32 {
    f32::from_bits(rng.pick(&WRONG))
}

/// An id that no lane of a section has, as near as can be or far off.
pub fn wrong_id(rng: &mut Rng, section: &Section) -> i32 {
    let (left, right) = (section.left.len() as i32, section.right.len() as i32);
    rng.pick(&[0, left + 1, -right - 1, 7, -7, 256 + 1, i32::MAX, i32::MIN])
}

/// A section that a road of so many does not have.
pub fn wrong_section(rng: &mut Rng, sections: usize) -> usize {
    rng.pick(&[sections, sections + 1, 16.max(sections), 1 << 16, 1 << 32, usize::MAX])
}

/// How many dots are lent: as many as are kept, a few more or fewer, none, or enough for some that are not kept.
pub fn room(rng: &mut Rng, kept: usize) -> usize {
    match rng.below(8) {
        0 => 0,
        1 => kept.saturating_sub(rng.from_to(1, 3)),
        2 => kept + 1,
        3 => kept + rng.from_to(1, 40),
        4 => kept.saturating_sub(1),
        _ => kept,
    }
}

// ---- roads whose dots are known

/// A road, a lane of it, a station list and spacings.
pub struct Known {
    pub road: Road,
    pub section: usize,
    pub id: i32,
    pub stations: Vec<f64>,
    pub spacings: Vec<f32>,
}

fn flat(start: f64, a: f64) -> Vec<Cubic> {
    vec![Cubic { start, a, ..Cubic::default() }]
}

/// One lane on the right, of one width, painted as far as the section goes.
fn painted(start: f64, width: f64, extent: f64) -> Section {
    let lane = Lane { extents: flat(0.0, width), ..Lane::default() };
    let mark = Mark { lane: 0, kind: 1, start: 0.0, end: extent };
    Section { start, right: vec![lane], marks: vec![mark], ..Section::default() }
}

/// East from the origin, with lines that begin elsewhere from some station on.
fn straight(length: f64, lines: &[[f64; 2]], sections: Vec<Section>) -> Road {
    let geom = |&[s, x]: &[f64; 2]| Geom { s, x, y: 0.0, hdg: 0.0, length, shape: Shape::Line };
    let first = [[0.0, 0.0]];
    Road { length, geoms: first.iter().chain(lines).map(geom).collect(), sections, ..Road::default() }
}

fn known_on(road: Road, stations: &[f64], spacings: &[f32]) -> Known {
    Known { road, section: 0, id: -1, stations: stations.to_vec(), spacings: spacings.to_vec() }
}

/// The border at a section's last station, where the next section's lane is narrower; a fraction that only f32 has; a station that
/// falls; the most multiples and one more; the ends of a span, and a station list that starts within its section and ends there, so
/// that its last dot is on the paint; a lane without width; points all alike; a lane that is not dotted.
pub fn known() -> Vec<Known> {
    let [a, b] = [9000.0 + 2f64.powi(-39), 9000.0 + 2f64.powi(-38)];
    let whole = |length: f64| straight(length, &[], vec![painted(0.0, 2.0, length)]);
    let narrower = || straight(10.0, &[], vec![painted(0.0, 2.0, 5.0), painted(5.0, 1.0, 5.0)]);
    let mut spans = painted(0.0, 3.0, 0.0);
    let span = |kind, start, end| Mark { lane: 0, kind, start, end };
    spans.marks = vec![span(1, 1.0, 3.0), span(1, 2.5, 2.5), span(2, 3.0, 5.0), span(1, 6.0, 10.0), span(255, 6.0, 7.0)];
    let mut bare = painted(0.0, 2.0, 20.0);
    bare.marks[0].kind = 2;
    vec![
        known_on(narrower(), &[0.0, 5.0], &[0.5, 5.0, 1.25, LEAST, MOST]),
        Known { section: 1, ..known_on(narrower(), &[5.0, 10.0], &[0.5, 5.0]) },
        known_on(whole(10.0), &[2.0, 5.0], &[0.5, 0.75, 3.0, 3.0f32.next_up()]),
        known_on(
            straight(10_000.0, &[[b + 1e-9, b + 1000.0]], vec![painted(0.0, 2.0, 1e4)]),
            &[1.0 - 2f64.powi(-40), a, b],
            &[8999.0 / 128.0, 100.0],
        ),
        known_on(whole(10_000.0), &[0.0, 8191.875], &[0.125]),
        known_on(whole(10_000.0), &[0.0, 8192.0], &[0.125, 0.125f32.next_up(), 0.25]),
        known_on(straight(20.0, &[], vec![spans]), &[0.0, 4.0, 12.0], &[0.5, 1.0, 2.0]),
        known_on(whole(20.0), &[0.0, 8.0], &[0.5, 1.0, 8.0, 8.0f32.next_up()]),
        known_on(straight(20.0, &[], vec![painted(0.0, 0.0, 20.0)]), &[-0.0, 20.0], &[1.0]),
        known_on(whole(10.0), &[4.0, 4f64.next_up(), nudge(4.0, 2)], &[LEAST, 1.0, MOST]),
        known_on(straight(20.0, &[], vec![bare]), &[0.0, 20.0], &[1.0]),
    ]
}
