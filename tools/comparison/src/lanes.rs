// Comparisons of the records, of what lies across a road, and of its lanes.
//
// The published Rust answers for every number, so the functions inside the library are asked with any s, t and tangent. The calls
// are held against the Rust too, and the naming of a lane also against a second text of document 01's rule.
use crate::places::{any, asked, near_borders, offsets, on_road, starts_across, stations, wide_stations, within_80};
use crate::tally::{Tally, hex, same};
use crate::{same_memory, still_untouched, untouched};
use archive::probes as inside;
use archive::riftkettle as ours;
use published::oracle::{Oracle, Records};
use second::generate;
use second::limits;
use second::model::{Cubic, Memory, Road};
use second::random::{Rng, beside, nudge};

// ---- numbers

fn tangent(rng: &mut Rng) -> f64 {
    match rng.below(8) {
        0 => rng.pick(&[0.0, -0.0, f64::INFINITY, f64::NEG_INFINITY, f64::NAN, f64::MAX, f64::MIN]),
        1 => f64::from_bits(rng.bits() >> 12) * rng.sign(),
        2 => rng.log_between(1e290, 1e308) * rng.sign(),
        3 => rng.pattern(),
        4 => published::stand_ins::tan(rng.between(-0.75, 0.75)),
        _ => rng.between(-1.0, 1.0),
    }
}

// ---- records

fn cubic(rng: &mut Rng, start: f64) -> Cubic {
    let [a, b, c, d] = match rng.below(4) {
        0 => [0; 4].map(|_| any(rng)),
        1 => [0; 4].map(|_| rng.from_to(0, 16) as f64 - 8.0),
        2 => [0; 4].map(|_| rng.log_between(1e-9, 1e4) * rng.sign()),
        _ => [8.0, 0.1, 0.001, 0.00001].map(|size| size * rng.between(-1.0, 1.0)),
    };
    Cubic { start, a, b, c, d }
}

/// A record and where it is asked.
fn cubic_and_place(rng: &mut Rng) -> (Cubic, f64) {
    let start = if rng.one_in(4) { any(rng) } else { rng.between(0.0, 1000.0) };
    let s = match rng.below(4) {
        0 => any(rng),
        1 => beside(rng, start),
        2 => start + rng.from_to(0, 16) as f64,
        _ => rng.between(0.0, 1000.0),
    };
    (cubic(rng, start), s)
}

fn show(c: &Cubic) -> String {
    hex(&[c.start, c.a, c.b, c.c, c.d])
}

pub fn eval(rng: &mut Rng, tally: &mut Tally) {
    let (c, s) = cubic_and_place(rng);
    tally.number(inside::eval(&c, s), Records::new(&[c]).eval(0, s), || format!("{} at {}", show(&c), hex(&[s])));
}

pub fn slope(rng: &mut Rng, tally: &mut Tally) {
    let (c, s) = cubic_and_place(rng);
    tally.number(inside::slope(&c, s), Records::new(&[c]).slope(0, s), || format!("{} at {}", show(&c), hex(&[s])));
}

/// Starts around s: within nanometres of it, equal ones, in order or not, any bits.
fn starts_around(rng: &mut Rng, s: f64) -> Vec<f64> {
    let n = if rng.one_in(8) { rng.from_to(0, 64) } else { rng.from_to(0, 6) };
    let kind = rng.below(4);
    let mut all: Vec<f64> = Vec::new();
    for i in 0..n {
        let start = match (kind, rng.below(4)) {
            (0, _) => any(rng),
            (_, 0) if i > 0 => all[i - 1],
            (_, 1) => s + rng.between(-10.0, 10.0),
            _ => nudge(s + rng.pick(&[0.0, 1e-9, 1e-9, 2e-9]), rng.from_to(0, 6) as i32 - 3),
        };
        all.push(start);
    }
    if kind == 1 {
        all.sort_by(f64::total_cmp);
    }
    if kind == 2 && n > 0 && rng.one_in(2) {
        let at = rng.below(n);
        all[at] = rng.pick(&[f64::NAN, f64::INFINITY, f64::NEG_INFINITY]);
    }
    all
}

pub fn active(rng: &mut Rng, tally: &mut Tally) {
    let s = match rng.below(8) {
        0 => any(rng),
        1 => rng.pick(&[0.0, -0.0, 1e-9, -1e-9]),
        2 => rng.log_between(1e-12, 1e5),
        _ => rng.between(0.0, 10_000.0),
    };
    let starts = starts_around(rng, s);
    let list: Vec<Cubic> = starts.iter().map(|&start| cubic(rng, start)).collect();
    let mut part: Vec<f64> = list.iter().flat_map(|c| [c.start, c.a, c.b, c.c, c.d]).collect();
    // A record that is not whole does not count.
    part.extend((0..rng.below(5)).map(|_| f64::NEG_INFINITY));
    let (found, expected) = (inside::active(&part, s), Records::new(&list).active(s));
    tally.check(found == expected, || {
        format!("active of starts {} at {}: ours {found:?}, theirs {expected:?}", hex(&starts), hex(&[s]))
    });
}

// ---- poses

/// A pose without the check of the road: any s.
pub fn bare_pose(rng: &mut Rng, tally: &mut Tally) {
    let (road, m) = generate::admitted(rng);
    let oracle = Oracle::new(&road);
    let samples = oracle.samples();
    for (i, g) in road.geoms.iter().enumerate() {
        let within = g.s + rng.unit() * g.length;
        for s in [within, beside(rng, g.s), beside(rng, g.s + g.length), any(rng)] {
            let (mut y, z) = ([1.5; 3], oracle.pose(i, s));
            inside::pose(&m, &samples, i, s, &mut y);
            tally.check(y.iter().zip(&z).all(|(a, b)| same(*a, *b)), || {
                format!("pose of geometry {i} at {}: ours {}, theirs {}: {g:?}", hex(&[s]), hex(&y), hex(&z))
            });
        }
    }
}

// ---- across the road

/// A section and a side where their lanes are not asked for.
const NO_LANES: (usize, u32) = (0, 0);

fn across(rng: &mut Rng, tally: &mut Tally, one: impl Fn(&mut Rng, &mut Tally, (&Road, &Memory, &Oracle), f64, f64)) {
    let (road, m) = generate::across(rng);
    let oracle = Oracle::new(&road);
    for s in wide_stations(rng, &road, starts_across(&road), 8) {
        for t in offsets(rng, &road, &oracle, s, 6) {
            one(rng, tally, (&road, &m, &oracle), s, t);
        }
    }
}

pub fn shape(rng: &mut Rng, tally: &mut Tally) {
    across(rng, tally, |_, tally, (road, m, oracle), s, t| {
        tally.number(inside::across(m, (s, t, -1.0), NO_LANES).shape, oracle.shape_at(s, t), || {
            format!("shape at t {} {}", hex(&[t]), asked(road, s))
        });
    });
}

fn toward(rng: &mut Rng) -> f64 {
    if rng.one_in(8) { any(rng) } else { rng.sign() }
}

pub fn cross_section(rng: &mut Rng, tally: &mut Tally) {
    across(rng, tally, |rng, tally, (road, m, oracle), s, t| {
        let toward = toward(rng);
        let (y, z) = (inside::across(m, (s, t, toward), NO_LANES).cross, oracle.cross_section(s, t, toward));
        tally.number(y, z, || format!("cross section at t {} toward {toward} {}", hex(&[t]), asked(road, s)));
    });
}

pub fn height(rng: &mut Rng, tally: &mut Tally) {
    across(rng, tally, |rng, tally, (road, m, oracle), s, t| {
        let toward = toward(rng);
        let (y, z) = (inside::across(m, (s, t, toward), NO_LANES).height, oracle.height_toward(s, t, toward));
        tally.number(y, z, || format!("height at t {} toward {toward} {}", hex(&[t]), asked(road, s)));
        let (y, z) = (inside::across(m, (s, t, -1.0), NO_LANES).height, oracle.height(s, t));
        tally.number(y, z, || format!("height at t {} {}", hex(&[t]), asked(road, s)));
    });
}

// ---- lanes

/// Every lane of the section at s, and now and then of another section.
pub fn lane_heights(rng: &mut Rng, tally: &mut Tally) {
    let (road, m) = generate::across(rng);
    let (oracle, before) = (Oracle::new(&road), m.clone());
    for s in wide_stations(rng, &road, starts_across(&road), 30) {
        let found = inside::across(&m, (s, 0.0, -1.0), NO_LANES).section;
        let expected = oracle.section_at(s);
        tally.check(found == expected, || format!("section: ours {found}, theirs {expected} {}", asked(&road, s)));
        let section = if rng.one_in(8) { rng.below(road.sections.len()) } else { expected };
        let tangent = tangent(rng);
        let left = road.sections[section].left.len();
        for (i, lane) in oracle.across_by(section, s, tangent).iter().enumerate() {
            let (right, k) = (i >= left, if i < left { i } else { i - left });
            let (y, z) = (inside::lane(&m, section, (s, tangent), right, k), lane.numbers());
            tally.check(y.iter().zip(&z).all(|(a, b)| same(*a, *b)), || {
                let (id, at, y, z) = (lane.id(), asked(&road, s), hex(&y), hex(&z));
                format!("lane {id} of section {section}, tangent {}: ours {y}, theirs {z} {at}", hex(&[tangent]))
            });
        }
    }
    let n = road.sections.len();
    let section = if rng.one_in(4) { rng.pick(&[n, 16, usize::MAX]) } else { rng.below(n) };
    let counts = [0, rng.pick(&[1, 2, u32::MAX])].map(|side| inside::across(&m, (0.0, 0.0, -1.0), (section, side)).lanes);
    let expected = road.sections.get(section).map_or([0; 2], |x| [x.left.len(), x.right.len()]);
    tally.check(counts == expected, || format!("lanes of section {section}: ours {counts:?}, theirs {expected:?}: {road:?}"));
    tally.check(same_memory(&m, &before), || "a function inside changed the road".into());
}

/// One call of borders with a list of that many numbers, against the number or the borders that it must answer.
fn check_borders(tally: &mut Tally, m: &Memory, s: f64, numbers: usize, expected: Result<&[f64], u32>, road: &Road) {
    let (mut list, mut lanes) = (untouched(numbers), 777);
    let code = ours::borders(m, s, &mut list, &mut lanes);
    let (number, written, count) = expected.map_or_else(|number| (number, &[][..], 777), |all| (0, all, all.len() / 3));
    let equal = list.iter().zip(written).all(|(a, b)| same(*a, *b)) && still_untouched(&list, written.len());
    tally.check(code == number && lanes == count && equal, || {
        let (at, y, z) = (asked(road, s), hex(&list[..written.len().min(list.len())]), hex(written));
        format!("borders, {numbers} numbers lent: ours {code} {lanes} {y}, theirs {number} {count} {z} {at}")
    });
}

pub fn borders(rng: &mut Rng, tally: &mut Tally) {
    let (road, m) = generate::across(rng);
    let (oracle, before) = (Oracle::new(&road), m.clone());
    for s in stations(rng, &road, starts_across(&road), 30) {
        let expected = oracle.borders(oracle.section_at(s), s).concat();
        let n = expected.len();
        let answer = if on_road(&road, s) { Ok(&expected[..]) } else { Err(7) };
        let room = n + rng.pick(&[0, 0, 1, 2, 3, 9, 36]);
        check_borders(tally, &m, s, room, answer, &road);
        if n > 0 && rng.one_in(2) {
            let short = n - rng.from_to(1, n.min(4));
            check_borders(tally, &m, s, short, answer.and(Err(11)), &road);
        }
    }
    let off = rng.pick(&[f64::NAN, f64::INFINITY, f64::NEG_INFINITY, -1.0, -5e-324, road.length.next_up(), 2.0 * road.length]);
    check_borders(tally, &m, off, rng.pick(&[0, 36]), Err(7), &road);
    tally.check(same_memory(&m, &before), || "the borders call changed the road".into());
}

/// 01, "Lane named at t": of the lanes left outward and then right, the last with side sign × (t - inner) > 0; 0 for none.
fn named_by_rule(road: &Road, oracle: &Oracle, s: f64, t: f64) -> i32 {
    let section = oracle.section_at(s);
    let left = road.sections[section].left.len() as i32;
    let mut name = 0;
    for (i, [inner, _, _]) in (0..).zip(oracle.borders(section, s)) {
        let (id, sign) = if i < left { (i + 1, 1.0) } else { (left - i - 1, -1.0) };
        if sign * (t - inner) > 0.0 {
            name = id;
        }
    }
    name
}

fn check_name(tally: &mut Tally, m: &Memory, (s, t): (f64, f64), expected: Result<i32, u32>, road: &Road) {
    let mut id = 777;
    let code = ours::lane_named(m, s, t, &mut id);
    let (number, name) = expected.map_or_else(|number| (number, 777), |id| (0, id));
    tally.check(code == number && id == name, || {
        format!("lane named at t {}: ours {code} {id}, theirs {number} {name} {}", hex(&[t]), asked(road, s))
    });
}

pub fn lane_named(rng: &mut Rng, tally: &mut Tally) {
    let (road, m) = generate::across(rng);
    let oracle = Oracle::new(&road);
    for s in wide_stations(rng, &road, starts_across(&road), 5) {
        for t in near_borders(rng, &oracle, s) {
            let expected = match () {
                () if !on_road(&road, s) => Err(7),
                () if !within_80(t) => Err(8),
                () => Ok(named_by_rule(&road, &oracle, s, t)),
            };
            check_name(tally, &m, (s, t), expected, &road);
            if let Ok(name) = expected {
                let found = oracle.lane_at(oracle.section_at(s), s, t).unwrap_or(0);
                let at = || format!("lane at t {}: rule {name}, theirs {found} {}", hex(&[t]), asked(&road, s));
                tally.check(name == found, at);
            }
        }
    }
}

/// On a refused road both calls answer the road's number, in place of any later one, and leave what was lent.
pub fn lanes_refused(rng: &mut Rng, tally: &mut Tally) {
    let (road, m) = generate::admitted(rng);
    let (changed, _) = limits::around_a_limit(rng, &m);
    let number = second::admission::admit(&changed.words, &changed.numbers);
    let before = changed.clone();
    let (s, t) = (rng.pick(&[0.0, -1.0, f64::NAN]), rng.pick(&[0.0, 81.0, f64::NAN]));
    if number != 0 {
        check_borders(tally, &changed, s, rng.pick(&[0, 1, 36, 40]), Err(number), &road);
        check_name(tally, &changed, (s, t), Err(number), &road);
    }
    tally.check(same_memory(&changed, &before), || "a call changed a refused road".into());
    tally.outcome("road", number);
}
