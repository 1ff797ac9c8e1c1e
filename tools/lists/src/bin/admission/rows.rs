// The cases, by the rows of the requirements that they stand for: ADM-01 to ADM-26, CALL-10 to CALL-15 and 01's runs; those of marks
// are in marks.rs. ADM-07 (all else is row 4) and ADM-25 (refused exactly when 01 says so) are the whole list's: each limit has cases on
// both sides.
use crate::Change::{self, Lent, Number, Word};
use crate::{List, SAMPLES, marks, roads};
use second::admission::{bound, spiral_samples};
use second::model::*;

const TINY: f64 = 5e-324;
const INF: f64 = f64::INFINITY;
const NAN: f64 = f64::NAN;

pub fn all(list: &mut List) {
    list.base(roads::bare());
    list.case("M1's road", &[], 0);
    lengths(list);
    budget(list);
    slice_for_samples(list);
    marks::all(list);
    list.base(roads::mixed());
    list.case("a road with every kind of record", &[], 0);
    first_starts(list);
    sections(list);
    for place in PLACES {
        starts(list, place);
        lone(list, place);
        coefficients(list, place);
    }
    for place in &PLACES[..8] {
        bounds(list, place);
    }
    groupings(list);
    geom_starts(list);
    profile_starts(list);
    heights(list);
    geoms(list);
    curvatures(list);
    lane_starts(list);
    reaches(list);
    slopes(list);
    terms(list);
    codes(list);
    ranges(list);
    empty_ranges(list);
    unread(list);
    order_of_rows(list);
    slices(list);
    list.base(roads::full());
    list.case("CALL-12: every count at its limit", &[], 0);
    counts(list);
}

// ---- what cases are made of

fn number(list: &mut List, row: &str, at: usize, x: f64, answer: u32) {
    list.case(row, &[Number(at, x)], answer);
}

/// The limit is answered 0, the next f64 beyond it and what no range holds 4; the same for the negative.
fn size(list: &mut List, row: &str, at: usize, limit: f64) {
    for x in [limit, -limit, limit.next_down(), 0.0, -0.0, TINY, -TINY] {
        number(list, row, at, x, 0);
    }
    for x in [limit.next_up(), -limit.next_up(), NAN, INF, -INF, f64::MAX] {
        number(list, row, at, x, 4);
    }
}

/// low..high, both ends included; low above 0.
fn range(list: &mut List, row: &str, at: usize, low: f64, high: f64) {
    for x in [low, low.next_up(), high.next_down(), high] {
        number(list, row, at, x, 0);
    }
    for x in [low.next_down(), high.next_up(), 0.0, -0.0, -low, -high, NAN, INF, -INF] {
        number(list, row, at, x, 4);
    }
}

/// The greatest number, 0 or above, of which a test that holds up to a limit holds.
fn greatest(holds: impl Fn(f64) -> bool) -> f64 {
    let (mut low, mut high) = (0, INF.to_bits());
    while high - low > 1 {
        let middle = low + (high - low) / 2;
        if holds(f64::from_bits(middle)) { low = middle } else { high = middle }
    }
    f64::from_bits(low)
}

/// Reach D, from a cubic's own start and the next one's, or the end of its list.
fn reach(own: f64, next: f64) -> f64 {
    let between = next - own;
    (if between > 0.0 { between } else { 0.0 }) + 0.001
}

/// A list of three cubics of the mixed road, with its end (ADM-17).
struct Place {
    name: &'static str,
    table: Table,
    first: usize,
    /// The word with its count.
    count: usize,
    /// Where it ends, and the least and the greatest start that it may have.
    end: f64,
    starts: (f64, f64),
    limit: f64,
}

impl Place {
    fn at(&self, i: usize) -> usize {
        self.table.line(self.first + i)
    }
}

const fn road(name: &'static str, table: Table, count: usize, limit: f64) -> Place {
    Place { name, table, first: 0, count, end: 100.0, starts: (0.0, 100.0), limit }
}

/// A lane's extents: its section's length is their end, and any start may stand.
const fn lane(name: &'static str, first: usize, lane: usize, end: f64, limit: f64) -> Place {
    let count = LANE_WORDS.at + lane * LANE_WORDS.columns + 3;
    Place { name, table: EXTENT, first, count, end, starts: (f64::MIN, f64::MAX), limit }
}

const fn term(name: &'static str, first: usize, k: usize, limit: f64) -> Place {
    Place { first, count: STRIP_WORDS.at + 2 + 2 * k, ..road(name, CUBIC, 0, limit) }
}

const SHAPES: Place = Place { count: PROFILE_WORDS.at + 1, end: 80.0, starts: (-80.0, 80.0), ..road("shape", SHAPE, 0, 40.0) };

/// The last two have a limit of their own, see `terms`.
const PLACES: &[Place] = &[
    road("bank", BANK, 2, 0.75),
    road("offset", OFFSET, 3, 8.0),
    road("tshift", TSHIFT, 4, 8.0),
    lane("width lane", 0, 0, 40.0, 8.0),
    lane("border lane", 3, 1, 40.0, 36.0),
    lane("border lane of the second section", 7, 4, 30.0, 36.0),
    SHAPES,
    term("strip width", 0, 0, 100.0),
    road("elev", ELEV, 1, 10_000.0),
    term("term 0", 3, 1, 40.0),
    term("term 1", 6, 2, 40.0),
];

// ---- row 3: order

/// ADM-02: the first geometry and the first section start at 0, of either sign.
fn first_starts(list: &mut List) {
    for (row, at) in [("ADM-02: first geom", GEOM.at), ("ADM-02: first section", SECTION.at)] {
        for x in [0.0, -0.0] {
            number(list, row, at, x, 0);
        }
        for x in [TINY, -TINY, 1.0, NAN, INF, -INF] {
            number(list, row, at, x, 3);
        }
    }
}

/// ADM-03: sections rise strictly; ADM-09: they start on the road.
fn sections(list: &mut List) {
    let (second, third) = (SECTION.line(1), SECTION.line(2));
    for (x, answer) in [(TINY, 0), (0.0, 3), (-0.0, 3), (-1.0, 3), (NAN, 3), (INF, 3), (-INF, 3)] {
        number(list, "ADM-03: second section", second, x, answer);
    }
    for (x, answer) in [(70f64.next_down(), 0), (70.0, 3), (70f64.next_up(), 3)] {
        number(list, "ADM-03: second section before the third", second, x, answer);
    }
    for (x, answer) in [(40f64.next_up(), 0), (40.0, 3), (40f64.next_down(), 3), (NAN, 3), (-INF, 3)] {
        number(list, "ADM-03: third section", third, x, answer);
    }
    for (x, answer) in [(100.0, 0), (100f64.next_up(), 4), (INF, 4)] {
        number(list, "ADM-09: third section", third, x, answer);
    }
}

/// ADM-04: starts never fall, and may be equal; ADM-06: a NaN compared is 3; ADM-09, ADM-11: where they may lie.
fn starts(list: &mut List, place: &Place) {
    let row = format!("ADM-04, ADM-06: starts of {}", place.name);
    let [s0, s1, s2] = [0, 1, 2].map(|i| list.number(place.at(i)));
    for (i, x) in [(0, s1), (1, s0), (1, s2), (2, s1)] {
        number(list, &row, place.at(i), x, 0);
    }
    list.case(&row, &[Number(place.at(1), s0), Number(place.at(2), s0)], 0);
    let broken = [(0, s1.next_up()), (1, s0.next_down()), (1, s2.next_up()), (2, s1.next_down()), (0, INF), (2, -INF)];
    for (i, x) in broken.into_iter().chain([0, 1, 2].map(|i| (i, NAN))) {
        number(list, &row, place.at(i), x, 3);
    }
    let row = format!("ADM-09, ADM-11: ends of {}", place.name);
    let (least, most) = place.starts;
    for (i, x, answer) in [(0, -INF, 4), (2, INF, 4), (2, place.end, 0)] {
        number(list, &row, place.at(i), x, answer);
    }
    if most < f64::MAX {
        for (i, x, answer) in [(0, least, 0), (0, least.next_down(), 4), (2, most, 0), (2, most.next_up(), 4)] {
            number(list, &row, place.at(i), x, answer);
        }
        list.case(&row, &[0, 1, 2].map(|i| Number(place.at(i), most)), 0);
    }
    if least == 0.0 {
        number(list, &row, place.at(0), -0.0, 0);
    }
}

/// ADM-06: the start of a list of one is compared with nothing, so it is row 4. An empty list has no such start.
fn lone(list: &mut List, place: &Place) {
    let row = format!("ADM-06: one record of {}", place.name);
    for x in [NAN, INF, -INF] {
        list.case(&row, &[Word(place.count, 1), Number(place.at(0), x)], 4);
        list.case(&row, &[Word(place.count, 2), Number(place.at(0), x), Number(place.at(1), x)], if x.is_nan() { 3 } else { 4 });
    }
    if place.table.at != SHAPE.at {
        list.case(&row, &[Word(place.count, 0), Number(place.at(0), NAN)], 0);
    }
}

/// The geometries' starts: the first is at 0, see `first_starts`.
fn geom_starts(list: &mut List) {
    let (second, third) = (GEOM.line(1), GEOM.line(2));
    let below = [(0.0, 0), (-0.0, 0), (-TINY, 3), (60.0, 0), (60f64.next_up(), 3), (NAN, 3), (INF, 3), (-INF, 3)];
    for (x, answer) in below {
        number(list, "ADM-04: second geom", second, x, answer);
    }
    let above = [(30.0, 0), (30f64.next_down(), 3), (100.0, 0), (100f64.next_up(), 4), (INF, 4), (NAN, 3), (-INF, 3)];
    for (x, answer) in above {
        number(list, "ADM-04, ADM-09: third geom", third, x, answer);
    }
    for (s, length) in [(30.0, 29.0), (31.0, 30.0), (29.0, 30.0), (30.0, 500.0)] {
        let changes = [Number(second, s), Number(second + 4, length)];
        list.case("ADM-23: holes and overlaps", &changes, 0);
    }
    list.case("ADM-23: a jump", &[Number(second + 1, -900_000.0), Number(second + 3, 3.0)], 0);
    list.case("ADM-23: a hole for a missing arc", &[Word(0, 2), Word(KIND_WORDS.line(1), 2), Number(second, 60.0)], 0);
}

/// ADM-05: at least 0.001 apart, by one subtraction; ADM-09.
fn profile_starts(list: &mut List) {
    apart(list, "ADM-05: profiles", [0, 1, 2].map(|i| PROFILE.line(i)));
    let (first, third) = (PROFILE.line(0), PROFILE.line(2));
    for (at, x, answer) in [(first, -0.0, 0), (first, -TINY, 4), (first, -INF, 4), (third, 100.0, 0)] {
        number(list, "ADM-09: profiles", at, x, answer);
    }
    for x in [100f64.next_up(), INF] {
        number(list, "ADM-09: profiles", third, x, 4);
    }
    for x in [NAN, INF, -INF, -1.0] {
        list.case("ADM-06: one profile", &[Word(6, 1), Number(first, x)], 4);
    }
    list.case("ADM-06: two infinite profiles", &[Number(PROFILE.line(1), INF), Number(third, INF)], 3);
    list.case("no profile", &[Word(6, 0), Number(first, NAN), Word(PROFILE_WORDS.at, 999)], 0);
}

/// The second and third start of a list, beside the first at 0 and one another.
fn apart(list: &mut List, row: &str, [first, second, third]: [usize; 3]) {
    for (x, answer) in [(0.001, 0), (0.001f64.next_up(), 0), (0.001f64.next_down(), 3), (0.0, 3), (-1.0, 3), (NAN, 3)] {
        number(list, row, second, x, answer);
    }
    // 1.001 - 1 comes out below 0.001; the next f64 up is far enough.
    for (x, answer) in [(1.001, 3), (1.001f64.next_up(), 0)] {
        list.case(row, &[Number(second, 1.0), Number(third, x)], answer);
    }
    let near = list.number(third);
    for (x, answer) in [(near, 3), (near - 0.0005, 3), (near - 0.002, 0), (INF, 3), (-INF, 3)] {
        number(list, row, second, x, answer);
    }
    for (at, x) in [(first, NAN), (first, INF), (third, NAN), (third, -INF), (third, list.number(second))] {
        number(list, row, at, x, 3);
    }
}

/// ADM-05, ADM-10, ADM-15: a lane's heights.
fn heights(list: &mut List) {
    let at = [0, 1, 2].map(|i| HEIGHT.line(i));
    let count = LANE_WORDS.line(0) + 5;
    apart(list, "ADM-05: heights", at);
    for column in [1, 2] {
        size(list, "ADM-15: heights", at[1] + column, 2.0);
    }
    for (i, x) in [(0, -5.0), (2, 1e300), (0, f64::MIN), (2, f64::MAX)] {
        number(list, "ADM-10: starts of heights", at[i], x, 0);
    }
    let ends = |low, high| [Word(count, 2), Number(at[0], low), Number(at[1], high)];
    list.case("ADM-05: a difference that overflows is no less than 0.001", &ends(-1.7e308, 1.7e308), 0);
    list.case("ADM-06: two infinite heights", &ends(INF, INF), 3);
    list.case("ADM-06: two infinite heights", &ends(-INF, -INF), 3);
    list.case("ADM-06: heights from -inf to inf", &ends(-INF, INF), 4);
    for x in [NAN, INF, -INF] {
        list.case("ADM-06: one height", &[Word(count, 1), Number(at[0], x)], 4);
    }
    list.case("no height", &[Word(count, 0), Number(at[0], NAN)], 0);
}

// ---- row 4: numbers

/// ADM-01.
fn lengths(list: &mut List) {
    range(list, "ADM-01: length", 0, 0.01, 10_000.0);
    for x in [TINY, f64::MAX, -1.0] {
        number(list, "ADM-01: length", 0, x, 4);
    }
}

/// ADM-08 and ADM-12.
fn geoms(list: &mut List) {
    for i in 0..3 {
        let at = GEOM.line(i);
        size(list, "ADM-12: x", at + 1, 1_000_000.0);
        size(list, "ADM-12: y", at + 2, 1_000_000.0);
        size(list, "ADM-12: hdg", at + 3, 1_000.0);
    }
    for i in 0..2 {
        range(list, "ADM-12: geom length", GEOM.line(i) + 4, 0.01, 10_000.0);
    }
    for (x, answer) in [(0.01, 0), (0.01f64.next_down(), 4), (10_000.0, 5), (10_000f64.next_up(), 4), (NAN, 4), (INF, 4)] {
        number(list, "ADM-12: length of a spiral", GEOM.line(2) + 4, x, answer);
    }
    let unused = [("k0 of a line", GEOM.line(0) + 5), ("k1 of a line", GEOM.line(0) + 6), ("k1 of an arc", GEOM.line(1) + 6)];
    for (name, at) in unused {
        for (x, answer) in [(0.0, 0), (-0.0, 0), (TINY, 4), (-TINY, 4), (1e-9, 4), (NAN, 4), (INF, 4), (-INF, 4)] {
            number(list, &format!("ADM-08: {name}"), at, x, answer);
        }
    }
}

/// ADM-13 and ADM-14.
fn curvatures(list: &mut List) {
    let arc = GEOM.line(1) + 5;
    for sign in [1.0, -1.0] {
        for x in [0.0, TINY, 1e-9f64.next_down(), 1e-9, 0.00001, 0.00001f64.next_up(), 1f64.next_down(), 1.0] {
            number(list, "ADM-13: arc", arc, sign * x, 0);
        }
        for x in [1e-9f64.next_up(), 0.000002, 0.00001f64.next_down(), 1f64.next_up(), f64::MAX, INF] {
            number(list, "ADM-13: arc", arc, sign * x, 4);
        }
        for column in [5, 6] {
            number(list, "ADM-14: a spiral has no gap", GEOM.line(2) + column, sign * 0.000002, 0);
        }
    }
    number(list, "ADM-13: arc", arc, NAN, 4);
    for column in [5, 6] {
        size(list, "ADM-14: spiral", GEOM.line(2) + column, 1.0);
    }
}

/// ADM-10: starts of extents need only be finite; ADM-22: a bound that is no number.
fn lane_starts(list: &mut List) {
    let at = [0, 1, 2].map(|i| EXTENT.line(i));
    for (i, x, answer) in [(0, -5.0, 0), (2, 1000.0, 4), (0, -1000.0, 4), (2, f64::MAX, 4), (0, f64::MIN, 4)] {
        number(list, "ADM-10: start of an extent, its neighbours not constant", at[i], x, answer);
    }
    // Two constant records, 3 m wide.
    let constant = |low, high| {
        let flat = [0, 1].map(|i| [2, 3, 4].map(|k| Number(at[i] + k, 0.0))).concat();
        [vec![Word(LANE_WORDS.line(0) + 3, 2), Number(at[0], low), Number(at[1], high)], flat].concat()
    };
    for (low, high) in [(-5.0, 1e300), (-1e300, -5.0), (0.0, f64::MAX), (f64::MIN, 0.0), (1e300, 1e300)] {
        list.case("ADM-10: starts of constant extents", &constant(low, high), 0);
    }
    list.case("ADM-22: reach overflows, 0 times infinity", &constant(-1.7e308, 1.7e308), 4);
    list.case("ADM-22: reach overflows, 0 times infinity", &constant(f64::MIN, f64::MAX), 4);
    list.case("ADM-22: the last reach overflows not", &constant(f64::MIN, f64::MIN), 0);
    let one = |x: f64| [Word(LANE_WORDS.line(3) + 3, 1), Number(EXTENT.line(6), x)];
    for (x, answer) in [(-5.0, 0), (1e300, 0), (f64::MAX, 0), (f64::MIN, 0), (NAN, 4), (INF, 4), (-INF, 4)] {
        list.case("ADM-10: start of a lone extent", &one(x), answer);
    }
}

/// CALL-13: no coefficient that is not finite.
fn coefficients(list: &mut List, place: &Place) {
    for k in 1..5 {
        for (i, x) in [(0, NAN), (1, INF), (2, -INF), (2, NAN)] {
            number(list, &format!("CALL-13: coefficients of {}", place.name), place.at(i) + k, x, 4);
        }
    }
}

fn coefficient(k: usize, a: f64, x: f64) -> Cubic {
    let mut c = [0.0, a, 0.0, 0.0, 0.0];
    c[k] = x;
    Cubic { start: c[0], a: c[1], b: c[2], c: c[3], d: c[4] }
}

/// The changes that give a record of a place these coefficients.
fn set(place: &Place, i: usize, c: Cubic) -> Vec<Change> {
    [c.a, c.b, c.c, c.d].into_iter().enumerate().map(|(k, x)| Number(place.at(i) + 1 + k, x)).collect()
}

/// ADM-16 to ADM-19: the greatest coefficient that B allows beside a, and the next f64 up.
fn bounds(list: &mut List, place: &Place) {
    let row = format!("ADM-16 to ADM-19: bound of {}", place.name);
    for i in [1, 2] {
        let next = if i == 1 { list.number(place.at(2)) } else { place.end };
        let d = reach(list.number(place.at(i)), next);
        for (k, a) in
            [(1, 0.0), (2, 0.0), (3, 0.0), (4, 0.0), (2, place.limit / 2.0), (3, place.limit / 3.0), (4, place.limit / 3.0)]
        {
            let most = greatest(|x| bound(coefficient(k, a, x), d) <= place.limit);
            assert!(k > 1 || most == place.limit);
            list.case(&row, &set(place, i, coefficient(k, a, most)), 0);
            list.case(&row, &set(place, i, coefficient(k, -a, -most)), 0);
            list.case(&row, &set(place, i, coefficient(k, a, most.next_up())), 4);
            list.case(&row, &set(place, i, coefficient(k, -a, -most.next_up())), 4);
        }
    }
    let c = |a| coefficient(1, 0.0, a);
    list.case(&row, &set(place, 0, c(place.limit)), 0);
    list.case(&row, &set(place, 0, c(place.limit.next_up())), 4);
}

/// ADM-18: roads on which another grouping of B answers otherwise.
fn groupings(list: &mut List) {
    let place = &PLACES[1];
    let others: [fn(Cubic, f64) -> f64; 4] = [
        |c, d| ((c.a + c.b * d) + c.c * (d * d)) + ((c.d * d) * d) * d,
        |c, d| ((c.a + c.b * d) + (c.c * d) * d) + (c.d * (d * d)) * d,
        |c, d| c.a + d * (c.b + d * (c.c + d * c.d)),
        |c, d| (c.a + c.b * d) + ((c.c * d) * d + ((c.d * d) * d) * d),
    ];
    for other in others {
        let found = (1..400).find_map(|n| {
            let (start, x) = (70.0 + f64::from(n) / 16.0, f64::from(n));
            let with = |d| Cubic { start, a: 1.0 + x / 512.0, b: 0.001 * x, c: 0.00001 * x, d };
            let most = greatest(|d| bound(with(d), reach(start, 100.0)) <= 8.0);
            let c = [with(most), with(most.next_up())];
            let answers = c.map(|c| (bound(c, reach(start, 100.0)) <= 8.0, other(c, reach(start, 100.0)) <= 8.0));
            answers.iter().any(|(a, b)| a != b).then_some(c)
        });
        for (c, answer) in found.expect("a road on which the groupings differ").into_iter().zip([0, 4]) {
            let mut changes = set(place, 2, c);
            changes.push(Number(place.at(2), c.start));
            list.case("ADM-18: grouping", &changes, answer);
        }
    }
}

/// ADM-16: a reach is at least 0, plus 0.001: equal starts, and a last start at or past the list's end.
fn reaches(list: &mut List) {
    let (offset, width, border) = (&PLACES[1], &PLACES[3], &PLACES[5]);
    for (place, i, start) in
        [(offset, 1, 70.0), (offset, 2, 100.0), (width, 1, 25.0), (width, 2, 40.0), (width, 2, 90.0), (border, 2, 31.0)]
    {
        let most = greatest(|b| bound(coefficient(2, 0.0, b), 0.001) <= place.limit);
        for (b, answer) in [(most, 0), (most.next_up(), 4)] {
            let mut changes = set(place, i, coefficient(2, 0.0, b));
            changes.push(Number(place.at(i), start));
            if place.table.at == EXTENT.at {
                // the record before reaches up to this one
                changes.extend([1, 2, 3, 4].map(|k| Number(place.at(i - 1) + k, 0.0)));
            }
            list.case("ADM-16: least reach", &changes, answer);
        }
    }
}

/// ADM-19 and ADM-20: elevations, whose slope is limited too.
fn slopes(list: &mut List) {
    let elev = &PLACES[8];
    let steep = |c: Cubic, d: f64| c.b.abs() + (2.0 * c.c.abs()) * d + ((3.0 * c.d.abs()) * d) * d;
    for i in [1, 2] {
        let d = reach(list.number(elev.at(i)), if i == 1 { 70.0 } else { 100.0 });
        for k in 2..5 {
            let most = greatest(|x| steep(coefficient(k, 0.0, x), d) <= 1.0);
            assert!(k > 2 || most == 1.0);
            for (x, answer) in [(most, 0), (-most, 0), (most.next_up(), 4), (-most.next_up(), 4)] {
                list.case("ADM-20: slope", &set(elev, i, coefficient(k, 5.0, x)), answer);
            }
            let most = greatest(|x| bound(coefficient(k, 9_999.5, x), d) <= 10_000.0);
            for (x, answer) in [(most, 0), (-most, 0), (most.next_up(), 4), (-most.next_up(), 4)] {
                list.case("ADM-19: bound of elev", &set(elev, i, coefficient(k, -9_999.5, x)), answer);
            }
        }
        for (a, answer) in [(10_000.0, 0), (-10_000.0, 0), (10_000f64.next_up(), 4), (-10_000f64.next_up(), 4)] {
            list.case("ADM-19: bound of elev", &set(elev, i, coefficient(1, 0.0, a)), answer);
        }
    }
}

/// ADM-21: a strip's four terms, each at its greatest B, by Horner at 88.
fn terms(list: &mut List) {
    let horner = |t: [f64; 4]| ((t[3] * 88.0 + t[2]) * 88.0 + t[1]) * 88.0 + t[0];
    let strip = STRIP_WORDS.line(1);
    // Terms of one constant record each, on lines 20..23; the greatest value of one term beside the others.
    let with = |t: [f64; 4]| {
        let list =
            |k: usize| [Word(strip + 3 + 2 * k, 20 + k as u16), Word(strip + 4 + 2 * k, 1), Number(CUBIC.line(20 + k) + 1, t[k])];
        [0, 1, 2, 3].map(list).concat()
    };
    for others in [[0.0; 4], [5.0, 0.05, 0.0005, 0.000005]] {
        for k in 0..4 {
            let at = |x: f64| {
                let mut t = others;
                t[k] = x;
                t
            };
            let most = greatest(|x| horner(at(x)) <= 40.0);
            for (x, answer) in [(most, 0), (-most, 0), (most.next_up(), 4), (-most.next_up(), 4), (NAN, 4), (INF, 4)] {
                list.case("ADM-21: terms", &with(at(x)), answer);
            }
        }
    }
    greatest_of_terms(list);
}

/// ADM-21: of a term's records the greatest B counts, wherever it stands; a strip without terms has 0.
fn greatest_of_terms(list: &mut List) {
    let (term, alone) = (&PLACES[9], [Word(STRIP_WORDS.line(0) + 6, 0), Word(STRIP_WORDS.line(0) + 8, 0)]);
    for i in 0..3 {
        for (a, answer) in [(40.0, 0), (-40.0, 0), (40f64.next_up(), 4), (NAN, 4), (INF, 4)] {
            let changes = [alone.to_vec(), set(term, i, coefficient(1, 0.0, a))].concat();
            list.case("ADM-21: the greatest of a term", &changes, answer);
        }
        let own = list.number(term.at(i));
        let d = reach(own, if i == 2 { 100.0 } else { list.number(term.at(i + 1)) });
        let most = greatest(|x| bound(coefficient(3, 0.0, x), d) <= 40.0);
        for (x, answer) in [(most, 0), (most.next_up(), 4)] {
            let changes = [alone.to_vec(), set(term, i, coefficient(3, 0.0, x))].concat();
            list.case("ADM-21: the greatest of a term", &changes, answer);
        }
    }
    for strip in [0, 1, 2, 3] {
        let at = STRIP_WORDS.line(strip);
        let given = |a: f64, code: u16| [Word(at, code), Word(at + 3, 20), Word(at + 4, 1), Number(CUBIC.line(20) + 1, a)];
        for (a, answer) in [(39.0, 0), (41.0, 4)] {
            list.case("ADM-21: each strip", &[given(a, 1).to_vec(), no_terms(strip)].concat(), answer);
            list.case("ADM-21: each strip", &[given(a, 2).to_vec(), no_terms(strip)].concat(), answer);
            list.case("a strip that is absent", &given(a, 0), 0);
        }
    }
}

fn no_terms(strip: usize) -> Vec<Change> {
    [6, 8, 10].map(|k| Word(STRIP_WORDS.line(strip) + k, 0)).to_vec()
}

// ---- row 3: counts, codes and ranges

/// CALL-11: a code that stands for no listed word.
fn codes(list: &mut List) {
    for i in 0..3 {
        for code in [3, 4, 256, 65_535] {
            list.case("CALL-11: kind", &[Word(KIND_WORDS.line(i), code)], 3);
        }
    }
    for lane in 0..5 {
        for code in [2, 257, 65_535] {
            list.case("CALL-11: extent code", &[Word(LANE_WORDS.line(lane), code)], 3);
            list.case("CALL-11: level", &[Word(LANE_WORDS.line(lane) + 1, code)], 3);
        }
        list.case("CALL-11: level", &[Word(LANE_WORDS.line(lane) + 1, 1)], 0);
    }
    for strip in 0..4 {
        for code in [3, 258, 65_535] {
            list.case("CALL-11: presence of a strip", &[Word(STRIP_WORDS.line(strip), code)], 3);
        }
        for code in [0, 1, 2] {
            list.case("CALL-11: presence of a strip", &[Word(STRIP_WORDS.line(strip), code)], 0);
        }
    }
}

/// The words of ranges: the place of the first, the table's lines, the most lines under one parent.
fn parents() -> Vec<(&'static str, usize, usize, usize)> {
    let mut all = Vec::new();
    for lane in [0, 4] {
        all.push(("extents", LANE_WORDS.line(lane) + 2, EXTENT.lines, 16));
        all.push(("heights", LANE_WORDS.line(lane) + 4, HEIGHT.lines, 8));
    }
    for profile in [0, 2] {
        all.push(("shapes", PROFILE_WORDS.line(profile), SHAPE.lines, 16));
    }
    for strip in [0, 1, 3] {
        for k in 0..5 {
            all.push(("cubics", STRIP_WORDS.line(strip) + 1 + 2 * k, CUBIC.lines, 8));
        }
    }
    all
}

/// CALL-11: ranges that end at their table's end and one past it; the sum of first and count passes 65,535.
fn ranges(list: &mut List) {
    for (name, at, lines, most) in parents() {
        let row = format!("CALL-11: range of {name}");
        let pair = |first: usize, count: usize| [Word(at, first as u16), Word(at + 1, count as u16)];
        list.case(&row, &pair(lines - 1, 1), 0);
        let past = [
            (lines, 1),
            (lines - 1, 2),
            (lines + 1 - most, most),
            (65_535, 1),
            (65_535, most),
            (65_536 - most, most),
            (65_535, 65_535),
        ];
        for (first, count) in past {
            list.case(&row, &pair(first, count), 3);
        }
        // Lines that nothing else uses; heights of a lane have to lie apart.
        let apart: Vec<Change> = (0..9).map(|i| Number(HEIGHT.line(100 + i), i as f64)).collect();
        for (count, answer) in [(most, 0), (most + 1, 3), (255, 3), (256, 3), (65_535, 3)] {
            let row = format!("CALL-12: number of {name}");
            let changes = [pair(100, count).to_vec(), if name == "heights" { apart.clone() } else { Vec::new() }].concat();
            list.case(&row, &changes, answer);
        }
    }
    lane_ranges(list);
}

fn lane_ranges(list: &mut List) {
    // The words after the last lane are the profiles', here such as would do for a lane.
    let like_a_lane = [0, 1, 1, 1, 0, 1].into_iter().enumerate().map(|(k, w)| Word(PROFILE_WORDS.at + k, w));
    let past = [Word(SECTION_WORDS.line(2), 192), Word(SECTION_WORDS.line(2) + 2, 1)];
    list.case("CALL-11: profiles' words", &like_a_lane.clone().collect::<Vec<_>>(), 0);
    list.case("CALL-11: a lane past the last", &like_a_lane.chain(past).collect::<Vec<_>>(), 3);
    for section in [0, 2] {
        let at = SECTION_WORDS.line(section);
        let lanes = |first: u16, left: u16, right: u16| [Word(at, first), Word(at + 1, left), Word(at + 2, right)];
        for (first, left, right) in [(180, 6, 6), (191, 1, 0), (191, 0, 1), (190, 1, 1), (186, 0, 6)] {
            list.case("CALL-11: range of lanes", &lanes(first, left, right), 0);
        }
        for (first, left, right) in
            [(181, 6, 6), (192, 1, 0), (192, 0, 1), (191, 1, 1), (65_535, 1, 0), (65_535, 0, 1), (65_530, 3, 3)]
        {
            list.case("CALL-11: range of lanes", &lanes(first, left, right), 3);
        }
        for (left, right) in [(7, 0), (0, 7), (6, 7), (7, 6), (65_535, 0), (0, 65_535), (65_535, 1), (32_768, 32_768)] {
            list.case("CALL-12: lanes of a side", &lanes(0, left, right), 3);
        }
    }
}

/// CALL-11: a range of no lines starts inside its table or at its end. A profile without shapes is 3.
fn empty_ranges(list: &mut List) {
    for (name, at, lines, _) in parents() {
        let row = format!("CALL-11: empty range of {name}");
        let inside = if name == "shapes" { 3 } else { 0 };
        for (first, answer) in [(0, inside), (lines, inside), (lines + 1, 3), (65_535, 3)] {
            list.case(&row, &[Word(at, first as u16), Word(at + 1, 0)], answer);
        }
    }
    for (first, answer) in [(0, 0), (192, 0), (193, 3), (65_535, 3)] {
        list.case("CALL-11: empty range of lanes", &[Word(SECTION_WORDS.line(2), first)], answer);
    }
}

/// What no count or range names is not read: no number there and no code is looked at.
fn unread(list: &mut List) {
    let words = [KIND_WORDS.line(3), SECTION_WORDS.line(3), LANE_WORDS.line(5), LANE_WORDS.line(5) + 2, PROFILE_WORDS.line(3)];
    let words = words.into_iter().chain([SECTION_MARK_WORDS.line(3), SECTION_MARK_WORDS.line(15), MARK_WORDS.line(2)]);
    for at in words.chain([0, 1, 2, 3, 4].map(|k| STRIP_WORDS.line(2) + 1 + 2 * k)) {
        list.case("unread words", &[Word(at, 65_535), Word(at + 1, 65_535)], 0);
    }
    let lines = [GEOM.line(3), ELEV.line(3), BANK.line(3), OFFSET.line(3), TSHIFT.line(3), SECTION.line(3), EXTENT.line(10)];
    let lines =
        lines.into_iter().chain([HEIGHT.line(6), PROFILE.line(3), SHAPE.line(4), CUBIC.line(13), MARK.line(2), NUMBERS - 1]);
    for at in lines {
        list.case("unread numbers", &[Number(at, NAN)], 0);
        list.case("unread numbers", &[Number(at, -INF)], 0);
    }
}

/// CALL-12, on the road with every count at its limit: one more, and far more.
fn counts(list: &mut List) {
    for (i, table) in COUNTED.iter().enumerate() {
        let least = if i == 0 || i == 5 { 3 } else { 0 };
        let limit = table.lines as u16;
        for (count, answer) in [(0, least), (1, 0), (limit - 1, 0), (limit, 0), (limit + 1, 3), (256, 3), (65_535, 3)] {
            list.case("CALL-12: counts", &[Word(i, count)], answer);
        }
    }
    let last = [
        ("lanes left", SECTION_WORDS.line(0) + 1, 6),
        ("lanes right", SECTION_WORDS.line(15) + 2, 6),
        ("extents", LANE_WORDS.line(191) + 3, 16),
        ("heights", LANE_WORDS.line(191) + 5, 8),
        ("shapes", PROFILE_WORDS.line(15) + 1, 16),
        ("cubics of a width", STRIP_WORDS.line(3) + 2, 8),
        ("cubics of a term", STRIP_WORDS.line(3) + 10, 8),
        ("marks", SECTION_MARK_WORDS.line(15) + 1, 16),
    ];
    for (name, at, limit) in last {
        for (count, answer) in [(limit - 1, 0), (limit, 0), (limit + 1, 3), (65_535, 3)] {
            list.case(&format!("CALL-12: {name}"), &[Word(at, count)], answer);
        }
    }
    last_lines(list);
    list.base(roads::level());
    list.case("CALL-12: every count at its limit, starts equal", &[], 0);
    one_line_more(list);
}

/// CALL-12: one line more than the limit, where what stands after the table would do for a line or give another number.
fn one_line_more(list: &mut List) {
    for i in 0..5 {
        list.case("CALL-12: one line more", &[Word(i, 65)], 3);
    }
    let lane = LANE_WORDS.line(0);
    let section = [Word(lane + 2, 0), Word(lane + 3, 0), Number(EXTENT.line(0), 99.0)];
    list.case("CALL-12: sixteen sections", &section, 0);
    list.case("CALL-12: one section more", &[section.to_vec(), vec![Word(5, 17)]].concat(), 3);
    let profile = [Word(STRIP_WORDS.line(0) + 1, 8), Number(SHAPE.line(0), 79.0)];
    list.case("CALL-12: sixteen profiles", &profile, 0);
    list.case("CALL-12: one profile more", &[profile.to_vec(), vec![Word(6, 17)]].concat(), 3);
}

/// The last line of each full table is read.
fn last_lines(list: &mut List) {
    for table in [GEOM, ELEV, BANK, OFFSET, TSHIFT, EXTENT, HEIGHT, SHAPE, CUBIC, MARK] {
        let at = table.line(table.lines - 1);
        list.case("the last line of a table", &[Number(at + table.columns - 1, NAN)], 4);
        list.case("the last line of a table", &[Number(at, NAN)], 3);
    }
    for table in [SECTION, PROFILE] {
        list.case("the last line of a table", &[Number(table.line(15), NAN)], 3);
        list.case("the last line of a table", &[Number(table.line(15), 100f64.next_up())], 4);
    }
    for words in [KIND_WORDS, LANE_WORDS, STRIP_WORDS, MARK_WORDS] {
        list.case("the last code of a table", &[Word(words.line(words.lines - 1), 65_535)], 3);
    }
    list.case("the last kind of a mark", &[Word(MARK_WORDS.line(255) + 1, 256)], 4);
}

/// CALL-11: slices shorter than the layout are 3, longer ones are read as if they ended there.
fn slices(list: &mut List) {
    let short = [(WORDS - 1, NUMBERS), (WORDS, NUMBERS - 1), (0, 0), (0, NUMBERS), (WORDS, 0), (1, 1), (WORDS + 1, NUMBERS - 1)];
    for (words, numbers) in short {
        list.case("slices one short", &[Lent(words, numbers)], 3);
    }
    for (words, numbers) in [(WORDS, NUMBERS), (WORDS + 1, NUMBERS), (WORDS, NUMBERS + 1), (WORDS + 3, NUMBERS + 3)] {
        let past = [Word(WORDS, 65_535), Number(NUMBERS, NAN), Lent(words, numbers)];
        list.case("longer slices", &past, 0);
    }
}

// ---- rows in order, samples

/// CALL-10, ADM-26: row 3 for the whole road, then row 4, then row 5; samples ask the same, then row 6.
fn order_of_rows(list: &mut List) {
    let three = [Number(SECTION.line(2), 40.0), Word(LANE_WORDS.line(4), 2), Number(HEIGHT.line(5), 0.0)];
    let four = [Number(0, NAN), Number(GEOM.line(0) + 1, NAN), Number(BANK.line(0) + 1, 0.75f64.next_up())];
    let five = Number(GEOM.line(2) + 4, 9_999.0);
    for t in three {
        for f in four {
            list.case("CALL-10, ADM-26: 3 before 4", &[t, f], 3);
            list.samples("CALL-10, ADM-26: 3 before 4", &[t, f, five], 0, Err(3));
        }
        list.case("CALL-10: 3 before 5", &[t, five], 3);
    }
    for f in four {
        list.case("CALL-10: 4 before 5", &[f, five], 4);
        list.samples("CALL-10: 4 before 6", &[f], 0, Err(4));
        list.samples("CALL-10: 4 before 6", &[f], SAMPLES, Err(4));
    }
    list.case("CALL-14", &[five], 5);
    list.samples("CALL-10: 5 before 6", &[five], 0, Err(5));
    // 40 m of spiral: 161 samples.
    for (length, answer) in [(0, Err(6)), (643, Err(6)), (644, Ok(161)), (645, Ok(161)), (SAMPLES, Ok(161))] {
        list.samples("CALL-15", &[], length, answer);
    }
}

/// Spirals of these lengths in place of the bare road's line.
fn spirals(lengths: &[f64]) -> Vec<Change> {
    let of = |(i, &length): (usize, &f64)| [Word(KIND_WORDS.line(i), 2), Number(GEOM.line(i) + 4, length)];
    let mut changes = vec![Word(0, lengths.len() as u16)];
    changes.extend(lengths.iter().enumerate().flat_map(of));
    changes
}

/// CALL-14, ADM-24: 2,000 samples in all, lines and arcs having none.
fn budget(list: &mut List) {
    let most = greatest(|x| x == 0.0 || spiral_samples(x) <= 2000);
    for (length, answer) in
        [(499.5, 0), (499.75, 0), (499.75f64.next_up(), 0), (most, 0), (most.next_up(), 5), (500.0, 5), (10_000.0, 5)]
    {
        list.case("CALL-14: one spiral", &spirals(&[length]), answer);
    }
    let one = greatest(|x| x == 0.0 || spiral_samples(x) <= 1000);
    for (a, b, answer) in
        [(one, one, 0), (249.75, 249.75, 0), (one, one.next_up(), 5), (one.next_up(), one, 5), (499.75, 0.01, 5)]
    {
        list.case("CALL-14: two spirals", &spirals(&[a, b]), answer);
    }
    // 64 spirals: 62 of 31 samples, one of 61 and one of 17 are 2,000.
    let mut lengths = vec![7.5; 64];
    (lengths[5], lengths[63]) = (15.0, 4.0);
    list.case("CALL-14: 64 spirals", &spirals(&lengths), 0);
    lengths[63] = 4.25;
    list.case("CALL-14: 64 spirals", &spirals(&lengths), 5);
    let mut with_line = spirals(&[499.75, 10_000.0, 10_000.0]);
    with_line.extend([Word(KIND_WORDS.line(1), 0), Word(KIND_WORDS.line(2), 1)]);
    list.case("CALL-14: lines and arcs have no samples", &with_line, 0);
    with_line.push(Word(KIND_WORDS.line(1), 2));
    list.case("CALL-14: a spiral in place of the line", &with_line, 5);
}

/// CALL-15, M11: whole fours count; a road without spirals needs none.
fn slice_for_samples(list: &mut List) {
    for length in [0, 1, 3, SAMPLES] {
        list.samples("CALL-15: no spiral", &[], length, Ok(0));
    }
    for (spiral, n) in [(0.6, 4), (0.5, 3), (0.25, 2), (0.01, 2), (0.25 + 5e-10, 2), (0.25 + 2e-9, 3), (499.75, 2000)] {
        let changes = spirals(&[spiral]);
        for (length, answer) in [(0, Err(6)), (4 * n - 4, Err(6)), (4 * n - 1, Err(6)), (4 * n, Ok(n)), (4 * n + 3, Ok(n))] {
            list.samples("CALL-15, M11", &changes, length, answer);
        }
    }
    for (length, answer) in [(27, Err(6)), (28, Ok(7))] {
        list.samples("CALL-15: two spirals", &spirals(&[0.6, 0.5]), length, answer);
    }
    list.samples("CALL-15: 2,001 samples", &spirals(&[500.0]), SAMPLES, Err(5));
    list.samples("CALL-15: refused 3", &[Word(0, 0)], SAMPLES, Err(3));
    list.samples("CALL-15: short slices", &[Lent(WORDS - 1, NUMBERS)], SAMPLES, Err(3));
}
