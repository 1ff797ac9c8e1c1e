// Comparisons of the call `dots`: its list by the published `along` and `station_at` over the Rust's own points, and whole by the second
// text of rows 10, 15, 16 and 17 and of the list. Of each line of points several spacings and lengths of the lent list are asked.
use crate::lent::Lent;
use crate::tally::{Tally, hex};
use crate::untouched;
use archive::riftkettle as ours;
use published::dots::DottedLine;
use published::stand_ins;
use second::dots::{self, Asked, Known};
use second::model::Style;
use second::random::Rng;

/// So many numbers behind the lent list are looked at too.
const BEHIND: usize = 3;

/// What stands in place of a count that no call has written.
const NO_COUNT: usize = 777;

/// Bit for bit, zeros too; any NaN is any NaN.
fn same_bits(a: f64, b: f64) -> bool {
    a.to_bits() == b.to_bits() || a.is_nan() && b.is_nan()
}

/// A lane's line of points where the Rust has one: the lane is there, and the list is right.
struct On<'a> {
    lent: &'a Lent,
    section: usize,
    id: i32,
    stations: &'a [f64],
    theirs: Option<DottedLine<'a>>,
}

impl<'a> On<'a> {
    fn new(lent: &'a Lent, section: usize, id: i32, stations: &'a [f64]) -> Self {
        let there = dots::place(&lent.road, section, id).is_some();
        let right = there && dots::listed(stations, dots::ends(&lent.road, section));
        let theirs = right.then(|| DottedLine::new(&lent.oracle, section, id, stations));
        Self { lent, section, id, stations, theirs }
    }

    fn points(&self) -> Vec<f32> {
        self.theirs.as_ref().map(DottedLine::numbers).expect("the list is right")
    }

    fn length(&self) -> f32 {
        self.theirs.as_ref().map_or(1.0, DottedLine::length)
    }

    /// The stations of all dots by the published functions; none where the multiples are too many.
    fn dots(&self, spacing: f32) -> Option<Vec<f64>> {
        let place = dots::place(&self.lent.road, self.section, self.id)?;
        self.theirs.as_ref()?.dots(&self.lent.road.sections[self.section], place, spacing)
    }

    fn asked(&self, asked: &Asked) -> String {
        let (spacing, road) = (asked.spacing.to_bits(), &self.lent.road);
        let (section, id, room, stations) = (self.section, self.id, asked.room, hex(self.stations));
        format!("lane {id} of section {section} by {spacing:08x} into {room} at {stations}: {road:?}")
    }

    /// One call against the second text, and where that answers a list against the published one.
    fn check(&self, tally: &mut Tally, samples: &[f64], spacing: f32, room: usize, theirs: Option<&[f64]>) {
        let asked = Asked { section: self.section, id: self.id, spacing, stations: self.stations, room };
        let expected = self.lent.sampled(samples).and_then(|()| dots::dots(&self.lent.road, &asked, || self.points()));
        let (mut list, mut count) = (untouched(room + BEHIND), NO_COUNT);
        let m = &self.lent.m;
        let code = ours::dots(m, samples, self.section, self.id, spacing, self.stations, &mut list[..room], &mut count);
        let number = expected.as_ref().err().copied().unwrap_or(0);
        tally.outcome("dots", number);
        let written = expected.as_ref().map_or(NO_COUNT, Vec::len);
        let due = expected.as_deref().unwrap_or_default();
        let equal = |due: &[f64]| count == written && is_list(&list, due);
        tally.check(code == number && equal(due), || {
            format!("ours {code} {count} {}, second text {number} {written} {}: {}", hex(&list), hex(due), self.asked(&asked))
        });
        if number == 0 {
            tally.outcome("digits of the count", due.len().checked_ilog10().map_or(0, |n| n + 1));
            let theirs = theirs.expect("the Rust has what the second text has");
            tally.check(code == 0 && count == theirs.len() && is_list(&list, theirs), || {
                format!("ours {code} {count} {}, the Rust's {}: {}", hex(&list), hex(theirs), self.asked(&asked))
            });
        }
        if code == 0 && number == 0 {
            self.check_fall(tally, &list[..written], &asked);
        }
    }

    /// 02: "no station lies more than 0.000000001 m below the one before it".
    fn check_fall(&self, tally: &mut Tally, dots: &[f64], asked: &Asked) {
        let fall = dots.windows(2).map(|w| w[0] - w[1]).fold(0.0, f64::max);
        tally.demand("fall of a station", fall, fall <= 1e-9, || self.asked(asked));
    }
}

/// The dots, then all as it was.
fn is_list(list: &[f64], dots: &[f64]) -> bool {
    let after = untouched(list.len());
    let due = dots.iter().chain(after.iter().skip(dots.len()));
    dots.len() <= list.len() && list.iter().zip(due).all(|(a, b)| same_bits(*a, *b))
}

impl On<'_> {
    /// A spacing with lists of several lengths: with room for the dots, without, and with room for all multiples.
    fn check_rooms(&self, rng: &mut Rng, tally: &mut Tally, spacing: f32, times: usize) {
        let theirs = self.dots(spacing);
        // where the multiples are too many there is room for them all, so that it is their number that refuses
        let kept = theirs.as_ref().map_or(dots::MULTIPLES + 1, Vec::len);
        let all = self.theirs.as_ref().map_or(0, |line| line.multiples(spacing));
        for k in 0..times {
            let room = match k {
                0 => kept,
                1 if kept < all && all < 300 => rng.from_to(kept, all - 1),
                _ => dots::room(rng, kept),
            };
            self.check(tally, &self.lent.samples, spacing, room, theirs.as_deref());
        }
    }
}

// ---- the comparisons

/// So many lines on each road, spacings on each line, and lists for each spacing.
const LINES: usize = 6;
const SPACINGS: usize = 3;
const ROOMS: usize = 3;

/// A line longer than this has hundreds of dots at any spacing.
const LONG: f32 = 20_000.0;

/// A lane of a road by several spacings.
fn check_line(on: &Lent, rng: &mut Rng, tally: &mut Tally) {
    let (section, id) = dots::lane(rng, &on.road);
    let (stations, met) = dots::list(rng, &on.road, section);
    let line = On::new(on, section, id, &stations);
    if line.length() > LONG && !rng.one_in(40) {
        return;
    }
    for k in 0..SPACINGS {
        let spacing = met.filter(|_| k == 0).unwrap_or_else(|| dots::spacing(rng, line.length()));
        line.check_rooms(rng, tally, spacing, ROOMS);
    }
}

/// Roads whose dots are known, in the first steps; then random ones.
pub fn placed(rng: &mut Rng, tally: &mut Tally) {
    if let Some(known) = dots::known().get(tally.at() as usize) {
        return check_known(rng, tally, known);
    }
    let on = Lent::dotted(rng);
    let before = on.copies();
    (0..LINES).for_each(|_| check_line(&on, rng, tally));
    on.end(tally, before);
}

fn check_known(rng: &mut Rng, tally: &mut Tally, known: &Known) {
    let m = known.road.lay(rng, Style::default()).expect("it fits");
    let on = Lent::of(rng, (known.road.clone(), m));
    let line = On::new(&on, known.section, known.id, &known.stations);
    for &spacing in &known.spacings {
        line.check_rooms(rng, tally, spacing, ROOMS);
    }
    for room in [0, 4] {
        let wrong = dots::WRONG.map(f32::from_bits);
        wrong.iter().for_each(|&spacing| line.check(tally, &on.samples, spacing, room, None));
    }
}

/// As many stations as there may be, and thousands of dots; or two stations, and about as many multiples as there may be.
pub fn many(rng: &mut Rng, tally: &mut Tally) {
    let on = loop {
        let on = Lent::dotted(rng);
        if on.road.length > 300.0 {
            break on;
        }
    };
    let (section, id) = dots::lane(rng, &on.road);
    let ends = dots::ends(&on.road, section);
    let line = On::new(&on, section, id, &ends);
    let most = dots::MULTIPLES;
    if line.length() > most as f32 * dots::LEAST && rng.one_in(2) {
        let multiples = rng.from_to(most - 2, most + 2);
        line.check_rooms(rng, tally, (line.length() / (multiples as f32 - 0.5)).min(dots::MOST), 2);
    } else {
        let stations = dots::full(rng, ends);
        let line = On::new(&on, section, id, &stations);
        let spacing = line.length() / rng.from_to(200, 5_000) as f32;
        line.check_rooms(rng, tally, spacing.clamp(dots::LEAST, dots::MOST), 2);
    }
}

/// Samples that were not made from the road, with which a coordinate may lie outside: rows 15 and 17 stand around that one.
pub fn foreign(rng: &mut Rng, tally: &mut Tally) {
    let on = Lent::foreign(rng, Lent::dotted);
    let before = on.copies();
    stand_ins::by_count(|| {
        for _ in 0..LINES {
            check_line(&on, rng, tally);
            let (section, id) = dots::lane(rng, &on.road);
            let (stations, _) = dots::list(rng, &on.road, section);
            let line = On::new(&on, section, id, &stations);
            let spacing = if rng.one_in(2) { dots::MOST } else { dots::wrong_spacing(rng) };
            line.check(tally, &on.samples, spacing, rng.pick(&[0, 0, 3]), line.dots(spacing).as_deref());
        }
    });
    on.end(tally, before);
}

// ---- refusals

/// So many calls on each road.
const REFUSALS: usize = 12;

/// Each argument is wrong in one of three calls, and so are often several: the first row counts.
fn check_rows(on: &Lent, rng: &mut Rng, tally: &mut Tally) {
    let (mut section, mut id) = dots::lane(rng, &on.road);
    let ends = dots::ends(&on.road, section);
    let (mut stations, _) = dots::list(rng, &on.road, section);
    let wrong = |rng: &mut Rng| rng.one_in(3);
    if wrong(rng) {
        stations = dots::damaged(rng, stations, ends);
    }
    if wrong(rng) {
        match rng.below(3) {
            0 => section = dots::wrong_section(rng, on.road.sections.len()),
            _ => id = dots::wrong_id(rng, &on.road.sections[section]),
        }
    }
    let line = On::new(on, section, id, &stations);
    if line.length() > LONG {
        return;
    }
    let spacing = if wrong(rng) { dots::wrong_spacing(rng) } else { dots::spacing(rng, line.length()) };
    let theirs = line.dots(spacing);
    let kept = theirs.as_ref().map_or(0, Vec::len);
    let room = if wrong(rng) { rng.below(kept.clamp(1, 50)) } else { kept + rng.below(3) };
    let samples = if rng.one_in(6) { on.some_samples(rng) } else { &on.samples };
    line.check(tally, samples, spacing, room, theirs.as_deref());
}

pub fn refused(rng: &mut Rng, tally: &mut Tally) {
    let limits = rng.one_in(4);
    let on = if limits { Lent::near_limit(rng, Lent::dotted) } else { Lent::dotted(rng) };
    let before = on.copies();
    // one that is changed and yet admitted is not the oracle's road
    if !limits || on.refused.is_some() {
        (0..REFUSALS).for_each(|_| check_rows(&on, rng, tally));
    }
    on.end(tally, before);
}
