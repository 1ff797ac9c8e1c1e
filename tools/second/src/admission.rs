// A second text of document 01's "Admission", with the counts and ranges of "The job text" and document 02's marks, over lent
// memory. It is written from 01 and 02 and plain: row 3 over the whole road, then row 4, then row 5. The first fault found is told
// with its place. It shares nothing with the library.
use crate::fault::{Fault, Limit, List, Measure, Measured, Name, Of, Order, Place, Reason, Spiral, Tested, Wrong, check};
use crate::model::*;

/// Where a road's records end and how far its lists reach is said by the memory alone.
struct Lent<'a> {
    words: &'a [u16],
    numbers: &'a [f64],
}

struct LaneAt {
    border: bool,
    extents: List,
    heights: List,
    /// How long the lane's section is.
    extent: f64,
}

/// The names of `COUNTED`.
const COUNTED_NAMES: [Name; 7] = [Name::Geom, Name::Elev, Name::Bank, Name::Offset, Name::Tshift, Name::Section, Name::Profile];

/// The road's length as a list of one line. No word counts it.
const ROAD: List =
    List { name: Name::Road, table: Table { at: 0, lines: 1, columns: 1 }, first: 0, count: 1, of: Of::Road, at: 0 };

/// 0 where the road is admitted, else 3, 4 or 5.
pub fn admit(words: &[u16], numbers: &[f64]) -> u32 {
    judge(words, numbers).map_or_else(|fault| fault.row, |()| 0)
}

/// Whether the road is admitted, or its first fault.
pub fn judge(words: &[u16], numbers: &[f64]) -> Result<(), Fault> {
    let road = Lent { words, numbers };
    road.lent_whole().map_err(Fault::of_row(3))?;
    road.counted().map_err(Fault::of_row(3))?;
    road.ordered().map_err(Fault::of_row(3))?;
    road.limited().map_err(Fault::of_row(4))?;
    road.sampled().map_err(Fault::of_row(5))
}

/// How many samples each geometry has. A spiral that alone needs too many is counted no further.
pub fn samples_of(words: &[u16], numbers: &[f64]) -> Vec<usize> {
    let of = |i: usize| if words[KIND_WORDS.line(i)] == 2 { spiral_samples(numbers[GEOM.line(i) + 4]) } else { 0 };
    (0..usize::from(words[0])).map(of).collect()
}

pub fn spiral_samples(length: f64) -> usize {
    spiral_samples_up_to(length, 2000)
}

/// The first sample, then one a step: steps of 0.25, the last shorter, while u < length - 1e-9. More than that many are counted no
/// further.
pub fn spiral_samples_up_to(length: f64, most: usize) -> usize {
    let (mut n, mut u) = (1, 0.0);
    while u < length - 1e-9 && n <= most {
        let rest = length - u;
        u += if rest < 0.25 { rest } else { 0.25 };
        n += 1;
    }
    n
}

fn in_range(x: f64, low: f64, high: f64) -> Result<(), Limit> {
    check(low <= x && x <= high, || Limit::Range { low, high })
}

fn size_at_most(x: f64, most: f64) -> Result<(), Limit> {
    check(x.abs() <= most, || Limit::Size { most })
}

/// An arc's curvature is so small that it is a line, or its size is in a range.
fn arc(k: f64, line: f64, low: f64, high: f64) -> Result<(), Limit> {
    check(k.abs() <= line || in_range(k.abs(), low, high).is_ok(), || Limit::Arc { line, low, high })
}

fn unused(k: f64) -> Result<(), Limit> {
    check(k == 0.0, || Limit::Unused)
}

/// A mark's start.
fn span_start(start: f64) -> Result<(), Limit> {
    check(0.0 <= start, || Limit::SpanStart)
}

fn span_end(end: f64, start: f64) -> Result<(), Limit> {
    check(start <= end, || Limit::SpanEnd { start })
}

/// A mark's start or its end.
fn span_within(x: f64, extent: f64) -> Result<(), Limit> {
    check(x <= extent, || Limit::SpanPast { extent })
}

fn finite(x: f64) -> Result<(), Limit> {
    check(x.is_finite(), || Limit::Finite)
}

/// Where the words of a mark of a list stand: the place of its lane, then its kind.
fn mark_words(marks: List, i: usize) -> usize {
    MARK_WORDS.line(marks.first + i)
}

impl Lent<'_> {
    fn word(&self, at: usize) -> usize {
        usize::from(self.words[at])
    }

    fn length(&self) -> f64 {
        self.numbers[0]
    }

    /// A list that the memory gives by first line and count.
    fn list(&self, name: Name, table: Table, at: usize, of: Of) -> List {
        List { name, table, first: self.word(at), count: self.word(at + 1), of, at }
    }

    /// One of the tables with a count of its own.
    fn whole(&self, i: usize) -> List {
        List { name: COUNTED_NAMES[i], table: COUNTED[i], first: 0, count: self.word(i), of: Of::Road, at: i }
    }

    fn column(&self, list: List, i: usize, column: usize) -> f64 {
        self.numbers[list.table.line(list.first + i) + column]
    }

    fn cubic(&self, list: List, i: usize) -> Cubic {
        let [start, a, b, c, d] = [0, 1, 2, 3, 4].map(|k| self.column(list, i, k));
        Cubic { start, a, b, c, d }
    }

    /// The lane numbers of a section.
    fn lanes_of(&self, section: usize) -> std::ops::Range<usize> {
        let at = SECTION_WORDS.line(section);
        self.word(at)..self.word(at) + self.word(at + 1) + self.word(at + 2)
    }

    fn section_extent(&self, section: usize) -> f64 {
        let end = if section + 1 < self.word(5) { self.numbers[SECTION.at + section + 1] } else { self.length() };
        end - self.numbers[SECTION.at + section]
    }

    /// A lane by its number among a section's.
    fn lane(&self, section: usize, lane: usize, extent: f64) -> LaneAt {
        let [first, left] = [0, 1].map(|k| self.word(SECTION_WORDS.line(section) + k));
        let outward = lane - first;
        let id = if outward < left { outward as i32 + 1 } else { -((outward - left) as i32 + 1) };
        let (at, of) = (LANE_WORDS.line(lane), Of::Lane { section, id });
        let (extents, heights) = (self.list(Name::Extent, EXTENT, at + 2, of), self.list(Name::Height, HEIGHT, at + 4, of));
        LaneAt { border: self.word(at) == 1, extents, heights, extent }
    }

    /// Every lane of every section, with that section's extent.
    fn lanes(&self) -> impl Iterator<Item = LaneAt> {
        (0..self.word(5)).flat_map(move |section| {
            let extent = self.section_extent(section);
            self.lanes_of(section).map(move |lane| self.lane(section, lane, extent))
        })
    }

    /// The marks of each section.
    fn marks(&self) -> impl Iterator<Item = (usize, List)> {
        let of = move |i: usize| self.list(Name::Mark, MARK, SECTION_MARK_WORDS.line(i), Of::Section(i));
        (0..self.word(5)).map(move |i| (i, of(i)))
    }

    /// The shapes of each profile.
    fn shapes(&self) -> impl Iterator<Item = List> {
        (0..self.word(6)).map(move |i| self.list(Name::Shape, SHAPE, PROFILE_WORDS.line(i), Of::Profile(i)))
    }

    /// The five lists of each strip that is there.
    fn strips(&self) -> impl Iterator<Item = [List; 5]> {
        let present = move |strip: &usize| self.word(STRIP_WORDS.line(*strip)) != 0;
        let list = move |strip: usize, term: usize| {
            self.list(Name::Cubic, CUBIC, STRIP_WORDS.line(strip) + 1 + 2 * term, Of::Strip { strip, term })
        };
        (0..4).filter(present).map(move |strip| [0, 1, 2, 3, 4].map(|term| list(strip, term)))
    }

    fn number(&self, list: List, i: usize, column: usize) -> Place {
        Place::Number { list, line: list.first + i, column, value: self.column(list, i, column) }
    }

    // ---- row 3

    /// A table passes its slice's end where the slice is shorter than the layout.
    fn lent_whole(&self) -> Tested {
        let (words, numbers) = (self.words, self.numbers);
        let short = |slice, length, needed| Wrong::new(Place::Whole, Reason::Short { slice, length, needed });
        check(words.len() >= WORDS, || short("words", words.len(), WORDS))?;
        check(numbers.len() >= NUMBERS, || short("numbers", numbers.len(), NUMBERS))
    }

    fn counted(&self) -> Tested {
        let least = [1, 0, 0, 0, 0, 1, 0];
        (0..7).try_for_each(|i| self.within(self.whole(i), least[i], COUNTED[i].lines))?;
        (0..self.word(0)).try_for_each(|i| self.listed(KIND_WORDS.line(i), 2))?;
        (0..self.word(5)).try_for_each(|section| self.section_counted(section))?;
        self.shapes().try_for_each(|l| self.within(l, 1, 16))?;
        (0..4).try_for_each(|i| self.listed(STRIP_WORDS.line(i), 2))?;
        self.strips().flatten().try_for_each(|l| self.within(l, 0, 8))?;
        self.marks().try_for_each(|(section, marks)| self.marks_counted(section, marks))
    }

    /// A section's marks, each on a lane that the section has.
    fn marks_counted(&self, section: usize, marks: List) -> Tested {
        self.within(marks, 0, 16)?;
        let lanes = self.lanes_of(section).len();
        (0..marks.count)
            .map(|i| mark_words(marks, i))
            .try_for_each(|at| check(self.word(at) < lanes, || Wrong::new(self.word_at(at), Reason::NoLane { section, lanes })))
    }

    fn section_counted(&self, section: usize) -> Tested {
        let lanes = self.lanes_of(section);
        self.side_counted(section, 1, 6)?;
        self.side_counted(section, 2, 6)?;
        check(lanes.start <= LANE_WORDS.lines && lanes.end <= LANE_WORDS.lines, || {
            let past = Reason::LanesPast { section, first: lanes.start, lanes: lanes.len() };
            Wrong::new(self.word_at(SECTION_WORDS.line(section)), past)
        })?;
        for lane in lanes {
            let (codes, l) = (LANE_WORDS.line(lane), self.lane(section, lane, 0.0));
            self.listed(codes, 1)?;
            self.listed(codes + 1, 1)?;
            self.within(l.extents, 0, 16)?;
            self.within(l.heights, 0, 8)?;
        }
        Ok(())
    }

    /// The left lanes of a section, by word 1 of its line, or the right ones, by word 2.
    fn side_counted(&self, section: usize, side: usize, most: usize) -> Tested {
        let at = SECTION_WORDS.line(section);
        let (lanes, left) = (self.word(at + side), side == 1);
        check(lanes <= most, || {
            let line = self.word(at) + if left { 0 } else { self.word(at + 1) } + most;
            Wrong::new(self.word_at(at + side), Reason::Side { section, left, lanes, most, line })
        })
    }

    fn within(&self, l: List, least: usize, most: usize) -> Tested {
        let counted = least <= l.count && l.count <= most;
        let inside = l.first <= l.table.lines && l.first + l.count <= l.table.lines;
        check(counted && inside, || {
            let count_word = if l.of == Of::Road { l.at } else { l.at + 1 };
            Wrong::new(self.word_at(if counted { l.at } else { count_word }), Reason::Lines { list: l, least, most })
        })
    }

    /// A code is one of the listed words.
    fn listed(&self, at: usize, most: usize) -> Tested {
        check(self.word(at) <= most, || Wrong::new(self.word_at(at), Reason::Code { most }))
    }

    fn word_at(&self, at: usize) -> Place {
        Place::Word { at, value: self.words[at] }
    }

    fn ordered(&self) -> Tested {
        let never_fall = |l: List| self.every_pair(l, Order::NeverFalls, |a, b| a <= b);
        let apart = |l: List| self.every_pair(l, Order::Apart, |a, b| b - a >= 0.001);
        let first = |l: List| Wrong::new(self.number(l, 0, 0), Reason::FirstStart);
        check(self.numbers[GEOM.at] == 0.0, || first(self.whole(0)))?;
        check(self.numbers[SECTION.at] == 0.0, || first(self.whole(5)))?;
        self.every_pair(self.whole(5), Order::Rises, |a, b| a < b)?;
        (0..5).try_for_each(|i| never_fall(self.whole(i)))?;
        apart(self.whole(6))?;
        for l in self.lanes() {
            never_fall(l.extents)?;
            apart(l.heights)?;
        }
        self.shapes().try_for_each(never_fall)?;
        self.strips().flatten().try_for_each(never_fall)?;
        self.marks().try_for_each(|(_, marks)| self.marks_ordered(marks))
    }

    /// A lane's starts never fall: each against the last before it on that lane, whatever stands between. A section has at most 12
    /// lanes, and each mark is on one of them.
    fn marks_ordered(&self, marks: List) -> Tested {
        let mut last = [None; 12];
        for i in 0..marks.count {
            let lane = self.word(mark_words(marks, i));
            if let Some(earlier) = last[lane].replace(i) {
                let (a, b) = (self.column(marks, earlier, 0), self.column(marks, i, 0));
                let order = Reason::MarkOrder { earlier: marks.first + earlier, before: a };
                check(a <= b, || Wrong::new(self.number(marks, i, 0), order))?;
            }
        }
        Ok(())
    }

    /// Each start of a list against the one before it.
    fn every_pair(&self, list: List, order: Order, test: fn(f64, f64) -> bool) -> Tested {
        (1..list.count).try_for_each(|i| {
            let (a, b) = (self.column(list, i - 1, 0), self.column(list, i, 0));
            check(test(a, b), || Wrong::new(self.number(list, i, 0), Reason::Order { order, before: a }))
        })
    }

    // ---- row 4

    fn limited(&self) -> Tested {
        let on_road = |l: List| self.each(l, 0, |s| in_range(s, 0.0, self.length()));
        self.told(ROAD, 0, 0, in_range(self.length(), 0.01, 10_000.0))?;
        (0..7).try_for_each(|i| on_road(self.whole(i)))?;
        (0..self.word(0)).try_for_each(|i| self.geom_limited(i))?;
        self.road_cubics_limited()?;
        self.lanes().try_for_each(|l| self.lane_limited(&l))?;
        self.shapes().try_for_each(|l| {
            self.each(l, 0, |t| in_range(t, -80.0, 80.0))?;
            self.at_most(Measure::Bound, l, 80.0, 40.0)
        })?;
        self.strips().try_for_each(|lists| {
            lists.into_iter().try_for_each(on_road)?;
            self.strip_limited(lists)
        })?;
        self.marks().try_for_each(|(section, marks)| self.marks_limited(marks, self.section_extent(section)))
    }

    /// A section's marks, each of a kind, its span in the section.
    fn marks_limited(&self, marks: List, extent: f64) -> Tested {
        for i in 0..marks.count {
            let (kind, [start, end]) = (mark_words(marks, i) + 1, [0, 1].map(|k| self.column(marks, i, k)));
            let (line, least, most) = (marks.first + i, 1, 255);
            let listed = least <= self.word(kind) && self.word(kind) <= most;
            check(listed, || Wrong::new(self.word_at(kind), Reason::Kind { list: marks, line, least, most }))?;
            self.told(marks, i, 0, span_start(start))?;
            self.told(marks, i, 0, span_within(start, extent))?;
            self.told(marks, i, 1, span_end(end, start))?;
            self.told(marks, i, 1, span_within(end, extent))?;
        }
        Ok(())
    }

    /// The outcome of a test of one number, with its place.
    fn told(&self, list: List, i: usize, column: usize, tested: Result<(), Limit>) -> Tested {
        tested.map_err(|limit| Wrong::new(self.number(list, i, column), Reason::Limit(limit)))
    }

    /// Tests a column of every line of a list.
    fn each(&self, list: List, column: usize, test: impl Fn(f64) -> Result<(), Limit>) -> Tested {
        (0..list.count).try_for_each(|i| self.told(list, i, column, test(self.column(list, i, column))))
    }

    fn geom_limited(&self, i: usize) -> Tested {
        let [_, x, y, hdg, length, k0, k1] = [0, 1, 2, 3, 4, 5, 6].map(|k| self.numbers[GEOM.line(i) + k]);
        let told = |column: usize, tested| self.told(self.whole(0), i, column, tested);
        told(1, size_at_most(x, 1_000_000.0))?;
        told(2, size_at_most(y, 1_000_000.0))?;
        told(3, size_at_most(hdg, 1_000.0))?;
        told(4, in_range(length, 0.01, 10_000.0))?;
        match self.word(KIND_WORDS.line(i)) {
            0 => told(5, unused(k0)).and_then(|()| told(6, unused(k1))),
            1 => told(5, arc(k0, 1e-9, 0.00001, 1.0)).and_then(|()| told(6, unused(k1))),
            _ => told(5, size_at_most(k0, 1.0)).and_then(|()| told(6, size_at_most(k1, 1.0))),
        }
    }

    fn road_cubics_limited(&self) -> Tested {
        for (i, limit) in [(1, 10_000.0), (2, 0.75), (3, 8.0), (4, 8.0)] {
            self.at_most(Measure::Bound, self.whole(i), self.length(), limit)?;
        }
        self.at_most(Measure::Slope, self.whole(1), self.length(), 1.0)
    }

    fn lane_limited(&self, lane: &LaneAt) -> Tested {
        let limit = if lane.border { 36.0 } else { 8.0 };
        self.each(lane.extents, 0, finite)?;
        self.each(lane.heights, 0, finite)?;
        self.at_most(Measure::Bound, lane.extents, lane.extent, limit)?;
        self.each(lane.heights, 1, |inner| size_at_most(inner, 2.0))?;
        self.each(lane.heights, 2, |outer| size_at_most(outer, 2.0))
    }

    fn strip_limited(&self, [width, terms @ ..]: [List; 5]) -> Tested {
        self.at_most(Measure::Bound, width, self.length(), 100.0)?;
        // One that is not finite has no greatest.
        terms.into_iter().try_for_each(|l| self.at_most(Measure::Bound, l, self.length(), f64::MAX))?;
        let greatest = |l: List| self.bounds(l, self.length()).fold(0.0, |g: f64, b| if b <= g { g } else { b });
        let [t0, t1, t2, t3] = terms.map(greatest);
        let (sum, most) = (((t3 * 88.0 + t2) * 88.0 + t1) * 88.0 + t0, 40.0);
        check(sum <= most, || self.too_much(terms, [t0, t1, t2, t3], sum, most))
    }

    /// A strip's terms that are too much together. The place is the line of the one with the greatest share.
    fn too_much(&self, lists: [List; 4], greatest: [f64; 4], sum: f64, most: f64) -> Box<Wrong> {
        let line = |l: List, b: f64| self.bounds(l, self.length()).position(|bound| bound == b).map(|i| l.first + i);
        let terms = [0, 1, 2, 3].map(|k| (greatest[k], line(lists[k], greatest[k])));
        let share = |k: &usize| greatest[*k] * 88f64.powi(*k as i32);
        let most_of_it = (0..4).max_by(|a, b| share(a).total_cmp(&share(b))).and_then(|k| terms[k].1);
        let place = most_of_it.map_or(Place::Whole, |line| Place::Line { table: Name::Cubic, line });
        Wrong::new(place, Reason::Terms { of: lists[0].of, terms, sum, most })
    }

    /// A measure of each cubic of a list that ends at `end`.
    fn at_most(&self, measure: Measure, list: List, end: f64, most: f64) -> Tested {
        (0..list.count).try_for_each(|i| {
            let (cubic, reach) = (self.cubic(list, i), self.reach(list, i, end));
            let value = if measure == Measure::Bound { bound(cubic, reach) } else { slope(cubic, reach) };
            check(value <= most, || {
                let (last, end) = (i + 1 == list.count, self.next(list, i, end));
                let place = Place::Line { table: list.name, line: list.first + i };
                Wrong::new(place, Reason::Measure(Measured { measure, list, cubic, value, reach, end, last, most }))
            })
        })
    }

    /// The start after a cubic's own, or the list's end.
    fn next(&self, list: List, i: usize, end: f64) -> f64 {
        if i + 1 < list.count { self.column(list, i + 1, 0) } else { end }
    }

    /// Reach D of a cubic of a list that ends at `end`.
    fn reach(&self, list: List, i: usize, end: f64) -> f64 {
        let at_least_0 = |x: f64| if x < 0.0 { 0.0 } else { x };
        at_least_0(self.next(list, i, end) - self.column(list, i, 0)) + 0.001
    }

    /// Bound B of each cubic of a list that ends at `end`.
    fn bounds(&self, list: List, end: f64) -> impl Iterator<Item = f64> {
        (0..list.count).map(move |i| bound(self.cubic(list, i), self.reach(list, i, end)))
    }

    // ---- row 5

    fn sampled(&self) -> Tested {
        let (samples, most) = (samples_of(self.words, self.numbers), 2000);
        let sum = samples.iter().sum();
        let of = |line: usize| Spiral { line, length: self.numbers[GEOM.line(line) + 4], samples: samples[line] };
        let spirals = || (0..samples.len()).filter(|&line| samples[line] > 0).map(of).collect();
        check(sum <= most, || Wrong::new(Place::Whole, Reason::Samples { spirals: spirals(), sum, most }))
    }
}

/// Bound B of a cubic of reach D.
pub fn bound(c: Cubic, d: f64) -> f64 {
    ((c.a.abs() + c.b.abs() * d) + (c.c.abs() * d) * d) + ((c.d.abs() * d) * d) * d
}

/// The greatest slope of a cubic of reach D.
pub fn slope(c: Cubic, d: f64) -> f64 {
    c.b.abs() + (2.0 * c.c.abs()) * d + ((3.0 * c.d.abs()) * d) * d
}
