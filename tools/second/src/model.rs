// A road as nested lists, and its place in lent memory (include/riftkettle.h says where each table stands).
use crate::random::Rng;

#[derive(Debug, Clone, Copy, PartialEq, Default)]
pub struct Cubic {
    pub start: f64,
    pub a: f64,
    pub b: f64,
    pub c: f64,
    pub d: f64,
}

#[derive(Debug, Clone, Copy, PartialEq)]
pub enum Shape {
    Line,
    Arc(f64),
    Spiral(f64, f64),
}

#[derive(Debug, Clone, Copy, PartialEq)]
pub struct Geom {
    pub s: f64,
    pub x: f64,
    pub y: f64,
    pub hdg: f64,
    pub length: f64,
    pub shape: Shape,
}

#[derive(Debug, Clone, Copy, PartialEq)]
pub struct Height {
    pub start: f64,
    pub inner: f64,
    pub outer: f64,
}

#[derive(Debug, Clone, PartialEq, Default)]
pub struct Lane {
    pub border: bool,
    pub level: bool,
    pub extents: Vec<Cubic>,
    pub heights: Vec<Height>,
}

/// A span of paint on a lane of its section. The lane is its place among those of the section, the left ones outward, then the right
/// ones; start and end count from the section's start.
#[derive(Debug, Clone, Copy, PartialEq)]
pub struct Mark {
    pub lane: usize,
    pub kind: u16,
    pub start: f64,
    pub end: f64,
}

impl Mark {
    /// Whether it covers its lane so far into its section.
    pub fn covers(&self, d: f64) -> bool {
        self.start <= d && d < self.end
    }
}

#[derive(Debug, Clone, PartialEq, Default)]
pub struct Section {
    pub start: f64,
    pub left: Vec<Lane>,
    pub right: Vec<Lane>,
    pub marks: Vec<Mark>,
}

impl Section {
    /// The id of a lane by its place among the section's, the left ones outward, then the right ones.
    pub fn id(&self, place: usize) -> i32 {
        let left = self.left.len();
        if place < left { place as i32 + 1 } else { -((place - left) as i32 + 1) }
    }
}

#[derive(Debug, Clone, PartialEq)]
pub struct Profile {
    pub s: f64,
    pub shapes: Vec<Cubic>,
}

/// The lists are the width's cubics, then those of the terms 0..3.
#[derive(Debug, Clone, PartialEq, Default)]
pub struct Strip {
    pub relative: bool,
    pub lists: [Vec<Cubic>; 5],
}

/// The strips are left inner, left outer, right inner, right outer.
#[derive(Debug, Clone, PartialEq, Default)]
pub struct Road {
    pub length: f64,
    pub geoms: Vec<Geom>,
    pub elev: Vec<Cubic>,
    pub bank: Vec<Cubic>,
    pub offset: Vec<Cubic>,
    pub tshift: Vec<Cubic>,
    pub sections: Vec<Section>,
    pub profiles: Vec<Profile>,
    pub strips: [Option<Strip>; 4],
}

/// A table of numbers: where it begins, how many lines it has, how many numbers a line.
#[derive(Debug, Clone, Copy)]
pub struct Table {
    pub at: usize,
    pub lines: usize,
    pub columns: usize,
}

const fn table(at: usize, lines: usize, columns: usize) -> Table {
    Table { at, lines, columns }
}

impl Table {
    pub fn line(self, i: usize) -> usize {
        self.at + i * self.columns
    }
}

pub const GEOM: Table = table(1, 64, 7);
pub const ELEV: Table = table(449, 64, 5);
pub const BANK: Table = table(769, 64, 5);
pub const OFFSET: Table = table(1089, 64, 5);
pub const TSHIFT: Table = table(1409, 64, 5);
pub const SECTION: Table = table(1729, 16, 1);
pub const EXTENT: Table = table(1745, 512, 5);
pub const HEIGHT: Table = table(4305, 512, 3);
pub const PROFILE: Table = table(5841, 16, 1);
pub const SHAPE: Table = table(5857, 256, 5);
pub const CUBIC: Table = table(7137, 160, 5);
/// The start and the end of each mark; its words are in `MARK_WORDS`.
pub const MARK: Table = table(7937, 256, 2);
pub const NUMBERS: usize = 8449;

/// Where each kind of word stands, and how many words a line.
pub const KIND_WORDS: Table = table(7, 64, 1);
pub const SECTION_WORDS: Table = table(71, 16, 3);
pub const LANE_WORDS: Table = table(119, 192, 6);
pub const PROFILE_WORDS: Table = table(1271, 16, 2);
pub const STRIP_WORDS: Table = table(1303, 4, 11);
/// Of each section its range of marks, and of each mark the place of its lane and its kind.
pub const SECTION_MARK_WORDS: Table = table(1347, 16, 2);
pub const MARK_WORDS: Table = table(1379, 256, 2);
pub const WORDS: usize = 1891;

/// The tables whose counts are words 0..6, in that order.
pub const COUNTED: [Table; 7] = [GEOM, ELEV, BANK, OFFSET, TSHIFT, SECTION, PROFILE];

#[derive(Debug, Clone, PartialEq)]
pub struct Memory {
    pub words: Vec<u16>,
    pub numbers: Vec<f64>,
}

/// How a road is put into memory where the layout leaves a choice.
#[derive(Debug, Clone, Copy, Default)]
pub struct Style {
    /// Lists that are equal share their lines.
    pub share: bool,
    /// Lines are left unused between lists, where there is room.
    pub gaps: bool,
    /// What no range names holds random bits, not zeros.
    pub garbage: bool,
    /// The slices are longer than the layout.
    pub longer: bool,
}

impl Style {
    pub fn random(rng: &mut Rng) -> Self {
        Self { share: rng.one_in(2), gaps: rng.one_in(2), garbage: rng.one_in(2), longer: rng.one_in(4) }
    }
}

fn flat(list: &[Cubic]) -> Vec<f64> {
    list.iter().flat_map(|c| [c.start, c.a, c.b, c.c, c.d]).collect()
}

fn flat_heights(list: &[Height]) -> Vec<f64> {
    list.iter().flat_map(|h| [h.start, h.inner, h.outer]).collect()
}

fn flat_mark(mark: &Mark) -> [f64; 4] {
    [mark.lane as f64, f64::from(mark.kind), mark.start, mark.end]
}

impl Road {
    pub fn lanes(&self) -> impl Iterator<Item = &Lane> {
        self.sections.iter().flat_map(|s| s.left.iter().chain(&s.right))
    }

    pub fn spirals(&self) -> usize {
        self.geoms.iter().filter(|g| matches!(g.shape, Shape::Spiral(..))).count()
    }

    /// The road in memory, or None where its lists do not fit the tables.
    pub fn lay(&self, rng: &mut Rng, style: Style) -> Option<Memory> {
        let more = |rng: &mut Rng| if style.longer { rng.from_to(1, 9) } else { 0 };
        let (more_words, more_numbers) = (more(rng), more(rng));
        let mut m = Memory { words: vec![0; WORDS + more_words], numbers: vec![0.0; NUMBERS + more_numbers] };
        if style.garbage {
            m.words.iter_mut().for_each(|w| *w = rng.bits() as u16);
            m.numbers.iter_mut().for_each(|x| *x = rng.pattern());
        }
        m.numbers[0] = self.length;
        self.lay_geoms(&mut m)?;
        for (i, list) in [&self.elev, &self.bank, &self.offset, &self.tshift].into_iter().enumerate() {
            let table = COUNTED[1 + i];
            m.count(1 + i, list.len(), table.lines)?;
            m.put(table.at, &flat(list));
        }
        let extents: Vec<Vec<f64>> = self.lanes().map(|l| flat(&l.extents)).collect();
        let heights: Vec<Vec<f64>> = self.lanes().map(|l| flat_heights(&l.heights)).collect();
        let shapes: Vec<Vec<f64>> = self.profiles.iter().map(|p| flat(&p.shapes)).collect();
        let cubics: Vec<Vec<f64>> = self.strips.iter().flatten().flat_map(|s| s.lists.iter().map(|l| flat(l))).collect();
        let extents = m.place(EXTENT, &extents, rng, style)?;
        let heights = m.place(HEIGHT, &heights, rng, style)?;
        let shapes = m.place(SHAPE, &shapes, rng, style)?;
        let cubics = m.place(CUBIC, &cubics, rng, style)?;
        self.lay_lanes(&mut m, &extents, &heights)?;
        self.lay_marks(&mut m, rng, style)?;
        m.count(6, self.profiles.len(), PROFILE.lines)?;
        for (i, p) in self.profiles.iter().enumerate() {
            m.numbers[PROFILE.at + i] = p.s;
            m.range(PROFILE_WORDS.line(i), shapes[i]);
        }
        let mut next = cubics.iter();
        for (i, strip) in self.strips.iter().enumerate() {
            let at = STRIP_WORDS.line(i);
            m.words[at] = strip.as_ref().map_or(0, |s| 1 + u16::from(s.relative));
            for (k, range) in next.by_ref().take(if strip.is_some() { 5 } else { 0 }).enumerate() {
                m.range(at + 1 + 2 * k, *range);
            }
        }
        Some(m)
    }

    fn lay_geoms(&self, m: &mut Memory) -> Option<()> {
        m.count(0, self.geoms.len(), GEOM.lines)?;
        for (i, g) in self.geoms.iter().enumerate() {
            let (kind, k0, k1) = match g.shape {
                Shape::Line => (0, 0.0, 0.0),
                Shape::Arc(k) => (1, k, 0.0),
                Shape::Spiral(k0, k1) => (2, k0, k1),
            };
            m.words[KIND_WORDS.line(i)] = kind;
            m.put(GEOM.line(i), &[g.s, g.x, g.y, g.hdg, g.length, k0, k1]);
        }
        Some(())
    }

    fn lay_lanes(&self, m: &mut Memory, extents: &[(usize, usize)], heights: &[(usize, usize)]) -> Option<()> {
        m.count(5, self.sections.len(), SECTION.lines)?;
        let mut lane = 0;
        for (i, section) in self.sections.iter().enumerate() {
            m.numbers[SECTION.at + i] = section.start;
            let counts = [lane, section.left.len(), section.right.len()].map(|n| n as u16);
            m.words[SECTION_WORDS.line(i)..][..3].copy_from_slice(&counts);
            for l in section.left.iter().chain(&section.right) {
                if lane == LANE_WORDS.lines {
                    return None;
                }
                let at = LANE_WORDS.line(lane);
                m.words[at] = u16::from(l.border);
                m.words[at + 1] = u16::from(l.level);
                m.range(at + 2, extents[lane]);
                m.range(at + 4, heights[lane]);
                lane += 1;
            }
        }
        Some(())
    }

    /// A section's marks stand in one range, whose lines have words and numbers.
    fn lay_marks(&self, m: &mut Memory, rng: &mut Rng, style: Style) -> Option<()> {
        let lists: Vec<Vec<[f64; 4]>> = self.sections.iter().map(|s| s.marks.iter().map(flat_mark).collect()).collect();
        for (i, (section, range)) in self.sections.iter().zip(ranges(MARK.lines, &lists, rng, style)?).enumerate() {
            m.range(SECTION_MARK_WORDS.line(i), range);
            for (line, mark) in (range.0..).zip(&section.marks) {
                m.words[MARK_WORDS.line(line)..][..2].copy_from_slice(&[mark.lane as u16, mark.kind]);
                m.put(MARK.line(line), &[mark.start, mark.end]);
            }
        }
        Some(())
    }
}

impl Memory {
    fn count(&mut self, word: usize, n: usize, limit: usize) -> Option<()> {
        self.words[word] = n as u16;
        (n <= limit).then_some(())
    }

    fn put(&mut self, at: usize, numbers: &[f64]) {
        self.numbers[at..][..numbers.len()].copy_from_slice(numbers);
    }

    fn range(&mut self, at: usize, (first, count): (usize, usize)) {
        self.words[at] = first as u16;
        self.words[at + 1] = count as u16;
    }

    /// Puts each list into the table and answers the range (first line, lines) of each.
    fn place(&mut self, table: Table, lists: &[Vec<f64>], rng: &mut Rng, style: Style) -> Option<Vec<(usize, usize)>> {
        let lines: Vec<Vec<&[f64]>> = lists.iter().map(|list| list.chunks(table.columns).collect()).collect();
        let ranges = ranges(table.lines, &lines, rng, style)?;
        for (list, range) in lists.iter().zip(&ranges) {
            self.put(table.line(range.0), list);
        }
        Some(ranges)
    }
}

/// A range (first line, lines) for each list in a table of that many lines.
fn ranges<L: PartialEq>(lines_there: usize, lists: &[Vec<L>], rng: &mut Rng, style: Style) -> Option<Vec<(usize, usize)>> {
    let mut ranges: Vec<(usize, usize)> = Vec::new();
    let (mut used, needed) = (0, lists.iter().map(Vec::len).sum::<usize>());
    let mut spare = if style.gaps { lines_there.saturating_sub(needed) } else { 0 };
    for (i, list) in lists.iter().enumerate() {
        let lines = list.len();
        let same = (0..i).find(|&j| style.share && lists[j] == *list);
        if lines == 0 {
            ranges.push((if style.gaps { rng.from_to(0, lines_there) } else { used.min(lines_there) }, 0));
            continue;
        }
        if let Some(j) = same {
            ranges.push(ranges[j]);
            continue;
        }
        if spare > 0 && rng.one_in(3) {
            let gap = rng.from_to(1, spare.min(7));
            used += gap;
            spare -= gap;
        }
        if used + lines > lines_there {
            return None;
        }
        ranges.push((used, lines));
        used += lines;
    }
    Some(ranges)
}

// ---- back from memory

struct Reading<'a> {
    words: &'a [u16],
    numbers: &'a [f64],
}

impl Reading<'_> {
    fn word(&self, at: usize) -> usize {
        usize::from(self.words[at])
    }

    fn lines(&self, t: Table, first: usize, count: usize) -> impl Iterator<Item = &[f64]> {
        self.numbers[t.line(first)..t.line(first + count)].chunks(t.columns)
    }

    fn cubics(&self, t: Table, first: usize, count: usize) -> Vec<Cubic> {
        self.lines(t, first, count).map(|c| Cubic { start: c[0], a: c[1], b: c[2], c: c[3], d: c[4] }).collect()
    }

    /// The cubics of the range that stands at a place of the words.
    fn cubics_at(&self, t: Table, at: usize) -> Vec<Cubic> {
        self.cubics(t, self.word(at), self.word(at + 1))
    }

    fn geom(&self, i: usize) -> Geom {
        let g = &self.numbers[GEOM.line(i)..][..7];
        let shape = match self.word(KIND_WORDS.line(i)) {
            0 => Shape::Line,
            1 => Shape::Arc(g[5]),
            _ => Shape::Spiral(g[5], g[6]),
        };
        Geom { s: g[0], x: g[1], y: g[2], hdg: g[3], length: g[4], shape }
    }

    fn lane(&self, i: usize) -> Lane {
        let at = LANE_WORDS.line(i);
        let heights = self.lines(HEIGHT, self.word(at + 4), self.word(at + 5));
        Lane {
            border: self.word(at) == 1,
            level: self.word(at + 1) == 1,
            extents: self.cubics_at(EXTENT, at + 2),
            heights: heights.map(|h| Height { start: h[0], inner: h[1], outer: h[2] }).collect(),
        }
    }

    fn section(&self, i: usize) -> Section {
        let [first, left, right] = [0, 1, 2].map(|k| self.word(SECTION_WORDS.line(i) + k));
        let lanes = |from: usize, n: usize| (from..from + n).map(|i| self.lane(i)).collect();
        let [first_mark, marks] = [0, 1].map(|k| self.word(SECTION_MARK_WORDS.line(i) + k));
        Section {
            start: self.numbers[SECTION.at + i],
            left: lanes(first, left),
            right: lanes(first + left, right),
            marks: (first_mark..first_mark + marks).map(|i| self.mark(i)).collect(),
        }
    }

    fn mark(&self, i: usize) -> Mark {
        let (words, span) = (MARK_WORDS.line(i), &self.numbers[MARK.line(i)..][..2]);
        Mark { lane: self.word(words), kind: self.words[words + 1], start: span[0], end: span[1] }
    }

    fn strip(&self, i: usize) -> Option<Strip> {
        let at = STRIP_WORDS.line(i);
        let lists = || [0, 1, 2, 3, 4].map(|k| self.cubics_at(CUBIC, at + 1 + 2 * k));
        (self.word(at) != 0).then(|| Strip { relative: self.word(at) == 2, lists: lists() })
    }

    fn profile(&self, i: usize) -> Profile {
        Profile { s: self.numbers[PROFILE.at + i], shapes: self.cubics_at(SHAPE, PROFILE_WORDS.line(i)) }
    }
}

impl Road {
    /// The road of an admitted memory.
    pub fn read(words: &[u16], numbers: &[f64]) -> Self {
        let m = Reading { words, numbers };
        Self {
            length: numbers[0],
            geoms: (0..m.word(0)).map(|i| m.geom(i)).collect(),
            elev: m.cubics(ELEV, 0, m.word(1)),
            bank: m.cubics(BANK, 0, m.word(2)),
            offset: m.cubics(OFFSET, 0, m.word(3)),
            tshift: m.cubics(TSHIFT, 0, m.word(4)),
            sections: (0..m.word(5)).map(|i| m.section(i)).collect(),
            profiles: (0..m.word(6)).map(|i| m.profile(i)).collect(),
            strips: [0, 1, 2, 3].map(|i| m.strip(i)),
        }
    }
}
