// Job texts: roads as the tables of documents 01 and 02, and texts damaged in every way that their form and limits can tell.
use crate::admission::spiral_samples;
use crate::generate;
use crate::model::*;
use crate::random::{Rng, nudge};
use crate::reader::{Cell, Form, Name, TABLES, TEXT};
use std::ops::Range;

/// A job's text with the places of its parts, so that damage can be aimed.
pub struct Job {
    pub text: Vec<u8>,
    pub parts: Vec<Part>,
}

/// One table of the text. Ranges of lines have their LF in them.
pub struct Part {
    pub form: &'static Form,
    /// The columns, by their place in 01, in the order of the line of names.
    pub order: Vec<usize>,
    pub names: Range<usize>,
    pub lines: Vec<Range<usize>>,
}

impl Part {
    /// All of it, the empty line too.
    pub fn whole(&self) -> Range<usize> {
        self.names.start..self.lines.last().unwrap_or(&self.names).end + 1
    }
}

/// How a job is written where the form leaves a choice.
#[derive(Clone, Copy, Default)]
pub struct Writing {
    /// Columns and strips stand in a random order, not in 01's.
    pub permuted: bool,
    /// Tables without lines are written, not missing.
    pub empty: bool,
}

impl Writing {
    pub fn random(rng: &mut Rng) -> Self {
        Self { permuted: rng.one_in(2), empty: rng.one_in(2) }
    }
}

fn shuffle<T>(rng: &mut Rng, list: &mut [T]) {
    for i in (1..list.len()).rev() {
        list.swap(i, rng.below(i + 1));
    }
}

/// The cells of one line, by the columns' order in 01.
type Cells = Vec<String>;

pub fn digits(x: f64) -> String {
    format!("{:016x}", x.to_bits())
}

fn cubic(c: &Cubic) -> impl Iterator<Item = String> {
    [c.start, c.a, c.b, c.c, c.d].map(digits).into_iter()
}

/// The lines of every table of a road with its wants. Strips come in the given order.
pub fn tables(road: &Road, wants: &[[f64; 2]], strips: [usize; 4]) -> [Vec<Cells>; TABLES.len()] {
    let mut tables: [Vec<Cells>; TABLES.len()] = Default::default();
    let mut add = |table: Name, cells: Cells| tables[table as usize].push(cells);
    add(Name::Road, vec![digits(road.length)]);
    for g in &road.geoms {
        let (kind, k0, k1) = match g.shape {
            Shape::Line => ("line", 0.0, 0.0),
            Shape::Arc(k) => ("arc", k, 0.0),
            Shape::Spiral(k0, k1) => ("spiral", k0, k1),
        };
        let [s, x, y, hdg, length, k0, k1] = [g.s, g.x, g.y, g.hdg, g.length, k0, k1].map(digits);
        add(Name::Geom, vec![s, x, y, hdg, length, kind.into(), k0, k1]);
    }
    let along = [(Name::Elev, &road.elev), (Name::Bank, &road.bank), (Name::Offset, &road.offset), (Name::Tshift, &road.tshift)];
    for (table, list) in along {
        list.iter().for_each(|c| add(table, cubic(c).collect()));
    }
    lane_tables(road, &mut add);
    for (i, profile) in road.profiles.iter().enumerate() {
        add(Name::Profile, vec![digits(profile.s)]);
        profile.shapes.iter().for_each(|c| add(Name::Shape, [i.to_string()].into_iter().chain(cubic(c)).collect()));
    }
    for (i, strip) in strips.into_iter().filter_map(|i| Some((i, road.strips[i].as_ref()?))) {
        let pair = || [["left", "right"][i / 2].to_string(), (i % 2).to_string()].into_iter();
        add(Name::Strip, pair().chain([u8::from(strip.relative).to_string()]).collect());
        for (term, list) in ["width", "0", "1", "2", "3"].into_iter().zip(&strip.lists) {
            list.iter().for_each(|c| add(Name::Cubic, pair().chain([term.to_string()]).chain(cubic(c)).collect()));
        }
    }
    wants.iter().for_each(|w| add(Name::Want, w.map(digits).into()));
    tables
}

/// Sections with their lanes, and what stands on the lanes.
fn lane_tables(road: &Road, add: &mut impl FnMut(Name, Cells)) {
    for (i, section) in road.sections.iter().enumerate() {
        add(Name::Section, vec![digits(section.start)]);
        let left = (1..).zip(&section.left);
        let right = (1..).map(|id: i32| -id).zip(&section.right);
        for (id, lane) in left.chain(right) {
            let of_lane = || [i.to_string(), id.to_string()].into_iter();
            let words = [if lane.border { "border" } else { "width" }.into(), u8::from(lane.level).to_string()];
            add(Name::Lane, of_lane().chain(words).collect());
            lane.extents.iter().for_each(|c| add(Name::Extent, of_lane().chain(cubic(c)).collect()));
            let heights = lane.heights.iter().map(|h| [h.start, h.inner, h.outer].map(digits));
            heights.for_each(|h| add(Name::Height, of_lane().chain(h).collect()));
        }
        for mark in &section.marks {
            let [start, end] = [mark.start, mark.end].map(digits);
            add(Name::Mark, vec![i.to_string(), section.id(mark.lane).to_string(), start, end, mark.kind.to_string()]);
        }
    }
}

impl Job {
    pub fn of(rng: &mut Rng, road: &Road, wants: &[[f64; 2]], writing: Writing) -> Self {
        let mut strips = [0, 1, 2, 3];
        if writing.permuted {
            shuffle(rng, &mut strips);
        }
        let mut job = Self { text: Vec::new(), parts: Vec::new() };
        for (form, lines) in TABLES.iter().zip(tables(road, wants, strips)) {
            let mut order: Vec<usize> = (0..form.columns.len()).collect();
            if writing.permuted {
                shuffle(rng, &mut order);
            }
            if writing.empty || !lines.is_empty() {
                job.write(form, order, &lines);
            }
        }
        job
    }

    /// Appends a table, its columns in that order.
    pub fn write(&mut self, form: &'static Form, order: Vec<usize>, lines: &[Cells]) {
        let names: Vec<&str> = order.iter().map(|&i| form.columns[i].0).collect();
        let names = self.line(&[form.name, &names.join(" ")]);
        let mut line = |cells: &Cells| self.line(&order.iter().map(|&i| cells[i].as_str()).collect::<Vec<_>>());
        let lines = lines.iter().map(&mut line).collect();
        self.text.push(b'\n');
        self.parts.push(Part { form, order, names, lines });
    }

    fn line(&mut self, words: &[&str]) -> Range<usize> {
        let start = self.text.len();
        self.text.extend(words.join(" ").bytes());
        self.text.push(b'\n');
        start..self.text.len()
    }

    /// The range of every line of the text.
    pub fn lines(&self) -> Vec<Range<usize>> {
        let part = |p: &Part| {
            let whole = p.whole();
            [p.names.clone()].into_iter().chain(p.lines.clone()).chain([whole.end - 1..whole.end])
        };
        self.parts.iter().flat_map(part).collect()
    }

    pub fn part(&self, table: Name) -> &Part {
        self.parts.iter().find(|p| p.form.table == table).expect("the table is written")
    }

    /// The range of one cell of a line, by its place in the line.
    pub fn cell(&self, line: &Range<usize>, i: usize) -> Range<usize> {
        let words = self.text[line.start..line.end - 1].split(|&b| b == b' ');
        let start = line.start + words.clone().take(i).map(|w| w.len() + 1).sum::<usize>();
        start..start + words.skip(i).map(<[u8]>::len).next().unwrap_or(0)
    }
}

// ---- jobs that are read

/// Wants: on the road, at its ends and edges and beside them, off it, any bits.
pub fn wants(rng: &mut Rng, length: f64) -> Vec<[f64; 2]> {
    let n = rng.pick(&[0, 1, 2, 16, 15, 3]);
    (0..n).map(|_| want(rng, length)).collect()
}

fn want(rng: &mut Rng, length: f64) -> [f64; 2] {
    let no_number = [f64::NAN, -f64::NAN, f64::INFINITY, f64::NEG_INFINITY, f64::from_bits((0x7ff0 << 48) + 1)];
    let one_beside = |rng: &mut Rng, x: f64| nudge(x, rng.from_to(0, 2) as i32 - 1);
    let (end, edge) = (rng.pick(&[0.0, -0.0, length]), rng.pick(&[80.0, -80.0, 0.0, -0.0]));
    let s = match rng.below(8) {
        0 => rng.pattern(),
        1 => one_beside(rng, end),
        2 => rng.pick(&no_number),
        _ => rng.unit() * length,
    };
    let t = match rng.below(8) {
        0 => rng.pattern(),
        1 => one_beside(rng, edge),
        2 => rng.pick(&no_number),
        3 => rng.between(-81.0, 81.0),
        _ => rng.between(-9.0, 9.0),
    };
    [s, t]
}

/// A random job. Most are read; some roads need more text or lines than there may be.
pub fn made(rng: &mut Rng) -> Job {
    let mut road = generate::draft(rng);
    if rng.one_in(3) {
        few_lines(rng, &mut road);
    }
    if rng.one_in(12) {
        spirals(rng, &mut road);
    }
    let (wants, writing) = (wants(rng, road.length), Writing::random(rng));
    Job::of(rng, &road, &wants, writing)
}

/// Leaves most lists short, so that the text is.
fn few_lines(rng: &mut Rng, road: &mut Road) {
    let most = rng.from_to(0, 2);
    road.geoms.truncate(most.max(1));
    for list in [&mut road.elev, &mut road.bank, &mut road.offset, &mut road.tshift] {
        list.drain(..list.len().saturating_sub(most));
    }
    for lane in road.sections.iter_mut().flat_map(|s| s.left.iter_mut().chain(&mut s.right)) {
        lane.extents.drain(..lane.extents.len().saturating_sub(most));
        lane.heights.truncate(most);
    }
    road.sections.iter_mut().for_each(|section| section.marks.truncate(most));
    road.profiles.truncate(most);
    for profile in &mut road.profiles {
        profile.shapes.drain(..profile.shapes.len().saturating_sub(most.max(1)));
    }
}

/// Spirals that need about 2,000 samples together.
fn spirals(rng: &mut Rng, road: &mut Road) {
    let mut left: usize = 2000;
    for g in &mut road.geoms {
        let length = if rng.one_in(2) { rng.pick(&[499.5, 499.75, 500.0, 10_000.0]) } else { (left / 4) as f64 - 0.25 };
        if (0.01..=10_000.0).contains(&length) {
            (g.shape, g.length) = (Shape::Spiral(0.01, 0.0), length);
            left = left.saturating_sub(spiral_samples(length));
        }
    }
}

/// How long the sample job is.
pub const SAMPLE_BYTES: u64 = 2_098;
pub const SAMPLE_LINES: u64 = 62;

/// A short job with lines in every table, columns and strips permuted.
pub fn sample() -> Job {
    let mut rng = Rng::new(1, "sample job");
    let mut road = generate::small();
    let list = |starts: &[f64]| starts.iter().map(|&start| Cubic { start, a: 0.25, ..Cubic::default() }).collect::<Vec<_>>();
    (road.elev, road.bank, road.offset) = (list(&[0.0]), list(&[2.0]), list(&[0.0]));
    road.tshift = list(&[5.0]);
    for lane in road.sections.iter_mut().flat_map(|s| s.left.iter_mut().chain(&mut s.right)) {
        lane.extents.truncate(1);
        lane.heights.truncate(1);
    }
    road.sections[0].left.truncate(1);
    road.sections[0].right[1].heights.clear();
    road.sections[0].right[1].border = true;
    road.sections.push(Section { start: 50.0, left: vec![Lane { level: true, ..Lane::default() }], ..Section::default() });
    let mark = |lane, kind, start, end| Mark { lane, kind, start, end };
    road.sections[0].marks = vec![mark(0, 1, 0.0, 25.0), mark(2, 255, 5.0, 5.0), mark(0, 16, 10.0, 50.0)];
    road.sections[1].marks = vec![mark(0, 7, 0.0, 50.0)];
    road.profiles[0].shapes.truncate(1);
    let strip = Strip { relative: true, lists: [list(&[0.0]), list(&[1.0]), Vec::new(), Vec::new(), Vec::new()] };
    road.strips = [None, Some(Strip::default()), Some(strip), None];
    Job::of(&mut rng, &road, &[[1.0, 2.0]], Writing { permuted: true, empty: true })
}

/// A job of exactly so many bytes that is read, 57,000..67,000 or so: lines in every table, most well filled.
pub fn of_bytes(bytes: usize) -> Job {
    let write = |road: &Road| {
        let wants = [[1.0, 2.0]; 16];
        Job::of(&mut Rng::new(1, "of bytes"), road, &wants, Writing { permuted: true, empty: true })
    };
    let mut road = generate::full();
    let left_out = |lanes: &mut Vec<Lane>| {
        lanes.truncate(3);
        lanes.iter_mut().for_each(|lane| lane.extents.truncate(2));
        lanes.iter_mut().for_each(|lane| lane.heights.truncate(2));
    };
    road.sections.iter_mut().for_each(|s| [&mut s.left, &mut s.right].into_iter().for_each(left_out));
    road.sections.iter_mut().for_each(|s| s.marks.truncate(2));
    road.profiles.truncate(8);
    road.profiles.iter_mut().for_each(|p| p.shapes.truncate(8));
    for list in road.strips.iter_mut().flatten().flat_map(|s| &mut s.lists) {
        list.truncate(4);
    }
    for g in &mut road.geoms {
        (g.shape, g.length) = (Shape::Line, 1.5);
    }
    let long = [&mut road.elev, &mut road.bank, &mut road.offset, &mut road.tshift].map(std::mem::take);
    // Lines along the road, 85 bytes each, then words of another length for `line`: 2 bytes more, or one less.
    let lines = (bytes - write(&road).text.len()) / 85;
    let [elev, bank, offset, tshift] = [0, 1, 2, 3].map(|i| long[i][..(lines + i) / 4].to_vec());
    (road.elev, road.bank, road.offset, road.tshift) = (elev, bank, offset, tshift);
    let more = bytes - write(&road).text.len();
    for g in road.geoms.iter_mut().take(more.div_ceil(2)) {
        g.shape = Shape::Spiral(0.0, 0.0);
    }
    if more % 2 == 1 {
        road.geoms[63].shape = Shape::Arc(0.0);
    }
    write(&road)
}

// ---- damage

/// Bytes of the text and what stands in their place.
pub type Edit = (Range<usize>, Vec<u8>);

/// The text with the edits made; one that overlaps an earlier one is left out.
pub fn edited(text: &[u8], mut edits: Vec<Edit>) -> Vec<u8> {
    edits.sort_by_key(|(at, _)| (at.start, at.end));
    let (mut new, mut done) = (Vec::with_capacity(text.len() + 64), 0);
    for (at, with) in edits.into_iter().filter(|(at, _)| at.end <= text.len()) {
        if at.start >= done {
            new.extend(&text[done..at.start]);
            new.extend(with);
            done = at.end;
        }
    }
    new.extend(&text[done..]);
    new
}

/// A way to damage a job.
pub type Damage = (&'static str, fn(&mut Rng, &Job) -> Vec<Edit>);

pub const DAMAGES: &[Damage] = &[
    ("byte", byte),
    ("cut", cut),
    ("line", line),
    ("broken cell", broken_cell),
    ("other value", other_value),
    ("names", names),
    ("table", table),
    ("filled table", filled_table),
    ("over its limit", over_limit),
    ("marks", marks),
    ("several", several),
];

/// Bytes whose damage tells most.
const TELLING: &[u8; 18] = b"\n 0a-A124f\rg9\t+.\0\x80";

/// Every byte once, the telling ones first.
pub fn other_bytes() -> Vec<u8> {
    TELLING.iter().copied().chain((0..=255).filter(|b| !TELLING.contains(b))).collect()
}

fn byte(rng: &mut Rng, job: &Job) -> Vec<Edit> {
    let at = rng.below(job.text.len());
    let with = if rng.one_in(2) { rng.pick(TELLING) } else { rng.bits() as u8 };
    vec![match rng.below(4) {
        0 => (at..at, vec![with]),
        1 => (at..at + 1, Vec::new()),
        _ => (at..at + 1, vec![with]),
    }]
}

fn cut(rng: &mut Rng, job: &Job) -> Vec<Edit> {
    let n = job.text.len();
    let lines = job.lines();
    let at = match rng.below(4) {
        0 => lines[rng.below(lines.len())].end,
        1 => n - rng.from_to(1, 3.min(n)),
        2 => job.parts[rng.below(job.parts.len())].whole().end,
        _ => rng.below(n + 1),
    };
    vec![if rng.one_in(6) { (0..at, Vec::new()) } else { (at..n, Vec::new()) }]
}

/// A line dropped, doubled, moved or swapped, one more empty line, or one more byte before its LF.
fn line(rng: &mut Rng, job: &Job) -> Vec<Edit> {
    let lines = job.lines();
    let i = rng.below(lines.len());
    let (a, b) = (lines[i].clone(), if rng.one_in(2) { (i + 1) % lines.len() } else { rng.below(lines.len()) });
    let (b, of) = (lines[b].clone(), |at: &Range<usize>| job.text[at.clone()].to_vec());
    match rng.below(6) {
        0 => vec![(a, Vec::new())],
        1 => vec![(a.start..a.start, of(&a))],
        2 => vec![(b.start..b.start, of(&a)), (a, Vec::new())],
        3 => vec![(a.clone(), of(&b)), (b, of(&a))],
        4 => vec![(a.start..a.start, b"\n".to_vec())],
        _ => vec![(a.end - 1..a.end - 1, vec![rng.pick(b"\r \t0")])],
    }
}

/// Cells that are no numbers.
const NO_NUMBERS: &[&str] = &[
    "3ff00000000000000",
    "3ff000000000000",
    "3FF0000000000000",
    "3ff000000000000g",
    "+3ff000000000000",
    "-3ff000000000000",
    "3ff00000 0000000",
    "7FF8000000000000",
    "inf",
    "nan",
    "1.0",
];

/// Cells that are no whole numbers.
const NO_WHOLES: &[&str] = &[
    "-", "-0", "+1", "+0", "00", "01", "-01", "10000", "-10000", "99999", "0000", "1.0", "1e3", "0x1", "1_0", " 1", "1 ", "--1",
];

/// Cells that few columns list, or none.
const NO_WORDS: &[&str] = &[
    "", "Line", "LINE", "lin", "lines", "widths", "Width", "2", "4", "5", "-1", "00", "01", "inner", "outer", "true", "1\t",
    "1\r", "\0", "\u{e9}",
];

/// A line with cells, its part, and whether it is the line of names.
fn any_line(rng: &mut Rng, job: &Job, names_too: bool) -> Option<(Range<usize>, usize, bool)> {
    let part = rng.below(job.parts.len());
    let p = &job.parts[part];
    match rng.below(p.lines.len() + usize::from(names_too)) {
        i if i < p.lines.len() => Some((p.lines[i].clone(), part, false)),
        _ if names_too => Some((p.names.clone(), part, true)),
        _ => None,
    }
}

/// A cell that breaks the form in its column or in every one, a cell too many, or one too few.
fn broken_cell(rng: &mut Rng, job: &Job) -> Vec<Edit> {
    let Some((line, part, names)) = any_line(rng, job, true) else { return Vec::new() };
    let part = &job.parts[part];
    let cells = part.order.len() + usize::from(names);
    let i = rng.below(cells);
    let broken = match part.order.get(i).map(|&column| part.form.columns[column].1) {
        Some(Cell::Number) if !names => NO_NUMBERS,
        Some(Cell::Whole) if !names => NO_WHOLES,
        Some(Cell::Listed(list)) if list.contains(&"0") => &["2", "4", "-1", "00", "01"],
        _ => NO_WORDS,
    };
    let at = job.cell(&line, i);
    vec![match rng.below(12) {
        0 => (at.start..at.start, b"0 ".to_vec()),
        1 => (at.start..(at.end + 1).min(line.end), Vec::new()),
        2 => (at.end..at.end, b" ".to_vec()),
        3 => (at.clone(), job.text[at].to_ascii_uppercase()),
        4 => (at, job.text[job.cell(&line, rng.below(cells))].to_vec()),
        5 => (at, {
            let list = rng.pick(&[NO_NUMBERS, NO_WHOLES, NO_WORDS]);
            rng.pick(list).into()
        }),
        _ => (at, rng.pick(broken).into()),
    }]
}

const NUMBERS: &[f64] = &[
    0.0,
    -0.0,
    1.0,
    -1.0,
    0.01,
    0.001,
    0.75,
    1e-9,
    2.0,
    8.0,
    36.0,
    40.0,
    80.0,
    -80.0,
    100.0,
    500.0,
    10_000.0,
    10_001.0,
    1e6,
    1e300,
    5e-324,
    f64::MAX,
    f64::INFINITY,
    f64::NEG_INFINITY,
];

/// NaNs of all kinds beside the numbers.
fn number(rng: &mut Rng) -> f64 {
    match rng.below(8) {
        0 => f64::from_bits(rng.pick(&[0x7ff8 << 48, 0xfff8 << 48, (0x7ff0 << 48) + 1, u64::MAX, (0x7ff4 << 48) + 5])),
        1 => rng.pattern(),
        _ => rng.pick(NUMBERS),
    }
}

/// A cell of the column's kind with another value.
fn other_value(rng: &mut Rng, job: &Job) -> Vec<Edit> {
    let Some((line, part, _)) = any_line(rng, job, false) else { return Vec::new() };
    let (i, part) = (rng.below(job.parts[part].order.len()), &job.parts[part]);
    let with = match part.form.columns[part.order[i]].1 {
        Cell::Number => digits(number(rng)),
        Cell::Whole if rng.one_in(4) => rng.pick(&["9999", "-9999", "1000", "-6", "-7", "7", "16", "0"]).into(),
        Cell::Whole => (rng.from_to(0, 12) as i32 - 4).to_string(),
        Cell::Listed(list) => rng.pick(list).into(),
    };
    vec![(job.cell(&line, i), with.into())]
}

/// A line of names with another name in it, a name twice, too few or too many, or two names swapped.
fn names(rng: &mut Rng, job: &Job) -> Vec<Edit> {
    let p = &job.parts[rng.below(job.parts.len())];
    let cells = p.order.len() + 1;
    let (i, k) = (rng.below(cells), rng.below(cells));
    let (a, b) = (job.cell(&p.names, i), job.cell(&p.names, k));
    let other = &TABLES[rng.below(TABLES.len())];
    let of = |at: &Range<usize>| job.text[at.clone()].to_vec();
    vec![match rng.below(6) {
        0 => (a, other.name.into()),
        1 => (a, rng.pick(other.columns).0.into()),
        2 => (a, of(&b)),
        3 => (a.start..a.end + 1, Vec::new()),
        4 => (a.end..a.end, [b" ", &of(&b)[..]].concat()),
        _ => return vec![(a.clone(), of(&b)), (b, of(&a))],
    }]
}

/// A table dropped, doubled, moved or emptied, its names dropped, or its last empty line dropped.
fn table(rng: &mut Rng, job: &Job) -> Vec<Edit> {
    let (p, q) = (&job.parts[rng.below(job.parts.len())], &job.parts[rng.below(job.parts.len())]);
    let (at, to) = (p.whole(), q.whole().start);
    let text = job.text[at.clone()].to_vec();
    match rng.below(6) {
        0 => vec![(at, Vec::new())],
        1 => vec![(to..to, text)],
        2 => vec![(to..to, text), (at, Vec::new())],
        3 => vec![(p.names.end..at.end - 1, Vec::new())],
        4 => vec![(p.names.clone(), Vec::new())],
        _ => vec![(at.end - 1..at.end, Vec::new())],
    }
}

/// A line of a table so often that the table has `lines` of them. Other long tables give way, so that the text is not too long.
fn fill(job: &Job, part: usize, line: usize, lines: usize) -> Vec<Edit> {
    let p = &job.parts[part];
    let (at, text) = (p.lines[line].start, &job.text[p.lines[line].clone()]);
    let mut edits = vec![(at..at, text.repeat(lines.saturating_sub(p.lines.len())))];
    let mut length = job.text.len() + edits[0].1.len();
    for other in job.parts.iter().rev().filter(|other| other.form.table != p.form.table && other.form.limit > 16) {
        if length > TEXT && other.lines.len() > 1 {
            let rest = other.lines[1].start..other.whole().end - 1;
            length -= rest.len();
            edits.push((rest, Vec::new()));
        }
    }
    edits
}

/// A table at its limit or one line over it, by doubled lines.
fn filled_table(rng: &mut Rng, job: &Job) -> Vec<Edit> {
    let part = rng.below(job.parts.len());
    let p = &job.parts[part];
    if p.lines.is_empty() {
        return Vec::new();
    }
    let line = rng.below(p.lines.len());
    fill(job, part, line, p.form.limit + rng.below(2))
}

/// A table one line over its limit, and damage in that line, before or after it: what decides is the first line that fails.
fn over_limit(rng: &mut Rng, job: &Job) -> Vec<Edit> {
    let part = rng.below(job.parts.len());
    let p = &job.parts[part];
    let Some(last) = p.lines.len().checked_sub(1) else { return Vec::new() };
    let over = usize::from(!rng.one_in(4));
    let mut edits = fill(job, part, last, p.form.limit + over);
    match rng.below(5) {
        0 => edits.extend(broken_cell(rng, job)),
        1 => edits.push((p.lines[last].end - 1..p.lines[last].end, rng.pick(&["", " \n", "0\n"]).into())),
        2 => edits.extend(other_value(rng, job)),
        3 => edits.push((p.lines[last].end - 1..job.text.len(), Vec::new())),
        _ => edits.extend(cut(rng, job)),
    }
    edits
}

/// Kinds around their limits, and cells that are none.
const KINDS: &[&str] = &["0", "1", "255", "256", "-1", "9999", "-9999", "01", "-0", "10000", "257", "512"];
/// Ids, most of them in few sections.
const IDS: &[&str] = &["0", "7", "-7", "1", "-1", "6", "-6", "2", "-2", "9999"];

/// A line of the table of marks.
struct MarkLine<'a> {
    job: &'a Job,
    part: &'a Part,
    line: Range<usize>,
}

impl MarkLine<'_> {
    /// The cell of a column, by its place in 02.
    fn cell(&self, line: &Range<usize>, column: usize) -> Range<usize> {
        self.job.cell(line, self.part.order.iter().position(|&c| c == column).expect("a column of the table"))
    }

    fn of(&self, column: usize) -> Vec<u8> {
        self.job.text[self.cell(&self.line, column)].to_vec()
    }

    fn number(&self, column: usize) -> f64 {
        let bits = str::from_utf8(&self.of(column)).ok().and_then(|digits| u64::from_str_radix(digits, 16).ok());
        f64::from_bits(bits.unwrap_or_default())
    }

    fn put(&self, column: usize, with: impl Into<Vec<u8>>) -> Vec<Edit> {
        vec![(self.cell(&self.line, column), with.into())]
    }

    /// The line so often that its section has about as many as it may have.
    fn often(&self, rng: &mut Rng) -> Vec<Edit> {
        let section = |line: &Range<usize>| &self.job.text[self.cell(line, 0)];
        let there = self.part.lines.iter().filter(|line| section(line) == section(&self.line)).count();
        let more = rng.pick(&[2, 15, 16, 17_usize]).saturating_sub(there);
        vec![(self.line.start..self.line.start, self.job.text[self.line.clone()].repeat(more))]
    }

    fn swapped(&self, rng: &mut Rng) -> Vec<Edit> {
        let other = self.part.lines[rng.below(self.part.lines.len())].clone();
        let of = |at: &Range<usize>| self.job.text[at.clone()].to_vec();
        vec![(self.line.clone(), of(&other)), (other, of(&self.line))]
    }
}

/// A mark with a cell beside its limit, on another lane or section, out of turn, or as many as a section may have; in a job without
/// marks, some.
fn marks(rng: &mut Rng, job: &Job) -> Vec<Edit> {
    let part = job.parts.iter().find(|p| p.form.table == Name::Mark && !p.lines.is_empty());
    let Some(part) = part else { return added_marks(rng, job) };
    let mark = MarkLine { job, part, line: part.lines[rng.below(part.lines.len())].clone() };
    match rng.below(10) {
        0 | 1 => mark.put(4, rng.pick(KINDS)),
        2 => mark.put(1, rng.pick(IDS)),
        3 => mark.put(0, rng.pick(&["0", "1", "2", "15", "16", "-1", "9999"])),
        4 => [mark.put(2, mark.of(3)), mark.put(3, mark.of(2))].concat(),
        5 => mark.put(3, digits(nudge(mark.number(3), rng.pick(&[1, -1, 2])))),
        6 => mark.put(3, mark.of(2)),
        7 => mark.put(rng.from_to(2, 3), digits(number(rng))),
        8 => mark.swapped(rng),
        _ => mark.often(rng),
    }
}

/// A table of marks where it belongs, or anywhere. One that is there already has no lines and gives way.
fn added_marks(rng: &mut Rng, job: &Job) -> Vec<Edit> {
    let n = rng.pick(&[0, 1, 1, 2, 3, 16, 17]);
    let lines: String = (0..n).map(|_| mark_line(rng)).collect();
    let table = format!("mark section id start end kind\n{lines}\n").into_bytes();
    let next = job.parts.iter().find(|p| p.form.table >= Name::Mark);
    let at = next.map_or(job.text.len()..job.text.len(), |p| p.whole());
    let at = if next.is_some_and(|p| p.form.table == Name::Mark) { at } else { at.start..at.start };
    let anywhere = job.parts[rng.below(job.parts.len())].whole().start;
    if rng.one_in(4) { vec![(at, Vec::new()), (anywhere..anywhere, table)] } else { vec![(at, table)] }
}

/// A line for most roads with lanes: short spans, since a section may be.
fn mark_line(rng: &mut Rng) -> String {
    let id = if rng.one_in(4) { rng.pick(IDS) } else { rng.pick(&["1", "-1"]) };
    let kind = if rng.one_in(4) { rng.pick(KINDS) } else { "1" };
    let spans = [0.0, -0.0, 5e-324, 1.0, 0.005, f64::NAN, f64::INFINITY, -1.0];
    let [start, end] = [0, 1].map(|_| digits(if rng.one_in(3) { rng.pick(&spans) } else { 0.0 }));
    format!("{} {id} {start} {end} {kind}\n", rng.pick(&["0", "0", "0", "1"]))
}

/// Two or three at once.
pub fn several(rng: &mut Rng, job: &Job) -> Vec<Edit> {
    let n = rng.from_to(2, 3);
    (0..n).flat_map(|_| DAMAGES[rng.below(DAMAGES.len() - 1)].1(rng, job)).collect()
}

// ---- texts of no job

pub fn random_bytes(rng: &mut Rng) -> Vec<u8> {
    let n = rng.pick(&[0, 1, 2, 17, 300]);
    (0..n).map(|_| rng.bits() as u8).collect()
}

/// Words, digits, spaces and LFs of the form, in no order or after a line of names.
pub fn random_words(rng: &mut Rng) -> Vec<u8> {
    let mut text = Vec::new();
    for _ in 0..rng.below(40) {
        let form = &TABLES[rng.below(TABLES.len())];
        match rng.below(9) {
            0 => text.extend(form.name.bytes()),
            1 => text.extend(rng.pick(form.columns).0.bytes()),
            2 => text.extend(digits(number(rng)).bytes()),
            3 => text.extend(rng.below(12).to_string().bytes()),
            4 => text.push(rng.pick(b"0123456789abcdef-")),
            5 => text.push(b'\n'),
            6 => {
                let names: Vec<&str> = form.columns.iter().map(|c| c.0).collect();
                text.extend(format!("{} {}\n", form.name, names.join(" ")).bytes());
            }
            _ => text.push(b' '),
        }
    }
    text
}

/// A job of about the greatest length, or something of that length that is none.
pub fn of_greatest_length(rng: &mut Rng) -> Vec<u8> {
    let n = TEXT + rng.from_to(0, 3) - 1;
    match rng.below(4) {
        0 => [&sample().text[..], &vec![rng.pick(b"\n a0"); n]].concat()[..n].to_vec(),
        1 => (0..n).map(|_| rng.bits() as u8).collect(),
        2 => {
            let job = of_bytes(n);
            let damage = rng.pick(&DAMAGES[..6]).1(rng, &job);
            edited(&job.text, damage)
        }
        _ => of_bytes(n).text,
    }
}
