// Roads around every limit of the admission of documents 01 and 02, and damaged memories. Each starts from an admitted road.
use crate::admission::{bound, spiral_samples};
use crate::model::*;
use crate::random::{Rng, nudge};

/// A way to bring one place of a road to a limit. It answers false where the road has no such place.
pub type Site = (&'static str, fn(&mut Rng, &mut Memory) -> bool);

pub const SITES: &[Site] = &[
    ("length", length),
    ("geom start", |r, m| start(r, m, GEOM, 0)),
    ("geom place", geom_place),
    ("geom length", geom_length),
    ("curvature", curvature),
    ("kind", kind),
    ("elev start", |r, m| start(r, m, ELEV, 1)),
    ("bank start", |r, m| start(r, m, BANK, 2)),
    ("offset start", |r, m| start(r, m, OFFSET, 3)),
    ("tshift start", |r, m| start(r, m, TSHIFT, 4)),
    ("section start", |r, m| start(r, m, SECTION, 5)),
    ("profile start", profile_start),
    ("elev bound", |r, m| road_bound(r, m, ELEV, 1, 10_000.0)),
    ("elev slope", elev_slope),
    ("bank bound", |r, m| road_bound(r, m, BANK, 2, 0.75)),
    ("offset bound", |r, m| road_bound(r, m, OFFSET, 3, 8.0)),
    ("tshift bound", |r, m| road_bound(r, m, TSHIFT, 4, 8.0)),
    ("extent start", extent_start),
    ("extent bound", extent_bound),
    ("height start", height_start),
    ("height size", height_size),
    ("shape start", shape_start),
    ("shape bound", shape_bound),
    ("strip start", strip_start),
    ("strip width", strip_width),
    ("strip terms", strip_terms),
    ("counts", counts),
    ("lanes", lanes),
    ("lane codes", lane_codes),
    ("lane ranges", lane_ranges),
    ("shapes", shapes),
    ("strip code", strip_code),
    ("strip ranges", strip_ranges),
    ("mark start", mark_start),
    ("mark end", mark_end),
    ("mark kind", mark_kind),
    ("mark lane", mark_lane),
    ("mark ranges", mark_ranges),
    ("mark order", mark_order),
    ("full marks", full_marks),
    ("full lists", full_lists),
    ("samples", samples),
    ("slices", slices),
];

// ---- values around a limit

/// The limit, its neighbours, and what no range holds.
fn near(rng: &mut Rng, limit: f64) -> f64 {
    match rng.below(16) {
        0 => f64::NAN,
        1 => f64::INFINITY * rng.sign(),
        2 => -limit,
        3 => 0.0 * rng.sign(),
        4 => limit * rng.between(0.5, 2.0),
        5 => rng.pattern(),
        6..9 => limit,
        9 => nudge(limit, 2 * rng.sign() as i32),
        _ => nudge(limit, rng.sign() as i32),
    }
}

/// Around the limit or its negative.
fn near_size(rng: &mut Rng, limit: f64) -> f64 {
    let limit = limit * rng.sign();
    near(rng, limit)
}

fn near_one_of(rng: &mut Rng, limits: &[f64]) -> f64 {
    let limit = rng.pick(limits);
    near(rng, limit)
}

fn near_count(rng: &mut Rng, limit: usize) -> u16 {
    match rng.below(8) {
        0 => 65_535,
        1 => 0,
        2 => rng.bits() as u16,
        3 | 4 => limit as u16,
        5 => (limit + 1) as u16,
        6 => 65_535 - limit as u16,
        _ => limit.saturating_sub(1) as u16,
    }
}

// ---- places

/// A list of lines: the table, the first line and how many.
type List = (Table, usize, usize);

fn whole(m: &Memory, table: Table, count: usize) -> List {
    (table, 0, usize::from(m.words[count]))
}

fn line(rng: &mut Rng, (table, first, count): List) -> Option<usize> {
    (count > 0).then(|| table.line(first + rng.below(count)))
}

/// How many lanes a section has.
fn lane_count(m: &Memory, section: usize) -> usize {
    let at = SECTION_WORDS.line(section);
    usize::from(m.words[at + 1]) + usize::from(m.words[at + 2])
}

/// A lane with its section, and its list of extents (2) or heights (4).
fn lane_list(rng: &mut Rng, m: &Memory, table: Table, word: usize) -> Option<(usize, usize, List)> {
    let mut all = Vec::new();
    for section in 0..usize::from(m.words[5]) {
        let first = usize::from(m.words[SECTION_WORDS.line(section)]);
        for lane in first..first + lane_count(m, section) {
            let at = LANE_WORDS.line(lane) + word;
            let list = (table, usize::from(m.words[at]), usize::from(m.words[at + 1]));
            all.push((section, lane, list));
        }
    }
    let mut with: Vec<_> = all.into_iter().filter(|(_, _, list)| list.2 > 0).collect();
    (!with.is_empty()).then(|| with.swap_remove(rng.below(with.len())))
}

/// The shapes of a profile.
fn shape_list(rng: &mut Rng, m: &Memory) -> Option<List> {
    let n = usize::from(m.words[6]);
    (n > 0).then(|| PROFILE_WORDS.line(rng.below(n))).map(|at| (SHAPE, usize::from(m.words[at]), usize::from(m.words[at + 1])))
}

/// A list of a strip that is there: the width's (0) or a term's (1..4).
fn strip_list(rng: &mut Rng, m: &Memory, lists: std::ops::Range<usize>) -> Option<(usize, List)> {
    let mut all = Vec::new();
    for strip in (0..4).map(|i| STRIP_WORDS.line(i)).filter(|&at| m.words[at] != 0) {
        for k in lists.clone() {
            let at = strip + 1 + 2 * k;
            all.push((k, (CUBIC, usize::from(m.words[at]), usize::from(m.words[at + 1]))));
        }
    }
    all.retain(|(_, list)| list.2 > 0);
    (!all.is_empty()).then(|| rng.pick(&all))
}

fn section_extent(m: &Memory, section: usize) -> f64 {
    let last = section + 1 == usize::from(m.words[5]);
    let end = if last { m.numbers[0] } else { m.numbers[SECTION.at + section + 1] };
    end - m.numbers[SECTION.at + section]
}

fn set(m: &mut Memory, at: Option<usize>, x: f64) -> bool {
    if let Some(at) = at {
        m.numbers[at] = x;
    }
    at.is_some()
}

// ---- starts

/// A start beside its neighbours, or at the ends of its range.
fn start_in(rng: &mut Rng, m: &mut Memory, (table, first, count): List, ends: &[f64], gap: f64) -> bool {
    if count == 0 {
        return false;
    }
    let i = rng.below(count);
    let at = |k: usize| m.numbers[table.line(first + k)];
    let mut limits = ends.to_vec();
    if i > 0 {
        limits.extend([at(i - 1) + gap; 3]);
    }
    if i + 1 < count {
        limits.extend([at(i + 1) - gap; 3]);
    }
    let x = near_one_of(rng, &limits);
    set(m, Some(table.line(first + i)), x)
}

fn start(rng: &mut Rng, m: &mut Memory, table: Table, count: usize) -> bool {
    let ends = [0.0, m.numbers[0]];
    start_in(rng, m, whole(m, table, count), &ends, 0.0)
}

fn profile_start(rng: &mut Rng, m: &mut Memory) -> bool {
    let ends = [0.0, m.numbers[0]];
    start_in(rng, m, whole(m, PROFILE, 6), &ends, 0.001)
}

fn extent_start(rng: &mut Rng, m: &mut Memory) -> bool {
    let Some((section, _, list)) = lane_list(rng, m, EXTENT, 2) else { return false };
    start_in(rng, m, list, &[0.0, section_extent(m, section), f64::MAX, f64::MIN], 0.0)
}

fn height_start(rng: &mut Rng, m: &mut Memory) -> bool {
    let Some((_, _, list)) = lane_list(rng, m, HEIGHT, 4) else { return false };
    start_in(rng, m, list, &[0.0, f64::MAX, f64::MIN], 0.001)
}

fn shape_start(rng: &mut Rng, m: &mut Memory) -> bool {
    let Some(list) = shape_list(rng, m) else { return false };
    start_in(rng, m, list, &[-80.0, 80.0], 0.0)
}

fn strip_start(rng: &mut Rng, m: &mut Memory) -> bool {
    let Some((_, list)) = strip_list(rng, m, 0..5) else { return false };
    let ends = [0.0, m.numbers[0]];
    start_in(rng, m, list, &ends, 0.0)
}

// ---- sizes

/// Leaves the first geometry and a section without lanes.
fn bare(m: &mut Memory) {
    m.words[..7].copy_from_slice(&[1, 0, 0, 0, 0, 1, 0]);
    m.words[SECTION_WORDS.at + 1..SECTION_WORDS.at + 3].fill(0);
    m.words[SECTION_MARK_WORDS.at + 1] = 0;
    (0..4).for_each(|i| m.words[STRIP_WORDS.line(i)] = 0);
}

/// The road's length; often on a road that has nothing else, since a list's last record reaches to the end.
fn length(rng: &mut Rng, m: &mut Memory) -> bool {
    if rng.one_in(2) {
        bare(m);
    }
    let x = near_one_of(rng, &[0.01, 10_000.0]);
    set(m, Some(0), x)
}

fn geom_place(rng: &mut Rng, m: &mut Memory) -> bool {
    let (column, limit) = rng.pick(&[(1, 1_000_000.0), (2, 1_000_000.0), (3, 1_000.0)]);
    let (at, x) = (line(rng, whole(m, GEOM, 0)), near_size(rng, limit));
    set(m, at.map(|at| at + column), x)
}

fn geom_length(rng: &mut Rng, m: &mut Memory) -> bool {
    let (at, x) = (line(rng, whole(m, GEOM, 0)), near_one_of(rng, &[0.01, 10_000.0]));
    set(m, at.map(|at| at + 4), x)
}

fn curvature(rng: &mut Rng, m: &mut Memory) -> bool {
    let column = rng.from_to(5, 6);
    let (at, limit) = (line(rng, whole(m, GEOM, 0)), rng.pick(&[1e-9, 0.00001, 1.0, 0.000002]));
    let x = near_size(rng, limit);
    set(m, at.map(|at| at + column), x)
}

fn height_size(rng: &mut Rng, m: &mut Memory) -> bool {
    let list = lane_list(rng, m, HEIGHT, 4).map(|(_, _, list)| list);
    let at = list.and_then(|list| line(rng, list));
    let (column, x) = (rng.from_to(1, 2), near_size(rng, 2.0));
    set(m, at.map(|at| at + column), x)
}

/// One cubic of a list that ends at `end` gets a B beside the limit: one coefficient takes what the others leave.
fn bound_in(rng: &mut Rng, m: &mut Memory, (table, first, count): List, end: f64, limit: f64) -> bool {
    if count == 0 {
        return false;
    }
    let i = rng.below(count);
    let start = |k: usize| m.numbers[table.line(first + k)];
    let next = if i + 1 < count { start(i + 1) } else { end };
    let (reach, at) = ((next - start(i)).max(0.0) + 0.001, table.line(first + i));
    let alone = rng.one_in(2);
    let column = rng.from_to(1, 4);
    for k in (1..5).filter(|k| alone || *k == column) {
        m.numbers[at + k] = 0.0;
    }
    let read = |m: &Memory| [0, 1, 2, 3, 4].map(|k| m.numbers[at + k]);
    let [start, a, b, c, d] = read(m);
    let left = limit - bound(Cubic { start, a, b, c, d }, reach);
    let whole = (1..column).fold(left, |x, _| x / reach);
    m.numbers[at + column] = near_size(rng, whole);
    true
}

fn road_bound(rng: &mut Rng, m: &mut Memory, table: Table, count: usize, limit: f64) -> bool {
    let end = m.numbers[0];
    bound_in(rng, m, whole(m, table, count), end, limit)
}

fn elev_slope(rng: &mut Rng, m: &mut Memory) -> bool {
    let list = whole(m, ELEV, 1);
    if list.2 == 0 {
        return false;
    }
    let i = rng.below(list.2);
    let at = ELEV.line(i);
    let next = if i + 1 < list.2 { m.numbers[at + 5] } else { m.numbers[0] };
    let reach = (next - m.numbers[at]).max(0.0) + 0.001;
    m.numbers[at + 1..at + 5].fill(0.0);
    let column = rng.from_to(2, 4);
    let whole = [1.0, 1.0 / (2.0 * reach), 1.0 / (3.0 * reach * reach)][column - 2];
    m.numbers[at + column] = near_size(rng, whole);
    true
}

fn extent_bound(rng: &mut Rng, m: &mut Memory) -> bool {
    let Some((section, lane, list)) = lane_list(rng, m, EXTENT, 2) else { return false };
    let limit = if m.words[LANE_WORDS.line(lane)] == 1 { 36.0 } else { 8.0 };
    let end = section_extent(m, section);
    bound_in(rng, m, list, end, limit)
}

fn shape_bound(rng: &mut Rng, m: &mut Memory) -> bool {
    let Some(list) = shape_list(rng, m) else { return false };
    bound_in(rng, m, list, 80.0, 40.0)
}

fn strip_width(rng: &mut Rng, m: &mut Memory) -> bool {
    let Some((_, list)) = strip_list(rng, m, 0..1) else { return false };
    let end = m.numbers[0];
    bound_in(rng, m, list, end, 100.0)
}

/// One term of a strip takes the whole of what the four may have; the other terms often keep theirs, and then it is too much.
fn strip_terms(rng: &mut Rng, m: &mut Memory) -> bool {
    let Some((k, list)) = strip_list(rng, m, 1..5) else { return false };
    if !rng.one_in(4) {
        for strip in 0..4 {
            for other in 1..5 {
                let at = STRIP_WORDS.line(strip) + 1 + 2 * other;
                let (first, count) = (usize::from(m.words[at]), usize::from(m.words[at + 1]));
                if m.words[STRIP_WORDS.line(strip)] != 0 {
                    (first..first + count).for_each(|i| m.numbers[CUBIC.line(i) + 1..CUBIC.line(i) + 5].fill(0.0));
                }
            }
        }
    }
    let end = m.numbers[0];
    let limit = (1..k).fold(40.0, |x, _| x / 88.0);
    bound_in(rng, m, list, end, limit)
}

// ---- words

fn kind(rng: &mut Rng, m: &mut Memory) -> bool {
    let i = rng.below(usize::from(m.words[0]));
    m.words[KIND_WORDS.line(i)] = rng.pick(&[0, 1, 2, 3, 4, 65_535]);
    true
}

fn counts(rng: &mut Rng, m: &mut Memory) -> bool {
    let i = rng.below(7);
    m.words[i] = near_count(rng, COUNTED[i].lines);
    true
}

/// A range at the end of its table, or past it; or a count at its limit.
fn range(rng: &mut Rng, m: &mut Memory, at: usize, lines: usize, limit: usize) {
    let count = usize::from(m.words[at + 1]);
    match rng.below(6) {
        0 => m.words[at] = near_count(rng, lines.saturating_sub(count)),
        1 => m.words[at] = (lines - count.min(lines)) as u16,
        2 => m.words[at] = (lines - count.min(lines) + 1) as u16,
        3 => m.words[at + 1] = near_count(rng, limit),
        4 => (m.words[at], m.words[at + 1]) = (near_count(rng, lines), 0),
        _ => (m.words[at], m.words[at + 1]) = (near_count(rng, lines - limit), near_count(rng, limit)),
    }
}

fn lanes(rng: &mut Rng, m: &mut Memory) -> bool {
    let section = rng.below(usize::from(m.words[5]));
    let (at, count) = (SECTION_WORDS.line(section), lane_count(m, section));
    match rng.below(5) {
        0 => m.words[at] = near_count(rng, LANE_WORDS.lines - count.min(192)),
        1 => m.words[at + rng.from_to(1, 2)] = near_count(rng, 6),
        2 => (m.words[at], m.words[at + 1], m.words[at + 2]) = (near_count(rng, 192), 0, 0),
        3 => (m.words[at + 1], m.words[at + 2]) = (near_count(rng, 6), near_count(rng, 6)),
        _ => m.words[at] = near_count(rng, 192),
    }
    true
}

/// A lane of any section.
fn any_lane(rng: &mut Rng, m: &Memory) -> Option<usize> {
    let section = rng.below(usize::from(m.words[5]));
    let (first, n) = (usize::from(m.words[SECTION_WORDS.line(section)]), lane_count(m, section));
    (n > 0).then(|| LANE_WORDS.line(first + rng.below(n)))
}

fn lane_codes(rng: &mut Rng, m: &mut Memory) -> bool {
    let Some(at) = any_lane(rng, m) else { return false };
    m.words[at + rng.below(2)] = near_count(rng, 1);
    true
}

fn lane_ranges(rng: &mut Rng, m: &mut Memory) -> bool {
    let Some(at) = any_lane(rng, m) else { return false };
    let (word, limit) = rng.pick(&[(2, 16), (4, 8)]);
    range(rng, m, at + word, 512, limit);
    true
}

fn shapes(rng: &mut Rng, m: &mut Memory) -> bool {
    let n = usize::from(m.words[6]);
    if n > 0 {
        let at = PROFILE_WORDS.line(rng.below(n));
        range(rng, m, at, SHAPE.lines, 16);
    }
    n > 0
}

fn strip_code(rng: &mut Rng, m: &mut Memory) -> bool {
    let at = STRIP_WORDS.line(rng.below(4));
    m.words[at] = near_count(rng, 2);
    true
}

fn strip_ranges(rng: &mut Rng, m: &mut Memory) -> bool {
    let at = STRIP_WORDS.line(rng.below(4)) + 1 + 2 * rng.below(5);
    range(rng, m, at, CUBIC.lines, 8);
    true
}

/// A list with as many lines as its parent may have, or one more, all in order and within their limits.
fn full_lists(rng: &mut Rng, m: &mut Memory) -> bool {
    let lane = any_lane(rng, m);
    let profile = (m.words[6] > 0).then(|| PROFILE_WORDS.line(rng.below(usize::from(m.words[6]))));
    let strip = (0..4).map(|i| STRIP_WORDS.line(i)).find(|&at| m.words[at] != 0).map(|at| at + 1 + 2 * rng.below(5));
    let (table, at, limit) = match rng.below(4) {
        0 => (EXTENT, lane.map(|at| at + 2), 16),
        1 => (HEIGHT, lane.map(|at| at + 4), 8),
        2 => (SHAPE, profile, 16),
        _ => (CUBIC, strip, 8),
    };
    let (Some(at), n) = (at, limit + rng.below(2)) else { return false };
    let first = table.lines - n;
    for i in 0..n {
        let line = table.line(first + i);
        m.numbers[line..line + table.columns].fill(0.0);
        m.numbers[line] = i as f64 * 0.0011;
    }
    (m.words[at], m.words[at + 1]) = (first as u16, n as u16);
    true
}

// ---- marks

/// A section with marks: its number, and its list.
fn mark_list(rng: &mut Rng, m: &Memory) -> Option<(usize, List)> {
    let of = |i: usize| {
        let at = SECTION_MARK_WORDS.line(i);
        (i, (MARK, usize::from(m.words[at]), usize::from(m.words[at + 1])))
    };
    let all: Vec<_> = (0..usize::from(m.words[5])).map(of).filter(|(_, list)| list.2 > 0).collect();
    (!all.is_empty()).then(|| rng.pick(&all))
}

/// A mark's line of the table, with the number of its section.
fn any_mark(rng: &mut Rng, m: &Memory) -> Option<(usize, usize)> {
    mark_list(rng, m).map(|(section, (_, first, count))| (section, first + rng.below(count)))
}

/// A start beside 0, its end, or the start of another mark of its section, which may be on its lane.
fn mark_start(rng: &mut Rng, m: &mut Memory) -> bool {
    let Some((section, (_, first, count))) = mark_list(rng, m) else { return false };
    let [mark, other] = [0, 1].map(|_| MARK.line(first + rng.below(count)));
    let limits = [0.0, m.numbers[mark + 1], m.numbers[other], section_extent(m, section)];
    let x = near_one_of(rng, &limits);
    set(m, Some(mark), x)
}

/// An end beside its start or the section's extent.
fn mark_end(rng: &mut Rng, m: &mut Memory) -> bool {
    let Some((section, line)) = any_mark(rng, m) else { return false };
    let extent = section_extent(m, section);
    let x = near_one_of(rng, &[m.numbers[MARK.line(line)], extent, extent]);
    set(m, Some(MARK.line(line) + 1), x)
}

fn mark_kind(rng: &mut Rng, m: &mut Memory) -> bool {
    let Some((_, line)) = any_mark(rng, m) else { return false };
    m.words[MARK_WORDS.line(line) + 1] = rng.pick(&[0, 1, 2, 254, 255, 256, 257, 512, 65_535]);
    true
}

/// A mark on any lane of its section, or on a place around their count: the last lane, the next, which is not there, or far past.
fn mark_lane(rng: &mut Rng, m: &mut Memory) -> bool {
    let Some((section, line)) = any_mark(rng, m) else { return false };
    let lanes = lane_count(m, section);
    m.words[MARK_WORDS.line(line)] = if rng.one_in(2) { rng.below(lanes) as u16 } else { near_count(rng, lanes) };
    true
}

/// A section's range at a limit, or over another section's; now and then that of a section that is not there, which is not read.
fn mark_ranges(rng: &mut Rng, m: &mut Memory) -> bool {
    let n = usize::from(m.words[5]);
    let [at, other] = [0, 1].map(|_| SECTION_MARK_WORDS.line(rng.below(n)));
    match rng.below(4) {
        0 if n < SECTION.lines => {
            let absent = SECTION_MARK_WORDS.line(rng.from_to(n, SECTION.lines - 1));
            m.words[absent..][..2].fill(rng.bits() as u16);
        }
        1 => {
            let shift = u16::from(rng.one_in(2) && m.words[other + 1] > 0);
            (m.words[at], m.words[at + 1]) = (m.words[other] + shift, m.words[other + 1] - shift);
        }
        _ => range(rng, m, at, MARK.lines, 16),
    }
    true
}

/// Two marks of a section on one lane, or with their starts exchanged.
fn mark_order(rng: &mut Rng, m: &mut Memory) -> bool {
    let Some((_, (_, first, count))) = mark_list(rng, m).filter(|(_, list)| list.2 > 1) else { return false };
    let [a, b] = [0, 1].map(|_| first + rng.below(count));
    if rng.one_in(2) {
        m.words[MARK_WORDS.line(a)] = m.words[MARK_WORDS.line(b)];
    } else {
        m.numbers.swap(MARK.line(a), MARK.line(b));
    }
    true
}

/// A section with as many marks as it may have, or one more, all in order and within their limits.
fn full_marks(rng: &mut Rng, m: &mut Memory) -> bool {
    let section = rng.below(usize::from(m.words[5]));
    let (lanes, n) = (lane_count(m, section), 16 + rng.below(2));
    if lanes == 0 {
        return false;
    }
    let first = MARK.lines - n;
    for line in first..MARK.lines {
        m.words[MARK_WORDS.line(line)..][..2].copy_from_slice(&[rng.below(lanes) as u16, 1]);
        m.numbers[MARK.line(line)..][..2].fill(0.0);
    }
    m.words[SECTION_MARK_WORDS.line(section)..][..2].copy_from_slice(&[first as u16, n as u16]);
    true
}

/// One spiral takes what is left of 2,000 samples, or a little more or less.
fn samples(rng: &mut Rng, m: &mut Memory) -> bool {
    let n = usize::from(m.words[0]);
    let i = rng.below(n);
    m.words[KIND_WORDS.line(i)] = 2;
    let of = |k: usize| spiral_samples(m.numbers[GEOM.line(k) + 4]);
    let others: usize = (0..n).filter(|&k| k != i && m.words[KIND_WORDS.line(k)] == 2).map(of).sum();
    let steps = 2000usize.saturating_sub(others + 1) + rng.below(3);
    let length = steps.saturating_sub(1) as f64 * 0.25 + rng.pick(&[0.0, 1e-9, 2e-9, 0.1, 0.25]);
    m.numbers[GEOM.line(i) + 4] = nudge(length.max(0.01), rng.from_to(0, 4) as i32 - 2);
    true
}

/// Slices of the layout's length, one short, one longer, empty.
fn slices(rng: &mut Rng, m: &mut Memory) -> bool {
    let cut = |rng: &mut Rng, n: usize| match rng.below(5) {
        0 => 0,
        1 => n - 1,
        2 => n + 1,
        3 => rng.below(n),
        _ => n,
    };
    let (n, k) = (cut(rng, WORDS), cut(rng, NUMBERS));
    m.words.resize(n, 0);
    m.numbers.resize(k, 0.0);
    true
}

// ---- several at once, and damage

/// One site of an admitted road brought to a limit, now and then two or three. Answers the site where it is one.
pub fn around_a_limit(rng: &mut Rng, road: &Memory) -> (Memory, Option<&'static str>) {
    let mut changed = road.clone();
    let name = one_site(rng, &mut changed);
    let more = rng.pick(&[0, 0, 0, 0, 0, 0, 0, 1, 1, 2]);
    for _ in 0..more {
        let mut other = road.clone();
        one_site(rng, &mut other);
        changed.merge(road, &other);
    }
    (changed, (more == 0).then_some(name))
}

fn one_site(rng: &mut Rng, m: &mut Memory) -> &'static str {
    loop {
        let (name, change) = rng.pick(SITES);
        if change(rng, m) {
            return name;
        }
    }
}

impl Memory {
    /// Takes over what `other` changed of `road`.
    fn merge(&mut self, road: &Memory, other: &Memory) {
        for (to, (was, is)) in self.words.iter_mut().zip(road.words.iter().zip(&other.words)) {
            *to = if was == is { *to } else { *is };
        }
        for (to, (was, is)) in self.numbers.iter_mut().zip(road.numbers.iter().zip(&other.numbers)) {
            *to = if was.to_bits() == is.to_bits() { *to } else { *is };
        }
        self.words.truncate(other.words.len());
        self.numbers.truncate(other.numbers.len());
    }

    /// The words and the numbers that an admitted road's admission and answers can depend on.
    fn used(&self) -> (Vec<usize>, Vec<usize>) {
        let word = |at: usize| usize::from(self.words[at]);
        let (mut words, mut numbers): (Vec<usize>, Vec<usize>) = ((0..7).collect(), vec![0]);
        let lines = |t: Table, first: usize, n: usize| t.line(first)..t.line(first + n);
        for (i, t) in COUNTED.into_iter().enumerate() {
            numbers.extend(lines(t, 0, word(i)));
        }
        words.extend(lines(KIND_WORDS, 0, word(0)).chain(lines(SECTION_WORDS, 0, word(5))).chain(lines(
            PROFILE_WORDS,
            0,
            word(6),
        )));
        for section in (0..word(5)).map(|i| SECTION_WORDS.line(i)) {
            let (first, n) = (word(section), word(section + 1) + word(section + 2));
            words.extend(lines(LANE_WORDS, first, n));
            for at in (first..first + n).map(|i| LANE_WORDS.line(i)) {
                numbers.extend(lines(EXTENT, word(at + 2), word(at + 3)).chain(lines(HEIGHT, word(at + 4), word(at + 5))));
            }
        }
        for at in (0..word(5)).map(|i| SECTION_MARK_WORDS.line(i)) {
            words.extend([at, at + 1]);
            words.extend(lines(MARK_WORDS, word(at), word(at + 1)));
            numbers.extend(lines(MARK, word(at), word(at + 1)));
        }
        for at in (0..word(6)).map(|i| PROFILE_WORDS.line(i)) {
            numbers.extend(lines(SHAPE, word(at), word(at + 1)));
        }
        for strip in (0..4).map(|i| STRIP_WORDS.line(i)) {
            words.push(strip);
            for at in (0..5).map(|k| strip + 1 + 2 * k).filter(|_| self.words[strip] != 0) {
                words.extend([at, at + 1]);
                numbers.extend(lines(CUBIC, word(at), word(at + 1)));
            }
        }
        (words, numbers)
    }
}

/// Random words and numbers changed, bits turned, slices cut short, all of it random.
pub fn damage(rng: &mut Rng, m: &mut Memory) {
    let (words, numbers) = m.used();
    let many = if rng.one_in(4) { rng.from_to(1, 200) } else { rng.from_to(1, 4) };
    let (of, anywhere) = (rng.below(10), rng.one_in(4));
    for _ in 0..many {
        let w = if anywhere { rng.below(m.words.len()) } else { rng.pick(&words) };
        let n = if anywhere { rng.below(m.numbers.len()) } else { rng.pick(&numbers) };
        match of {
            0 => m.words[w] = rng.bits() as u16,
            1 => m.words[w] = rng.below(20) as u16,
            2 => m.words[w] ^= 1 << rng.below(16),
            3 => m.numbers[n] = rng.pattern(),
            4 => m.numbers[n] = rng.pick(&[0.0, -0.0, f64::NAN, f64::INFINITY, 1.0, 5e-324, f64::MAX]),
            5 => m.numbers[n] = f64::from_bits(m.numbers[n].to_bits() ^ 1 << rng.below(64)),
            6 => m.numbers[n] = m.numbers[rng.pick(&numbers)],
            7 => m.words[w] = m.words[rng.pick(&words)],
            8 => m.numbers.swap(n, rng.pick(&numbers)),
            _ => m.numbers[n] *= rng.between(0.9, 1.1),
        }
    }
    match rng.below(20) {
        0 => m.words.truncate(rng.below(WORDS + 1)),
        1 => m.numbers.truncate(rng.below(NUMBERS + 1)),
        2 => m.words.iter_mut().for_each(|w| *w = rng.bits() as u16),
        3 => m.numbers.iter_mut().for_each(|x| *x = rng.pattern()),
        4 => m.words.iter_mut().for_each(|w| *w = rng.below(4) as u16),
        _ => {}
    }
}
