// The roads that cases start from.
use crate::SPARE;
use second::model::*;

fn empty(length: f64) -> Memory {
    let mut m = Memory { words: vec![0; WORDS + SPARE], numbers: vec![0.0; NUMBERS + SPARE] };
    m.numbers[0] = length;
    m
}

fn words(m: &mut Memory, at: usize, words: &[u16]) {
    m.words[at..][..words.len()].copy_from_slice(words);
}

fn numbers(m: &mut Memory, at: usize, numbers: &[f64]) {
    m.numbers[at..][..numbers.len()].copy_from_slice(numbers);
}

/// Cubics with these starts from a line of a table on, their coefficients alike.
fn cubics(m: &mut Memory, table: Table, first: usize, starts: &[f64], [a, b, c, d]: [f64; 4]) {
    for (i, &start) in starts.iter().enumerate() {
        numbers(m, table.line(first + i), &[start, a, b, c, d]);
    }
}

/// M1's road: a line of 10 and a section without lanes.
pub fn bare() -> Memory {
    let mut m = empty(10.0);
    words(&mut m, 0, &[1, 0, 0, 0, 0, 1, 0]);
    m.numbers[GEOM.line(0) + 4] = 10.0;
    m
}

/// A line of 100 with sections from 0, 60 and 100, of 2 + 1, 1 + 0 and 0 + 1 lanes, and seven marks.
pub fn marked() -> Memory {
    let mut m = empty(100.0);
    words(&mut m, 0, &[1, 0, 0, 0, 0, 3, 0]);
    m.numbers[GEOM.line(0) + 4] = 100.0;
    numbers(&mut m, SECTION.at, &[0.0, 60.0, 100.0]);
    words(&mut m, SECTION_WORDS.at, &[0, 2, 1, 3, 1, 0, 4, 0, 1]);
    words(&mut m, SECTION_MARK_WORDS.at, &[0, 4, 4, 2, 6, 1]);
    marks(&mut m, 0, &[(0, 1, 0.0, 60.0), (2, 255, 10.0, 20.0), (0, 2, 10.0, 10.0), (1, 7, 5.0, 30.0)]);
    marks(&mut m, 4, &[(0, 9, 0.25, 40.0), (0, 3, 30.0, 35.0)]);
    marks(&mut m, 6, &[(0, 4, 0.0, 0.0)]);
    m
}

/// Marks from a line of the table on: the place of the lane, kind, start, end.
fn marks(m: &mut Memory, first: usize, marks: &[(u16, u16, f64, f64)]) {
    for (line, &(lane, kind, start, end)) in (first..).zip(marks) {
        words(m, MARK_WORDS.line(line), &[lane, kind]);
        numbers(m, MARK.line(line), &[start, end]);
    }
}

/// A road of 100 with every kind of record: lists of three, lists of one, empty lists, a strip that is not there.
pub fn mixed() -> Memory {
    let mut m = empty(100.0);
    words(&mut m, 0, &[3, 3, 3, 3, 3, 3, 3]);
    words(&mut m, KIND_WORDS.at, &[0, 1, 2]);
    numbers(&mut m, GEOM.line(0), &[0.0, 0.0, 0.0, 0.0, 30.0, 0.0, 0.0]);
    numbers(&mut m, GEOM.line(1), &[30.0, 30.0, 0.0, 0.0, 30.0, 0.01, 0.0]);
    numbers(&mut m, GEOM.line(2), &[60.0, 60.0, 5.0, 0.3, 40.0, 0.01, -0.02]);
    let along = [0.0, 40.0, 70.0];
    cubics(&mut m, ELEV, 0, &along, [10.0, 0.01, -0.0001, 0.000001]);
    cubics(&mut m, BANK, 0, &along, [-0.01, 0.0001, 0.000001, -0.00000001]);
    cubics(&mut m, OFFSET, 0, &along, [1.0, -0.01, 0.0001, 0.000001]);
    cubics(&mut m, TSHIFT, 0, &along, [-1.0, 0.01, 0.0001, -0.000001]);
    numbers(&mut m, SECTION.at, &along);
    lanes(&mut m);
    // Spans of no length on the second section, so that cases may change the sections' starts and the first one's lanes.
    words(&mut m, SECTION_MARK_WORDS.at, &[0, 0, 0, 2, 2, 0]);
    marks(&mut m, 0, &[(0, 1, 0.0, 0.0), (1, 255, 0.0, 0.0)]);
    numbers(&mut m, PROFILE.at, &along);
    words(&mut m, PROFILE_WORDS.at, &[0, 3, 3, 1, 3, 1]);
    cubics(&mut m, SHAPE, 0, &[-5.0, 0.0, 5.0], [0.1, -0.01, 0.0001, 0.000001]);
    cubics(&mut m, SHAPE, 3, &[-10.0], [0.2, 0.0, 0.0, 0.0]);
    strips(&mut m);
    m
}

/// Sections of 2 + 1, 1 + 1 and no lanes.
fn lanes(m: &mut Memory) {
    words(m, SECTION_WORDS.at, &[0, 2, 1, 3, 1, 1, 5, 0, 0]);
    words(m, LANE_WORDS.line(0), &[0, 0, 0, 3, 0, 3]);
    words(m, LANE_WORDS.line(1), &[1, 1, 3, 3, 3, 0]);
    words(m, LANE_WORDS.line(2), &[0, 0, 10, 0, 6, 0]);
    words(m, LANE_WORDS.line(3), &[0, 1, 6, 1, 3, 1]);
    words(m, LANE_WORDS.line(4), &[1, 0, 7, 3, 4, 2]);
    let inside = [0.0, 10.0, 25.0];
    cubics(m, EXTENT, 0, &inside, [3.0, 0.01, -0.0001, 0.000001]);
    cubics(m, EXTENT, 3, &inside, [7.0, -0.01, 0.0001, 0.000001]);
    cubics(m, EXTENT, 6, &[0.0], [3.5, 0.0, 0.0, 0.0]);
    cubics(m, EXTENT, 7, &inside, [-4.0, 0.01, 0.0001, 0.000001]);
    for (i, height) in [[0.0, 0.1, 0.2], [10.0, 0.2, 0.1], [25.0, -0.1, 0.0], [0.0, 0.1, 0.1], [0.0, 0.0, 0.1], [20.0, 0.1, 0.3]]
        .iter()
        .enumerate()
    {
        numbers(m, HEIGHT.line(i), height);
    }
}

/// Left inner with lists of three, left outer of one and relative, right inner absent, right outer without cubics.
fn strips(m: &mut Memory) {
    words(m, STRIP_WORDS.line(0), &[1, 0, 3, 3, 3, 6, 3, 9, 1, 10, 0]);
    words(m, STRIP_WORDS.line(1), &[2, 11, 1, 12, 1, 13, 0, 13, 0, 13, 0]);
    words(m, STRIP_WORDS.line(2), &[0; 11]);
    words(m, STRIP_WORDS.line(3), &[1, 160, 0, 160, 0, 160, 0, 160, 0, 160, 0]);
    let along = [0.0, 40.0, 70.0];
    cubics(m, CUBIC, 0, &along, [3.0, 0.01, 0.0001, 0.000001]);
    cubics(m, CUBIC, 3, &along, [0.1, -0.0001, 0.000001, 0.0]);
    cubics(m, CUBIC, 6, &along, [-0.001, 0.000001, 0.0, 0.0]);
    cubics(m, CUBIC, 9, &[0.0], [0.00001, 0.0, 0.0, 0.0]);
    cubics(m, CUBIC, 11, &[0.0], [4.0, 0.0, 0.0, 0.0]);
    cubics(m, CUBIC, 12, &[0.0], [-0.3, 0.0, 0.0, 0.0]);
}

/// Every count at its limit and every table filled to its end; lanes, profiles, terms and sections share their lines.
pub fn full() -> Memory {
    let mut m = empty(100.0);
    words(&mut m, 0, &[64, 64, 64, 64, 64, 16, 16]);
    for i in 0..64 {
        let s = i as f64;
        numbers(&mut m, GEOM.line(i), &[s, s, 0.0, 0.0, 1.0, 0.0, 0.0]);
        for table in [ELEV, BANK, OFFSET, TSHIFT] {
            m.numbers[table.line(i)] = s;
        }
    }
    for i in 0..16 {
        m.numbers[SECTION.line(i)] = 4.0 * i as f64;
        words(&mut m, SECTION_WORDS.line(i), &[12 * i as u16, 6, 6]);
        m.numbers[PROFILE.line(i)] = 4.0 * i as f64;
        words(&mut m, PROFILE_WORDS.line(i), &[240, 16]);
        m.numbers[SHAPE.line(240 + i)] = i as f64 - 8.0;
        m.numbers[EXTENT.line(496 + i)] = 0.25 * i as f64;
        words(&mut m, SECTION_MARK_WORDS.line(i), &[240, 16]);
        // on eleven lanes, so that cases may leave one out
        marks(&mut m, 240 + i, &[(i as u16 % 11, i as u16 + 1, 0.25 * i as f64, 4.0)]);
    }
    for lane in 0..192 {
        words(&mut m, LANE_WORDS.line(lane), &[lane as u16 % 2, 0, 496, 16, 504, 8]);
    }
    for i in 0..8 {
        m.numbers[HEIGHT.line(504 + i)] = 0.5 * i as f64;
        m.numbers[CUBIC.line(152 + i)] = 10.0 * i as f64;
    }
    for strip in 0..4 {
        words(&mut m, STRIP_WORDS.line(strip), &[1, 152, 8, 152, 8, 152, 8, 152, 8, 152, 8]);
    }
    m
}

/// The same with the starts of geometries and of the road's cubics all 0.
pub fn level() -> Memory {
    let mut m = full();
    for i in 0..64 {
        for table in [GEOM, ELEV, BANK, OFFSET, TSHIFT] {
            m.numbers[table.line(i)] = 0.0;
        }
    }
    m
}
