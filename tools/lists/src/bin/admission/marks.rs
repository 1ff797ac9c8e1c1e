// Document 02, point 2: marks in lent memory. Cases change `roads::marked`.
use crate::Change::{self, Number, Word};
use crate::{List, roads};
use second::model::*;

const TINY: f64 = 5e-324;
const INF: f64 = f64::INFINITY;
const NAN: f64 = f64::NAN;

pub fn all(list: &mut List) {
    list.base(roads::marked());
    list.case("02, point 2: a road with marks", &[], 0);
    kinds(list);
    lanes(list);
    starts(list);
    ends(list);
    extents(list);
    ranges(list);
    overlapping(list);
    order_of_rows(list);
}

fn lane(mark: usize, lane: u16) -> Change {
    Word(MARK_WORDS.line(mark), lane)
}

fn kind(mark: usize, kind: u16) -> Change {
    Word(MARK_WORDS.line(mark) + 1, kind)
}

fn start(mark: usize, x: f64) -> Change {
    Number(MARK.line(mark), x)
}

fn end(mark: usize, x: f64) -> Change {
    Number(MARK.line(mark) + 1, x)
}

fn range(section: usize, first: usize, count: usize) -> [Change; 2] {
    let at = SECTION_MARK_WORDS.line(section);
    [Word(at, first as u16), Word(at + 1, count as u16)]
}

/// "kind a whole number 1..255"; outside is 4.
fn kinds(list: &mut List) {
    for mark in [0, 6] {
        for (code, answer) in [(1, 0), (254, 0), (255, 0), (0, 4), (256, 4), (257, 4), (511, 4), (512, 4), (65_535, 4)] {
            list.case("02, point 2: kind", &[kind(mark, code)], answer);
        }
    }
}

/// "any other wrong .. lane id is 3": the place of a lane is below the section's lanes, left and right.
fn lanes(list: &mut List) {
    for (mark, place, answer) in [
        (0, 1, 0),
        (0, 2, 0),
        (0, 3, 3),
        (0, 4, 3),
        (1, 0, 0),
        (1, 3, 3),
        (3, 3, 3),
        (4, 1, 3),
        (5, 1, 3),
        (6, 1, 3),
        (6, 256, 3),
        (6, 65_535, 3),
    ] {
        list.case("02, point 2: lane of a mark", &[lane(mark, place)], answer);
    }
    for (section, word, count) in [(0, 1, 1), (0, 1, 0), (0, 2, 0), (1, 1, 0), (2, 2, 0)] {
        list.case("02, point 2: a lane fewer", &[Word(SECTION_WORDS.line(section) + word, count)], 3);
    }
    list.case("02, point 2: a lane more", &[Word(SECTION_WORDS.line(2) + 1, 1), lane(6, 1)], 0);
}

/// "starts never falling per id", whatever stands between; "0 ≤ start ≤ end".
fn starts(list: &mut List) {
    for (mark, x, answer) in [
        // the first on its lane, the third of the section after it
        (0, -0.0, 0),
        (0, 10.0, 0),
        (0, 10f64.next_up(), 3),
        (0, INF, 3),
        (0, NAN, 3),
        (0, -TINY, 4),
        (0, -INF, 4),
        (2, 0.0, 0),
        (2, -0.0, 0),
        (2, 10f64.next_up(), 4),
        (2, INF, 4),
        (2, -TINY, 3),
        (2, -INF, 3),
        (2, NAN, 3),
        // alone on its lane
        (1, 0.0, 0),
        (1, 20.0, 0),
        (1, 20f64.next_up(), 4),
        (1, -TINY, 4),
        (1, NAN, 4),
        (1, INF, 4),
        (1, -INF, 4),
        (3, NAN, 4),
        (6, NAN, 4),
        (6, TINY, 4),
        // neighbours
        (5, 0.25, 0),
        (5, 0.25f64.next_down(), 3),
        (4, 30.0, 0),
        (4, 30f64.next_up(), 3),
        (4, 0.0, 0),
    ] {
        list.case("02, point 2: start of a mark", &[start(mark, x)], answer);
    }
    list.case("02, point 2: on the lane of marks that start later", &[lane(3, 0)], 3);
    list.case("02, point 2: on the lane of a mark that starts later", &[lane(3, 2)], 3);
    list.case("02, point 2: on a lane whose marks start earlier", &[lane(3, 2), start(3, 10.0)], 0);
    list.case("02, point 2: four on one lane", &[lane(1, 0), lane(3, 0), start(3, 10.0)], 0);
    list.case("02, point 2: four on one lane", &[lane(1, 0), lane(3, 0), start(3, 10f64.next_down())], 3);
    list.case("02, point 2: infinite starts do not fall", &[start(4, INF), start(5, INF)], 4);
    list.case("02, point 2: two that are no numbers", &[start(4, NAN), start(5, NAN)], 3);
}

/// "start ≤ end ≤ the section's extent".
fn ends(list: &mut List) {
    for (mark, x, answer) in [
        (0, 60.0, 0),
        (0, 60f64.next_up(), 4),
        (0, 0.0, 0),
        (0, -0.0, 0),
        (0, -TINY, 4),
        (0, NAN, 4),
        (0, INF, 4),
        (0, -INF, 4),
        (1, 10.0, 0),
        (1, 10f64.next_down(), 4),
        (1, 60.0, 0),
        (2, 60f64.next_up(), 4),
        (3, NAN, 4),
        (4, 40.0, 0),
        (4, 40f64.next_up(), 4),
        (5, 40f64.next_up(), 4),
        (5, 30f64.next_down(), 4),
        (6, -0.0, 0),
        (6, TINY, 4),
        (6, NAN, 4),
    ] {
        list.case("02, point 2: end of a mark", &[end(mark, x)], answer);
    }
    list.case("02, point 2: ends that are no numbers are not compared", &[end(4, NAN), end(5, NAN)], 4);
}

/// The extent is one f64 difference: the next section's start, or the road's length, less the section's own.
fn extents(list: &mut List) {
    let second = SECTION.line(1);
    let row = "02, point 2: the section's extent";
    for (s, answer) in [(60f64.next_down(), 4), (60f64.next_up(), 4), (59.0, 4), (61.0, 4)] {
        list.case(row, &[Number(second, s)], answer);
    }
    list.case(row, &[Number(second, 59.0), end(0, 59.0)], 0);
    list.case(row, &[Number(second, 61.0), end(4, 39.0)], 0);
    list.case(row, &[Number(second, 61.0), end(0, 61.0), end(4, 39.0)], 0);
    list.case(row, &[Number(0, 101.0), Number(MARK.line(6) + 1, 1.0)], 0);
    list.case(row, &[Number(0, 101.0), Number(MARK.line(6) + 1, 1f64.next_up())], 4);
    // 100 less the next f64 after 20 rounds to 80, though it is less.
    let far = |x: f64| [Number(second, 20f64.next_up()), end(0, 20.0), end(1, 20.0), end(3, 20.0), end(4, x)];
    list.case(row, &far(80.0), 0);
    list.case(row, &far(80f64.next_up()), 4);
}

/// 16 a section, 256 in all; a range past the table's end is 3. A line that nothing filled is of kind 0.
fn ranges(list: &mut List) {
    for (section, first, count, answer) in [
        (0, 0, 0, 0),
        (1, 256, 0, 0),
        (2, 257, 0, 3),
        (0, 65_535, 0, 3),
        (1, 7, 1, 4),
        (2, 255, 1, 4),
        (0, 240, 16, 4),
        (1, 256, 1, 3),
        (2, 255, 2, 3),
        (0, 241, 16, 3),
        (1, 7, 17, 3),
        (2, 65_535, 1, 3),
        (0, 65_535, 2, 3),
        (1, 65_520, 16, 3),
        (2, 1, 65_535, 3),
        (0, 65_535, 65_535, 3),
    ] {
        list.case("02, point 2: range of marks", &range(section, first, count), answer);
    }
    // The last 16 or 17 lines of the table, all of kind 1.
    let last = |n: usize| (256 - n..256).map(|mark| kind(mark, 1)).chain(range(1, 256 - n, n)).collect::<Vec<_>>();
    list.case("02, point 2: 16 marks", &last(16), 0);
    list.case("02, point 2: 17 marks", &last(17), 3);
    for section in [3, 15] {
        list.case("02, point 2: marks of a section that is not there", &range(section, 65_535, 65_535), 0);
        list.case("02, point 2: marks of a section that is not there", &range(section, 0, 17), 0);
    }
}

/// Ranges may overlap; each section tests what it names by its own lanes and extent.
fn overlapping(list: &mut List) {
    for (section, first, count, answer) in [
        (1, 2, 1, 0),
        (1, 0, 1, 4),
        (1, 1, 1, 3),
        (1, 3, 2, 3),
        (1, 4, 3, 3),
        (1, 6, 1, 0),
        (0, 0, 5, 3),
        (0, 3, 2, 0),
        (0, 0, 7, 3),
        (0, 4, 2, 0),
        (2, 4, 1, 4),
        (2, 0, 1, 4),
        (2, 1, 1, 3),
    ] {
        list.case("02, point 2: overlapping ranges", &range(section, first, count), answer);
    }
}

/// "in the places those have": 3 of a mark is row 3's, 4 of a mark row 4's.
fn order_of_rows(list: &mut List) {
    let three = [lane(3, 3), start(2, NAN), lane(3, 0), Word(SECTION_MARK_WORDS.line(1) + 1, 17)];
    let four = [kind(6, 0), end(4, 41.0), start(1, 21.0)];
    let five = [Word(KIND_WORDS.line(0), 2), Number(GEOM.line(0) + 4, 9_999.0)];
    for t in three {
        list.case("02, point 2: 3 before 4", &[t, Number(0, NAN)], 3);
        list.case("02, point 2: 3 before 4", &[t, four[0]], 3);
        list.case("02, point 2: 3 before 5", &[five[0], five[1], t], 3);
        list.samples("02, point 2: 3 before 6", &[five[0], t], 0, Err(3));
    }
    for f in four {
        list.case("02, point 2: 4 before 5", &[five[0], five[1], f], 4);
        list.case("02, point 2: 3 of a section before it", &[Number(SECTION.line(1), 0.0), f], 3);
        list.samples("02, point 2: 4 before 6", &[five[0], f], 0, Err(4));
    }
    list.case("02, point 2: 5 with marks", &five, 5);
    list.samples("02, point 2: 6 with marks", &[five[0]], 0, Err(6));
}
