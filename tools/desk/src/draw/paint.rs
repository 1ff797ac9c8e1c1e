//! Marks: strokes of paint along the outer border of their lane, coloured by kind.
use second::model::{Mark, Road, Section};

use super::ground::Ground;
use super::lines::joined;
use super::plane::Point;
use super::sampled::Piece;
use super::style::{OVER, PAINTS};
use super::subject::Subject;
use super::svg::Svg;

/// The kinds that a road's marks have which cover something, in order: the first has the first colour, and colours come again after
/// the last.
#[derive(Debug, Clone, PartialEq)]
pub struct Paint(Vec<u16>);

/// Most kinds that the legend names for one colour.
const MOST: usize = 2;

impl Paint {
    pub fn of(road: &Road) -> Self {
        let marks = road.sections.iter().flat_map(|section| &section.marks).filter(|mark| mark.start < mark.end);
        let mut kinds: Vec<u16> = marks.map(|mark| mark.kind).collect();
        kinds.sort_unstable();
        kinds.dedup();
        Self(kinds)
    }

    pub fn is_none(&self) -> bool {
        self.0.is_empty()
    }

    pub fn class(&self, kind: u16) -> &'static str {
        PAINTS[self.0.iter().position(|k| *k == kind).unwrap_or(0) % PAINTS.len()]
    }

    /// Each colour with the kinds that have it.
    pub fn legend(&self) -> Vec<(&'static str, String)> {
        let with = |class: usize| self.0.iter().skip(class).step_by(PAINTS.len()).copied().collect::<Vec<_>>();
        let used = PAINTS.iter().take(self.0.len()).enumerate();
        used.map(|(i, class)| (*class, named(&with(i)))).collect()
    }
}

/// In few words, since two entries stand in a row.
fn named(kinds: &[u16]) -> String {
    if let [kind] = kinds {
        return format!("paint of kind {kind}");
    }
    let list = kinds.iter().take(MOST).map(u16::to_string).collect::<Vec<_>>().join(", ");
    let more = if kinds.len() > MOST { ", .." } else { "" };
    format!("paint {list}{more}")
}

/// Marks that cover something, the longest first, so that a shorter one lies on top; with each the class that `OVER` adds to it.
pub fn layers<'a>(marks: impl Iterator<Item = &'a Mark>) -> Vec<(&'a Mark, &'static str)> {
    let mut marks: Vec<&Mark> = marks.filter(|mark| mark.start < mark.end).collect();
    marks.sort_by(|a, b| (b.end - b.start).total_cmp(&(a.end - a.start)));
    let meet = |a: &Mark, b: &Mark| a.lane == b.lane && a.start < b.end && b.start < a.end;
    let below = |i: usize| marks[..i].iter().filter(|mark| meet(mark, marks[i])).count();
    (0..marks.len()).map(|i| (marks[i], OVER[below(i).min(OVER.len() - 1)])).collect()
}

/// The outer border of a lane, by its place among those of its section: of what each side has at its base and at its lanes' borders.
fn outer<T: Copy>(section: &Section, place: usize, left: &[T], right: &[T]) -> Option<T> {
    let lanes = section.left.len();
    let (side, k) = if place < lanes { (left, place) } else { (right, place - lanes) };
    side.get(k + 1).copied()
}

/// Its t at a station of the section.
pub fn outer_at(subject: &Subject, section: &Section, place: usize, s: f64) -> Option<f64> {
    let sides = subject.sides(s);
    outer(section, place, &sides.left, &sides.right)
}

impl Ground<'_> {
    pub fn paint(&self, svg: &mut Svg, jump: f64) {
        for pieces in self.sampled.pieces.chunk_by(|a, b| a.section == b.section) {
            let section = &self.subject.model.sections[pieces[0].section];
            for (mark, over) in layers(section.marks.iter()) {
                let runs = pieces.iter().map(|piece| self.painted(piece, section, mark));
                let lines: Vec<Vec<Point>> = joined(runs, jump).iter().map(|line| self.on_paper(line)).collect();
                svg.lines(&format!("{}{over}", self.subject.paint.class(mark.kind)), &lines);
            }
        }
    }

    /// The part of a mark that lies in a piece, its ends exact.
    fn painted(&self, piece: &Piece, section: &Section, mark: &Mark) -> Vec<Point> {
        let (Some(first), Some(last)) = (piece.cuts.first(), piece.cuts.last()) else { return Vec::new() };
        let from = (section.start + mark.start).max(first.station.s);
        let to = (section.start + mark.end).min(last.station.s);
        if from >= to {
            return Vec::new();
        }
        let end = |s: f64| Some(self.subject.place(s, outer_at(self.subject, section, mark.lane, s)?));
        let between = piece.cuts.iter().filter(|cut| from < cut.station.s && cut.station.s < to);
        let between = between.map(|cut| outer(section, mark.lane, &cut.left, &cut.right));
        [end(from)].into_iter().chain(between).chain([end(to)]).flatten().collect()
    }
}

#[cfg(test)]
mod tests {
    use super::*;

    fn road(kinds: &[u16]) -> Road {
        let marks = kinds.iter().map(|&kind| Mark { lane: 0, kind, start: 0.0, end: 1.0 }).collect();
        Road { sections: vec![Section { marks, ..Section::default() }], ..Road::default() }
    }

    #[test]
    fn kinds_have_colours_in_their_order() {
        let paint = Paint::of(&road(&[255, 3, 1, 3]));
        assert_eq!(paint, Paint(vec![1, 3, 255]));
        assert_eq!([1, 3, 255].map(|kind| paint.class(kind)), [PAINTS[0], PAINTS[1], PAINTS[2]]);
        let words: Vec<String> = paint.legend().into_iter().map(|(_, words)| words).collect();
        assert_eq!(words, ["paint of kind 1", "paint of kind 3", "paint of kind 255"]);
        assert!(Paint::of(&road(&[])).is_none());
    }

    #[test]
    fn a_mark_that_covers_nothing_is_no_paint() {
        let mut road = road(&[1, 3]);
        road.sections[0].marks[0].start = 1.0;
        assert_eq!(Paint::of(&road), Paint(vec![3]));
        assert_eq!(layers(road.sections[0].marks.iter()), [(&road.sections[0].marks[1], "")]);
    }

    #[test]
    fn shorter_marks_lie_on_longer_ones() {
        let mark = |lane, start, end| Mark { lane, kind: 1, start, end };
        let marks = [mark(0, 0.0, 2.0), mark(0, 1.0, 9.0), mark(1, 0.0, 5.0), mark(0, 1.0, 9.0), mark(0, 9.0, 10.0)];
        let [short, long, other, again, past] = &marks;
        let expected = [(long, ""), (again, " over"), (other, ""), (short, " top"), (past, "")];
        assert_eq!(layers(marks.iter()), expected);
    }

    #[test]
    fn colours_come_again() {
        let paint = Paint::of(&road(&(1..=48).collect::<Vec<_>>()));
        assert_eq!((paint.class(1), paint.class(8)), (PAINTS[0], PAINTS[7]));
        assert_eq!(paint.class(9), PAINTS[0]);
        let legend = paint.legend();
        assert_eq!((legend.len(), legend[0].1.as_str()), (8, "paint 1, 9, .."));
    }
}
