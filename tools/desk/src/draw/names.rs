//! The labels of a view: lanes, sections, wants, distances, the cross section.
use super::ground::{Ground, PAST};
use super::labels::{Labels, Look, around, beside, centered, size_of};
use super::lines::{SEEN, simplified};
use super::plane::{Point, Rect};
use super::scale::{short, ticks};
use super::style::{self, LABEL, SMALL};
use super::subject::Want;
use super::svg::Svg;
use super::wanted;

const WANT: Look = Look { class: "want-name halo", size: LABEL };
const SECTION: Look = Look { class: "section-name halo", size: LABEL };
const AT: Look = Look { class: "at-name halo", size: LABEL };
const DISTANCE: Look = Look { class: "small halo", size: SMALL };
const LANE: Look = Look { class: "lane-id", size: LABEL };

/// The narrowest lane, in units, that a lane id is legible in.
pub const LEGIBLE: f64 = 9.0;

/// A want's label farther from its point than this has a line to it.
const FAR: f64 = 8.0;
/// Marked distances are about this far apart on the paper, and no more than that many.
const APART: f64 = 60.0;
const MOST_TICKS: f64 = 25.0;
const TICK: f64 = 3.0;

/// The parts of a section at which its lane ids are tried.
const PLACES: [f64; 9] = [0.5, 0.4, 0.6, 0.3, 0.7, 0.2, 0.8, 0.1, 0.9];

pub struct Names<'a> {
    pub ground: &'a Ground<'a>,
    pub labels: Labels,
    /// What stands before the cross section's s.
    pub at_name: &'static str,
}

impl Names<'_> {
    /// All labels; the ones that must be there first.
    pub fn draw(&mut self, svg: &mut Svg, at: f64, wants: &[Want]) {
        let view = self.ground.view;
        self.keep_off_lines(at);
        let place = |w: &Want| self.ground.has(w.s).then(|| view.paper(self.ground.subject.place(w.s, w.t)));
        let shown = wanted::places(wants, |w| place(w).filter(|p| view.frame.has(*p)));
        for (_, p) in &shown {
            svg.circle("want", *p, style::WANT);
            self.labels.take(Rect::around(*p, 2.0 * style::WANT, 2.0 * style::WANT));
        }
        self.lanes(svg);
        for (name, p) in &shown {
            self.want(svg, name, *p);
        }
        self.cross_section(svg, at);
        self.sections(svg);
        self.distances(svg);
    }

    fn keep_off_lines(&mut self, at: f64) {
        let ground = self.ground;
        let reference: Vec<Point> = ground.sampled.cuts().map(|c| ground.view.paper(c.center())).collect();
        self.labels.avoid_line(&simplified(&reference, SEEN));
        let starts = ground.subject.model.sections.iter().map(|n| n.start).filter(|s| ground.has(*s));
        for line in starts.map(|s| ground.crossing(s, PAST)).chain([ground.crossing(at, 2.0 * PAST)]) {
            self.labels.take_line(&[line.left, line.right]);
        }
    }

    fn want(&mut self, svg: &mut Svg, name: &str, at: Point) {
        let size = size_of(name, WANT.size);
        let found = self.labels.find(size, around(at, size)).unwrap_or(at.moved(size.0, -size.1));
        let near = Rect::around(found, size.0, size.1).nearest(at);
        if near.distance(at) > FAR {
            svg.line("lead", at, near);
        }
        centered(svg, WANT, name, found);
    }

    fn cross_section(&mut self, svg: &mut Svg, at: f64) {
        let line = self.ground.crossing(at, 2.0 * PAST);
        svg.line("at", line.left, line.right);
        let words = format!("{} {}", self.at_name, short(at));
        let size = size_of(&words, AT.size);
        let back = Point::new(-line.leftward.x, -line.leftward.y);
        let places = beside(line.right, back, size).chain(beside(line.left, line.leftward, size)).chain(around(line.right, size));
        self.labels.write(svg, AT, &words, places);
    }

    fn sections(&mut self, svg: &mut Svg) {
        let sections = &self.ground.subject.model.sections;
        for (number, section) in sections.iter().enumerate().filter(|(_, n)| self.ground.has(n.start)) {
            let line = self.ground.crossing(section.start, PAST);
            let words = format!("section {number}, s {}", short(section.start));
            let size = size_of(&words, SECTION.size);
            let back = Point::new(-line.leftward.x, -line.leftward.y);
            let places =
                beside(line.left, line.leftward, size).chain(beside(line.right, back, size)).chain(around(line.left, size));
            self.labels.write(svg, SECTION, &words, places);
        }
    }

    /// Every section's lane ids, side by side where there is room for them.
    fn lanes(&mut self, svg: &mut Svg) {
        let Some((first, last)) = self.ground.sampled.ends().filter(|_| self.ground.sampled.coarse.is_none()) else { return };
        let model = &self.ground.subject.model;
        let ends = model.sections.iter().skip(1).map(|n| n.start).chain([model.length]);
        for (section, end) in model.sections.iter().zip(ends) {
            let (from, to) = (section.start.max(first), end.min(last));
            let lanes = section.left.len() + section.right.len();
            let mut named = Vec::new();
            for s in PLACES.into_iter().filter(|_| from < to).map(|part| from + (to - from) * part) {
                self.lanes_at(svg, s, &mut named);
                if named.len() == lanes {
                    break;
                }
            }
        }
    }

    /// The ids at s of the lanes that have none yet.
    fn lanes_at(&mut self, svg: &mut Svg, s: f64, named: &mut Vec<i32>) {
        let subject = self.ground.subject;
        for (id, inner, outer) in subject.sides(s).lanes() {
            let wide = (outer - inner).abs() * self.ground.view.scale;
            if named.contains(&id) || wide < LEGIBLE {
                continue;
            }
            let words = id.to_string();
            let middle = self.ground.view.paper(subject.place(s, inner).between(subject.place(s, outer)));
            if self.labels.write(svg, LANE, &words, [middle]).is_some() {
                named.push(id);
            }
        }
    }

    fn distances(&mut self, svg: &mut Svg) {
        let Some((from, to)) = self.ground.sampled.ends() else { return };
        let most = ((to - from) * self.ground.view.scale / APART).clamp(1.0, MOST_TICKS);
        let ticks = ticks(from, to, most as usize);
        for s in ticks.values.iter().filter(|s| (from..=to).contains(*s)) {
            let line = self.ground.crossing(*s, 0.0);
            self.ground.tick(svg, *s);
            let words = ticks.text(*s);
            let size = size_of(&words, DISTANCE.size);
            let back = Point::new(-line.leftward.x, -line.leftward.y);
            let outer = line.right.toward(back, TICK);
            let places = beside(outer, back, size).take(2).chain(beside(line.left, line.leftward, size).take(2));
            if self.labels.write(svg, DISTANCE, &words, places).is_some() {
                svg.line("mark", line.right, outer);
            }
        }
    }
}
