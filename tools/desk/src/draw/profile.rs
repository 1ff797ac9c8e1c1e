//! Elevation and bank along s.
use super::graph::{Graph, range};
use super::lines::{SEEN, joined, simplified};
use super::plane::{Point, Rect};
use super::sampled::{Cut, Sampled};
use super::scale::fixed;
use super::style::{AXIS, HEADING};
use super::subject::Subject;
use super::svg::{Anchor, Svg};

/// Values that differ by less are one.
const JUMP: f64 = 1e-4;

/// The least that an axis spans: metres of elevation, radians of bank.
const LEAST_RISE: f64 = 0.2;
const LEAST_BANK: f64 = 0.02;

const ABOVE: f64 = 22.0;
const BELOW: f64 = 18.0;
const MOST: (usize, usize) = (6, 5);

struct Curve<'a> {
    heading: &'a str,
    note: String,
    least: f64,
    value: fn(&Cut) -> f64,
}

pub fn draw(svg: &mut Svg, panel: Rect, subject: &Subject, sampled: &Sampled, at: f64) {
    let half = panel.height / 2.0;
    let ends = |value: fn(&Cut) -> f64| range_of(sampled, value);
    let (low, high) = ends(|c| c.station.z);
    let note = format!("m, of the reference line: {} to {}", fixed(low, 3), fixed(high, 3));
    let rise = Curve { heading: "Elevation", note, least: LEAST_RISE, value: |c| c.station.z };
    let (low, high) = ends(|c| c.station.bank);
    let degrees = |radians: f64| fixed(radians.to_degrees(), 2);
    let note = format!("rad: {} to {} ({}° to {}°)", fixed(low, 4), fixed(high, 4), degrees(low), degrees(high));
    let bank = Curve { heading: "Bank", note, least: LEAST_BANK, value: |c| c.station.bank };
    for (i, curve) in [rise, bank].into_iter().enumerate() {
        let place = Rect::new(panel.left, panel.top + half * i as f64, panel.width, half);
        draw_one(svg, place, &curve, subject, sampled, at);
    }
}

fn range_of(sampled: &Sampled, value: fn(&Cut) -> f64) -> (f64, f64) {
    sampled.cuts().map(value).fold((f64::INFINITY, f64::NEG_INFINITY), |(low, high), v| (low.min(v), high.max(v)))
}

fn draw_one(svg: &mut Svg, panel: Rect, curve: &Curve, subject: &Subject, sampled: &Sampled, at: f64) {
    svg.words("heading", Anchor::Start, Point::new(panel.left, panel.top + HEADING), curve.heading);
    svg.words("quiet", Anchor::Start, Point::new(panel.left + 78.0, panel.top + HEADING), &curve.note);
    let frame = Rect::new(panel.left + AXIS, panel.top + ABOVE, panel.width - AXIS, panel.height - ABOVE - BELOW);
    let graph = Graph { frame, across: (0.0, subject.length()), up: range(sampled.cuts().map(curve.value), curve.least) };
    graph.axes(svg, (0.0, subject.length()), MOST);
    svg.words("small", Anchor::End, Point::new(frame.left - 20.0, frame.bottom() + 13.0), "s, m");
    subject.model.sections.iter().for_each(|n| graph.upright(svg, "section-at", n.start));
    graph.upright(svg, "at", at);
    let runs = sampled.pieces.iter().map(|p| p.cuts.iter().map(|c| Point::new(c.station.s, (curve.value)(c))).collect());
    let lines = joined(runs, JUMP);
    let paper = |line: &Vec<Point>| simplified(&line.iter().map(|p| graph.paper(*p)).collect::<Vec<_>>(), SEEN);
    let lines: Vec<Vec<Point>> = lines.iter().map(paper).collect();
    for step in lines.windows(2).filter_map(|l| Some((l[0].last()?, l[1].first()?))) {
        svg.line("step", *step.0, *step.1);
    }
    svg.lines("curve", &lines);
    section_numbers(svg, &graph, subject, |s| sampled.cuts().find(|c| c.station.s >= s).map_or(0.0, curve.value));
}

/// Beside the start of each section that has room for its number, at the end of the frame that is farther from the curve there.
fn section_numbers(svg: &mut Svg, graph: &Graph, subject: &Subject, value: impl Fn(f64) -> f64) {
    const APART: f64 = 14.0;
    let mut last = f64::NEG_INFINITY;
    for (number, section) in subject.model.sections.iter().enumerate() {
        let high = graph.y(value(section.start)) < graph.frame.center().y;
        let down = if high { graph.frame.height - 4.0 } else { 11.0 };
        let at = Point::new(graph.x(section.start) + 3.0, graph.frame.top + down);
        if at.x - last > APART && at.x + APART < graph.frame.right() {
            svg.words("small halo", Anchor::Start, at, &number.to_string());
            last = at.x;
        }
    }
}
