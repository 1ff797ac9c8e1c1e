//! The cross section: the surface's height over t, as seen along the road, so that left is left.
use second::model::Mark;

use super::graph::Graph;
use super::labels::{Labels, Look, around, size_of};
use super::lines::{SEEN, simplified};
use super::paint;
use super::plane::{Point, Rect};
use super::scale::{fixed, short};
use super::steps::{self, BESIDE};
use super::style::{self, AXIS, HEADING, LABEL, SMALL};
use super::subject::{Sides, Subject, Want};
use super::svg::{Anchor, Svg};
use super::wanted;

/// Shown past the outermost borders: that part of the road's width, and no less than that.
const PART: f64 = 0.08;
const LEAST_PAST: f64 = 0.5;
/// Shown on each side of a road without lanes, unless its wants or shapes lie farther out.
const BARE: f64 = 5.0;
/// The largest offset.
const FARTHEST: f64 = 80.0;

const ABOVE: f64 = 22.0;
const BELOW: f64 = 34.0;
/// Room above the surface for heights, and below it for lane ids.
const HEADROOM: f64 = 0.3;
const FOOTROOM: f64 = 0.14;

/// Values on the axis of t are about so far apart.
const APART: f64 = 45.0;

/// By how much heights may be drawn larger than widths.
const EXAGGERATIONS: [f64; 7] = [1.0, 2.0, 5.0, 10.0, 20.0, 50.0, 100.0];
/// Heights that differ by less than this are flat, not worth any.
const FLAT: f64 = 0.001;

/// How high paint stands.
const PAINTED: f64 = 9.0;

const HEIGHT: Look = Look { class: "small halo", size: SMALL };
const LANE: Look = Look { class: "lane-id", size: LABEL };
const WANT: Look = Look { class: "want-name halo", size: LABEL };

pub struct Across<'a> {
    pub subject: &'a Subject,
    pub wants: &'a [Want],
    pub at: f64,
}

/// The t that are shown, least and greatest.
fn shown(sides: &Sides, named: &[f64]) -> (f64, f64) {
    let (low, high) = match sides.outermost() {
        Some((right, left)) => (right.min(0.0), left.max(0.0)),
        None => named.iter().fold((-BARE, BARE), |(low, high), t| (low.min(*t), high.max(*t))),
    };
    let past = ((high - low) * PART).max(LEAST_PAST);
    ((low - past).max(-FARTHEST), (high + past).min(FARTHEST))
}

/// The graph that fits: one scale for both axes, then the largest round exaggeration of heights that still fits.
fn fitted(frame: Rect, (low, high): (f64, f64), (bottom, top): (f64, f64)) -> (Graph, f64) {
    let room = frame.height * (1.0 - HEADROOM - FOOTROOM);
    let rise = top - bottom;
    let scale = (frame.width / (high - low)).min(if rise > 0.0 { room / rise } else { f64::INFINITY });
    let fits = |e: &&f64| **e == 1.0 || rise > FLAT && rise * scale * **e <= room;
    let exaggeration = *EXAGGERATIONS.iter().rev().find(fits).unwrap_or(&1.0);
    let (middle, half) = ((low + high) / 2.0, frame.width / scale / 2.0);
    let metres = frame.height / (scale * exaggeration);
    let floor = (bottom + top) / 2.0 - metres * (0.5 + (FOOTROOM - HEADROOM) / 2.0);
    (Graph { frame, across: (middle + half, middle - half), up: (floor, floor + metres) }, exaggeration)
}

impl Across<'_> {
    fn height(&self, t: f64) -> f64 {
        self.subject.surface(self.at, t.clamp(-FARTHEST, FARTHEST)).z.into()
    }

    pub fn draw(&self, svg: &mut Svg, panel: Rect) {
        let sides = self.subject.sides(self.at);
        let ends = shown(&sides, &self.subject.named_offsets());
        let shapes = self.subject.model.profiles.iter().flat_map(|p| p.shapes.iter().map(|c| c.start));
        let cuts: Vec<f64> = sides.both().chain(shapes).collect();
        let runs = steps::runs(&|t| self.height(t), &cuts, ends);
        let heights = runs.iter().flatten().map(|p| p.y);
        let frame = Rect::new(panel.left + AXIS, panel.top + ABOVE, panel.width - AXIS, panel.height - ABOVE - BELOW);
        let (low, high) = heights.fold((f64::INFINITY, f64::NEG_INFINITY), |(low, high), z| (low.min(z), high.max(z)));
        let (graph, exaggeration) = fitted(frame, ends, (low, high));
        self.headings(svg, panel, exaggeration);
        let wide = (graph.x(ends.0) - graph.x(ends.1)).abs();
        graph.axes(svg, ends, ((wide / APART) as usize, 4));
        svg.clipped(frame);
        let drawn = surface(svg, &graph, &runs);
        let mut labels = Labels::new(frame.inside(1.0));
        drawn.iter().for_each(|line| labels.avoid_line(line));
        self.names(svg, &graph, &sides, ends, labels);
        svg.close();
        svg.rect("frame", frame);
    }

    fn headings(&self, svg: &mut Svg, panel: Rect, exaggeration: f64) {
        let at = Point::new(panel.left, panel.top + HEADING);
        svg.words("heading", Anchor::Start, at, &format!("Cross section at s {} m", short(self.at)));
        let drawn = if exaggeration == 1.0 { "heights to scale".into() } else { format!("heights × {exaggeration}") };
        svg.words("label", Anchor::End, Point::new(panel.right(), at.y), &drawn);
        let below = Point::new(panel.left + AXIS, panel.bottom() - 5.0);
        svg.words("quiet", Anchor::Start, below, "z over t, m; seen along the road, so that left is left");
    }

    fn names(&self, svg: &mut Svg, graph: &Graph, sides: &Sides, ends: (f64, f64), mut labels: Labels) {
        let painted = self.paint(svg, graph, &mut labels);
        self.wanted(svg, graph, &mut labels);
        lane_ids(svg, graph, sides, &mut labels);
        self.reference(svg, graph, sides, &mut labels);
        let mut places: Vec<f64> = sides.both().collect();
        places.iter().filter(|t| !painted.contains(t)).for_each(|t| graph.upright(svg, "border", *t));
        if places.is_empty() {
            places = vec![0.0, ends.0 + BESIDE, ends.1 - BESIDE];
        }
        places.sort_by(f64::total_cmp);
        places.dedup();
        let words: Vec<String> = places.iter().map(|t| self.height_words(*t)).collect();
        for (i, t) in places.into_iter().enumerate().filter(|(i, _)| says_more(&words, *i)) {
            self.label_height(svg, graph, t, &words[i], &mut labels);
        }
    }

    /// The height at a border, or those on its left and right where it steps.
    fn height_words(&self, t: f64) -> String {
        match [t + BESIDE, t - BESIDE].map(|t| fixed(self.height(t), 3)) {
            [left, right] if left == right => left,
            [left, right] => format!("{left} | {right}"),
        }
    }

    fn label_height(&self, svg: &mut Svg, graph: &Graph, t: f64, words: &str, labels: &mut Labels) {
        let highest = self.height(t + BESIDE).max(self.height(t - BESIDE));
        let size = size_of(words, HEIGHT.size);
        let at = Point::new(graph.x(t), graph.y(highest) - size.1);
        let levels = (0..12).flat_map(|i| [0.0, 0.6, -0.6].map(|aside| at.moved(aside * size.0, -f64::from(i) * size.1)));
        labels.write(svg, HEIGHT, words, levels);
    }

    fn wanted(&self, svg: &mut Svg, graph: &Graph, labels: &mut Labels) {
        let place = |w: &Want| graph.paper(Point::new(w.t, self.height(w.t)));
        let here = |w: &Want| (w.s - self.at).abs() <= BESIDE;
        for (words, at) in wanted::places(self.wants, |w| here(w).then(|| place(w)).filter(|p| graph.frame.has(*p))) {
            svg.circle("want", at, style::WANT);
            labels.take(Rect::around(at, 2.0 * style::WANT, 2.0 * style::WANT));
            labels.write(svg, WANT, &words, around(at, size_of(&words, WANT.size)));
        }
    }

    /// The marks that cover their lane here, upright on its outer border, which is drawn below them; to the t of those borders.
    fn paint(&self, svg: &mut Svg, graph: &Graph, labels: &mut Labels) -> Vec<f64> {
        let section = &self.subject.model.sections[self.subject.section(self.at)];
        let layers = paint::layers(section.marks.iter().filter(|mark| mark.covers(self.at - section.start)));
        let border = |mark: &Mark| paint::outer_at(self.subject, section, mark.lane, self.at);
        let painted: Vec<f64> = layers.iter().filter_map(|(mark, _)| border(mark)).collect();
        painted.iter().for_each(|t| graph.upright(svg, "border", *t));
        for (mark, over) in layers {
            let Some(t) = border(mark) else { continue };
            let foot = graph.paper(Point::new(t, self.height(t)));
            svg.line(&format!("{}{over}", self.subject.paint.class(mark.kind)), foot, foot.moved(0.0, -PAINTED));
            labels.take(Rect::around(foot.moved(0.0, -PAINTED / 2.0), 4.0, PAINTED));
        }
        painted
    }

    /// Where t is 0, and the base where that is elsewhere.
    fn reference(&self, svg: &mut Svg, graph: &Graph, sides: &Sides, labels: &mut Labels) {
        let base = sides.base();
        let one = base.is_some_and(|b| graph.x(b) - graph.x(0.0) < 1.0 && graph.x(0.0) - graph.x(b) < 1.0);
        let feet = [(Some(0.0), if one { "base, t 0" } else { "t 0" }), (base.filter(|_| !one), "base")];
        for (t, words) in feet {
            let Some(t) = t else { continue };
            let foot = Point::new(graph.x(t), graph.y(self.height(t)) + 2.0);
            svg.area("dark", &[foot, foot.moved(4.0, 8.0), foot.moved(-4.0, 8.0)]);
            labels.take(Rect::around(foot.moved(0.0, 4.0), 8.0, 8.0));
            let aside = size_of(words, HEIGHT.size).0 / 2.0 + 6.0;
            let places = [6.0, 18.0, 30.0].into_iter().flat_map(|down| [foot.moved(aside, down), foot.moved(-aside, down)]);
            labels.write(svg, HEIGHT, words, places);
        }
    }
}

/// Whether a label differs from one beside it: of a row of equal heights the ends are enough.
fn says_more(labels: &[String], i: usize) -> bool {
    let beside = [i.checked_sub(1), Some(i + 1)].map(|k| k.and_then(|k| labels.get(k)));
    beside.iter().any(|other| *other != Some(&labels[i]))
}

/// Draws the surface and answers its lines on the paper.
fn surface(svg: &mut Svg, graph: &Graph, runs: &[Vec<Point>]) -> Vec<Vec<Point>> {
    let paper = |run: &Vec<Point>| simplified(&run.iter().map(|p| graph.paper(*p)).collect::<Vec<_>>(), SEEN);
    let lines: Vec<Vec<Point>> = runs.iter().map(paper).collect();
    let all: Vec<Point> = lines.concat();
    if let (Some(first), Some(last)) = (all.first(), all.last()) {
        let floor = graph.frame.bottom();
        let outline = [all.clone(), vec![Point::new(last.x, floor), Point::new(first.x, floor)]].concat();
        svg.area("ground", &outline);
    }
    for step in lines.windows(2).filter_map(|l| Some((l[0].last()?, l[1].first()?))) {
        svg.line("face", *step.0, *step.1);
    }
    svg.lines("surface", &lines);
    lines
}

fn lane_ids(svg: &mut Svg, graph: &Graph, sides: &Sides, labels: &mut Labels) {
    for (id, inner, outer) in sides.lanes() {
        let words = id.to_string();
        let middle = Point::new((graph.x(inner) + graph.x(outer)) / 2.0, graph.frame.bottom() - LABEL);
        let rows = [0.0, 1.0, 2.0].map(|row| middle.moved(0.0, -row * LABEL));
        if (graph.x(outer) - graph.x(inner)).abs() > 1.0 {
            labels.write(svg, LANE, &words, rows);
        }
    }
}

#[cfg(test)]
mod tests {
    use super::*;

    const FRAME: Rect = Rect::new(0.0, 0.0, 400.0, 200.0);

    #[test]
    fn the_exaggeration_is_the_largest_that_fits() {
        let (graph, exaggeration) = fitted(FRAME, (-5.0, 5.0), (0.0, 0.125));
        assert_eq!(exaggeration, 20.0);
        assert_eq!(graph.across, (5.0, -5.0));
        assert!(graph.y(0.125) > 0.0 && graph.y(0.0) < 200.0);
        assert!((graph.y(0.0) - graph.y(0.125) - 0.125 * 40.0 * 20.0).abs() < 1e-9);
    }

    #[test]
    fn a_flat_road_is_not_exaggerated() {
        assert_eq!(fitted(FRAME, (-5.0, 5.0), (3.0, 3.0)).1, 1.0);
    }

    #[test]
    fn a_steep_road_keeps_one_scale() {
        let (graph, exaggeration) = fitted(FRAME, (-40.0, 40.0), (-30.0, 30.0));
        assert_eq!(exaggeration, 1.0);
        let (across, up) = (graph.x(0.0) - graph.x(1.0), graph.y(0.0) - graph.y(1.0));
        assert!((across - up).abs() < 1e-9);
        assert!(graph.y(30.0) > 0.0 && graph.y(-30.0) < 200.0);
    }

    #[test]
    fn equal_heights_are_labelled_at_their_ends() {
        let labels = ["1", "0", "0", "0", "2"].map(String::from);
        assert_eq!([0, 1, 2, 3, 4].map(|i| says_more(&labels, i)), [true, true, false, true, true]);
    }

    #[test]
    fn what_is_shown_has_a_margin_and_a_limit() {
        let lanes = Sides { left: vec![0.0, 10.0], right: vec![0.0, -10.0] };
        assert_eq!(shown(&lanes, &[50.0]), (-11.6, 11.6));
        assert_eq!(shown(&Sides::default(), &[79.9]).1, FARTHEST);
    }
}
