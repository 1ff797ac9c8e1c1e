//! The panels of the plan: the whole road, and the road around the cross section where the whole is too small for its lanes.
use super::dotted::Dotted;
use super::ground::Ground;
use super::jumps::Jump;
use super::labels::Labels;
use super::names::{LEGIBLE, Names};
use super::plane::{Point, Rect};
use super::progress::Progress;
use super::sampled::{Sampled, sample};
use super::scale::{round_below, short};
use super::style::{AXIS, HEADING};
use super::subject::{Subject, Want};
use super::svg::{Anchor, Svg};
use super::view::View;

/// Room for labels around the road, and for the true coordinates below the frame and the heading above it.
const MARGIN: f64 = 44.0;
const BELOW: f64 = 18.0;
const ABOVE: f64 = 30.0;

/// The longest scale bar, as a part of the frame.
const BAR: f64 = 0.25;
const BAR_HEIGHT: f64 = 5.0;

/// What a panel of the plan needs to know.
pub struct Scene<'a> {
    pub subject: &'a Subject,
    pub wants: &'a [Want],
    pub jumps: &'a [Jump],
    pub dotted: Option<&'a Dotted>,
    pub at: f64,
}

impl Scene<'_> {
    /// The whole road, to the view that is answered.
    pub fn plan(&self, svg: &mut Svg, panel: Rect, sampled: &Sampled) -> View {
        let subject = self.subject;
        let wanted = self.wants.iter().filter(|w| w.answer.is_ok()).map(|w| subject.place(w.s, w.t));
        let ground = Rect::of(sampled.cuts().flat_map(|c| c.points()).chain(wanted));
        let view = View::of(frame(panel), ground.unwrap_or(Rect::new(0.0, 0.0, 0.0, 0.0)), MARGIN);
        self.panel(svg, panel, ["Plan", "x east, y north, m", "cross section s"], sampled, &view);
        view
    }

    /// The scale at which the lanes at the cross section are legible, if it is greater than that one and there are lanes.
    pub fn legible(&self, panel: Rect, scale: f64) -> Option<f64> {
        const WIDE: f64 = 18.0;
        const PART: f64 = 0.8;
        let (sides, frame) = (self.subject.sides(self.at), frame(panel));
        let (right, left) = sides.outermost()?;
        let narrowest = sides.lanes().map(|(_, inner, outer)| (outer - inner).abs()).filter(|w| *w > 0.01).reduce(f64::min)?;
        let fits = frame.width.min(frame.height) * PART / (left - right);
        (narrowest * scale < LEGIBLE).then(|| fits.min(WIDE / narrowest)).filter(|s| *s > scale)
    }

    /// The road around the cross section, at that scale.
    pub fn detail(&self, svg: &mut Svg, panel: Rect, scale: f64) {
        let station = self.subject.station(self.at);
        let view = View::at(frame(panel), Point::new(station.x, station.y), scale);
        let reach = view.frame.width.hypot(view.frame.height) / 2.0 / scale;
        let (from, to) = ((self.at - reach).max(0.0), (self.at + reach).min(self.subject.length()));
        let sampled = sample(self.subject, from, to, &mut Progress::silent());
        self.panel(svg, panel, ["Detail", "at the cross section", "s"], &sampled, &view);
    }

    fn panel(&self, svg: &mut Svg, panel: Rect, [heading, note, at_name]: [&'static str; 3], sampled: &Sampled, view: &View) {
        let frame = view.frame;
        svg.words("heading", Anchor::Start, Point::new(panel.left, panel.top + HEADING), heading);
        svg.words("quiet", Anchor::Start, Point::new(panel.left + 58.0, panel.top + HEADING), note);
        view.grid(svg, self.subject.origin);
        let ground = Ground { subject: self.subject, sampled, view };
        svg.clipped(frame);
        ground.draw(svg, self.jumps);
        if let Some(dotted) = self.dotted {
            ground.dots(svg, dotted);
        }
        Names { ground: &ground, labels: Labels::new(frame.inside(2.0)), at_name }.draw(svg, self.at, self.wants);
        svg.close();
        svg.rect("frame", frame);
        scale_bar(svg, view);
        north(svg, Point::new(frame.right() - 10.0, panel.top + 4.0));
    }
}

fn frame(panel: Rect) -> Rect {
    Rect::new(panel.left + AXIS, panel.top + ABOVE, panel.width - AXIS, panel.height - ABOVE - BELOW)
}

/// Above the frame, left of the north arrow: four parts of a round length.
fn scale_bar(svg: &mut Svg, view: &View) {
    const PARTS: u8 = 4;
    let length = round_below(view.frame.width * BAR / view.scale);
    let part = length * view.scale / f64::from(PARTS);
    let words = format!("{} m", short(length));
    let end = view.frame.right() - 42.0;
    let start = Point::new(end - length * view.scale - words.len() as f64 * 7.0, view.frame.top - 15.0);
    for i in 0..PARTS {
        let class = if i % 2 == 0 { "dark bar" } else { "bar" };
        svg.rect(class, Rect::new(start.x + part * f64::from(i), start.y, part, BAR_HEIGHT));
    }
    svg.words("label", Anchor::Start, start.moved(length * view.scale + 5.0, BAR_HEIGHT + 1.0), &words);
}

fn north(svg: &mut Svg, top: Point) {
    svg.area("dark", &[top, top.moved(5.0, 20.0), top.moved(0.0, 15.0), top.moved(-5.0, 20.0)]);
    svg.words("section-name", Anchor::End, top.moved(-7.0, 14.0), "N");
}
