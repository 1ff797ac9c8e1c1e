//! The whole picture: what stands where on the paper.
use super::across::Across;
use super::dotted::Dotted;
use super::ground::kind;
use super::jumps;
use super::plan::Scene;
use super::plane::{Point, Rect};
use super::profile;
use super::progress::Progress;
use super::sampled::sample;
use super::scale::short;
use super::style::{HEIGHT, PAINT_STYLE, SPOT_STYLE, STYLE, WIDTH};
use super::subject::{Subject, Want};
use super::svg::{Anchor, Svg};
use super::table::Column;

const PLAN: Rect = Rect::new(24.0, 60.0, 784.0, 484.0);
const COLUMN: Rect = Rect::new(824.0, 60.0, 340.0, 484.0);
const PROFILE: Rect = Rect::new(24.0, 554.0, 360.0, 266.0);
const ACROSS: Rect = Rect::new(400.0, 554.0, 764.0, 266.0);
/// The cross section and the detail where both are drawn.
const ACROSS_NARROW: Rect = Rect::new(400.0, 554.0, 408.0, 266.0);
const DETAIL: Rect = Rect::new(824.0, 554.0, 340.0, 266.0);

/// Where the road is cut across if nothing is said: at the first want that the road admits, else in its middle.
pub fn default_at(wants: &[Want], length: f64) -> f64 {
    wants.iter().find(|w| w.answer.is_ok()).map_or(length / 2.0, |w| w.s)
}

fn counted(n: usize, one: &str, more: &str) -> String {
    format!("{n} {}", if n == 1 { one } else { more })
}

/// Length, and how many of what there are.
pub fn summary(subject: &Subject) -> String {
    let model = &subject.model;
    let mut kinds = [0; 3];
    model.geoms.iter().for_each(|g| kinds[kind(g.shape)] += 1);
    let names = [("line", "lines"), ("arc", "arcs"), ("spiral", "spirals")];
    let kinds = kinds.iter().zip(names).filter(|(n, _)| **n > 0).map(|(n, (one, more))| counted(*n, one, more));
    let (sections, lanes) = (model.sections.len(), model.lanes().count());
    format!(
        "length {} m, {}, {}, {} ({})",
        short(subject.length()),
        counted(sections, "section", "sections"),
        counted(lanes, "lane", "lanes"),
        counted(model.geoms.len(), "geometry", "geometries"),
        kinds.collect::<Vec<_>>().join(", ")
    )
}

/// The picture of the road, cut across at `at`.
pub fn draw(subject: &Subject, at: f64, dotted: Option<&Dotted>, progress: &mut Progress) -> String {
    let wants = subject.wants();
    let sampled = sample(subject, 0.0, subject.length(), progress);
    let jumps = jumps::of(subject, &sampled);
    let (paint, spot) = (!subject.paint.is_none(), dotted.is_some());
    let style =
        [(true, STYLE), (paint, PAINT_STYLE), (spot, SPOT_STYLE)].map(|(has, style)| if has { style } else { "" }).concat();
    let mut svg = Svg::new(WIDTH, HEIGHT, &format!("{}: {}", subject.name, summary(subject)), &style);
    title(&mut svg, subject);
    let scene = Scene { subject, wants: &wants, jumps: &jumps, dotted, at };
    let view = scene.plan(&mut svg, PLAN, &sampled);
    let mut column = Column { svg: &mut svg, panel: COLUMN, down: 0.0 };
    column.legend();
    column.paint(&subject.paint);
    if let Some(dotted) = dotted {
        column.dots(dotted);
    }
    column.wants(&wants, if subject.length() < 1.0 { 5 } else { 3 });
    column.notes(&jumps, sampled.coarse, &subject.paint);
    profile::draw(&mut svg, PROFILE, subject, &sampled, at);
    let detail = scene.legible(DETAIL, view.scale);
    Across { subject, wants: &wants, at }.draw(&mut svg, if detail.is_some() { ACROSS_NARROW } else { ACROSS });
    if let Some(scale) = detail {
        scene.detail(&mut svg, DETAIL, scale);
    }
    svg.finish()
}

/// The file's name, and below it what the road is; a long name keeps its end.
fn title(svg: &mut Svg, subject: &Subject) {
    const MOST: usize = 90;
    let letters = subject.name.chars().count();
    let name: String = subject.name.chars().skip(letters.saturating_sub(MOST)).collect();
    let name = if letters > MOST { format!("…{name}") } else { name };
    svg.words("title", Anchor::Start, Point::new(PLAN.left, 28.0), &name);
    svg.words("subtitle", Anchor::Start, Point::new(PLAN.left, 48.0), &summary(subject));
}
