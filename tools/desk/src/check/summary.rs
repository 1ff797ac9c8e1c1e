//! An admitted job: the road in short, and the answer to each want.
use super::look;
use super::wording::{counted, decimal, meaning, thousands};
use riftkettle::Road;
use second::model::{self, Shape};

pub fn of(road: &Road) -> String {
    let lent = road.lent();
    let lists = model::Road::read(lent.words, lent.numbers);
    let samples = road.samples().len() / 4;
    let mut text = format!("admitted: a road of {} m\n", decimal(road.length()));
    text += &format!("  geometries: {}\n{}", geometries(&lists), end(road));
    text += &format!(
        "  {}, {}\n",
        counted(lists.sections.len(), "section", "sections"),
        counted(lists.lanes().count(), "lane", "lanes")
    );
    text += &format!("  lines of tables: {}\n", lines(&lists, road.wants().len()));
    text += &format!("  samples needed: {} of 2,000\n", thousands(samples));
    text += if road.wants().len() == 0 { "no wants\n" } else { "wants:\n" };
    text.extend(road.wants().map(|(s, t)| format!("  s = {}, t = {}: {}\n", decimal(s), decimal(t), want(road, s, t))));
    text + &look::of(road, &lists)
}

fn geometries(road: &model::Road) -> String {
    let of = |kind: fn(&Shape) -> bool| road.geoms.iter().filter(|g| kind(&g.shape)).count();
    let kinds = [
        counted(of(|shape| matches!(shape, Shape::Line)), "line", "lines"),
        counted(of(|shape| matches!(shape, Shape::Arc(_))), "arc", "arcs"),
        counted(of(|shape| matches!(shape, Shape::Spiral(..))), "spiral", "spirals"),
    ];
    let there: Vec<String> = kinds.into_iter().filter(|kind| !kind.starts_with("0 ")).collect();
    there.join(", ")
}

/// Where the next geometry would begin, in f64: whoever chains geometries by hand asks for it.
fn end(road: &Road) -> String {
    let said = |[x, y, heading]: [String; 3]| format!("  the reference line ends at x = {x}, y = {y}, heading {heading}\n");
    road.station(road.length()).map_or(String::new(), |end| said([end.x, end.y, end.heading].map(decimal)))
}

/// The tables that have lines, with how many.
fn lines(road: &model::Road, wants: usize) -> String {
    let strips = || road.strips.iter().flatten();
    let counts = [
        ("road", 1),
        ("geom", road.geoms.len()),
        ("elev", road.elev.len()),
        ("bank", road.bank.len()),
        ("offset", road.offset.len()),
        ("tshift", road.tshift.len()),
        ("section", road.sections.len()),
        ("lane", road.lanes().count()),
        ("extent", road.lanes().map(|lane| lane.extents.len()).sum()),
        ("height", road.lanes().map(|lane| lane.heights.len()).sum()),
        ("profile", road.profiles.len()),
        ("shape", road.profiles.iter().map(|profile| profile.shapes.len()).sum()),
        ("strip", strips().count()),
        ("cubic", strips().flat_map(|strip| &strip.lists).map(Vec::len).sum()),
        ("mark", road.sections.iter().map(|section| section.marks.len()).sum()),
        ("want", wants),
    ];
    let there: Vec<String> = counts.iter().filter(|(_, n)| *n > 0).map(|(name, n)| format!("{name} {n}")).collect();
    there.join(", ")
}

fn want(road: &Road, s: f64, t: f64) -> String {
    match road.surface(s, t) {
        Ok(point) => {
            let [x, y, z] = [point.x, point.y, point.z].map(|x| decimal(x.into()));
            format!("x = {x}, y = {y}, z = {z}, heading {}", decimal(point.heading))
        }
        Err(refusal) => format!("refused {}: {}", refusal.number(), reason(refusal.number(), road.length(), s, t)),
    }
}

/// Why a want is refused: row 7 looks at s, row 8 at t.
fn reason(number: u32, length: f64, s: f64, t: f64) -> String {
    match number {
        7 if s.is_nan() => "s is not a number".into(),
        7 if s < 0.0 => format!("s = {} is before the road's start", decimal(s)),
        7 => format!("s = {} is past the road's length {}", decimal(s), decimal(length)),
        8 if t.is_nan() => "t is not a number".into(),
        8 => format!("t = {} is outside -80 to 80", decimal(t)),
        _ => meaning(number).into(),
    }
}
