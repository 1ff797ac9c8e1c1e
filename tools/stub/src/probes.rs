// The stub's functions inside the library.
use crate::Lent;
use crate::lanes::{self, *};
use interface::answers;
use published::oracle::Oracle;
use second::model::*;

interface::probe_functions!(answers);

fn sin_cos(h: f64, sin: &mut f64, cos: &mut f64) {
    (*sin, *cos) = published::stand_ins::sin_cos(h);
}

fn eval(start: f64, a: f64, b: f64, c: f64, d: f64, s: f64) -> f64 {
    lanes::eval(&Cubic { start, a, b, c, d }, s)
}

fn slope(start: f64, a: f64, b: f64, c: f64, d: f64, s: f64) -> f64 {
    lanes::slope(&Cubic { start, a, b, c, d }, s)
}

fn active(part: &[f64], s: f64) -> usize {
    last(part.chunks_exact(5).map(|c| c[0]), s).map_or(0, |i| i + 1)
}

fn across(
    (words, numbers): Lent,
    s: f64,
    t: f64,
    toward: f64,
    section: usize,
    right: u32,
    to_shape: &mut f64,
    to_cross: &mut f64,
    at: &mut usize,
    count: &mut usize,
) -> f64 {
    let road = Road::read(words, numbers);
    (*to_shape, *to_cross) = (shape(&road, s, t), cross(&road, s, t, toward));
    *at = section_at(&road, s);
    *count = road.sections.get(section).map_or(0, |x| sides(x)[usize::from(right != 0)].0.len());
    height(&road, s, t, toward)
}

fn lane(
    (words, numbers): Lent,
    section: usize,
    s: f64,
    tangent: f64,
    right: u32,
    k: usize,
    inner_t: &mut f64,
    outer_t: &mut f64,
    inner_height: &mut f64,
    outer_height: &mut f64,
) {
    let road = Road::read(words, numbers);
    let section = &road.sections[section];
    let (lanes, sign) = sides(section)[usize::from(right != 0)];
    let (base, into) = (value(&road.offset, s), into(section, s));
    [*inner_t, *outer_t, _] = side_borders(lanes, sign, base, into)[k];
    [*inner_height, *outer_height] = side_heights(&road, lanes, sign, (s, into), base, tangent)[k];
}

fn pose((words, numbers): Lent, _: &[f64], geometry: usize, s: f64, pose: &mut [f64; 3]) {
    *pose = Oracle::new(&Road::read(words, numbers)).pose(geometry, s);
}
