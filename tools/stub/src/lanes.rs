// The stub's lanes layer: a plain text of document 01's "Values" on records, profiles, the cross section and the lanes, with the
// faults that the comparison must find.
use crate::surfaces::painted;
use crate::{Lent, admitted, fault, guarded};
use second::model::*;

// ---- records

pub fn eval(c: &Cubic, s: f64) -> f64 {
    let ds = s - c.start;
    if fault("horner") {
        return c.a + ds * (c.b + ds * (c.c + ds * c.d));
    }
    ((c.a + c.b * ds) + (c.c * ds) * ds) + ((c.d * ds) * ds) * ds
}

pub fn slope(c: &Cubic, s: f64) -> f64 {
    let ds = s - c.start;
    if fault("slope") {
        return (c.b + c.c * (2.0 * ds)) + c.d * (3.0 * ds * ds);
    }
    (c.b + (2.0 * c.c) * ds) + ((3.0 * c.d) * ds) * ds
}

/// How far a start may lie past s and still be active.
fn limit(s: f64) -> f64 {
    if fault("nanometre") { s } else { s + 1e-9 }
}

/// The last of the starts that is active.
pub fn last(starts: impl DoubleEndedIterator<Item = f64> + ExactSizeIterator, s: f64) -> Option<usize> {
    let is_active = |start: f64| if fault("active at") { start < limit(s) } else { start <= limit(s) };
    let mut starts = starts;
    match () {
        () if fault("first active") => starts.position(is_active),
        () if fault("leading active") => starts.take_while(|start| is_active(*start)).count().checked_sub(1),
        () => starts.rposition(is_active),
    }
}

fn active(list: &[Cubic], s: f64) -> Option<&Cubic> {
    last(list.iter().map(|c| c.start), s).map(|i| &list[i])
}

pub fn value(list: &[Cubic], s: f64) -> f64 {
    active(list, s).map_or(0.0, |c| eval(c, s))
}

// ---- across the road

/// Linear between neighbours, constant outside.
fn between(a: f64, b: f64, f: f64) -> f64 {
    if fault("between") { a * (1.0 - f) + b * f } else { a + (b - a) * f }
}

fn fraction(s: f64, a: f64, b: f64) -> f64 {
    let f = (s - a) / (b - a);
    if fault("extrapolate") { f.clamp(0.0, 1.0) } else { f }
}

pub fn shape(road: &Road, s: f64, t: f64) -> f64 {
    let first = |p: &Profile| if fault("before shapes") { 0.0 } else { p.shapes[0].a };
    let at = |p: &Profile| active(&p.shapes, t).map_or_else(|| first(p), |c| eval(c, t));
    let all = &road.profiles;
    match last(all.iter().map(|p| p.s), s) {
        _ if all.is_empty() => 0.0,
        None if fault("before profiles") => 0.0,
        None => at(&all[0]),
        Some(i) if i + 1 == all.len() => at(&all[i]),
        Some(i) => between(at(&all[i]), at(&all[i + 1]), fraction(s, all[i].s, all[i + 1].s)),
    }
}

/// The fold over a strip's terms, from the highest.
fn strip_height(strip: &Strip, s: f64, dt: f64) -> f64 {
    strip.lists[1..].iter().rev().fold(0.0, |h, term| h * dt + value(term, s))
}

pub fn cross(road: &Road, s: f64, t: f64, toward: f64) -> f64 {
    let t = t - value(&road.tshift, s);
    let ridge = if fault("ridge") { t == 0.0 } else { t.abs() < 1e-9 };
    let left = if ridge { toward > 0.0 } else { t > 0.0 };
    let (side, sign) = if left { (&road.strips[..2], 1.0) } else { (&road.strips[2..], -1.0) };
    let Some(inner) = &side[0] else { return 0.0 };
    let width = active(&inner.lists[0], s).map(|c| eval(c, s)).map(|w| if w > 0.0 { w } else { 0.0 });
    let width = if fault("no width") { Some(width.unwrap_or(0.0)) } else { width };
    match (width, &side[1]) {
        (Some(w), Some(outer)) if sign * t > w => {
            let relative = outer.relative != fault("relative");
            let base = if relative { strip_height(inner, s, sign * w) } else { 0.0 };
            base + strip_height(outer, s, t - sign * w)
        }
        _ => strip_height(inner, s, t),
    }
}

pub fn height(road: &Road, s: f64, t: f64, toward: f64) -> f64 {
    shape(road, s, t) + cross(road, s, t, toward)
}

// ---- lanes

/// A lane's own heights at its inner and outer border.
fn own_heights(lane: &Lane, into: f64) -> [f64; 2] {
    let all = &lane.heights;
    let at = |i: usize| [all[i].inner, all[i].outer];
    match last(all.iter().map(|h| h.start), into) {
        _ if all.is_empty() => [0.0; 2],
        None => at(0),
        Some(i) if i + 1 == all.len() => at(i),
        Some(i) => {
            let f = fraction(into, all[i].start, all[i + 1].start);
            [0, 1].map(|k| between(at(i)[k], at(i + 1)[k], f))
        }
    }
}

/// The lane's width from its inner border on.
fn width(lane: &Lane, sign: f64, inner: f64, into: f64) -> f64 {
    let width = match active(&lane.extents, into) {
        None if fault("no border") && lane.border => sign * (0.0 - inner),
        None => 0.0,
        Some(c) if lane.border => sign * (eval(c, into) - inner),
        Some(c) => eval(c, into),
    };
    if width >= 0.0 || fault("negative width") && width < 0.0 { width } else { 0.0 }
}

/// Inner, outer and width of the lanes of a side.
pub fn side_borders(lanes: &[Lane], sign: f64, base: f64, into: f64) -> Vec<[f64; 3]> {
    let mut inner = base;
    let border = |lane: &Lane| {
        let width = width(lane, sign, inner, into);
        let outer = inner + sign * width;
        [std::mem::replace(&mut inner, outer), outer, width]
    };
    lanes.iter().map(border).collect()
}

pub fn sides(section: &Section) -> [(&[Lane], f64); 2] {
    [(&section.left, 1.0), (&section.right, -1.0)]
}

/// How far s is into the section.
pub fn into(section: &Section, s: f64) -> f64 {
    let into = s - section.start;
    if fault("into") && into < 0.0 { 0.0 } else { into }
}

fn all_borders(road: &Road, section: &Section, s: f64) -> Vec<[f64; 3]> {
    let side = |(lanes, sign)| side_borders(lanes, sign, value(&road.offset, s), into(section, s));
    sides(section).into_iter().flat_map(side).collect()
}

/// The heights of the lanes of a side at their inner and outer borders.
pub fn side_heights(road: &Road, lanes: &[Lane], sign: f64, (s, into): (f64, f64), base: f64, tangent: f64) -> Vec<[f64; 2]> {
    let (mut last, mut level) = (height(road, s, base, sign), false);
    let turned = if fault("level side") { -sign } else { sign };
    let tangent = if fault("tangent finite") && !tangent.is_finite() { 0.0 } else { tangent };
    let mut all = Vec::new();
    for (lane, [inner, outer, width]) in lanes.iter().zip(side_borders(lanes, sign, base, into)) {
        let [own_inner, own_outer] = own_heights(lane, into);
        level = lane.level || level && !fault("level");
        let toward = if fault("toward") { -1.0 } else { sign };
        let heights = match level {
            true if fault("level group") => [last + own_inner, last - (sign * width * tangent - own_outer)],
            true => [last + own_inner, (last - (turned * width) * tangent) + own_outer],
            false => [own_inner + height(road, s, inner, toward), own_outer + height(road, s, outer, toward)],
        };
        last = heights[1];
        all.push(heights);
    }
    all
}

pub fn section_at(road: &Road, s: f64) -> usize {
    last(road.sections.iter().map(|x| x.start), s).unwrap_or(0)
}

/// The id of the lane at (s, t), or 0.
fn named(road: &Road, s: f64, t: f64) -> i32 {
    let section = &road.sections[section_at(road, s)];
    let beyond = |inner: f64, sign: f64| {
        let past = sign * (t - inner);
        if fault("strict") { past >= 0.0 } else { past > 0.0 }
    };
    let mut name = 0;
    let mut all = all_borders(road, section, s).into_iter();
    for (lanes, sign) in sides(section) {
        let (mut id, mut end) = (0, 0.0);
        for (k, [inner, outer, width]) in (1..).zip(all.by_ref().take(lanes.len())) {
            if beyond(inner, sign) && !(fault("zero wide") && width == 0.0) {
                id = k * sign as i32;
            }
            end = outer;
        }
        if fault("beyond") && id != 0 && sign * (t - end) > 0.0 {
            id = 0;
        }
        name = if id != 0 { id } else { name };
    }
    name
}

// ---- the calls

pub fn borders(road: Lent, s: f64, list: &mut [f64], lanes: &mut usize) -> u32 {
    guarded(|| list_borders(road, s, list, lanes))
}

fn list_borders((words, numbers): Lent, s: f64, list: &mut [f64], lanes: &mut usize) -> u32 {
    let number = admitted((words, numbers));
    if number != 0 {
        return number;
    }
    if !(0.0 <= s && s <= numbers[0]) && !fault("row 11 first") {
        return 7;
    }
    let road = Road::read(words, numbers);
    let new: Vec<f64> = all_borders(&road, &road.sections[section_at(&road, s)], s).concat();
    let least = if fault("room for 12") { 36 } else { new.len() };
    if list.len() < least {
        if fault("list early") && !list.is_empty() {
            list[0] = new[0];
        }
        return 11;
    }
    if !(0.0 <= s && s <= numbers[0]) {
        return 7;
    }
    list[..new.len()].copy_from_slice(&new);
    if fault("list tail") {
        list[new.len()..].fill(0.0);
    }
    if fault("mark border") && painted(&road, s) {
        list[1] += 0.1;
    }
    *lanes = new.len() / 3;
    0
}

pub fn lane_named(road: Lent, s: f64, t: f64, id: &mut i32) -> u32 {
    guarded(|| name_lane(road, s, t, id))
}

fn name_lane((words, numbers): Lent, s: f64, t: f64, id: &mut i32) -> u32 {
    let number = admitted((words, numbers));
    if number != 0 {
        return number;
    }
    let (on_road, across) = (0.0 <= s && s <= numbers[0], -80.0 <= t && t <= 80.0);
    match () {
        () if !across && fault("row 8 first") => 8,
        () if !on_road => 7,
        () if !across => 8,
        () => {
            *id = named(&Road::read(words, numbers), s, t);
            0
        }
    }
}
