//! What of an admitted road is worth a look: joints of its reference line, and a site far from the origin.
use crate::draw::scale::short;
use crate::grid::Farthest;
use crate::joints::{self, Joint};
use riftkettle::Road;
use second::model::{self, Shape};

/// The line of an admitted text, from 1, that has the first geometry: table road, of one line, alone stands before.
const FIRST: usize = 5;

/// The part with its heading; nothing where all is well.
pub fn of(road: &Road, model: &model::Road) -> String {
    let joints = joints::odd(road, model);
    let lines: Vec<String> = joints.iter().map(said).chain(farthest(road, model).note()).collect();
    if lines.is_empty() { String::new() } else { format!("worth a look:\n  {}\n", lines.join("\n  ")) }
}

fn said(joint: &Joint) -> String {
    let apart = joint.apart().map(|apart| format!("the next begins {} m away from it", short(apart)));
    let side = |turn: f64| if turn > 0.0 { "left" } else { "right" };
    let turn = joint.turn().map(|turn| format!("the next turns {} degrees to the {}", short(turn.abs()), side(turn)));
    let past = joint.past().map(|past| overrun(joint, past));
    let parts: Vec<String> = [apart, turn, past].into_iter().flatten().collect();
    let end = if joint.last { ", the road's end" } else { "" };
    let (geometry, line) = (joint.geometry, FIRST + joint.geometry);
    format!("geometry {geometry}, line {line}, at s = {}{end}: {}", short(joint.s), parts.join("; "))
}

fn overrun(joint: &Joint, past: f64) -> String {
    /// An arc of at most this curvature is a line.
    const STRAIGHT: f64 = 1e-9;
    let length = short(past.abs());
    let there = match joint.shape {
        _ if past < 0.0 && joint.last => return format!("the road ends {length} m before its end"),
        _ if past < 0.0 => return format!("the next begins {length} m before its end"),
        Shape::Spiral(..) => "a spiral stays at its last point there",
        Shape::Arc(k) if k.abs() > STRAIGHT => "it runs on round past its length",
        _ => "it runs on straight past its length",
    };
    format!("s runs on past its end by {length} m: {there}")
}

/// Of the geometries' starts and the wanted points.
fn farthest(road: &Road, model: &model::Road) -> Farthest {
    let mut farthest = Farthest::default();
    model.geoms.iter().for_each(|geom| farthest.add(geom.x, geom.y));
    let points = road.wants().filter_map(|(s, t)| road.surface(s, t).ok());
    points.for_each(|point| farthest.add(point.x.into(), point.y.into()));
    farthest
}
