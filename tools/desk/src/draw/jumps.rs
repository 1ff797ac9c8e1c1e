//! Where the reference line, its elevation or its bank does not go on from one record to the next, or a geometry's length is not kept.
use second::model::Shape;

use super::plane::Point;
use super::sampled::{Cut, Sampled};
use super::scale::{fixed, short};
use super::subject::Subject;
use crate::joints::{Joint, STEP};

/// Degrees of bank that are no jump yet. The other limits are those of joints.
const TILT: f64 = 0.1;

pub struct Jump {
    pub s: f64,
    pub text: String,
    /// Its ends, if it is one in the plan.
    pub ends: Option<[Point; 2]>,
}

/// In the order of s; at one s the plan before elevation and bank.
pub fn of(subject: &Subject, sampled: &Sampled) -> Vec<Jump> {
    let pairs = sampled.pieces.windows(2).filter_map(|p| Some((p[0].cuts.last()?, p[1].cuts.first()?)));
    let joints = subject.joints();
    let plan = joints.iter().flat_map(|joint| [in_plan(joint), overrun(joint)]);
    let mut jumps: Vec<Jump> = plan.chain(pairs.map(|(before, after)| upright(before, after))).flatten().collect();
    jumps.sort_by(|a, b| a.s.total_cmp(&b.s));
    jumps
}

fn in_plan(joint: &Joint) -> Option<Jump> {
    let away = joint.apart().map(|apart| format!("{} m away", fixed(apart, 3)));
    let turns = joint.turn().map(|turn| format!("turns {}°", fixed(turn, 2)));
    let ends = [joint.from, joint.to].map(|pose| Point::new(pose.x, pose.y));
    let text = said([away, turns])?;
    Some(Jump { s: joint.s, text, ends: Some(ends) })
}

fn overrun(joint: &Joint) -> Option<Jump> {
    let past = joint.past()?;
    let length = short(past.abs());
    let name = ["line", "arc", "spiral"][super::ground::kind(joint.shape)];
    let text = match joint.shape {
        _ if past < 0.0 => format!("the {name} before is cut {length} m short"),
        Shape::Spiral(..) => format!("the {name} before stays at its end for {length} m"),
        _ => format!("the {name} before runs on for {length} m"),
    };
    Some(Jump { s: joint.s, text, ends: None })
}

fn upright(before: &Cut, after: &Cut) -> Option<Jump> {
    let (a, b) = (&before.station, &after.station);
    let (up, bank) = (b.z - a.z, (b.bank - a.bank).to_degrees());
    let direction = if up > 0.0 { "up" } else { "down" };
    let up = (up.abs() > STEP).then(|| format!("{} m {direction}", fixed(up.abs(), 3)));
    let bank = (bank.abs() > TILT).then(|| format!("bank {}°", fixed(bank, 1)));
    Some(Jump { s: b.s, text: said([up, bank])?, ends: None })
}

/// The parts that jump; nothing where all goes on.
fn said(parts: [Option<String>; 2]) -> Option<String> {
    let parts: Vec<String> = parts.into_iter().flatten().collect();
    (!parts.is_empty()).then(|| parts.join(", "))
}

/// How far two points may lie apart, in metres, and still be one: a millimetre, less on a short road, but no less than points that
/// narrowed to f32 differ by, nor than is seen at that scale.
pub fn tolerance(subject: &Subject, sampled: &Sampled, scale: f64) -> f64 {
    const UNSEEN: f64 = 0.15;
    let far = sampled.cuts().flat_map(|c| [c.station.x.abs(), c.station.y.abs()]).fold(0.0, f64::max);
    let narrowed = far * 4.0 * f64::from(f32::EPSILON);
    STEP.min(subject.length() * STEP).max(narrowed).max(UNSEEN / scale)
}

#[cfg(test)]
mod tests {
    use super::*;
    use riftkettle::Station;

    fn cut(z: f64, bank: f64) -> Cut {
        let station = Station { s: 40.0, x: 0.0, y: 0.0, heading: 0.0, z, grade: 0.0, bank, bank_rate: 0.0 };
        Cut { station, left: Vec::new(), right: Vec::new() }
    }

    #[test]
    fn what_jumps_upright_is_said() {
        let said = |z, bank| upright(&cut(1.0, 0.0), &cut(z, bank)).map(|jump| (jump.s, jump.text));
        assert_eq!(said(0.98, 0.0), Some((40.0, "0.020 m down".into())));
        assert_eq!(said(1.5, -0.01), Some((40.0, "0.500 m up, bank -0.6°".into())));
        assert_eq!(said(1.0005, 0.001), None);
    }
}
