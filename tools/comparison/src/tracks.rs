// Comparisons of the f32 root and of the calls on tracks: tangents, poses and projections of one track at many places, against the
// published Rust; and what they refuse, against the second text of rows 13 and 14.
use crate::tally::{Tally, same_f32};
use archive::riftkettle as ours;
use published::stand_ins;
use published::tracks::Track;
use second::random::Rng;
use second::tracks::{self, refused};

/// Bits of each, for a message.
fn hex(numbers: &[f32]) -> String {
    numbers.iter().map(|x| format!("{:08x}", x.to_bits())).collect::<Vec<_>>().join(" ")
}

fn bits(numbers: &[f32]) -> Vec<u32> {
    numbers.iter().map(|x| x.to_bits()).collect()
}

// ---- the root

fn check_root(tally: &mut Tally, x: f32) {
    let y = ours::root32(x);
    for (z, by) in [(x.sqrt(), "the machine"), (stand_ins::root32(x), "whole numbers")] {
        tally.check(same_f32(y, z), || format!("root of {}, by {by}: ours {}, theirs {}", hex(&[x]), hex(&[y]), hex(&[z])));
    }
}

/// A pattern of all, and a place where the root turns. The patterns of successive steps are spread by the golden section, so that
/// those of the full form leave gaps of fewer than 257.
pub fn root32(rng: &mut Rng, tally: &mut Tally) {
    check_root(tally, f32::from_bits((tally.at() as u32).wrapping_mul(0x9e37_79b9)));
    check_root(tally, tracks::for_root32(rng));
}

// ---- what a call leaves

/// Numbers that no call would write, different at each place.
fn untouched(n: usize) -> Vec<f32> {
    (0..n as u32).map(|i| f32::from_bits(0x7a00_0000 | i)).collect()
}

fn still_untouched(numbers: &[f32], from: usize) -> bool {
    numbers.iter().zip(untouched(numbers.len())).skip(from).all(|(a, b)| a.to_bits() == b.to_bits())
}

/// So many numbers behind what is lent are looked at too.
const BEHIND: usize = 6;

/// One answer against the number or the values that it must be: after a refusal all lent memory is as it was, after an answer what
/// lies past it.
fn check(
    tally: &mut Tally,
    call: &'static str,
    (code, found): (u32, &[f32]),
    expected: Result<Vec<f32>, u32>,
    input: impl FnOnce() -> String,
) {
    let number = expected.as_ref().err().copied().unwrap_or(0);
    let due = expected.unwrap_or_default();
    tally.outcome(call, number);
    let equal = code == number && found.iter().zip(&due).all(|(a, b)| same_f32(*a, *b)) && still_untouched(found, due.len());
    tally.check(equal, || format!("{call}: ours {code} {}, theirs {number} {} {}", hex(found), hex(&due), input()));
}

/// A track with what the Rust makes of it, where it is one.
struct Line {
    points: Vec<f32>,
    theirs: Option<Track>,
    before: Vec<u32>,
}

impl Line {
    fn new(points: Vec<f32>) -> Self {
        let theirs = refused(&points, None, &[]).is_none().then(|| Track::new(&points));
        Self { before: bits(&points), points, theirs }
    }

    fn asked(&self) -> String {
        format!("of {} numbers {}", self.points.len(), hex(&self.points))
    }

    /// What the Rust answers, or the row.
    fn due(&self, row: Option<u32>, answer: impl FnOnce(&Track) -> Vec<f32>) -> Result<Vec<f32>, u32> {
        row.map_or_else(|| Ok(answer(self.theirs.as_ref().expect("no row refuses the track"))), Err)
    }

    fn check_tangents(&self, tally: &mut Tally, room: usize) {
        let expected = self.due(refused(&self.points, Some(room), &[]), Track::tangents);
        let mut list = untouched(room + BEHIND);
        let code = ours::track_tangents(&self.points, &mut list[..room]);
        check(tally, "tangents", (code, &list), expected, || format!("{room} lent {}", self.asked()));
    }

    fn check_pose(&self, tally: &mut Tally, s: f32) {
        let expected = self.due(refused(&self.points, None, &[]), |track| track.pose_at(s).to_vec());
        let mut pose = untouched(6 + BEHIND);
        let code = ours::track_pose(&self.points, s, pose.first_chunk_mut().expect("six numbers"));
        check(tally, "pose", (code, &pose), expected, || format!("at {} {}", hex(&[s]), self.asked()));
    }

    fn check_project(&self, tally: &mut Tally, at: [f32; 3]) {
        let expected = self.due(refused(&self.points, None, &at), |track| track.project(at).to_vec());
        let mut projection = untouched(5 + BEHIND);
        let code = ours::track_project(&self.points, at[0], at[1], at[2], projection.first_chunk_mut().expect("five numbers"));
        check(tally, "projection", (code, &projection), expected, || format!("of {} {}", hex(&at), self.asked()));
    }

    /// No call has changed the track.
    fn end(self, tally: &mut Tally) {
        tally.check(bits(&self.points) == self.before, || "a call changed the track".into());
    }
}

// ---- the comparisons

/// Tracks whose answers are known, in the first steps; then random ones.
fn some(rng: &mut Rng, tally: &Tally, known: &[&[f32]], random: fn(&mut Rng) -> Vec<f32>) -> Line {
    let known = known.get(tally.at() as usize).map(|points| points.to_vec());
    Line::new(known.unwrap_or_else(|| random(rng)))
}

pub fn tangents(rng: &mut Rng, tally: &mut Tally) {
    let line = some(rng, tally, tracks::KNOWN, tracks::track);
    let n = line.points.len();
    for room in [n, n + 1, n + 2, n + 3, n + 40, n - 1, tracks::room(rng, n)] {
        line.check_tangents(tally, room);
    }
    line.end(tally);
}

/// So many places on each track.
const PLACES: usize = 24;

pub fn pose(rng: &mut Rng, tally: &mut Tally) {
    let line = some(rng, tally, tracks::KNOWN, tracks::track);
    for s in tracks::arc_lengths(rng, &line.points, (PLACES - 11) / 3) {
        line.check_pose(tally, s);
    }
    line.end(tally);
}

pub fn project(rng: &mut Rng, tally: &mut Tally) {
    let line = some(rng, tally, tracks::KNOWN, tracks::track);
    for _ in 0..PLACES {
        line.check_project(tally, tracks::place(rng, &line.points));
    }
    line.end(tally);
}

/// Tracks of wrong lengths with numbers outside, such numbers at any place of a track and in the projected point, lists of any length.
pub fn refusals(rng: &mut Rng, tally: &mut Tally) {
    let line = some(rng, tally, tracks::WRONG, tracks::damaged);
    for _ in 0..3 {
        line.check_tangents(tally, tracks::room(rng, line.points.len()));
        line.check_project(tally, tracks::damaged_place(rng));
    }
    line.check_pose(tally, rng.pick(&[0.0, 1.0, -1.0, f32::NAN, f32::INFINITY]));
    line.end(tally);
}
