//! The calls on tracks against the C interface as it is, bit for bit; what the header promises of their answers, on tracks of every
//! kind; and the worked example of docs/ROAD.md.
mod common;

use common::{Bits, MARK_F32, Told, job, raw, road_of, told};
use riftkettle::layout::{POINT_STRIDE, TRACK};
use riftkettle::*;

const CORNER: [[f32; 3]; 3] = [[0.0, 0.0, 0.0], [1.0, 0.0, 0.0], [1.0, 1.0, 0.0]];

fn random(seed: u64) -> impl FnMut(usize) -> usize {
    let mut state = seed;
    move |below| {
        state = state.wrapping_mul(6364136223846793005).wrapping_add(1442695040888963407);
        (state >> 33) as usize % below
    }
}

/// A coordinate: near, far, at the limit, tiny, or zero.
fn coordinate(random: &mut impl FnMut(usize) -> usize) -> f32 {
    let sign = if random(2) == 0 { 1.0 } else { -1.0 };
    sign * match random(6) {
        0 => 0.0,
        1 => 2e6,
        2 => f32::from_bits(random(1 << 23) as u32),
        3 => random(2_000_001) as f32,
        _ => random(1 << 20) as f32 / 65536.0,
    }
}

/// Tracks of 2 to 512 points; some points repeat the one before, or the one before that, so that the line turns straight back, and some
/// stand above the one before.
fn tracks() -> Vec<Vec<[f32; 3]>> {
    let mut random = random(1);
    let mut tracks = vec![CORNER.to_vec(), vec![[1.0, 2.0, 3.0]; 2], vec![[0.0, 0.0, 0.0], [0.0, 0.0, 5.0]]];
    for points in (2..40).chain([511, 512]) {
        let mut track: Vec<[f32; 3]> = vec![];
        while track.len() < points {
            let made = match (random(5), track.as_slice()) {
                (0, [.., last]) => *last,
                (1, [.., before, _]) => *before,
                (2, [.., last]) => [last[0], last[1], coordinate(&mut random)],
                _ => [(); 3].map(|()| coordinate(&mut random)),
            };
            track.push(made);
        }
        tracks.push(track);
    }
    tracks
}

/// Tangents by both into so much of a marked list: the same answer and the same list, and marks past what is written.
fn tangents_both(points: &[f32], room: usize) -> (Told, Vec<f32>) {
    let (mut list, mut raw_list) = (vec![MARK_F32; room + 4], vec![MARK_F32; room + 4]);
    let answer = told(track_tangents(points, &mut list[..room]));
    assert_eq!(answer, raw::track_tangents(points, &mut raw_list[..room]));
    assert_eq!(list.bits(), raw_list.bits());
    let written = if answer.is_ok() { points.len() } else { 0 };
    assert!(list[written..].iter().all(|v| v.to_bits() == MARK_F32.to_bits()));
    list.truncate(written);
    (answer, list)
}

/// The pose by both.
fn pose_both(points: &[f32], s: f32) -> Result<TrackPose, Refusal> {
    let answer = track_pose(points, s);
    assert_eq!(told(answer), raw::track_pose(points, s));
    answer
}

/// The projection by both.
fn project_both(points: &[f32], point: [f32; 3]) -> Result<Projection, Refusal> {
    let answer = track_project(points, point);
    assert_eq!(told(answer), raw::track_project(points, point));
    answer
}

/// The line's length: distances in space, added one by one.
fn length(track: &[[f32; 3]]) -> f32 {
    let distance = |a: [f32; 3], b: [f32; 3]| {
        let [x, y, z] = [b[0] - a[0], b[1] - a[1], b[2] - a[2]];
        root32(x * x + y * y + z * z)
    };
    track.windows(2).fold(0.0, |sum, pair| sum + distance(pair[0], pair[1]))
}

/// A direction: finite and in plan.
fn in_plan(direction: &[f32]) -> bool {
    direction.iter().all(|v| v.is_finite()) && direction[2] == 0.0
}

#[test]
fn what_is_promised_of_every_track() {
    let mut random = random(2);
    for track in tracks() {
        let (points, length) = (track.as_flattened(), length(&track));
        for room in [points.len(), points.len() + 2, TRACK] {
            let (answer, list) = tangents_both(points, room);
            assert!(answer.is_ok() && list.chunks(POINT_STRIDE).all(in_plan));
        }
        let (start, end) = (pose_both(points, 0.0), pose_both(points, length));
        for s in [-1.0, f32::NEG_INFINITY, -0.0] {
            assert_eq!(pose_both(points, s), start);
        }
        for s in [length * 2.0 + 1.0, f32::INFINITY] {
            assert_eq!(pose_both(points, s), end);
        }
        for s in (0..20).map(|i| length * i as f32 / 19.0) {
            let pose = pose_both(points, s).unwrap();
            assert!(pose.position.iter().all(|v| v.is_finite()) && in_plan(&pose.heading), "{pose:?}");
        }
        for i in 0..20 {
            let mut point = [(); 3].map(|()| coordinate(&mut random));
            if i % 4 == 0 {
                point = track[random(track.len())];
            }
            let found = project_both(points, point).unwrap();
            assert!(found.position.iter().all(|v| v.is_finite()) && found.offset.is_finite(), "{found:?}");
            assert!((0.0..=length).contains(&found.s), "{found:?} on a line of {length}");
        }
    }
}

#[test]
fn what_is_no_track() {
    let refuse = |points: &[f32], number: u32| {
        let refusal = Refusal::from_number(number).unwrap();
        assert_eq!(tangents_both(points, TRACK).0, Err(number));
        assert_eq!(pose_both(points, 0.5), Err(refusal));
        assert_eq!(project_both(points, [0.0; 3]), Err(refusal));
    };
    for count in [0, 1, 2, 3, 4, 5, 7, 8, TRACK - 1, TRACK + 1, TRACK + 2, TRACK + 3, 3 * TRACK] {
        refuse(&vec![0.0; count], 13);
        refuse(&vec![f32::NAN; count], 13);
    }
    for wrong in [2e6_f32.next_up(), -2e6_f32.next_up(), f32::INFINITY, f32::NEG_INFINITY, f32::NAN] {
        for at in 0..9 {
            let mut track = CORNER;
            track.as_flattened_mut()[at] = wrong;
            refuse(track.as_flattened(), 14);
        }
        for at in 0..3 {
            let mut point = [2e6, -2e6, 0.0];
            assert!(project_both(CORNER.as_flattened(), point).is_ok());
            point[at] = wrong;
            assert_eq!(project_both(CORNER.as_flattened(), point), Err(Refusal::TrackRange));
        }
    }
}

/// A list counts by whole threes, and is tested before any coordinate.
#[test]
fn room_for_tangents() {
    for (room, refusal) in [(0, true), (6, true), (8, true), (9, false), (10, false)] {
        assert_eq!(tangents_both(CORNER.as_flattened(), room).0.is_err(), refusal);
        assert_eq!(tangents_both(&[f32::NAN; 9], room).0, Err(if refusal { 13 } else { 14 }));
    }
}

#[test]
fn a_station_that_is_nan() {
    let pose = pose_both(CORNER.as_flattened(), f32::NAN).unwrap();
    assert!(pose.position.iter().all(|v| v.is_nan()) && pose.heading == [0.0; 3]);
    let short = [[3.0, 4.0, 5.0], [3.0, 4.0, 5.0 + 4e-7], [4.0, 4.0, 5.0]]; // the first segment is upright, so has no direction
    let first = TrackPose { position: short[0], heading: [0.0; 3] };
    assert_eq!(pose_both(short.as_flattened(), f32::NAN), Ok(first));
}

/// The numbers of docs/ROAD.md, "Tracks".
#[test]
fn the_worked_example() {
    let points = CORNER.as_flattened();
    let (_, list) = tangents_both(points, 9);
    assert_eq!(list, [1.0, 0.0, 0.0, 0.70710677, 0.70710677, 0.0, 0.0, 1.0, 0.0]);
    let pose = TrackPose { position: [1.0, 0.5, 0.0], heading: [0.38268343, 0.92387956, 0.0] };
    assert_eq!(pose_both(points, 1.5), Ok(pose));
    for (point, s, position, offset) in [
        ([0.5, -1.0, 0.0], 0.5, [0.5, 0.0, 0.0], -1.0),
        ([0.5, 0.5, 0.0], 0.5, [0.5, 0.0, 0.0], 0.5),
        ([0.5, 0.25, 7.0], 0.5, [0.5, 0.0, 0.0], 0.25),
        ([2.0, -1.0, 0.0], 1.0, [1.0, 0.0, 0.0], -1.0),
        ([1.0, 3.0, 0.0], 2.0, [1.0, 1.0, 0.0], 0.0),
    ] {
        assert_eq!(project_both(points, point), Ok(Projection { s, position, offset }));
    }
    let upright = [0.0, 0.0, 0.0, 0.0, 0.0, 5.0];
    let found = Projection { s: 2.0, position: [0.0, 0.0, 2.0], offset: 0.0 };
    assert_eq!(project_both(&upright, [3.0, 4.0, 2.0]), Ok(found));
    let back = [[0.0, 0.0, 0.0], [1.0, 1.35e-23, 0.0], [0.0, 2.7e-23, 0.0]];
    let (_, list) = tangents_both(back.as_flattened(), 9);
    assert_eq!(list[3..6], [0.0, 0.721271, 0.0]);
}

/// A track of surface points, and dots beside it.
#[test]
fn a_line_on_a_road() {
    let road = road_of(&job("lanes_width"));
    let track: Vec<[f32; 3]> =
        (0..=100).map(|s| road.surface(s.into(), 3.5).unwrap()).map(|point| [point.x, point.y, point.z]).collect();
    for (t, offset) in [(3.5, 0.0), (3.75, 0.25), (3.0, -0.5)] {
        let dot = road.surface(41.25, t).unwrap();
        let found = project_both(track.as_flattened(), [dot.x, dot.y, dot.z]).unwrap();
        assert_eq!((found.position[0], found.offset), (41.25, offset));
    }
}
