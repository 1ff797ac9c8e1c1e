//! The calls on a track line. Every one is sound for slices of every length and content.
use crate::answers::{Projection, TrackPose};
use crate::calls::answered;
use crate::ffi;
use crate::refusal::Refusal;

/// Writes the direction at each point of a track into `list`, three f32 a point from `list[0]` on: halfway between those of the two
/// segments that meet there; where only one has a direction, as at the ends, that one's; zero where neither has. Where the line turns
/// straight back it is zero or, by rounding, any. What lies past them stays as it was. [`TRACK`](crate::layout::TRACK) numbers are enough
/// for every track.
///
/// # Tracks
///
/// Here and below, a track is a slice of f32: x, y and z of its first point, then of the next.
/// [`as_flattened`](slice::as_flattened) lends points that are kept as arrays. The line runs straight from point to point, and `s` is the
/// distance along it from its first point, in space. Points may repeat; the line may turn back, cross itself or stand upright. All
/// arithmetic is f32, each operation rounded once: lay the origin near the site.
///
/// ```
/// let track = [[0.0, 0.0, 0.0], [1.0, 0.0, 0.0], [1.0, 1.0, 0.0]];
/// let mut list = [[0.0; 3]; 3];
/// riftkettle::track_tangents(track.as_flattened(), list.as_flattened_mut())?;
/// assert_eq!(list, [[1.0, 0.0, 0.0], [0.70710677, 0.70710677, 0.0], [0.0, 1.0, 0.0]]);
/// # Ok::<(), riftkettle::Refusal>(())
/// ```
///
/// Refuses [`Refusal::TrackCount`] where the track is not 2 to 512 points of three f32 or the list has no room for three f32 a point,
/// [`Refusal::TrackRange`] where a coordinate is outside -2,000,000..2,000,000.
pub fn track_tangents(points: &[f32], list: &mut [f32]) -> Result<(), Refusal> {
    // SAFETY: pointers and lengths are those of slices; what is written is borrowed mutably, so it overlaps nothing.
    let code = unsafe { ffi::riftkettle_track_tangents(points.as_ptr(), points.len(), list.as_mut_ptr(), list.len()) };
    answered(code)
}

/// The place and the direction at `s` of a [track](track_tangents#tracks). Below 0 and beyond the line's length `s` is held to the ends,
/// infinities too. The direction lies between those at the two ends of the segment, by how far along it `s` is, so that it has no step at
/// a corner, but where the line turns straight back or a point is repeated. At the line's end the place may miss the last point by
/// rounding.
///
/// For every `s` but NaN all numbers are finite. A NaN is no refusal: the place is NaN and the direction zero, or both are the first
/// point's where the first segment is no longer than 1e-6.
///
/// ```
/// let track = [0.0, 0.0, 0.0, 1.0, 0.0, 0.0, 1.0, 1.0, 0.0];
/// let pose = riftkettle::track_pose(&track, 1.5)?;
/// assert_eq!(pose.position, [1.0, 0.5, 0.0]);
/// assert_eq!(pose.heading, [0.38268343, 0.92387956, 0.0]);
/// # Ok::<(), riftkettle::Refusal>(())
/// ```
///
/// Refuses [`Refusal::TrackCount`], [`Refusal::TrackRange`].
pub fn track_pose(points: &[f32], s: f32) -> Result<TrackPose, Refusal> {
    let mut pose = [0.0; 6];
    // SAFETY: pointer and length are those of a slice; the answer is written to a local.
    let code = unsafe { ffi::riftkettle_track_pose(points.as_ptr(), points.len(), s, &mut pose) };
    answered(code)?;
    let [x, y, z, hx, hy, hz] = pose;
    Ok(TrackPose { position: [x, y, z], heading: [hx, hy, hz] })
}

/// The place of a [track](track_tangents#tracks) nearest in space to `point`; of equally near places (by the squares of their distances
/// in f32) that of the earliest segment. All numbers are finite, and `s` lies in 0..length.
///
/// The offset is measured across the segment's direction in plan: not up or down, nor along, where the point lies past an end of the line
/// or outside a corner. An upright segment has no direction: the offset is 0 there, however far the point is.
///
/// ```
/// let track = [0.0, 0.0, 0.0, 1.0, 0.0, 0.0, 1.0, 1.0, 0.0];
/// let nearest = riftkettle::track_project(&track, [0.5, -1.0, 0.0])?;
/// assert_eq!(nearest.position, [0.5, 0.0, 0.0]);
/// assert_eq!((nearest.s, nearest.offset), (0.5, -1.0)); // 1 m to the right
/// # Ok::<(), riftkettle::Refusal>(())
/// ```
///
/// Refuses [`Refusal::TrackCount`], [`Refusal::TrackRange`] also for the point.
pub fn track_project(points: &[f32], point: [f32; 3]) -> Result<Projection, Refusal> {
    let mut projection = [0.0; 5];
    let [x, y, z] = point;
    // SAFETY: pointer and length are those of a slice; the answer is written to a local.
    let code = unsafe { ffi::riftkettle_track_project(points.as_ptr(), points.len(), x, y, z, &mut projection) };
    answered(code)?;
    let [s, x, y, z, offset] = projection;
    Ok(Projection { s, position: [x, y, z], offset })
}
