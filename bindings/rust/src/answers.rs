//! What calls answer.
use core::fmt;
use core::ops::Deref;

use crate::layout::{BORDER_STRIDE, BORDERS};

/// A point of the plan and a direction.
#[derive(Debug, Clone, Copy, PartialEq)]
pub struct Pose {
    #[allow(missing_docs)]
    pub x: f64,
    #[allow(missing_docs)]
    pub y: f64,
    /// From the x axis towards the y axis.
    pub heading: f64,
}

/// The reference line at a station.
#[derive(Debug, Clone, Copy, PartialEq)]
pub struct Station {
    /// The distance along the reference line.
    pub s: f64,
    #[allow(missing_docs)]
    pub x: f64,
    #[allow(missing_docs)]
    pub y: f64,
    /// From the x axis towards the y axis.
    pub heading: f64,
    #[allow(missing_docs)]
    pub z: f64,
    /// The rate of `z` along `s`.
    pub grade: f64,
    /// The angle by which the road is tilted across.
    pub bank: f64,
    /// The rate of `bank` along `s`.
    pub bank_rate: f64,
}

/// The road's own axes: x, y and z of each.
#[derive(Debug, Clone, Copy, PartialEq)]
pub struct Axes {
    /// Along the reference line up its grade.
    pub along: [f64; 3],
    /// Across the reference line, tilted by the bank.
    pub across: [f64; 3],
    /// Square to both.
    pub up: [f64; 3],
}

/// A point of the surface and the reference line's heading there.
///
/// `x`, `y` and `z` are f32, so each is off by up to 0.03 mm at 1 km from the origin, 0.5 mm at 10 km, 4 mm at 100 km and 31 mm at
/// 1,000 km: lay the origin near the site. [`Station`] and [`Pose`] are f64.
#[derive(Debug, Clone, Copy, PartialEq)]
pub struct SurfacePoint {
    #[allow(missing_docs)]
    pub x: f32,
    #[allow(missing_docs)]
    pub y: f32,
    #[allow(missing_docs)]
    pub z: f32,
    /// Of the reference line at `s`.
    pub heading: f64,
}

/// Where a point of the plan lies on the road.
#[derive(Debug, Clone, Copy, PartialEq)]
pub struct Located {
    /// The distance along the reference line; may be NaN where `met` is false.
    pub s: f64,
    /// The offset to its left; may be NaN where `met` is false.
    pub t: f64,
    /// How many moves were made, at most 24.
    pub moves: u32,
    /// Whether `s` and `t` are on the road and their surface is under 0.000001 m from the point.
    pub met: bool,
}

/// The borders of a lane.
#[derive(Debug, Clone, Copy, PartialEq)]
pub struct Border {
    /// The lane's id: 1, 2, .. on the left and -1, -2, .. on the right, from the center outward.
    pub id: i32,
    /// `t` of its inner border.
    pub inner: f64,
    /// `t` of its outer border.
    pub outer: f64,
    #[allow(missing_docs)]
    pub width: f64,
}

/// A place on a track and the track's direction there.
#[derive(Debug, Clone, Copy, PartialEq)]
pub struct TrackPose {
    /// x, y and z of the place.
    pub position: [f32; 3],
    /// The direction in plan, a vector whose z is 0; zero where the track has none. It is scaled to length 1, but that length is not
    /// promised: where the track all but turns straight back, rounding can leave it well off 1.
    pub heading: [f32; 3],
}

/// The place of a track that is nearest to a point.
#[derive(Debug, Clone, Copy, PartialEq)]
pub struct Projection {
    /// The distance along the track, in space.
    pub s: f32,
    /// x, y and z of the place.
    pub position: [f32; 3],
    /// How far the point lies from the segment's direction in plan, positive to its left.
    pub offset: f32,
}

const MOST_LANES: usize = BORDERS / BORDER_STRIDE;

/// The borders of a section's lanes, at most 12: the left lanes from the center outward, then the right ones from the center outward.
#[derive(Clone, Copy)]
pub struct Borders {
    list: [Border; MOST_LANES],
    lanes: usize,
}

impl Borders {
    /// The first `lanes` of what the call `borders` wrote; `left` of them are left lanes.
    pub(crate) fn of(written: &[f64; BORDERS], lanes: usize, left: usize) -> Self {
        let mut list = [Border { id: 0, inner: 0.0, outer: 0.0, width: 0.0 }; MOST_LANES];
        let ids = (1..).take(left).chain((1..).map(|id: i32| -id));
        for ((border, lane), id) in list.iter_mut().zip(written.as_chunks::<BORDER_STRIDE>().0).zip(ids) {
            let [inner, outer, width] = *lane;
            *border = Border { id, inner, outer, width };
        }
        Self { list, lanes }
    }
}

impl Deref for Borders {
    type Target = [Border];

    fn deref(&self) -> &[Border] {
        &self.list[..self.lanes]
    }
}

impl fmt::Debug for Borders {
    fn fmt(&self, f: &mut fmt::Formatter<'_>) -> fmt::Result {
        (**self).fmt(f)
    }
}

impl PartialEq for Borders {
    fn eq(&self, other: &Self) -> bool {
        **self == **other
    }
}
