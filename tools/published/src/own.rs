// The published Rust with its own sine, cosine, tangent, roots and hypot: the patched files once more, over a module `stand_ins` that
// calls what the published lines call. So the benchmark can say what the stand-ins of documents 01 and 02 cost the Rust.
#[allow(dead_code)]
mod coords {
    include!(concat!(env!("OUT_DIR"), "/own_coords.rs"));
}
#[allow(dead_code)]
mod geometry {
    include!(concat!(env!("OUT_DIR"), "/own_geometry.rs"));
}
#[allow(dead_code)]
mod road {
    include!(concat!(env!("OUT_DIR"), "/own_road.rs"));
}

// The oracle, the tracks and the dots a second time, over this module's road and line: their types are others.
#[allow(dead_code)]
#[path = "dots.rs"]
pub mod dots;
#[allow(dead_code)]
#[path = "oracle.rs"]
pub mod oracle;
#[allow(dead_code)]
#[path = "tracks.rs"]
pub mod tracks;

mod stand_ins {
    use super::road::Across;

    #[inline(always)]
    pub fn root(x: f64) -> f64 {
        x.sqrt()
    }

    #[inline(always)]
    pub fn root32(x: f32) -> f32 {
        x.sqrt()
    }

    #[inline(always)]
    pub fn hypot(a: f64, b: f64) -> f64 {
        a.hypot(b)
    }

    #[inline(always)]
    pub fn sin_cos(h: f64) -> (f64, f64) {
        h.sin_cos()
    }

    #[inline(always)]
    pub fn sin(h: f64) -> f64 {
        h.sin()
    }

    #[inline(always)]
    pub fn cos(h: f64) -> f64 {
        h.cos()
    }

    pub(crate) trait Tangent: Copy {
        fn tangent(self) -> f64;
    }

    impl Tangent for f64 {
        #[inline(always)]
        fn tangent(self) -> f64 {
            self.tan()
        }
    }

    #[derive(Clone, Copy)]
    pub(crate) struct Given(pub f64);

    impl Tangent for Given {
        fn tangent(self) -> f64 {
            self.0
        }
    }

    /// The published line: t is kept to the lane, and the fraction across is left as it comes out.
    #[inline(always)]
    pub(crate) fn kept_height(lane: &Across, t: f64) -> f64 {
        lane.height(t.clamp(lane.inner_t.min(lane.outer_t), lane.inner_t.max(lane.outer_t)))
    }

    /// The published clamp and search.
    #[inline(always)]
    pub(crate) fn held(distance: f64, last: f64) -> f64 {
        distance.clamp(0.0, last)
    }

    #[inline(always)]
    pub(crate) fn leading(samples: &[(f64, f64, f64, f64)], distance: f64) -> usize {
        samples.partition_point(|p| p.0 <= distance)
    }

    pub(crate) fn count_move() {}

    pub fn take_moves() -> u32 {
        0
    }
}
