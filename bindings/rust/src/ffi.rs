//! The C interface as it is: the prototypes of `include/riftkettle.h`, in its order, with its names. An array that the header names
//! with its length is a pointer to that array.
//!
//! What a caller of the unsafe functions must see to: each pointer is not null, aligned, and valid for the number of elements that
//! follows it, or for its one element; and what is written through one pointer overlaps nothing else that is lent.

// `include/riftkettle.h` says what each does.
#![allow(missing_docs)]

unsafe extern "C" {
    pub safe fn riftkettle_root(x: f64) -> f64;
    pub safe fn riftkettle_root32(x: f32) -> f32;
    pub safe fn riftkettle_hypot(a: f64, b: f64) -> f64;
    pub safe fn riftkettle_sin(h: f64) -> f64;
    pub safe fn riftkettle_cos(h: f64) -> f64;
    pub safe fn riftkettle_tan(h: f64) -> f64;
    pub safe fn riftkettle_narrow(x: f64) -> f32;
    pub fn riftkettle_counts(v: f64, count: *mut i64) -> u32;

    pub fn riftkettle_admit(words: *const u16, n: usize, numbers: *const f64, m: usize) -> u32;
    pub fn riftkettle_samples(
        words: *const u16,
        n: usize,
        numbers: *const f64,
        m: usize,
        samples: *mut f64,
        k: usize,
        made: *mut usize,
    ) -> u32;
    pub fn riftkettle_pose(
        words: *const u16,
        n: usize,
        numbers: *const f64,
        m: usize,
        samples: *const f64,
        k: usize,
        geometry: usize,
        s: f64,
        pose: *mut [f64; 3],
    ) -> u32;
    pub fn riftkettle_borders(
        words: *const u16,
        n: usize,
        numbers: *const f64,
        m: usize,
        s: f64,
        list: *mut f64,
        k: usize,
        lanes: *mut usize,
    ) -> u32;
    pub fn riftkettle_lane_named(words: *const u16, n: usize, numbers: *const f64, m: usize, s: f64, t: f64, id: *mut i32)
    -> u32;

    pub fn riftkettle_station(
        words: *const u16,
        n: usize,
        numbers: *const f64,
        m: usize,
        samples: *const f64,
        k: usize,
        s: f64,
        station: *mut [f64; 8],
    ) -> u32;
    pub fn riftkettle_axes(
        words: *const u16,
        n: usize,
        numbers: *const f64,
        m: usize,
        samples: *const f64,
        k: usize,
        s: f64,
        axes: *mut [f64; 9],
    ) -> u32;
    pub fn riftkettle_surface(
        words: *const u16,
        n: usize,
        numbers: *const f64,
        m: usize,
        samples: *const f64,
        k: usize,
        s: f64,
        t: f64,
        point: *mut [f32; 3],
        heading: *mut f64,
    ) -> u32;
    pub fn riftkettle_lane_surface(
        words: *const u16,
        n: usize,
        numbers: *const f64,
        m: usize,
        samples: *const f64,
        k: usize,
        id: i32,
        s: f64,
        t: f64,
        point: *mut [f32; 3],
        heading: *mut f64,
    ) -> u32;
    pub fn riftkettle_locate(
        words: *const u16,
        n: usize,
        numbers: *const f64,
        m: usize,
        samples: *const f64,
        k: usize,
        x: f64,
        y: f64,
        guess: f64,
        pair: *mut [f64; 2],
        moves: *mut u32,
        met: *mut u32,
    ) -> u32;
    pub fn riftkettle_dots(
        words: *const u16,
        n: usize,
        numbers: *const f64,
        m: usize,
        samples: *const f64,
        k: usize,
        section: usize,
        lane: i32,
        spacing: f32,
        stations: *const f64,
        q: usize,
        list: *mut f64,
        r: usize,
        dots: *mut usize,
    ) -> u32;

    pub fn riftkettle_track_tangents(points: *const f32, n: usize, list: *mut f32, k: usize) -> u32;
    pub fn riftkettle_track_pose(points: *const f32, n: usize, s: f32, pose: *mut [f32; 6]) -> u32;
    pub fn riftkettle_track_project(points: *const f32, n: usize, x: f32, y: f32, z: f32, projection: *mut [f32; 5]) -> u32;

    pub fn riftkettle_read(
        text: *const u8,
        l: usize,
        words: *mut u16,
        n: usize,
        numbers: *mut f64,
        m: usize,
        wants: *mut u64,
        k: usize,
        count: *mut usize,
    ) -> u32;
}
