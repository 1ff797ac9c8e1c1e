//! The C functions, once: those of include/riftkettle.h and those of crate `test_probes`. A slice crosses as a pointer and a length, a
//! road as its two slices, and what a call writes as a pointer.
//!
//! A list is given to a macro: `asks` makes a safe function of each line, which calls the C function; `answers` makes the C function,
//! which calls a safe one of the stub.

#[macro_export]
macro_rules! riftkettle_functions {
    ($give:ident) => {
        $give! {
            riftkettle_root: root(x: f64) -> f64;
            riftkettle_hypot: hypot(a: f64, b: f64) -> f64;
            riftkettle_sin: sin(h: f64) -> f64;
            riftkettle_cos: cos(h: f64) -> f64;
            riftkettle_tan: tan(h: f64) -> f64;
            riftkettle_narrow: narrow(x: f64) -> f32;
            riftkettle_counts: counts(v: f64, count: (mut i64)) -> u32;
            riftkettle_admit: admit(m: Road) -> u32;
            riftkettle_samples: samples(m: Road, lent: [mut f64], made: (mut usize)) -> u32;
            riftkettle_pose: pose(m: Road, samples: [f64], geometry: usize, s: f64, to: (mut [f64; 3])) -> u32;
            riftkettle_borders: borders(m: Road, s: f64, list: [mut f64], lanes: (mut usize)) -> u32;
            riftkettle_lane_named: lane_named(m: Road, s: f64, t: f64, id: (mut i32)) -> u32;
            riftkettle_station: station(m: Road, samples: [f64], s: f64, to: (mut [f64; 8])) -> u32;
            riftkettle_axes: axes(m: Road, samples: [f64], s: f64, to: (mut [f64; 9])) -> u32;
            riftkettle_surface: surface(
                m: Road, samples: [f64], s: f64, t: f64, point: (mut [f32; 3]), heading: (mut f64)
            ) -> u32;
            riftkettle_lane_surface: lane_surface(
                m: Road, samples: [f64], id: i32, s: f64, t: f64, point: (mut [f32; 3]), heading: (mut f64)
            ) -> u32;
            riftkettle_locate: locate(
                m: Road, samples: [f64], x: f64, y: f64, guess: f64, pair: (mut [f64; 2]), moves: (mut u32), met: (mut u32)
            ) -> u32;
            riftkettle_dots: dots(
                m: Road, samples: [f64], section: usize, id: i32, spacing: f32, stations: [f64], list: [mut f64], count: (mut usize)
            ) -> u32;
            riftkettle_read: read(
                text: [u8], words: [mut u16], numbers: [mut f64], wants: [mut u64], count: (mut usize)
            ) -> u32;
            riftkettle_root32: root32(x: f32) -> f32;
            riftkettle_track_tangents: track_tangents(points: [f32], list: [mut f32]) -> u32;
            riftkettle_track_pose: track_pose(points: [f32], s: f32, pose: (mut [f32; 6])) -> u32;
            riftkettle_track_project: track_project(points: [f32], x: f32, y: f32, z: f32, projection: (mut [f32; 5])) -> u32;
        }
    };
}

#[macro_export]
macro_rules! probe_functions {
    ($give:ident) => {
        $give! {
            probe_sin_cos: sin_cos(h: f64, sin: (mut f64), cos: (mut f64)) -> ();
            probe_eval: eval(start: f64, a: f64, b: f64, c: f64, d: f64, s: f64) -> f64;
            probe_slope: slope(start: f64, a: f64, b: f64, c: f64, d: f64, s: f64) -> f64;
            probe_active: active(part: [f64], s: f64) -> usize;
            probe_across: across(
                m: Road, s: f64, t: f64, toward: f64, section: usize, right: u32,
                shape: (mut f64), cross: (mut f64), at: (mut usize), count: (mut usize)
            ) -> f64;
            probe_lane: lane(
                m: Road, section: usize, s: f64, tangent: f64, right: u32, k: usize,
                inner_t: (mut f64), outer_t: (mut f64), inner_height: (mut f64), outer_height: (mut f64)
            ) -> ();
            probe_pose: pose(m: Road, samples: [f64], geometry: usize, s: f64, to: (mut [f64; 3])) -> ();
        }
    };
}

/// Parameter by parameter: what C declares, what Rust takes, what is passed. A road is taken as the package `second` has it in memory.
#[macro_export]
macro_rules! asks {
    (@ $c:ident $name:ident $r:ty; () ($($declared:tt)*) ($($taken:tt)*) ($($passed:tt)*)) => {
        pub fn $name($($taken)*) -> $r {
            unsafe extern "C" {
                fn $c($($declared)*) -> $r;
            }
            unsafe { $c($($passed)*) }
        }
    };
    (@ $c:ident $name:ident $r:ty; ($x:ident: Road, $($rest:tt)*) ($($d:tt)*) ($($t:tt)*) ($($p:tt)*)) => {
        $crate::asks! { @ $c $name $r; ($($rest)*)
            ($($d)* _: *const u16, _: usize, _: *const f64, _: usize,)
            ($($t)* $x: &second::model::Memory,)
            ($($p)* $x.words.as_ptr(), $x.words.len(), $x.numbers.as_ptr(), $x.numbers.len(),) }
    };
    (@ $c:ident $name:ident $r:ty; ($x:ident: [mut $of:ty], $($rest:tt)*) ($($d:tt)*) ($($t:tt)*) ($($p:tt)*)) => {
        $crate::asks! { @ $c $name $r; ($($rest)*)
            ($($d)* _: *mut $of, _: usize,) ($($t)* $x: &mut [$of],) ($($p)* $x.as_mut_ptr(), $x.len(),) }
    };
    (@ $c:ident $name:ident $r:ty; ($x:ident: [$of:ty], $($rest:tt)*) ($($d:tt)*) ($($t:tt)*) ($($p:tt)*)) => {
        $crate::asks! { @ $c $name $r; ($($rest)*)
            ($($d)* _: *const $of, _: usize,) ($($t)* $x: &[$of],) ($($p)* $x.as_ptr(), $x.len(),) }
    };
    (@ $c:ident $name:ident $r:ty; ($x:ident: (mut $of:ty), $($rest:tt)*) ($($d:tt)*) ($($t:tt)*) ($($p:tt)*)) => {
        $crate::asks! { @ $c $name $r; ($($rest)*) ($($d)* _: *mut $of,) ($($t)* $x: &mut $of,) ($($p)* $x,) }
    };
    (@ $c:ident $name:ident $r:ty; ($x:ident: $of:ty, $($rest:tt)*) ($($d:tt)*) ($($t:tt)*) ($($p:tt)*)) => {
        $crate::asks! { @ $c $name $r; ($($rest)*) ($($d)* _: $of,) ($($t)* $x: $of,) ($($p)* $x,) }
    };
    ($($c:ident: $name:ident($($x:ident: $kind:tt),*) -> $r:ty;)*) => {
        $($crate::asks! { @ $c $name $r; ($($x: $kind,)*) () () () })*
    };
}

/// Parameter by parameter: what C declares, what is passed. A road is passed as a pair of slices.
#[macro_export]
macro_rules! answers {
    (@ $c:ident $name:ident $r:ty; () ($($declared:tt)*) ($($passed:tt)*)) => {
        #[unsafe(no_mangle)]
        pub unsafe extern "C" fn $c($($declared)*) -> $r {
            unsafe { $name($($passed)*) }
        }
    };
    (@ $c:ident $name:ident $r:ty; ($x:ident: Road, $($rest:tt)*) ($($d:tt)*) ($($p:tt)*)) => {
        $crate::answers! { @ $c $name $r; ($($rest)*)
            ($($d)* $x: *const u16, n: usize, numbers: *const f64, k: usize,)
            ($($p)* (std::slice::from_raw_parts($x, n), std::slice::from_raw_parts(numbers, k)),) }
    };
    (@ $c:ident $name:ident $r:ty; ($x:ident: [mut $of:ty], $($rest:tt)*) ($($d:tt)*) ($($p:tt)*)) => {
        $crate::answers! { @ $c $name $r; ($($rest)*)
            ($($d)* $x: *mut $of, n: usize,) ($($p)* std::slice::from_raw_parts_mut($x, n),) }
    };
    (@ $c:ident $name:ident $r:ty; ($x:ident: [$of:ty], $($rest:tt)*) ($($d:tt)*) ($($p:tt)*)) => {
        $crate::answers! { @ $c $name $r; ($($rest)*)
            ($($d)* $x: *const $of, n: usize,) ($($p)* std::slice::from_raw_parts($x, n),) }
    };
    (@ $c:ident $name:ident $r:ty; ($x:ident: (mut $of:ty), $($rest:tt)*) ($($d:tt)*) ($($p:tt)*)) => {
        $crate::answers! { @ $c $name $r; ($($rest)*) ($($d)* $x: *mut $of,) ($($p)* &mut *$x,) }
    };
    (@ $c:ident $name:ident $r:ty; ($x:ident: $of:ty, $($rest:tt)*) ($($d:tt)*) ($($p:tt)*)) => {
        $crate::answers! { @ $c $name $r; ($($rest)*) ($($d)* $x: $of,) ($($p)* $x,) }
    };
    ($($c:ident: $name:ident($($x:ident: $kind:tt),*) -> $r:ty;)*) => {
        $($crate::answers! { @ $c $name $r; ($($x: $kind,)*) () () })*
    };
}
