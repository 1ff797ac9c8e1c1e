//! What the tests share: the sample jobs, answers as bits, and the C interface as it is, each call on memory filled with marks.
#![allow(dead_code)]
use riftkettle::*;

/// What a call answers, as bits, or the number of its refusal.
pub type Told = Result<Vec<u64>, u32>;

pub trait Bits {
    fn put(&self, to: &mut Vec<u64>);

    fn bits(&self) -> Vec<u64> {
        let mut to = Vec::new();
        self.put(&mut to);
        to
    }
}

macro_rules! bits {
    ($($of:ty: $value:ident => $bits:expr;)*) => {
        $(impl Bits for $of {
            fn put(&self, to: &mut Vec<u64>) {
                let $value = self;
                to.push($bits);
            }
        })*
    };
}

macro_rules! fields {
    ($($of:ty: $($field:ident)*;)*) => {
        $(impl Bits for $of {
            fn put(&self, to: &mut Vec<u64>) {
                $(self.$field.put(to);)*
            }
        })*
    };
}

bits! {
    bool: v => u64::from(*v);
    u32: v => u64::from(*v);
    i32: v => *v as u64;
    i64: v => *v as u64;
    usize: v => *v as u64;
    f32: v => u64::from(v.to_bits());
    f64: v => v.to_bits();
    Option<i32>: v => v.unwrap_or(0) as u64;
}

fields! {
    Pose: x y heading;
    Station: s x y heading z grade bank bank_rate;
    Axes: along across up;
    SurfacePoint: x y z heading;
    Located: s t moves met;
    Border: inner outer width;
    TrackPose: position heading;
    Projection: s position offset;
}

impl Bits for () {
    fn put(&self, _: &mut Vec<u64>) {}
}

impl<T: Bits> Bits for [T] {
    fn put(&self, to: &mut Vec<u64>) {
        self.iter().for_each(|v| v.put(to));
    }
}

impl<T: Bits, const N: usize> Bits for [T; N] {
    fn put(&self, to: &mut Vec<u64>) {
        self.as_slice().put(to);
    }
}

impl<A: Bits, B: Bits> Bits for (A, B) {
    fn put(&self, to: &mut Vec<u64>) {
        self.0.put(to);
        self.1.put(to);
    }
}

impl<A: Bits, B: Bits, C: Bits> Bits for (A, B, C) {
    fn put(&self, to: &mut Vec<u64>) {
        self.0.put(to);
        self.1.put(to);
        self.2.put(to);
    }
}

pub fn told<T: Bits>(answer: Result<T, Refusal>) -> Told {
    answer.map(|a| a.bits()).map_err(Refusal::number)
}

/// Each sample job: its name and text.
pub fn jobs() -> Vec<(String, Vec<u8>)> {
    let folder = concat!(env!("CARGO_MANIFEST_DIR"), "/../../examples/jobs");
    let mut jobs: Vec<_> = std::fs::read_dir(folder)
        .unwrap()
        .map(|entry| entry.unwrap().path())
        .filter(|path| path.extension().is_some_and(|e| e == "job"))
        .map(|path| (path.file_stem().unwrap().to_string_lossy().into_owned(), std::fs::read(&path).unwrap()))
        .collect();
    jobs.sort();
    assert!(jobs.len() > 10, "no sample jobs in {folder}");
    jobs
}

pub fn job(name: &str) -> Vec<u8> {
    jobs().into_iter().find(|(n, _)| n == name).unwrap().1
}

pub fn road_of(text: &[u8]) -> Box<Road> {
    let mut road = Box::new(Road::new());
    road.read(text).unwrap();
    road
}

/// Numbers that answers never have: what a call leaves is told from what it writes.
pub const MARK: f64 = f64::from_bits(0x5a5a_5a5a_5a5a_5a5a);

/// The same in f32.
pub const MARK_F32: f32 = f32::from_bits(0x5a5a_5a5a);

/// The C interface as it is. A refusal is seen to leave the marks.
pub mod raw {
    use super::*;

    fn left<T: Bits>(code: u32, before: T, after: T) -> Told {
        if code == 0 {
            return Ok(after.bits());
        }
        assert_eq!(before.bits(), after.bits(), "refusal {code} changed what was lent");
        Err(code)
    }

    macro_rules! on_road {
        ($name:ident($road:expr $(, $more:expr)*)) => {
            // SAFETY: pointers and lengths are those of slices; answers go to locals or to slices borrowed mutably.
            unsafe {
                ffi::$name($road.words.as_ptr(), $road.words.len(), $road.numbers.as_ptr(), $road.numbers.len() $(, $more)*)
            }
        };
    }

    macro_rules! on_samples {
        ($name:ident($road:expr, $samples:expr $(, $more:expr)*)) => {
            on_road!($name($road, $samples.as_ptr(), $samples.len() $(, $more)*))
        };
    }

    pub fn counts(v: f64) -> Told {
        let mut count = 99;
        // SAFETY: the count is written to a local.
        let code = unsafe { ffi::riftkettle_counts(v, &mut count) };
        left(code, 99, count)
    }

    /// The count alone: the slices show what was read.
    pub fn read(text: &[u8], words: &mut [u16], numbers: &mut [f64], wants: &mut [u64]) -> Told {
        let (n, m, k) = (words.len(), numbers.len(), wants.len());
        let (words, numbers, wants) = (words.as_mut_ptr(), numbers.as_mut_ptr(), wants.as_mut_ptr());
        let mut count = 99_usize;
        // SAFETY: pointers and lengths are those of slices borrowed mutably.
        let code = unsafe { ffi::riftkettle_read(text.as_ptr(), text.len(), words, n, numbers, m, wants, k, &mut count) };
        left(code, 99, count)
    }

    pub fn admit(road: Lent<'_>) -> Told {
        left(on_road!(riftkettle_admit(road)), (), ())
    }

    pub fn samples(road: Lent<'_>, samples: &mut [f64]) -> Told {
        let before = samples.bits();
        let mut made = 99_usize;
        let code = on_road!(riftkettle_samples(road, samples.as_mut_ptr(), samples.len(), &mut made));
        assert!(code == 0 || samples.bits() == before);
        left(code, 99, made)
    }

    pub fn pose(road: Lent<'_>, samples: &[f64], geometry: usize, s: f64) -> Told {
        let mut pose = [MARK; 3];
        let code = on_samples!(riftkettle_pose(road, samples, geometry, s, &mut pose));
        left(code, [MARK; 3], pose)
    }

    pub fn borders(road: Lent<'_>, s: f64, list: &mut [f64]) -> Told {
        let before = list.bits();
        let mut lanes = 99_usize;
        let code = on_road!(riftkettle_borders(road, s, list.as_mut_ptr(), list.len(), &mut lanes));
        assert!(code == 0 || list.bits() == before);
        left(code, 99, lanes)
    }

    pub fn lane_named(road: Lent<'_>, s: f64, t: f64) -> Told {
        let mut id = 99;
        let code = on_road!(riftkettle_lane_named(road, s, t, &mut id));
        left(code, 99, id)
    }

    pub fn station(road: Lent<'_>, samples: &[f64], s: f64) -> Told {
        let mut station = [MARK; 8];
        let code = on_samples!(riftkettle_station(road, samples, s, &mut station));
        left(code, [MARK; 8], station)
    }

    pub fn axes(road: Lent<'_>, samples: &[f64], s: f64) -> Told {
        let mut axes = [MARK; 9];
        let code = on_samples!(riftkettle_axes(road, samples, s, &mut axes));
        left(code, [MARK; 9], axes)
    }

    pub fn surface(road: Lent<'_>, samples: &[f64], s: f64, t: f64) -> Told {
        let mut answer = ([MARK_F32; 3], MARK);
        let code = on_samples!(riftkettle_surface(road, samples, s, t, &mut answer.0, &mut answer.1));
        left(code, ([MARK_F32; 3], MARK), answer)
    }

    pub fn lane_surface(road: Lent<'_>, samples: &[f64], id: i32, s: f64, t: f64) -> Told {
        let mut answer = ([MARK_F32; 3], MARK);
        let code = on_samples!(riftkettle_lane_surface(road, samples, id, s, t, &mut answer.0, &mut answer.1));
        left(code, ([MARK_F32; 3], MARK), answer)
    }

    pub fn locate(road: Lent<'_>, samples: &[f64], x: f64, y: f64, guess: f64) -> Told {
        let mut answer = ([MARK; 2], 99_u32, 99_u32);
        let code = on_samples!(riftkettle_locate(road, samples, x, y, guess, &mut answer.0, &mut answer.1, &mut answer.2));
        left(code, ([MARK; 2], 99, 99), answer)
    }

    pub fn dots(
        road: Lent<'_>,
        samples: &[f64],
        (section, lane): (usize, i32),
        spacing: f32,
        stations: &[f64],
        list: &mut [f64],
    ) -> Told {
        let before = list.bits();
        let mut dots = 99_usize;
        let (asked, (to, r)) = ((stations.as_ptr(), stations.len()), (list.as_mut_ptr(), list.len()));
        let code = on_samples!(riftkettle_dots(road, samples, section, lane, spacing, asked.0, asked.1, to, r, &mut dots));
        assert!(code == 0 || list.bits() == before);
        left(code, 99, dots)
    }

    /// No number: the list shows what was written.
    pub fn track_tangents(points: &[f32], list: &mut [f32]) -> Told {
        let before = list.bits();
        // SAFETY: pointers and lengths are those of slices, the list's borrowed mutably.
        let code = unsafe { ffi::riftkettle_track_tangents(points.as_ptr(), points.len(), list.as_mut_ptr(), list.len()) };
        assert!(code == 0 || list.bits() == before);
        left(code, (), ())
    }

    pub fn track_pose(points: &[f32], s: f32) -> Told {
        let mut pose = [MARK_F32; 6];
        // SAFETY: pointer and length are those of a slice; the answer goes to a local.
        let code = unsafe { ffi::riftkettle_track_pose(points.as_ptr(), points.len(), s, &mut pose) };
        left(code, [MARK_F32; 6], pose)
    }

    pub fn track_project(points: &[f32], [x, y, z]: [f32; 3]) -> Told {
        let mut projection = [MARK_F32; 5];
        // SAFETY: pointer and length are those of a slice; the answer goes to a local.
        let code = unsafe { ffi::riftkettle_track_project(points.as_ptr(), points.len(), x, y, z, &mut projection) };
        left(code, [MARK_F32; 5], projection)
    }
}
