// A library with the C functions of include/riftkettle.h that answers by the published Rust and the second admission. It proves
// that the comparison works before the library exists, and that it finds a difference: RIFTKETTLE_FAULT names one to put in.
use interface::answers;
use published::oracle::Oracle;
use published::stand_ins;
use second::arguments::exact_counts;
use second::fault::{Fault, Limit, List, Name, Parent, Place, Reason};
use second::model::*;
use std::panic::{AssertUnwindSafe, catch_unwind};
use std::sync::OnceLock;

mod dots;
mod lanes;
mod probes;
mod surfaces;
mod tracks;

use dots::dots;
use lanes::{borders, lane_named};
use surfaces::{axes, lane_surface, locate, station, surface};
use tracks::{root32, track_pose, track_project, track_tangents};

interface::riftkettle_functions!(answers);

/// The two slices of a road.
type Lent<'a> = (&'a [u16], &'a [f64]);

// An edited copy of the second admission or of the second reader in its place (build.rs).
#[cfg(edited_admission)]
mod admission {
    include!(concat!(env!("OUT_DIR"), "/admission.rs"));
}
#[cfg(not(edited_admission))]
use second::admission;
#[cfg(edited_reader)]
mod reader {
    include!(concat!(env!("OUT_DIR"), "/reader.rs"));
}
#[cfg(not(edited_reader))]
use second::reader;

fn fault(name: &str) -> bool {
    static FAULT: OnceLock<String> = OnceLock::new();
    FAULT.get_or_init(|| std::env::var("RIFTKETTLE_FAULT").unwrap_or_default()) == name
}

/// One step too far, for one argument in a thousand.
fn off(name: &str, x: f64, y: f64) -> f64 {
    if fault(name) && x.to_bits() % 1009 == 0 && y.is_finite() { y.next_up() } else { y }
}

/// An edited admission may let a road through that cannot be evaluated: a number of no refusal.
fn guarded(f: impl FnOnce() -> u32) -> u32 {
    catch_unwind(AssertUnwindSafe(f)).unwrap_or(99)
}

fn root(x: f64) -> f64 {
    off("root", x, stand_ins::root(x))
}

fn hypot(a: f64, b: f64) -> f64 {
    if fault("hypot") { a.hypot(b) } else { stand_ins::hypot(a, b) }
}

fn sin(h: f64) -> f64 {
    if fault("sine range") && h == 12_000.0 { f64::NAN } else { off("sine", h, stand_ins::sin(h)) }
}

fn cos(h: f64) -> f64 {
    stand_ins::cos(h)
}

fn tan(h: f64) -> f64 {
    if fault("tan") { h.tan() } else { stand_ins::tan(h) }
}

fn narrow(x: f64) -> f32 {
    let y = x as f32;
    let halfway = y.is_finite() && f64::from(y) < x && x - f64::from(y) == f64::from(y.next_up()) - x;
    if fault("narrow") && halfway { y.next_up() } else { y }
}

fn counts(v: f64, count: &mut i64) -> u32 {
    match exact_counts(v) {
        Ok(n) => *count = if fault("counts") { (v * 10_000.0 + 0.5).floor() as i64 } else { n },
        Err(number) => return number,
    }
    0
}

/// 01's rule for the samples of one spiral.
fn pose_of_samples(samples: &[f64], distance: f64) -> [f64; 3] {
    let (n, last) = (samples.len() / 4, samples[samples.len() - 4]);
    let ds = if distance < 0.0 { 0.0 } else { distance };
    let ds = if ds > last { last } else { ds };
    let rule = |p: &&[f64]| p[0] <= ds;
    let leading =
        if fault("leading") { samples.chunks(4).filter(rule).count() } else { samples.chunks(4).take_while(rule).count() };
    let i = leading.saturating_sub(1).min(n - 2);
    let (a, b) = (&samples[4 * i..], &samples[4 * i + 4..]);
    let t = if b[0] > a[0] { (ds - a[0]) / (b[0] - a[0]) } else { 0.0 };
    [1, 2, 3].map(|k| a[k] + (b[k] - a[k]) * t)
}

/// The number of a road whose marks are tested wrongly, if the road is one that tells.
fn marked_wrongly(wrong: &Fault, words: &[u16]) -> Option<u32> {
    let lane = |line: usize| words[MARK_WORDS.line(line)];
    let most_a_lane = |list: &List| {
        let lines = || list.first..list.first + list.count;
        lines().map(|line| lines().filter(|&other| lane(other) == lane(line)).count()).max()
    };
    match (wrong.place(), wrong.reason()) {
        (Place::Number { line, .. }, Reason::MarkOrder { earlier, .. }) => {
            (fault("mark neighbours") && earlier + 1 < line).then_some(0)
        }
        (_, Reason::Lines { list, .. }) if list.name == Name::Mark && list.first + list.count <= MARK.lines => {
            (fault("mark count") && most_a_lane(list) <= Some(16)).then_some(0)
        }
        (_, Reason::NoLane { .. }) => fault("mark lane").then_some(0),
        (_, Reason::Kind { .. }) => fault("mark kind").then_some(3),
        (_, Reason::Limit(Limit::SpanPast { .. })) => fault("mark extent").then_some(0),
        _ => None,
    }
}

fn admitted((words, numbers): Lent) -> u32 {
    let judged = admission::judge(words, numbers);
    let wrongly = judged.as_ref().err().and_then(|wrong| marked_wrongly(wrong, words));
    let number = wrongly.unwrap_or(judged.map_or_else(|fault| fault.row, |()| 0));
    // A bank's first a at its limit exactly, all else zero, is taken for too much.
    let bank = number == 0 && words[2] > 0 && numbers[BANK.at + 1].abs() == 0.75;
    match number {
        0 if fault("bank") && bank => 4,
        4 if fault("rows") && numbers[0].is_nan() => 3,
        _ => number,
    }
}

fn admit(road: Lent) -> u32 {
    guarded(|| admitted(road))
}

fn samples(road: Lent, lent: &mut [f64], made: &mut usize) -> u32 {
    guarded(|| make_samples(road, lent, made))
}

fn make_samples((words, numbers): Lent, lent: &mut [f64], made: &mut usize) -> u32 {
    let number = admitted((words, numbers));
    if number != 0 {
        return number;
    }
    let new = Oracle::new(&Road::read(words, numbers)).samples();
    if lent.len() < new.len() {
        if fault("early") && !lent.is_empty() {
            lent[0] = new[0];
        }
        return 6;
    }
    lent[..new.len()].copy_from_slice(&new);
    if fault("tail") && lent.len() > new.len() {
        lent[new.len()] = 0.0;
    }
    *made = new.len() / 4;
    0
}

fn pose(road: Lent, lent: &[f64], geometry: usize, s: f64, pose: &mut [f64; 3]) -> u32 {
    guarded(|| find_pose(road, lent, (geometry, s), pose))
}

fn find_pose((words, numbers): Lent, lent: &[f64], (geometry, s): (usize, f64), pose: &mut [f64; 3]) -> u32 {
    let number = admitted((words, numbers));
    if number != 0 {
        return number;
    }
    let needed = admission::samples_of(words, numbers);
    if lent.len() / 4 < needed.iter().sum() {
        return 6;
    }
    if needed.len() <= geometry {
        return 3;
    }
    if !(0.0 <= s && s <= numbers[0]) {
        return 7;
    }
    let first: usize = needed[..geometry].iter().sum();
    *pose = if needed[geometry] > 0 {
        pose_of_samples(&lent[4 * first..4 * (first + needed[geometry])], s - numbers[GEOM.line(geometry)])
    } else {
        Oracle::new(&Road::read(words, numbers)).pose(geometry, s)
    };
    0
}

// ---- reading

fn read(text: &[u8], words: &mut [u16], numbers: &mut [f64], wants: &mut [u64], count: &mut usize) -> u32 {
    guarded(|| read_job(text, words, numbers, wants, count))
}

fn read_job(text: &[u8], words: &mut [u16], numbers: &mut [f64], wants: &mut [u64], count: &mut usize) -> u32 {
    let before = numbers.to_vec();
    match reader::judge(text, words, numbers, wants) {
        Ok(lines) => {
            *count = lines;
            0
        }
        Err(wrong) => {
            if fault("read count") {
                *count = 0;
            }
            // Zeros end where the layout does, or a slice that is too short is left alone.
            if fault("read zeros") && numbers.len() > NUMBERS {
                numbers[NUMBERS..].copy_from_slice(&before[NUMBERS..]);
            }
            if fault("read short") && numbers.len() < NUMBERS {
                numbers.copy_from_slice(&before);
            }
            match (wrong.place(), wrong.reason()) {
                (Place::Line { table: Name::Mark, .. }, Reason::TooMany { .. }) if fault("mark lines") => 3,
                (Place::Line { table: Name::Mark, .. }, Reason::NoParent(Parent::Lane { id: 0, .. })) if fault("mark id") => 0,
                (_, Reason::Kind { .. }) if fault("mark kind") => 3,
                _ => wrong.row,
            }
        }
    }
}
