//! Each function on slices against the C interface as it is, bit for bit: answers, refusals, and what is left in lent memory.
mod common;

use std::collections::BTreeSet;

use common::{Bits, MARK, Told, job, jobs, raw, road_of, told};
use riftkettle::layout::{BORDERS, GEOM, GEOM_STRIDE, GEOMS, KIND, LENGTH, NUMBERS, SAMPLES, SECTIONS, TEXT, WANTS, WORDS};
use riftkettle::*;

const OFFSETS: [f64; 9] = [-81.0, -80.0, -3.5, -0.25, 0.0, 2.5, 80.0, 80.5, f64::NAN];

fn stations(length: f64) -> [f64; 9] {
    [-0.5, -0.0, 0.0, length / 3.0, length * 0.61, length, length + 0.5, f64::INFINITY, f64::NAN]
}

#[test]
fn arithmetic() {
    let values =
        [0.0, -0.0, 1.0, 1.0 / 32.0, -79.99995, 80.0, 81.0, 2.0, 1e-310, 11999.5, -12001.0, 1e300, f64::INFINITY, f64::NAN];
    for v in values {
        assert_eq!(root(v).to_bits(), ffi::riftkettle_root(v).to_bits());
        assert_eq!(root32(v as f32).to_bits(), ffi::riftkettle_root32(v as f32).to_bits());
        assert_eq!(sin(v).to_bits(), ffi::riftkettle_sin(v).to_bits());
        assert_eq!(cos(v).to_bits(), ffi::riftkettle_cos(v).to_bits());
        assert_eq!(tan(v).to_bits(), ffi::riftkettle_tan(v).to_bits());
        assert_eq!(narrow(v).to_bits(), ffi::riftkettle_narrow(v).to_bits());
        assert_eq!(told(counts(v)), raw::counts(v));
        for w in values {
            assert_eq!(hypot(v, w).to_bits(), ffi::riftkettle_hypot(v, w).to_bits());
        }
    }
    assert_eq!((root(2.0), hypot(3.0, 4.0), sin(0.0), cos(0.0), tan(0.0)), (2_f64.sqrt(), 5.0, 0.0, 1.0, 0.0));
    assert_eq!((root32(2.0), root32(-0.0).to_bits()), (2_f32.sqrt(), (-0.0_f32).to_bits()));
    assert!(root32(-1.0).is_nan());
    assert_eq!((narrow(0.1), counts(1.0 / 32.0), counts(81.0)), (0.1, Ok(313), Err(Refusal::CountRange)));
}

/// The memory of a reading, full of marks.
fn marked() -> (Vec<u16>, Vec<f64>, Vec<u64>) {
    (vec![0x5a5a; WORDS + 3], vec![MARK; NUMBERS + 3], vec![0x5a5a; WANTS + 3])
}

/// Reads by both into the first elements of marked memory: the same answer and the same memory.
fn read_both(text: &[u8], (n, m, k): (usize, usize, usize)) -> Told {
    let ((mut w, mut f, mut u), (mut rw, mut rf, mut ru)) = (marked(), marked());
    let answer = told(read(text, &mut w[..n], &mut f[..m], &mut u[..k]));
    assert_eq!(answer, raw::read(text, &mut rw[..n], &mut rf[..m], &mut ru[..k]));
    assert_eq!((&w, f.bits(), &u), (&rw, rf.bits(), &ru));
    let (marked_w, marked_f, marked_u) = marked();
    assert_eq!((&w[n..], f[m..].bits(), &u[k..]), (&marked_w[n..], marked_f[m..].bits(), &marked_u[k..]));
    if answer.is_err() {
        assert!(w[..n].iter().all(|v| *v == 0) && f[..m].iter().all(|v| v.to_bits() == 0) && u[..k].iter().all(|v| *v == 0));
    }
    answer
}

#[test]
fn reading() {
    for (name, text) in jobs() {
        for room in [(WORDS, NUMBERS, WANTS), (WORDS + 3, NUMBERS + 3, WANTS + 3)] {
            assert!(read_both(&text, room).is_ok(), "{name}");
        }
        for room in [(0, 0, 0), (WORDS - 1, NUMBERS, WANTS), (WORDS, NUMBERS - 1, WANTS), (WORDS, NUMBERS, WANTS - 1)] {
            assert_eq!(read_both(&text, room), Err(2), "{name}");
        }
        for cut in 0..text.len() {
            // in tables of several lines a cut may leave a whole job
            let answer = read_both(&text[..cut], (WORDS, NUMBERS, WANTS));
            assert!(answer.is_ok() || answer == Err(1) || answer == Err(3), "{name} cut to {cut} bytes: {answer:?}");
        }
    }
}

/// Every call on the road that both kinds of function answer, at every station and offset.
fn ask_all(road: Lent<'_>, made: &[f64], refused: &mut BTreeSet<u32>) {
    let mut same = |safe: Told, raw: Told| {
        assert_eq!(safe, raw);
        refused.extend(safe.err());
    };
    same(told(admit(road)), raw::admit(road));
    for s in stations(road.numbers.get(LENGTH).copied().unwrap_or(1.0)) {
        for geometry in [0, 1, 4, 64, usize::MAX] {
            same(told(pose(road, made, geometry, s)), raw::pose(road, made, geometry, s));
        }
        same(told(station(road, made, s)), raw::station(road, made, s));
        same(told(axes(road, made, s)), raw::axes(road, made, s));
        for t in OFFSETS {
            same(told(lane_named(road, s, t)), raw::lane_named(road, s, t));
            same(told(surface(road, made, s, t)), raw::surface(road, made, s, t));
            for id in [i32::MIN, -2, -1, 0, 1, 3] {
                same(told(lane_surface(road, made, id, s, t)), raw::lane_surface(road, made, id, s, t));
            }
        }
        for (x, y) in [(s, 2.0), (520.0, 210.0), (-2e6, 0.0), (0.0, 2000001.0), (f64::NAN, 0.0)] {
            same(told(locate(road, made, x, y, s)), raw::locate(road, made, x, y, s));
        }
        for k in [0, 2, 3, 8, BORDERS, BORDERS + 1] {
            let (mut list, mut raw_list) = (vec![MARK; k + 3], vec![MARK; k + 3]);
            same(told(borders(road, s, &mut list[..k])), raw::borders(road, s, &mut raw_list[..k]));
            assert_eq!((list.bits(), list[k..].bits()), (raw_list.bits(), [MARK; 3].bits()));
        }
        for (section, lane, spacing, last) in [(0, 1, 2.5, s), (0, -1, 0.1, 1.0), (1, 2, 100.0, s), (9, 1, s as f32, 1.0)] {
            let (mut list, mut raw_list) = ([MARK; 40], [MARK; 40]);
            let answer = told(dots(road, made, section, lane, spacing, &[0.0, last], &mut list[..36]));
            same(answer, raw::dots(road, made, (section, lane), spacing, &[0.0, last], &mut raw_list[..36]));
            assert_eq!((list.bits(), list[36..].bits()), (raw_list.bits(), [MARK; 4].bits()));
        }
        let left = left_lanes(road, s); // answers for any slices
        assert!(borders(road, s, &mut [0.0; BORDERS]).map_or(true, |lanes| left <= lanes));
    }
}

/// The samples by both, in as much room as is given, with marks past it.
fn sample_both(road: Lent<'_>, room: usize) -> (Told, Vec<f64>) {
    let (mut made, mut raw_made) = (vec![MARK; room + 4], vec![MARK; room + 4]);
    let answer = told(samples(road, &mut made[..room]));
    assert_eq!(answer, raw::samples(road, &mut raw_made[..room]));
    assert_eq!((made.bits(), made[room..].bits()), (raw_made.bits(), [MARK; 4].bits()));
    (answer, made)
}

#[test]
fn calls_on_the_sample_jobs() {
    let mut refused = BTreeSet::new();
    for (_, text) in jobs() {
        let road = road_of(&text);
        let (answer, made) = sample_both(road.lent(), SAMPLES);
        let numbers = 4 * answer.unwrap()[0] as usize;
        assert!(made[numbers..].iter().all(|v| v.to_bits() == MARK.to_bits()));
        for room in [numbers, SAMPLES] {
            ask_all(road.lent(), &made[..room], &mut refused);
        }
        if numbers > 0 {
            assert_eq!(sample_both(road.lent(), numbers - 1).0, Err(6));
            ask_all(road.lent(), &made[..numbers - 1], &mut refused);
            ask_all(road.lent(), &[f64::NAN; SAMPLES], &mut refused);
        }
    }
    assert_eq!(refused, BTreeSet::from([3, 6, 7, 8, 9, 10, 11, 16]));
}

/// A road of one spiral, from straight to the curvature `k1`.
fn spiral(length: f64, k1: f64) -> (Vec<u16>, Vec<f64>) {
    let (mut words, mut numbers) = (vec![0; WORDS], vec![0.0; NUMBERS]);
    numbers[LENGTH] = length;
    numbers[GEOM..][..GEOM_STRIDE].copy_from_slice(&[0.0, 0.0, 0.0, 0.0, length, 0.0, k1]);
    (words[GEOMS], words[KIND], words[SECTIONS]) = (1, 2, 1);
    (words, numbers)
}

#[test]
fn calls_on_what_is_no_road() {
    let mut refused = BTreeSet::new();
    let road = road_of(&job("spiral"));
    let Lent { words, numbers } = road.lent();
    let (long, sharp) = (spiral(900.0, 0.001), spiral(2.0, 1.5));
    for (words, numbers) in [
        (&[][..], &[][..]),
        (&words[..WORDS - 1], numbers),
        (words, &numbers[..NUMBERS - 1]),
        (&[0xffff; WORDS], numbers),
        (words, &[f64::NAN; NUMBERS]),
        (&sharp.0, &sharp.1),
        (&long.0, &long.1),
    ] {
        let road = Lent { words, numbers };
        let (answer, _) = sample_both(road, SAMPLES);
        refused.extend(answer.err());
        ask_all(road, &[0.0; SAMPLES], &mut refused);
    }
    assert_eq!(refused, BTreeSet::from([3, 4, 5]));
}

/// Each refusal once, by number.
#[test]
fn every_refusal() {
    let text = job("spiral");
    let road = road_of(&text);
    let (lent, made) = (road.lent(), road.samples());
    let (long, sharp) = (spiral(900.0, 0.001), spiral(2.0, 1.5));
    let (mut w, mut f, mut u) = marked();
    let mut reading = |text: &[u8]| read(text, &mut w, &mut f, &mut u).unwrap_err();
    let marks = road_of(&job("marks"));
    let dot = |spacing, stations: &[f64], list: &mut [f64]| marks.dots(0, 1, spacing, stations, list).unwrap_err();
    let refused = [
        reading(&text[1..]),
        reading(&[b'\n'; TEXT + 1]),
        admit(Lent { words: &[], numbers: lent.numbers }).unwrap_err(),
        admit(Lent { words: &sharp.0, numbers: &sharp.1 }).unwrap_err(),
        admit(Lent { words: &long.0, numbers: &long.1 }).unwrap_err(),
        station(lent, &made[1..], 0.0).unwrap_err(),
        station(lent, made, -1.0).unwrap_err(),
        surface(lent, made, 0.0, 81.0).unwrap_err(),
        locate(lent, made, 3e6, 0.0, 0.0).unwrap_err(),
        lane_surface(lent, made, 1, 0.0, 0.0).unwrap_err(),
        borders(road_of(&job("lanes_width")).lent(), 0.0, &mut [0.0; 11]).unwrap_err(),
        counts(-80.5).unwrap_err(),
        track_pose(&[0.0; 3], 0.0).unwrap_err(),
        track_pose(&[f32::NAN; 6], 0.0).unwrap_err(),
        dot(0.05, &[], &mut []),
        dot(1.0, &[5.0], &mut []),
        dot(1.0, &[5.0, 8.0], &mut [0.0; 3]),
    ];
    assert_eq!(refused, Refusal::ALL);
}

/// Slices of random lengths, with random content among that of a road.
#[test]
fn calls_on_anything() {
    let road = road_of(&job("strips"));
    let mut state = 1_u64;
    let mut random = move |below: usize| {
        state = state.wrapping_mul(6364136223846793005).wrapping_add(1442695040888963407);
        (state >> 33) as usize % below
    };
    let (mut answered, mut refused) = (0, BTreeSet::new());
    // So many, since a number that the road uses is seldom hit: among the first 300 none is refused 4.
    for _ in 0..1_000 {
        let (mut words, mut numbers) = (road.lent().words.to_vec(), road.lent().numbers.to_vec());
        for _ in 0..random(4) {
            words[random(WORDS)] = random(1 << 16) as u16;
            numbers[random(NUMBERS)] = f64::from_bits((random(1 << 31) as u64) << 33);
        }
        let (n, m) = if random(3) == 0 { (random(WORDS + 1), random(NUMBERS + 1)) } else { (WORDS, NUMBERS) };
        let lent = Lent { words: &words[..n], numbers: &numbers[..m] };
        let (answer, _) = sample_both(lent, random(9));
        refused.extend(answer.err());
        let (s, t) = (random(100) as f64, random(160) as f64 - 80.0);
        let answer = told(surface(lent, &[], s, t));
        assert_eq!(answer, raw::surface(lent, &[], s, t));
        answered += usize::from(answer.is_ok());
    }
    assert!(answered > 50 && refused.is_superset(&BTreeSet::from([3, 4])), "{answered} {refused:?}");
}
