// Tests of the comparison's own parts, without the library: the stand-ins against the standard library within a tolerance, the
// layout there and back, the generators, the second admission on document 01's own examples, and tracks on worked inputs.
use published::dots::DottedLine;
use published::oracle::{Oracle, Records};
use published::second_program::output;
use published::stand_ins;
use published::tracks::Track;
use second::admission::{admit, spiral_samples};
use second::arguments::{exact_counts, exact_root};
use second::dots::{self, Asked, Known};
use second::exact::{Squares, between, equal, ordered, outward, placed, sized};
use second::generate;
use second::model::*;
use second::random::Rng;
use second::reader::{self, TABLES, WANTS};
use second::texts::{self, SAMPLE_BYTES, SAMPLE_LINES};
use second::tracks::{self, refused};

/// 12,000 is some 7,640 quarters, and Q is good to 2^-87 or so: what is left is the rounding of a sum near 1.
const TOLERANCE: f64 = 4.0e-16;

#[test]
fn stand_ins_are_near() {
    let rng = &mut Rng::new(1, "stand ins are near");
    let mut worst: f64 = 0.0;
    for _ in 0..2_000_000 {
        let h = rng.between(-12_000.0, 12_000.0);
        let ((s, c), (sin, cos)) = (stand_ins::sin_cos(h), h.sin_cos());
        worst = worst.max((s - sin).abs()).max((c - cos).abs());
        assert!(worst <= TOLERANCE, "sine pair of {h}: {s} {c}, the library's {sin} {cos}");
        let (a, b) = (rng.log_between(1e-9, 1e7), rng.log_between(1e-9, 1e7));
        assert!((stand_ins::hypot(a, b) - a.hypot(b)).abs() <= 1e-15 * a.hypot(b));
        let phi = rng.between(-0.75, 0.75);
        assert!((stand_ins::tan(phi) - phi.tan()).abs() <= 1e-15);
    }
    println!("sine pair within {worst:.2e} of the standard library's");
    assert_eq!(exact_root(2.0).to_bits(), 0x3ff6_a09e_667f_3bcd);
    assert!(exact_root(-5e-324).is_nan() && exact_root(f64::INFINITY) == f64::INFINITY);
    assert_eq!([1.0 / 32.0, -1.0 / 32.0, 0.00035].map(exact_counts), [Ok(313), Ok(-313), Ok(4)]);
    assert_eq!(exact_counts(f64::from_bits(0x3f0a_36e2_eb1c_432c)), Ok(0));
    assert_eq!([80.0, 80.0f64.next_up(), f64::NAN].map(exact_counts), [Ok(800_000), Err(12), Err(12)]);
}

fn number(road: &Road, rng: &mut Rng) -> u32 {
    let m = road.lay(rng, Style::default()).expect("fits");
    admit(&m.words, &m.numbers)
}

/// 01: "Run", and M11.
#[test]
fn admission_runs() {
    let rng = &mut Rng::new(1, "admission runs");
    let geom = |shape, length| Geom { s: 0.0, x: 0.0, y: 0.0, hdg: 0.0, length, shape };
    let plain = |g: Geom| Road { length: 10.0, geoms: vec![g], sections: vec![Section::default()], ..Road::default() };
    let bank = |a| Road { bank: vec![Cubic { a, ..Cubic::default() }], ..plain(geom(Shape::Line, 10.0)) };
    assert_eq!(number(&bank(0.75), rng), 0);
    assert_eq!(number(&bank(0.75f64.next_up()), rng), 4);
    let arc = |k| number(&plain(geom(Shape::Arc(k), 10.0)), &mut Rng::new(1, "arc"));
    assert_eq!([1e-9, 0.000002, 0.00001, 1.0, 1.0f64.next_up()].map(arc), [0, 4, 0, 0, 4]);
    let spiral = |l| number(&plain(geom(Shape::Spiral(0.0, 0.1), l)), &mut Rng::new(1, "spiral"));
    assert_eq!([499.75, 500.0].map(spiral), [0, 5]);
    assert_eq!([0.6, 0.5, 0.5000000005, 499.75].map(spiral_samples), [4, 3, 3, 2000]);
    assert_eq!([number(&generate::small(), rng), number(&generate::full(), rng)], [0, 0]);
    let full = generate::full().lay(rng, Style::default()).expect("fits");
    assert_eq!(full.words[..7], [64, 64, 64, 64, 64, 16, 16]);
    assert_eq!(Oracle::new(&generate::full()).samples().len(), 4 * 2000);
}

/// The published Rust with the stand-ins in it: M1, M12, and points of generated roads, which are finite.
#[test]
fn oracle() {
    let rng = &mut Rng::new(1, "oracle");
    let geom = Geom { s: 0.0, x: 0.0, y: 0.0, hdg: 0.0, length: 10.0, shape: Shape::Line };
    let m1 = Road { length: 10.0, geoms: vec![geom], sections: vec![Section::default()], ..Road::default() };
    let m1 = Oracle::new(&m1);
    assert_eq!(m1.surface(1.0, 2.0), ([1.0, 2.0, 0.0], 0.0));
    assert_eq!(m1.locate(3.0, 2.0, 3.0), ([3.0, 2.0], 0));
    let ([s, t], moves) = m1.locate(3.0, 2.0, 7.0);
    assert!((s - 3.0).abs() < 1e-9 && t == 2.0 && moves == 1);
    for _ in 0..2_000 {
        let road = generate::admitted(rng).0;
        let o = Oracle::new(&road);
        for _ in 0..10 {
            let (s, t) = (rng.between(0.0, road.length), rng.between(-80.0, 80.0));
            let (point, heading) = o.surface(s, t);
            assert!(point.iter().all(|x| x.is_finite()) && heading.abs() <= 12_000.0, "{s} {t}: {point:?} {heading}: {road:?}");
        }
    }
}

/// 01's M2 to M7 by the published Rust.
#[test]
fn marked() {
    let rng = &mut Rng::new(1, "marked");
    let cubic = |start, a| Cubic { start, a, ..Cubic::default() };
    let m2 = Records::new(&[Cubic { start: 2.0, a: 1.0, b: 2.0, c: 3.0, d: 4.0 }]);
    assert_eq!((m2.eval(0, 3.0), m2.slope(0, 3.0)), (10.0, 20.0));
    let m3 = Records::new(&[cubic(5.0, 1.0)]);
    assert_eq!((m3.active(5.0 - 5e-10), m3.active(4.5)), (Some(0), None));
    let lane = |border, a| Lane { border, extents: vec![cubic(0.0, a)], ..Lane::default() };
    let geom = Geom { s: 0.0, x: 0.0, y: 0.0, hdg: 0.0, length: 10.0, shape: Shape::Line };
    let with = |left: &[Lane], right: &[Lane]| Road {
        length: 10.0,
        geoms: vec![geom],
        offset: vec![cubic(0.0, 1.0)],
        sections: vec![Section { left: left.to_vec(), right: right.to_vec(), ..Section::default() }],
        ..Road::default()
    };
    let outers = |o: &Oracle| o.borders(0, 5.0).iter().map(|b| b[1]).collect::<Vec<f64>>();
    let m4 = Oracle::new(&with(&[lane(false, 3.0), lane(false, -2.0), lane(false, 2.0)], &[]));
    assert_eq!(outers(&m4), [4.0, 4.0, 6.0]);
    assert_eq!([1.0, 4.0, 5.0, 70.0].map(|t| m4.lane_at(0, 5.0, t)), [None, Some(1), Some(3), Some(3)]);
    let m5 = Oracle::new(&with(&[], &[lane(true, -2.0), lane(true, 0.0)]));
    assert_eq!(outers(&m5), [-2.0, -2.0]);
    let heights = vec![Height { start: 0.0, inner: 0.0, outer: 1.0 }, Height { start: 10.0, inner: 2.0, outer: 3.0 }];
    let m7 = Oracle::new(&with(&[Lane { heights, ..lane(false, 3.0) }], &[]));
    assert_eq!([5.0, 12.0].map(|s| m7.heights(0, s, 0.0)[0]), [[1.0, 2.0], [2.0, 3.0]]);
    // The tangent that is given takes the place of the bank's, and the bank's own gives what the Rust puts together.
    let mut tilted = 0;
    for _ in 0..2_000 {
        let road = generate::admitted(rng).0;
        let (o, bank) = (Oracle::new(&road), Records::new(&road.bank));
        let s = rng.between(0.0, road.length);
        let phi = bank.active(s).map_or(0.0, |i| bank.eval(i, s));
        let section = o.section_at(s);
        let (given, own) = (o.across_by(section, s, stand_ins::tan(phi)), o.across(section, s));
        assert!(given.iter().map(|a| (a.id(), a.numbers())).eq(own.iter().map(|a| (a.id(), a.numbers()))));
        let flat = o.across_by(section, s, 0.0);
        tilted += usize::from(flat.iter().zip(&own).any(|(a, b)| a.numbers() != b.numbers()));
    }
    assert!(tilted >= 20, "too few roads with a level lane on a bank: {tilted}");
}

/// Of the roads for what lies across: how many have each feature, at a station of theirs.
#[test]
fn across() {
    let rng = &mut Rng::new(1, "across");
    let features: &[(&str, fn(&Road, &[[f64; 3]]) -> bool)] = &[
        ("12 lanes", |_, b| b.len() == 12),
        ("widths alone", |r, b| b.len() > 1 && r.lanes().all(|l| !l.border)),
        ("widths and borders", |r, _| r.lanes().any(|l| l.border) && r.lanes().any(|l| !l.border)),
        ("three lanes wide", |_, b| b.iter().filter(|b| b[2] > 0.0).count() >= 3),
        ("wide beyond narrow", |_, b| b.windows(2).any(|w| w[0][2] == 0.0 && w[1][2] > 0.0 && w[0][1] == w[1][0])),
        ("level inside others", |r, _| r.sections.iter().any(|s| s.left.iter().rev().skip(1).any(|l| l.level))),
        ("lane heights", |r, _| r.lanes().any(|l| l.heights.len() > 1)),
        ("profiles", |r, _| r.profiles.len() > 1),
        ("outer strips", |r, _| r.strips[1].is_some() || r.strips[3].is_some()),
        ("strips and profiles", |r, _| r.strips.iter().any(Option::is_some) && !r.profiles.is_empty()),
        ("records before 0", |r, _| r.lanes().any(|l| l.extents.iter().any(|c| c.start < 0.0))),
        ("no record at 0", |r, _| r.lanes().any(|l| l.extents.first().is_some_and(|c| c.start > 0.0))),
    ];
    let mut with = vec![0; features.len()];
    for _ in 0..2_000 {
        let road = generate::across(rng).0;
        let (o, s) = (Oracle::new(&road), rng.between(0.0, road.length));
        let borders = o.borders(o.section_at(s), s);
        features.iter().zip(&mut with).for_each(|((_, has), n)| *n += usize::from(has(&road, &borders)));
    }
    println!("2000 roads for what lies across");
    for ((name, _), n) in features.iter().zip(with) {
        println!("    {name:<20} {n}");
        assert!(n >= 20, "too few roads with: {name}");
    }
}

/// Of the generated roads: admitted, the same after memory and back, and how many have each feature.
#[test]
fn generator() {
    let rng = &mut Rng::new(1, "generator");
    let features: &[(&str, fn(&Road) -> bool)] = &[
        ("64 geometries", |r| r.geoms.len() == 64),
        ("several spirals", |r| r.spirals() > 1),
        ("16 sections", |r| r.sections.len() == 16),
        ("level lanes", |r| r.lanes().any(|l| l.level)),
        ("border lanes", |r| r.lanes().any(|l| l.border && !l.extents.is_empty())),
        ("lane heights", |r| r.lanes().any(|l| !l.heights.is_empty())),
        ("marks", |r| r.sections.iter().any(|s| !s.marks.is_empty())),
        ("256 marks", |r| r.sections.iter().map(|s| s.marks.len()).sum::<usize>() == 256),
        ("profiles", |r| !r.profiles.is_empty()),
        ("all strips", |r| r.strips.iter().all(Option::is_some)),
        ("equal starts", |r| r.elev.windows(2).any(|w| w[0].start == w[1].start)),
        ("starts within 2 nm", |r| r.geoms.windows(2).any(|w| w[0].s < w[1].s && w[1].s - w[0].s < 2e-9)),
        ("bank at its limit", |r| r.bank.iter().any(|c| c.a.abs() == 0.75)),
        ("no elevation", |r| r.elev.is_empty()),
    ];
    let (mut drafts, mut refused, mut unfit, mut with) = (0, 0, 0, vec![0; features.len()]);
    while drafts < 5_000 {
        let (road, style) = (generate::draft(rng), Style::random(rng));
        drafts += 1;
        let Some(m) = road.lay(rng, style) else {
            unfit += 1;
            continue;
        };
        if admit(&m.words, &m.numbers) != 0 {
            refused += 1;
            continue;
        }
        assert_eq!(Road::read(&m.words, &m.numbers), road);
        features.iter().zip(&mut with).for_each(|((_, has), n)| *n += usize::from(has(&road)));
    }
    println!("{drafts} drafts: {refused} refused, {unfit} did not fit their tables");
    assert!(refused * 20 < drafts && unfit * 10 < drafts, "the generator loses too many drafts");
    for ((name, _), n) in features.iter().zip(with) {
        println!("    {name:<20} {n}");
        assert!(n >= 20, "too few roads with: {name}");
    }
}

// ---- surfaces

/// Exact arithmetic at its bounds: the f64 on either side of each.
#[test]
fn exact() {
    let far = 2_000_000f64;
    assert_eq!(
        [far, -far, far.next_up(), f64::NAN, f64::INFINITY, 5e-324].map(|x| sized(x, 2_000_000)),
        [true, true, false, false, false, true]
    );
    assert!(ordered(-0.0, 0.0) && ordered(0.0, -0.0) && ordered(-1.0, -5e-324) && ordered(-1.0, 2.0) && !ordered(2.0, -1.0));
    assert!(!ordered(1f64.next_up(), 1.0) && !ordered(f64::NAN, 1.0) && !ordered(0.0, f64::INFINITY) && !equal(1.0, -1.0));
    // The last f64 whose square is at most 1001/1000, and the first whose square is at least 999/1000, by fractions elsewhere.
    let (most, least) = (f64::from_bits(0x3ff0_020c_2830_b9c7), f64::from_bits(0x3fef_fbe7_2966_ccad));
    let near = |x: f64| Squares::of_axis(&[x, 0.0, 5e-324]).is_some_and(|s| s.near_one());
    assert_eq!([most, most.next_up(), least, least.next_down()].map(near), [true, false, true, false]);
    assert!(!near(f64::INFINITY) && !near(0.0) && near(-1.0));
    let under = |a: [f64; 2], b: [f64; 2]| Squares::of_distance(a, b).is_some_and(|s| s.under_a_micrometre());
    assert!(under([1e-6, 0.0], [0.0, 0.0]) && !under([1e-6f64.next_up(), 0.0], [0.0, -0.0]));
    assert!(
        under([5e-7, far], [-5e-7, far]) && !under([5e-7, far], [-5e-7, far.next_up()]) && under([far; 2], [far.next_up(); 2])
    );
    assert!(!under([f64::NAN, 0.0], [f64::NAN, 0.0]));
    let over = 80f64.next_up();
    assert!(outward(None, [1.0, 80.0], true) && outward(Some(1.0), [1.0, 1.0], true) && outward(None, [1.0, -80.0], false));
    assert!(!outward(None, [1.0, 0.5], true) && !outward(None, [0.5, 1.0], false) && !outward(None, [1.0, over], true));
    assert!(!outward(Some(1.0), [1f64.next_up(), 2.0], true) && !outward(None, [f64::NAN, 2.0], true));
    assert!(
        between([1.0, 2.0], 1.0) && between([2.0, 1.0], 1.0) && !between([1.0, 2.0], 2f64.next_up()) && between([0.0, 0.0], -0.0)
    );
    let place = |s, t| placed([s, t], 10.0);
    assert!(place(-0.0, 80.0) && place(10.0, -80.0) && !place(10f64.next_up(), 0.0) && !place(-5e-324, 0.0) && !place(1.0, over));
    assert!(!place(f64::NAN, 0.0) && !place(1.0, f64::NAN));
}

/// The road with its own samples lent is the road, by either way to find the segment; with others it is not.
#[test]
fn samples_lent() {
    let rng = &mut Rng::new(1, "samples lent");
    let mut unlike = 0;
    for _ in 0..500 {
        let road = generate::surfaced(rng).0;
        let own = Oracle::new(&road);
        let mut samples = own.samples();
        let lent = Oracle::with_samples(&road, &samples);
        let at: Vec<[f64; 2]> = (0..20).map(|_| [rng.unit() * road.length, rng.between(-80.0, 80.0)]).collect();
        let points = |o: &Oracle| at.iter().map(|[s, t]| o.xyz(*s, *t)).collect::<Vec<_>>();
        assert_eq!(points(&own), stand_ins::by_count(|| points(&lent)), "{road:?}");
        samples.iter_mut().for_each(|x| *x += 1.0);
        unlike += usize::from(points(&own) != stand_ins::by_count(|| points(&Oracle::with_samples(&road, &samples))));
    }
    assert!(unlike >= 50, "too few roads whose points follow their samples: {unlike}");
}

/// M1 whole, and what document 01 says of other jobs.
#[test]
fn program() {
    let line = "3ff0000000000000 4000000000000000 3f800000 40000000 00000000\n";
    assert_eq!(output(M1.as_bytes()), format!("s t x y z\n{line}"));
    let want = |s: &str, t: &str| output(M1.replace("3ff0000000000000 4000000000000000", &format!("{s} {t}")).as_bytes());
    let (one, nan) = ("3ff0000000000000", "7ff8000000000001");
    assert_eq!(want(nan, nan), format!("s t x y z\n{nan} {nan} - 7\n"));
    assert_eq!(want(one, nan), format!("s t x y z\n{one} {nan} - 8\n"));
    assert_eq!(output(M1.split("want").next().expect("a part").as_bytes()), "s t x y z\n");
    assert_eq!([output(b""), output(b"\n"), output(&[b'x'; 65_537])], ["refused 3\n", "refused 1\n", "refused 2\n"]);
}

// ---- the second reader and its texts

const M1: &str = "road length\n4024000000000000\n\n\
    geom s x y hdg length kind k0 k1\n\
    0000000000000000 0000000000000000 0000000000000000 0000000000000000 4024000000000000 line 0000000000000000 0000000000000000\n\n\
    section start\n0000000000000000\n\n\
    want s t\n3ff0000000000000 4000000000000000\n\n";

/// The answer to a text, with the words and numbers as read.
fn read_text(text: &[u8]) -> (Result<usize, u32>, Memory, [u64; WANTS]) {
    let (mut m, mut wants) = (Memory { words: vec![9; WORDS], numbers: vec![9.0; NUMBERS] }, [9; WANTS]);
    let answer = reader::read(text, &mut m.words, &mut m.numbers, &mut wants);
    (answer, m, wants)
}

/// M1's job, and what 01 and our readings of it say of small changes to it.
#[test]
fn reading() {
    let (answer, m, wants) = read_text(M1.as_bytes());
    assert_eq!((answer, &wants[..3]), (Ok(1), &[0x3ff0 << 48, 0x4000 << 48, 0][..]));
    assert_eq!((m.numbers[0], m.numbers[GEOM.at + 4], m.words[0], m.words[5]), (10.0, 10.0, 1, 1));
    let changed = |old: &str, new: &str| {
        assert!(M1.contains(old), "{old}");
        read_text(M1.replacen(old, new, 1).as_bytes()).0
    };
    let lane = |lines: &str| changed("want", &format!("lane id section level extent\n{lines}\nwant"));
    for (answer, expected) in [
        (changed("4024000000000000\n\ngeom", "4024000000000000\n\n\ngeom"), Err(1)),
        (changed("4000000000000000\n\n", "4000000000000000\n"), Err(1)),
        (changed("4000000000000000\n\n", "4000000000000000"), Err(1)),
        (changed("road length\n4024000000000000\n\n", ""), Err(3)),
        (changed("road length\n4024000000000000\n\n", "road length\n\n"), Err(3)),
        (changed("road length\n", "road length\n4024000000000000\n"), Err(2)),
        (changed("section start", "elev d c b a start\n\nsection start"), Ok(1)),
        (changed("3ff0000000000000 ", "3FF0000000000000 "), Err(1)),
        (changed("3ff0000000000000 ", "7ff0000000000001 "), Ok(1)),
        (lane("1 0 0 width\n-1 0 1 border\n"), Ok(1)),
        (lane("-1 0 0 width\n1 0 1 border\n"), Err(3)),
        (lane("1 0 2 width\n"), Err(1)),
        (lane("-0 0 0 width\n"), Err(1)),
        (lane("0 0 0 width\n"), Err(3)),
        (lane("1 -9999 0 width\n"), Err(3)),
        (lane("1 10000 0 width\n"), Err(1)),
        (read_text(b"").0, Err(3)),
        (read_text(b"\n").0, Err(1)),
    ] {
        assert_eq!(answer, expected);
    }
}

/// The sample job, jobs of given lengths, and jobs of random roads, which are read back.
#[test]
fn made_texts() {
    let rng = &mut Rng::new(1, "made texts");
    let sample = texts::sample();
    assert!(sample.parts.iter().all(|p| !p.lines.is_empty()) && sample.parts.len() == TABLES.len());
    assert_eq!(read_text(&sample.text).0, Ok(1));
    assert_eq!((sample.text.len() as u64, sample.lines().len() as u64), (SAMPLE_BYTES, SAMPLE_LINES));
    for (bytes, expected) in [(60_000, Ok(16)), (65_535, Ok(16)), (65_536, Ok(16)), (65_537, Err(2))] {
        let job = texts::of_bytes(bytes);
        assert_eq!((job.text.len(), read_text(&job.text).0), (bytes, expected));
        assert!(
            job.parts.iter().all(|p| p.lines.len() >= p.form.limit / 8),
            "the job of {bytes} bytes has tables with few lines"
        );
    }
    let mut accepted = 0;
    for _ in 0..1_000 {
        let (road, writing) = (generate::admitted(rng).0, texts::Writing::random(rng));
        let job = texts::Job::of(rng, &road, &[], writing);
        let (answer, m, _) = read_text(&job.text);
        assert!(answer == Ok(0) && Road::read(&m.words, &m.numbers) == road || answer == Err(2) && job.text.len() > 65_536);
        accepted += usize::from(answer.is_ok());
    }
    println!("{accepted} of 1000 roads read back from their texts");
}

// ---- tracks

/// The f32 root in whole numbers is the machine's: every significand under an even and an odd exponent, subnormals of each length, and
/// patterns spread over all.
#[test]
fn root_of_f32() {
    let check = |bits: u32| {
        let (x, y) = (f32::from_bits(bits), stand_ins::root32(f32::from_bits(bits)));
        assert!(y.to_bits() == x.sqrt().to_bits() || y.is_nan() && x.sqrt().is_nan(), "{bits:08x}: {y} {}", x.sqrt());
    };
    (0x3f80_0000..0x4080_0000).for_each(check);
    (0..23).flat_map(|k| (0..64).map(move |i| 1 << k | i)).for_each(check);
    (0..1_000_000u32).map(|i| i.wrapping_mul(0x9e37_79b9)).for_each(check);
    [0, 1 << 31, 0x7f7f_ffff, 0x7f80_0000, 0xff80_0000, 0x8000_0001].into_iter().for_each(check);
}

/// Rows 13 and 14, and tracks without a direction, on inputs whose answers are known.
#[test]
fn worked_tracks() {
    let (nan, next) = (f32::NAN, f32::from_bits(0x49f4_2401));
    assert_eq!((next, tracks::LIMIT.next_up()), (2_000_000.125, next));
    let of = |n: usize| vec![1.0; n];
    let tangents = |points: &[f32], list| refused(points, Some(list), &[]);
    for (row, expected) in [
        (refused(&of(7), None, &[]), Some(13)),
        (refused(&of(3), None, &[]), Some(13)),
        (refused(&of(6), None, &[]), None),
        (refused(&of(1536), None, &[]), None),
        (refused(&of(1539), None, &[]), Some(13)),
        (tangents(&of(9), 8), Some(13)),
        (tangents(&of(9), 9), None),
        (tangents(&of(9), 10), None),
        (refused(&[nan; 4], None, &[]), Some(13)),
        (tangents(&[1.0, 1.0, nan, 1.0, 1.0, 1.0], 5), Some(13)),
        (tangents(&[1.0, 1.0, nan, 1.0, 1.0, 1.0], 6), Some(14)),
        (refused(&[2e6, -2e6, -0.0, 0.0, 1.0, 2.0], None, &[-2e6, 2e6, -0.0]), None),
        (refused(&[2e6, -2e6, -0.0, 0.0, 1.0, next], None, &[]), Some(14)),
        (refused(&of(6), None, &[0.0, 0.0, -next]), Some(14)),
        (refused(&of(6), None, &[f32::INFINITY, 0.0, 0.0]), Some(14)),
        (refused(&of(6), None, &[0.0, nan, 0.0]), Some(14)),
    ] {
        assert_eq!(row, expected);
    }
    assert_eq!(tracks::WRONG.iter().map(|p| refused(p, None, &[])).collect::<Vec<_>>(), [13, 13, 13, 13, 13, 14, 14].map(Some));
    assert!(tracks::KNOWN.iter().all(|p| refused(p, None, &[]).is_none()));
    let [alike, back, upright, twice, corner, short] = [0, 1, 2, 3, 4, 5].map(|i| Track::new(tracks::KNOWN[i]));
    for s in [0.0, -1.0, 7.0, f32::NAN, f32::INFINITY] {
        assert_eq!(alike.pose_at(s), [3.0, 4.0, 5.0, 0.0, 0.0, 0.0]);
    }
    assert_eq!((alike.project([9.0, 9.0, 9.0]), alike.length()), ([0.0, 3.0, 4.0, 5.0, 0.0], 0.0));
    assert_eq!(upright.project([3.0, 4.0, 2.0]), [2.0, 0.0, 0.0, 2.0, 0.0]);
    assert_eq!(back.tangents(), [1.0, 0.0, 0.0, 0.0, 0.0, 0.0, -1.0, 0.0, 0.0]);
    // as far from both segments: the earlier
    assert_eq!(back.project([2.0, 1.0, 0.0]), [2.0, 2.0, 0.0, 0.0, 1.0]);
    assert_eq!(corner.project([3.0, 1.0, 0.0]), [3.0, 3.0, 0.0, 0.0, 1.0]);
    assert_eq!(corner.project([6.0, -2.0, 9.0]), [4.0, 4.0, 0.0, 0.0, -2.0]);
    let middle = &short.tangents()[3..6];
    assert!(middle[0] == 0.0 && (middle[1] - 0.7213).abs() < 0.0001 && middle[2] == 0.0, "{middle:?}");
    // no sum is at most NaN, so the first segment is meant; its fraction is NaN if it is long enough
    let lost = corner.pose_at(f32::NAN);
    assert!(lost[..3].iter().all(|x| x.is_nan()) && lost[3..] == [0.0; 3]);
    assert_eq!(twice.pose_at(f32::NAN), [1.0, 1.0, 0.0, 0.0, 0.0, 0.0]);
    // a repeated first point: s = 0 is in the segment after its last copy
    assert_eq!(twice.pose_at(0.0), [1.0, 1.0, 0.0, 0.0, 1.0, 0.0]);
}

/// Of the generated tracks: taken by the rows, and how many have each feature.
#[test]
fn made_tracks() {
    type Has = fn(&[f32], &[f32], &[f32]) -> bool;
    let rng = &mut Rng::new(1, "made tracks");
    let features: &[(&str, Has)] = &[
        ("512 points", |p, _, _| p.len() == 3 * 512),
        ("2 points", |p, _, _| p.len() == 6),
        ("9 to 511 points", |p, _, _| (27..3 * 512).contains(&p.len())),
        ("all points alike", |p, _, _| p.chunks(3).all(|q| q == &p[..3])),
        ("a repeated point", |p, s, _| s[s.len() - 1] > 0.0 && p.windows(6).step_by(3).any(|w| w[..3] == w[3..])),
        ("repeated first point", |p, s, _| s[s.len() - 1] > 0.0 && p[..3] == p[3..6]),
        ("upright", |p, _, _| p.windows(6).step_by(3).any(|w| w[..2] == w[3..5] && w[2] != w[5])),
        ("straight back", |p, _, t| {
            let turns =
                |i: usize| p[3 * i - 3..3 * i - 1] != p[3 * i..3 * i + 2] && p[3 * i..3 * i + 2] != p[3 * i + 3..3 * i + 5];
            (1..p.len() / 3 - 1).any(|i| turns(i) && t[3 * i..3 * i + 3] == [0.0; 3])
        }),
        ("lost in the sum", |p, s, _| {
            (1..s.len()).any(|i| s[i] == s[i - 1] && s[i] > 0.0 && p[3 * i - 3..3 * i] != p[3 * i..3 * i + 3])
        }),
        ("shortened in the sum", |p, s, _| (1..s.len()).any(|i| s[i] - s[i - 1] != tracks::lengths(&p[3 * i - 3..3 * i + 3])[1])),
        ("at the limit", |p, _, _| p.iter().any(|x| x.abs() == tracks::LIMIT)),
        ("squares underflow", |p, s, _| {
            (1..s.len()).any(|i| s[i] == s[i - 1] && p[3 * i - 3..3 * i] != p[3 * i..3 * i + 3] && s[i] == 0.0)
        }),
        ("subnormal steps", |p, _, _| p.windows(4).any(|w| (w[3] - w[0]).is_subnormal())),
        ("no unit", |_, _, t| t.chunks(3).map(|t| t[0].hypot(t[1])).any(|size| size > 0.0 && (size - 1.0).abs() > 0.01)),
        ("1e-6 long", |_, s, _| s.windows(2).any(|w| w[1] - w[0] == 1e-6)),
        ("a metre a point", |p, s, _| p.len() > 6 && s.windows(2).all(|w| (w[1] - w[0] - 1.0).abs() < 0.1)),
    ];
    let mut with = vec![0; features.len()];
    for _ in 0..5_000 {
        let points = tracks::track(rng);
        assert_eq!(refused(&points, Some(points.len()), &[]), None);
        let track = Track::new(&points);
        let (sums, tangents) = (tracks::lengths(&points), track.tangents());
        assert_eq!(sums[sums.len() - 1].to_bits(), track.length().to_bits());
        features.iter().zip(&mut with).for_each(|((_, has), n)| *n += usize::from(has(&points, &sums, &tangents)));
        let place = tracks::place(rng, &points);
        assert_eq!(refused(&points, None, &place), None);
        assert!(track.project(place).iter().all(|x| x.is_finite()));
    }
    println!("5000 tracks");
    for ((name, _), n) in features.iter().zip(with) {
        println!("    {name:<20} {n}");
        assert!(n >= 20, "too few tracks with: {name}");
    }
}

// ---- dots

/// The dots of a known road, the same by the Rust and by the second text, or the row; with so much room.
fn known_dots(known: &Known, spacing: f32, room: usize) -> Result<Vec<f64>, u32> {
    let m = known.road.lay(&mut Rng::new(1, "known dots"), Style::default()).expect("it fits");
    assert_eq!(admit(&m.words, &m.numbers), 0);
    let line = DottedLine::new(&Oracle::new(&known.road), known.section, known.id, &known.stations);
    let asked = Asked { section: known.section, id: known.id, spacing, stations: &known.stations, room };
    let answer = dots::dots(&known.road, &asked, || line.numbers());
    if answer != Err(10) && answer != Err(15) {
        let place = dots::place(&known.road, known.section, known.id).expect("a lane");
        let theirs = line.dots(&known.road.sections[known.section], place, spacing).filter(|dots| dots.len() <= room);
        assert_eq!(answer, theirs.ok_or(17));
    }
    answer
}

/// Dots that are known: at the last station the lane is the given section's; the fraction is f32's; a station that lies below the one
/// before it; the most multiples there may be; spans from start to just below end, of kind 1; no width; points all alike.
#[test]
fn worked_dots() {
    let known = dots::known();
    let found = |i: usize, spacing| known_dots(&known[i], spacing, 600);
    // f32 has no fraction like 1/10: stations lie within a micrometre of the steps
    let steps = |dots: Result<Vec<f64>, u32>, from: f64, by: f64| {
        let dots = dots.expect("dots");
        assert!(dots.iter().enumerate().all(|(k, s)| (s - (from + by * k as f64)).abs() < 1e-6), "{dots:?}");
        dots.len()
    };
    assert_eq!((steps(found(0, 0.5), 0.0, 0.5), found(0, 5.0)), (10, Ok(vec![0.0])));
    assert_eq!(steps(found(1, 0.5), 5.0, 0.5), 10);
    assert_eq!(found(2, 0.5).expect("dots")[..2], [2.0, 2.500000014901161]);
    let fallen = found(3, 8999.0 / 128.0).expect("dots");
    assert!((fallen[128], fallen[129]) == (9000.0 + 2f64.powi(-38), 9000.0 + 2f64.powi(-39)) && fallen[128] > fallen[129]);
    assert_eq!(known_dots(&known[4], 0.125, 65_536).map(|dots| dots.len()), Ok(65_536));
    assert_eq!([known_dots(&known[4], 0.125, 65_535), known_dots(&known[5], 0.125, 70_000)], [Err(17), Err(17)]);
    let spans = found(6, 0.5).expect("dots");
    assert_eq!((steps(Ok(spans[..4].to_vec()), 1.0, 0.5), steps(Ok(spans[4..].to_vec()), 6.0, 0.5)), (4, 8));
    assert_eq!((steps(found(7, 1.0), 0.0, 1.0), found(7, 8.0f32.next_up())), (9, Ok(vec![0.0])));
    assert_eq!((steps(found(8, 1.0), 0.0, 1.0), found(9, 1.0), found(10, 1.0)), (20, Ok(vec![4.0]), Ok(vec![])));
    assert_eq!((known_dots(&known[7], 1.0, 9).map(|dots| dots.len()), known_dots(&known[7], 1.0, 8)), (Ok(9), Err(17)));
    for wrong in dots::WRONG.map(f32::from_bits) {
        assert_eq!(known_dots(&known[7], wrong, 0), Err(15));
    }
    let limits = [dots::LEAST, dots::MOST];
    assert!(limits == [0.1, 100.0] && limits.into_iter().all(|spacing| found(7, spacing).is_ok()));
}

/// Rows 10, 15, 16 and 17 in their order, and the lists that row 16 takes.
#[test]
fn rows_of_dots() {
    let known = dots::known();
    let row = |section, id, spacing, stations: &[f64], room| {
        let asked = Asked { section, id, spacing, stations, room };
        let points = || DottedLine::new(&Oracle::new(&known[0].road), section, id, stations).numbers();
        dots::dots(&known[0].road, &asked, points).err()
    };
    let (nan, none) = (f32::NAN, &[0.0][..]);
    for lane in [(0, 0), (0, 1), (0, -2), (2, -1), (usize::MAX, -1), (0, i32::MIN)] {
        assert_eq!(row(lane.0, lane.1, nan, none, 0), Some(10));
    }
    assert_eq!([row(0, -1, nan, none, 0), row(0, -1, 1.0, none, 0), row(0, -1, 1.0, &[0.0, 5.0], 4)], [15, 16, 17].map(Some));
    let outside = Asked { section: 0, id: -1, spacing: 1.0, stations: &[0.0, 5.0], room: 0 };
    assert_eq!(dots::dots(&known[0].road, &outside, || vec![0.0, 0.0, 0.0, 2e6, 0.0, -2_000_000.125]), Err(16));
    let many: Vec<f64> = (0..513).map(|k| f64::from(k) * 0.0078125).collect();
    for (stations, right) in [
        (&[0.0, 5.0][..], true),
        (&[-0.0, 5.0], true),
        (&[1.0, 1f64.next_up(), 4.0], true),
        (&many[..512], true),
        (&many, false),
        (&[0.0], false),
        (&[], false),
        (&[-0.0, 0.0], false),
        (&[1.0, 1.0], false),
        (&[2.0, 1.0], false),
        (&[-5e-324, 5.0], false),
        (&[0.0, 5f64.next_up()], false),
        (&[0.0, f64::NAN], false),
        (&[0.0, f64::NAN, 5.0], false),
        (&[f64::NEG_INFINITY, 5.0], false),
    ] {
        assert_eq!(row(0, -1, 1.0, stations, 600), (!right).then_some(16), "{stations:?}");
    }
    assert!(dots::listed(&[5.0, 10.0], dots::ends(&known[1].road, 1)) && !dots::listed(&[5.0, 10f64.next_up()], [5.0, 10.0]));
}

/// Of lines that are drawn: how many have each feature.
#[test]
fn made_dots() {
    type Has = fn(&Road, usize, &Line) -> bool;
    let rng = &mut Rng::new(1, "made dots");
    let features: &[(&str, Has)] = &[
        ("a section after", |r, i, l| i + 1 < r.sections.len() && l.stations.last() == r.sections.get(i + 1).map(|s| &s.start)),
        ("a level lane", |r, i, _| r.sections[i].left.iter().chain(&r.sections[i].right).any(|lane| lane.level)),
        ("lane heights", |r, i, _| r.sections[i].left.iter().chain(&r.sections[i].right).any(|lane| !lane.heights.is_empty())),
        ("profiles", |r, _, _| !r.profiles.is_empty()),
        ("a spiral", |r, _, _| r.spirals() > 0),
        ("a start of -0", |_, _, l| l.stations[0].to_bits() == 1 << 63),
        ("a repeated point", |_, _, l| l.sums.windows(2).any(|w| w[0] == w[1]) && l.length > 0.0),
        ("all points alike", |_, _, l| l.length == 0.0),
        ("all kept", |_, _, l| l.multiples > 1 && l.kept == l.multiples),
        ("some kept", |_, _, l| 0 < l.kept && l.kept < l.multiples),
        ("none kept", |_, _, l| l.kept == 0),
        ("a multiple at the end", |_, _, l| l.multiples > 1 && l.multiple(l.multiples - 1) == l.length),
        ("a multiple at a point", |_, _, l| {
            let inner = &l.sums[1..l.sums.len() - 1];
            (1..l.multiples).any(|k| inner.contains(&l.multiple(k)))
        }),
        ("over 20 stations", |_, _, l| l.stations.len() > 20),
    ];
    let mut with = vec![0; features.len()];
    for _ in 0..4_000 {
        let road = generate::dotted(rng).0;
        let drawn = if road.lanes().next().is_some() { Line::drawn(rng, &road) } else { None };
        if let Some((section, line)) = drawn {
            features.iter().zip(&mut with).for_each(|((_, has), n)| *n += usize::from(has(&road, section, &line)));
        }
    }
    println!("4000 lines to dot");
    for ((name, _), n) in features.iter().zip(with) {
        println!("    {name:<22} {n}");
        assert!(n >= 40, "too few lines with: {name}");
    }
}

/// A line that is drawn where its section has an extent, and how many of its multiples are kept.
struct Line {
    stations: Vec<f64>,
    sums: Vec<f32>,
    length: f32,
    spacing: f32,
    multiples: usize,
    kept: usize,
}

impl Line {
    fn drawn(rng: &mut Rng, road: &Road) -> Option<(usize, Self)> {
        let (section, id) = dots::lane(rng, road);
        let (stations, met) = dots::list(rng, road, section);
        if !dots::listed(&stations, dots::ends(road, section)) {
            return None;
        }
        let line = DottedLine::new(&Oracle::new(road), section, id, &stations);
        let (sums, length) = (tracks::lengths(&line.numbers()), line.length());
        assert_eq!(sums[sums.len() - 1], length);
        let spacing = met.unwrap_or_else(|| dots::spacing(rng, length));
        let place = dots::place(road, section, id).expect("a lane");
        let kept = line.dots(&road.sections[section], place, spacing).map_or(0, |dots| dots.len());
        Some((section, Self { multiples: line.multiples(spacing), stations, sums, length, spacing, kept }))
    }

    fn multiple(&self, k: usize) -> f32 {
        k as f32 * self.spacing
    }
}
