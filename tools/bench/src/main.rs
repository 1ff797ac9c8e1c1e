// Times the library and the Rust with the stand-ins of documents 01 and 02 on the same inputs, in one run, both built for release.
//
// Each measurement alternates between the two and takes the median over the rounds, in the processor's time of this process, so
// that other work on the machine shows little. The Rust's functions are kept from being inlined, since a call through the C
// interface is not either.
use archive::probes as inside;
use archive::riftkettle as ours;
use published::oracle::{Line, Oracle};
use published::stand_ins;
use second::admission;
use second::arguments::exact_root;
use second::generate;
use second::model::*;
use second::random::Rng;
use second::reader;
use second::texts;
use std::hint::black_box;

mod dots;
mod lanes;
mod sides;
mod surface;
mod tracks;

const ROUNDS: usize = 21;
const ROUND_NANOS: f64 = 5e6;

fn median(mut of: Vec<f64>) -> f64 {
    of.sort_by(f64::total_cmp);
    of[of.len() / 2]
}

#[repr(C)]
struct Timespec {
    seconds: i64,
    nanoseconds: i64,
}

unsafe extern "C" {
    fn clock_gettime(clock: i32, to: *mut Timespec) -> i32;
}

/// Nanoseconds of processor time that this process has had (Linux: clock 2).
fn processor_time() -> f64 {
    let mut now = Timespec { seconds: 0, nanoseconds: 0 };
    assert_eq!(unsafe { clock_gettime(2, &mut now) }, 0);
    now.seconds as f64 * 1e9 + now.nanoseconds as f64
}

/// Nanoseconds of one of the `calls` that f makes.
fn time(f: &mut dyn FnMut(), calls: usize, times: usize) -> f64 {
    let began = processor_time();
    (0..times).for_each(|_| f());
    (processor_time() - began) / (times * calls) as f64
}

/// Medians of the nanoseconds a call of each, and of their ratio. Each function makes `calls` calls.
fn compare(calls: usize, mut a: impl FnMut(), mut b: impl FnMut()) -> [f64; 3] {
    let enough = |f: &mut dyn FnMut()| (ROUND_NANOS / (time(f, 1, 2)).max(1.0)).ceil() as usize;
    let (m, n) = (enough(&mut a), enough(&mut b));
    let rounds: Vec<(f64, f64)> = (0..ROUNDS).map(|_| (time(&mut a, calls, m), time(&mut b, calls, n))).collect();
    let of = |f: fn(&(f64, f64)) -> f64| median(rounds.iter().map(f).collect());
    [of(|r| r.0), of(|r| r.1), of(|r| r.0 / r.1)]
}

fn row(what: &str, [ours, theirs, ratio]: [f64; 3]) {
    println!("| {what} | {ours:.1} | {theirs:.1} | {ratio:.2} |");
}

#[inline(never)]
fn rust_sin(h: f64) -> f64 {
    stand_ins::sin(h)
}

#[inline(never)]
fn rust_cos(h: f64) -> f64 {
    stand_ins::cos(h)
}

#[inline(never)]
fn rust_sin_cos(h: f64) -> (f64, f64) {
    stand_ins::sin_cos(h)
}

#[inline(never)]
fn rust_root(x: f64) -> f64 {
    stand_ins::root(x)
}

#[inline(never)]
fn rust_narrow(x: f64) -> f32 {
    x as f32
}

/// Sums f over the arguments, so that no call can be left out.
fn over(arguments: &[f64], f: impl Fn(f64) -> f64) {
    black_box(black_box(arguments).iter().map(|&x| f(x)).sum::<f64>());
}

fn one_geometry(shape: Shape, length: f64) -> Road {
    let geom = Geom { s: 0.0, x: 10.0, y: 20.0, hdg: 0.3, length, shape };
    Road { length: 400.0, geoms: vec![geom], sections: vec![Section::default()], ..Road::default() }
}

fn lay(road: &Road) -> Memory {
    let m = road.lay(&mut Rng::new(1, "bench"), Style::default()).expect("fits");
    assert_eq!(ours::admit(&m), 0);
    m
}

fn poses(what: &str, shape: Shape, length: f64, stations: &[f64]) {
    let road = one_geometry(shape, length);
    let (m, line, samples) = (lay(&road), Line::new(&road.geoms[0]), Oracle::new(&road).samples());
    let mut pose = [0.0; 3];
    let times = compare(
        stations.len(),
        || {
            for &s in black_box(stations) {
                ours::pose(&m, &samples, 0, s, &mut pose);
                black_box(&pose);
            }
        },
        || {
            for &s in black_box(stations) {
                black_box(black_box(&line).pose(s));
            }
        },
    );
    row(what, times);
}

/// Without words all tables; with `surface`, `dots` or `tracks` that of the surface layer, of dots or of tracks; with three numbers one
/// side of one case of the surface layer or of dots, for counts.sh.
fn main() {
    let words: Vec<String> = std::env::args().skip(1).collect();
    let number = |i: usize| words[i].parse().expect("a whole number");
    match words.len() {
        0 => tables(),
        3 => one(number(0), number(1), number(2)),
        _ if words[0] == "tracks" => tracks::tracks(),
        _ if words[0] == "dots" => dots::dots(),
        _ => surface::surface(),
    }
}

fn one(case: usize, side: usize, times: usize) {
    let mut cases = surface::cases();
    // these take a while to make
    if times == 0 || case >= cases.len() {
        cases.extend(dots::cases());
    }
    sides::one(&cases, case, side, times);
}

fn tables() {
    let mut rng = Rng::new(1, "bench");
    let angles: Vec<f64> = (0..1024).map(|_| rng.between(-12_000.0, 12_000.0)).collect();
    let sizes: Vec<f64> = (0..1024).map(|_| rng.log_between(1e-6, 1e7)).collect();
    let places: Vec<f64> = (0..1024).map(|_| rng.between(-2e6, 2e6)).collect();
    let stations: Vec<f64> = (0..256).map(|_| rng.between(0.0, 400.0)).collect();

    println!("| What | ours, ns | Rust with stand-ins, ns | ratio |\n|---|---|---|---|");
    let pair =
        compare(angles.len(), || over(&angles, |h| ours::sin(h) + ours::cos(h)), || over(&angles, |h| rust_sin(h) + rust_cos(h)));
    row("sine and cosine, a call each", pair);
    let one_call = |h| {
        let (sin, cos) = inside::sin_cos(h);
        sin + cos
    };
    let both = |h| {
        let (sin, cos) = rust_sin_cos(h);
        sin + cos
    };
    row(
        "the pair in one call; Rust: a call each, as its poses and samples make them",
        compare(angles.len(), || over(&angles, one_call), || over(&angles, |h| rust_sin(h) + rust_cos(h))),
    );
    row("the pair in one call on both sides", compare(angles.len(), || over(&angles, one_call), || over(&angles, both)));
    row("root; Rust: the machine's", compare(sizes.len(), || over(&sizes, ours::root), || over(&sizes, rust_root)));
    row("root; Rust: in whole numbers", compare(sizes.len(), || over(&sizes, ours::root), || over(&sizes, exact_root)));
    let narrow = |x| f64::from(ours::narrow(x));
    row("narrowing", compare(places.len(), || over(&places, narrow), || over(&places, |x| f64::from(rust_narrow(x)))));

    lanes::cubics(&mut rng);
    lanes::poses(&stations);

    poses("pose on a line; ours admits the road (2 records) each time", Shape::Line, 400.0, &stations);
    poses("pose on an arc; likewise", Shape::Arc(0.01), 400.0, &stations);
    poses("pose on a 400 m spiral; likewise", Shape::Spiral(0.0, 0.02), 400.0, &stations);

    let spiral = one_geometry(Shape::Spiral(0.0, 0.02), 400.0);
    let (m, mut lent, mut made) = (lay(&spiral), vec![0.0; 8000], 0);
    let times = compare(
        1,
        || {
            ours::samples(&m, &mut lent, &mut made);
            black_box(&lent);
        },
        || {
            black_box(Line::new(black_box(&spiral.geoms[0])));
        },
    );
    row("samples of a 400 m spiral (1,601); ours admits the road first", times);

    lanes::lanes(&stations);
    surface::surface();
    dots::dots();
    tracks::tracks();

    println!(
        "\n| What | ours, ns | a second text in Rust, ns | ratio | ours, in 100 sine pairs of ours |\n|---|---|---|---|---|"
    );
    for (what, road) in
        [("admission, 31 records", generate::small()), ("admission, every table full, 2,000 samples", generate::full())]
    {
        let m = lay(&road);
        let [a, b, ratio] = compare(
            1,
            || {
                black_box(ours::admit(black_box(&m)));
            },
            || {
                black_box(admission::admit(black_box(&m.words), &m.numbers));
            },
        );
        println!("| {what} | {a:.0} | {b:.0} | {ratio:.2} | {:.2} |", a / (100.0 * pair[0]));
    }
    reading(pair[0]);
}

/// Reading a job of 60,000 bytes with every table well filled, against the second reader.
fn reading(sine_pair: f64) {
    let job = texts::of_bytes(60_000);
    let slices = || (vec![0u16; WORDS], vec![0.0; NUMBERS], vec![0u64; reader::WANTS]);
    let ((mut w, mut x, mut v), (mut w2, mut x2, mut v2), mut count) = (slices(), slices(), 0);
    assert_eq!(ours::read(&job.text, &mut w, &mut x, &mut v, &mut count), 0);
    assert_eq!(reader::read(&job.text, &mut w2, &mut x2, &mut v2), Ok(count));
    assert!(w == w2 && x == x2 && v == v2);
    let [a, b, ratio] = compare(
        1,
        || {
            black_box(ours::read(black_box(&job.text), &mut w, &mut x, &mut v, &mut count));
        },
        || {
            let _ = black_box(reader::read(black_box(&job.text), &mut w2, &mut x2, &mut v2));
        },
    );
    println!("| reading a job of 60,000 bytes | {a:.0} | {b:.0} | {ratio:.2} | {:.2} |", a / (100.0 * sine_pair));
}
