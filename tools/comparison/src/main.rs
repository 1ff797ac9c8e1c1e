// Compares the library with the published Rust, bit for bit: zeros alike, NaNs alike (document 01).
//
//     comparison [full] [--seed N] [--only NAME].. [--steps N] [--program FILE]
//
// Each comparison below is a function for one random input; a new one is such a function and a line in COMPARISONS. The last line
// says how many results were compared and how many differ. A seed gives the same run everywhere.
mod demands;
mod dots;
mod lanes;
mod lent;
mod locates;
mod marks;
mod places;
mod program;
mod reading;
mod surfaces;
mod tally;
mod tracks;

use archive::riftkettle as ours;
use places::on_road;
use published::oracle::Oracle;
use published::stand_ins as rust;
use second::admission::{self, spiral_samples};
use second::arguments::{self, exact_counts, exact_root};
use second::generate;
use second::limits;
use second::model::{Memory, Road, Shape};
use second::random::{Rng, nudge};
use second::texts::SAMPLE_BYTES;
use std::sync::Mutex;
use std::sync::atomic::{AtomicUsize, Ordering};
use tally::{Tally, hex, same, same_f32};

/// Name, steps of the short form, steps of the full form, one step. Names that begin alike are asked for together.
type Comparison = (&'static str, u64, u64, fn(&mut Rng, &mut Tally));

const COMPARISONS: &[Comparison] = &[
    ("root", 300_000, 12_000_000, root),
    ("hypot", 300_000, 12_000_000, hypot),
    ("sine pair", 300_000, 12_000_000, sine_pair),
    ("tan", 300_000, 12_000_000, tan),
    ("narrow", 300_000, 12_000_000, narrow),
    ("counts", 300_000, 12_000_000, counts),
    ("samples", 500, 12_000, samples),
    ("pose", 500, 12_000, pose),
    ("foreign", 500, 12_000, foreign_samples),
    ("eval", 300_000, 12_000_000, lanes::eval),
    ("slope", 300_000, 12_000_000, lanes::slope),
    ("active", 100_000, 4_000_000, lanes::active),
    ("bare pose", 200, 12_000, lanes::bare_pose),
    ("shape", 2_000, 100_000, lanes::shape),
    ("cross section", 2_000, 100_000, lanes::cross_section),
    ("height", 2_000, 100_000, lanes::height),
    ("lane heights", 2_000, 100_000, lanes::lane_heights),
    ("borders", 2_000, 100_000, lanes::borders),
    ("lane named", 2_000, 100_000, lanes::lane_named),
    ("lanes refused", 2_000, 100_000, lanes::lanes_refused),
    ("station", 300, 40_000, surfaces::station),
    ("axes", 300, 40_000, surfaces::axes),
    ("surface", 100, 36_000, surfaces::surface),
    ("lane surface", 100, 20_000, surfaces::lane_surface),
    ("locate", 200, 120_000, locates::locate),
    ("foreign surfaces", 60, 12_000, surfaces::foreign),
    ("surfaces refused", 1_000, 60_000, surfaces::refused),
    ("marks", 100, 20_000, marks::marks),
    ("limits", 3_000, 120_000, around_limits),
    ("damage", 3_000, 120_000, damage),
    ("read", 1_000, 50_000, reading::read),
    ("read bytes", 18 * SAMPLE_BYTES, 256 * SAMPLE_BYTES, reading::bytes),
    ("read cuts", reading::CUTS, reading::CUTS, reading::cuts),
    ("program", 200, 52_000, program::program),
    ("root32", 300_000, 50_000_000, tracks::root32),
    ("track tangents", 3_000, 160_000, tracks::tangents),
    ("track pose", 3_000, 300_000, tracks::pose),
    ("track project", 3_000, 300_000, tracks::project),
    ("tracks refused", 6_000, 240_000, tracks::refusals),
    ("dots placed", 1_000, 24_000, dots::placed),
    ("dots many", 32, 2_000, dots::many),
    ("dots foreign", 60, 3_000, dots::foreign),
    ("dots refused", 600, 20_000, dots::refused),
];

// ---- arithmetic

fn root(rng: &mut Rng, tally: &mut Tally) {
    let x = arguments::for_root(rng);
    let y = ours::root(x);
    tally.number(y, x.sqrt(), || format!("root of {}, by the machine", hex(&[x])));
    tally.number(y, exact_root(x), || format!("root of {}, by whole numbers", hex(&[x])));
}

fn hypot(rng: &mut Rng, tally: &mut Tally) {
    let (a, b) = match rng.below(3) {
        0 => (rng.pattern(), rng.pattern()),
        1 => (arguments::for_root(rng), arguments::for_root(rng)),
        _ => (rng.log_between(1e-12, 1e7) * rng.sign(), rng.log_between(1e-12, 1e7) * rng.sign()),
    };
    tally.number(ours::hypot(a, b), rust::hypot(a, b), || format!("hypot of {}", hex(&[a, b])));
}

fn sine_pair(rng: &mut Rng, tally: &mut Tally) {
    let h = arguments::for_sine(rng);
    let (sin, cos) = rust::sin_cos(h);
    tally.number(ours::sin(h), sin, || format!("sine of {}", hex(&[h])));
    tally.number(ours::cos(h), cos, || format!("cosine of {}", hex(&[h])));
    let both = archive::probes::sin_cos(h);
    tally.number(both.0, sin, || format!("sine of {}, with its cosine", hex(&[h])));
    tally.number(both.1, cos, || format!("cosine of {}, with its sine", hex(&[h])));
}

fn tan(rng: &mut Rng, tally: &mut Tally) {
    let h = arguments::for_sine(rng);
    tally.number(ours::tan(h), rust::tan(h), || format!("tangent of {}", hex(&[h])));
}

fn narrow(rng: &mut Rng, tally: &mut Tally) {
    let x = arguments::for_narrow(rng);
    let (y, z) = (ours::narrow(x), x as f32);
    tally.check(same_f32(y, z), || format!("{}: ours {:08x}, theirs {:08x}", hex(&[x]), y.to_bits(), z.to_bits()));
}

fn counts(rng: &mut Rng, tally: &mut Tally) {
    let v = arguments::for_counts(rng);
    let before = rng.bits() as i64;
    let mut count = before;
    let code = ours::counts(v, &mut count);
    let expected = match exact_counts(v) {
        Ok(n) => (0, n),
        Err(number) => (number, before),
    };
    tally.check((code, count) == expected, || format!("counts of {}: ours {code} {count}, rule {expected:?}", hex(&[v])));
}

// ---- lent memory that a call must leave alone

/// Numbers that no call would write, different at each place.
fn untouched(n: usize) -> Vec<f64> {
    (0..n as u64).map(|i| f64::from_bits(0x4abc_de00_0000_0000 | i.wrapping_mul(0x9e37_79b9))).collect()
}

/// From `from` on, the numbers are still those of `untouched`.
fn still_untouched(numbers: &[f64], from: usize) -> bool {
    numbers.iter().zip(untouched(numbers.len())).skip(from).all(|(a, b)| a.to_bits() == b.to_bits())
}

fn same_memory(a: &Memory, b: &Memory) -> bool {
    a.words == b.words && a.numbers.iter().map(|x| x.to_bits()).eq(b.numbers.iter().map(|x| x.to_bits()))
}

/// The calls on a refused road answer the number, in place of any later one, and leave what was lent.
fn refused_calls(rng: &mut Rng, tally: &mut Tally, m: &Memory, number: u32) {
    let mut lent = untouched(rng.from_to(0, 40));
    let (mut made, mut pose) = (777, [1.5, 2.5, 3.5]);
    let code = ours::samples(m, &mut lent, &mut made);
    let kept = made == 777 && still_untouched(&lent, 0);
    tally.check(code == number && kept, || format!("samples of a road refused by {number}: ours {code}, memory kept: {kept}"));
    let s = rng.pick(&[0.0, -1.0, f64::NAN]);
    let code = ours::pose(m, &lent, rng.below(70), s, &mut pose);
    let kept = pose == [1.5, 2.5, 3.5] && still_untouched(&lent, 0);
    tally.check(code == number && kept, || format!("pose on a road refused by {number}: ours {code}, memory kept: {kept}"));
}

// ---- the reference line

fn samples(rng: &mut Rng, tally: &mut Tally) {
    let (road, m) = generate::admitted(rng);
    let (before, expected) = (m.clone(), Oracle::new(&road).samples());
    let n = expected.len();
    let mut lent = untouched(n + rng.below(10));
    let mut made = 777;
    let code = ours::samples(&m, &mut lent, &mut made);
    let equal = lent.iter().zip(&expected).all(|(a, b)| same(*a, *b)) && still_untouched(&lent, n);
    tally.check(code == 0 && made == n / 4 && equal, || {
        let at = lent.iter().zip(&expected).position(|(a, b)| !same(*a, *b));
        format!("samples: ours {code}, {made} made of {}, first difference at {at:?}: {road:?}", n / 4)
    });
    if n > 0 {
        let mut short = untouched(n - rng.from_to(1, n.min(9)));
        let mut made = 777;
        let code = ours::samples(&m, &mut short, &mut made);
        let kept = made == 777 && still_untouched(&short, 0);
        tally.check(code == 6 && kept, || format!("{} numbers for {n}: ours {code}, kept: {kept}", short.len()));
    }
    tally.check(same_memory(&m, &before), || "the samples call changed the road".into());
}

/// A station on or near the road, most of them where something changes.
fn station(rng: &mut Rng, road: &Road, geometry: usize) -> f64 {
    let g = &road.geoms[geometry];
    let s = match rng.below(10) {
        0 => rng.pick(&[0.0, -0.0, road.length]),
        1 => nudge(rng.pick(&[0.0, road.length]), rng.sign() as i32),
        2 => g.s + rng.pick(&[0.0, 1e-9, -1e-9, 2e-9, 5e-10, -5e-10]),
        3 => g.s + rng.below(60) as f64 * 0.25,
        4 => g.s + g.length + rng.pick(&[0.0, 1e-9, -1e-9, 1.0]),
        5 => rng.pick(&[f64::NAN, f64::INFINITY, -1.0, -5e-324, 1e300, road.length * 2.0]),
        6 => g.s + g.length * rng.unit(),
        _ => road.length * rng.unit(),
    };
    if rng.one_in(4) { nudge(s, rng.from_to(0, 2) as i32 - 1) } else { s }
}

/// One call of pose against the number or the value that it must answer.
fn check_pose(tally: &mut Tally, m: &Memory, lent: &[f64], at: (usize, f64), expected: Result<[f64; 3], u32>, road: &Road) {
    let before = [1.5, 2.5, 3.5];
    let mut pose = before;
    let code = ours::pose(m, lent, at.0, at.1, &mut pose);
    let (number, value) = expected.map_or_else(|number| (number, before), |value| (0, value));
    let equal = code == number && pose.iter().zip(&value).all(|(a, b)| same(*a, *b));
    tally.check(equal, || {
        let (ours, theirs) = (hex(&pose), hex(&value));
        format!("pose of geometry {} at {}: ours {code} {ours}, theirs {number} {theirs}: {road:?}", at.0, hex(&[at.1]))
    });
}

fn pose(rng: &mut Rng, tally: &mut Tally) {
    let (road, m) = generate::admitted(rng);
    let oracle = Oracle::new(&road);
    let mut lent = oracle.samples();
    let needed = lent.len();
    lent.extend(untouched(rng.below(6)));
    for _ in 0..12 {
        let geometry = rng.below(road.geoms.len());
        let s = station(rng, &road, geometry);
        let expected = if on_road(&road, s) { Ok(oracle.pose(geometry, s)) } else { Err(7) };
        check_pose(tally, &m, &lent, (geometry, s), expected, &road);
    }
    let (n, s) = (road.geoms.len(), rng.pick(&[0.0, f64::NAN]));
    let absent = rng.pick(&[n, n + 1, 63.max(n), 64, 65, 1 << 32, usize::MAX]);
    check_pose(tally, &m, &lent, (absent, s), Err(3), &road);
    if needed > 0 {
        let short = &lent[..needed - rng.from_to(1, needed.min(9))];
        check_pose(tally, &m, short, (rng.pick(&[0, absent]), s), Err(6), &road);
    }
}

/// 01's rule for the samples of one spiral, whoever made them: four numbers each, at least two samples.
fn pose_by_rule(samples: &[f64], distance: f64) -> [f64; 3] {
    let at = |i: usize| &samples[4 * i..4 * i + 4];
    let (n, last) = (samples.len() / 4, samples[samples.len() - 4]);
    let raised = if distance < 0.0 { 0.0 } else { distance };
    let ds = if raised > last { last } else { raised };
    let leading = samples.chunks(4).take_while(|p| p[0] <= ds).count();
    let i = leading.saturating_sub(1).min(n - 2);
    let (a, b) = (at(i), at(i + 1));
    let t = if b[0] > a[0] { (ds - a[0]) / (b[0] - a[0]) } else { 0.0 };
    [1, 2, 3].map(|k| a[k] + (b[k] - a[k]) * t)
}

/// Samples become any numbers, out of order or damaged.
fn make_foreign(rng: &mut Rng, lent: &mut [f64]) {
    let kind = rng.below(4);
    for i in 0..lent.len() {
        lent[i] = match kind {
            0 => rng.pattern(),
            1 if rng.one_in(9) => rng.pick(&[f64::NAN, f64::INFINITY, -1.0, 0.0, -0.0]),
            2 if i % 4 == 0 => rng.between(-10.0, 60.0),
            3 if rng.one_in(5) => lent[rng.below(i + 1)],
            _ => lent[i],
        };
    }
}

/// Samples that were not made from the road: the answers follow what the slice holds.
fn foreign_samples(rng: &mut Rng, tally: &mut Tally) {
    let (road, m) = loop {
        let (road, m) = generate::admitted(rng);
        if road.spirals() > 0 {
            break (road, m);
        }
    };
    let mut lent = Oracle::new(&road).samples();
    make_foreign(rng, &mut lent);
    let mut at = 0;
    for (i, g) in road.geoms.iter().enumerate().filter(|(_, g)| matches!(g.shape, Shape::Spiral(..))) {
        let n = 4 * spiral_samples(g.length);
        for _ in 0..3 {
            let s = station(rng, &road, i);
            let expected = if on_road(&road, s) { Ok(pose_by_rule(&lent[at..at + n], s - g.s)) } else { Err(7) };
            check_pose(tally, &m, &lent, (i, s), expected, &road);
        }
        at += n;
    }
}

// ---- admission

fn check_admission(rng: &mut Rng, tally: &mut Tally, m: &Memory, place: Option<&'static str>) {
    let expected = admission::admit(&m.words, &m.numbers);
    let before = m.clone();
    let code = ours::admit(m);
    tally.check(code == expected, || format!("admission ({place:?}): ours {code}, second text {expected}; kept as {}", keep(m)));
    if expected != 0 && rng.one_in(4) {
        refused_calls(rng, tally, m, expected);
    }
    tally.check(same_memory(m, &before), || "a call changed the road".into());
    tally.outcome(place.unwrap_or("several"), expected);
}

/// Writes a memory that shows a difference to a file, words then numbers in hexadecimal.
fn keep(m: &Memory) -> String {
    static KEPT: AtomicUsize = AtomicUsize::new(0);
    let path = format!("target/differential/differs-{}", KEPT.fetch_add(1, Ordering::Relaxed));
    let words: Vec<String> = m.words.iter().map(|w| format!("{w:04x}")).collect();
    let text = format!("{}\n{}\n", words.join(" "), hex(&m.numbers));
    std::fs::write(&path, text).map_or_else(|e| e.to_string(), |()| path)
}

fn around_limits(rng: &mut Rng, tally: &mut Tally) {
    let (_, m) = generate::admitted(rng);
    check_admission(rng, tally, &m, Some("as generated"));
    for _ in 0..4 {
        let (changed, place) = limits::around_a_limit(rng, &m);
        check_admission(rng, tally, &changed, place);
    }
}

fn damage(rng: &mut Rng, tally: &mut Tally) {
    let (_, mut m) = generate::admitted(rng);
    limits::damage(rng, &mut m);
    check_admission(rng, tally, &m, Some("damaged"));
}

// ----

/// So many parts of each comparison run by themselves, each with its own random numbers: a run is the same on any machine.
const PARTS: usize = 16;

/// A comparison that is asked for, and the tallies of its parts.
struct Chosen {
    name: &'static str,
    steps: u64,
    step: fn(&mut Rng, &mut Tally),
    tallies: Mutex<Vec<Tally>>,
}

impl Chosen {
    fn part(&self, seed: u64, k: usize) -> Tally {
        let stream = if k == 0 { self.name.to_string() } else { format!("{} {k}", self.name) };
        let first = |k: usize| self.steps * k as u64 / PARTS as u64;
        let (mut rng, mut tally) = (Rng::new(seed, &stream), Tally::new(self.name, first(k)..first(k + 1)));
        while !tally.is_done() {
            (self.step)(&mut rng, &mut tally);
            tally.step();
        }
        tally.finished()
    }

    /// Does one part. After the last it prints the lines of all and answers (compared, differ).
    fn run(&self, seed: u64, k: usize) -> (u64, u64) {
        let tally = self.part(seed, k);
        let mut tallies = self.tallies.lock().expect("no part has failed");
        tallies.push(tally);
        let all = if tallies.len() == PARTS { tallies.drain(..).reduce(Tally::join) } else { None };
        all.map_or((0, 0), Tally::end)
    }
}

/// Does all parts, as many at a time as there are processors: (compared, differ).
fn run(chosen: &[Chosen], seed: u64) -> (u64, u64) {
    let next = AtomicUsize::new(0);
    let worker = || {
        let mut sum = (0, 0);
        loop {
            let i = next.fetch_add(1, Ordering::Relaxed);
            let Some(comparison) = chosen.get(i / PARTS) else { return sum };
            let (compared, differ) = comparison.run(seed, i % PARTS);
            sum = (sum.0 + compared, sum.1 + differ);
        }
    };
    std::thread::scope(|scope| {
        let workers = std::thread::available_parallelism().map_or(1, usize::from);
        let workers: Vec<_> = (0..workers).map(|_| scope.spawn(worker)).collect();
        let sums = workers.into_iter().map(|w| w.join().expect("a comparison failed"));
        sums.fold((0, 0), |a, b| (a.0 + b.0, a.1 + b.1))
    })
}

fn main() {
    let arguments: Vec<String> = std::env::args().skip(1).collect();
    let values = |name: &str| arguments.windows(2).filter(|w| w[0] == name).map(|w| w[1].clone()).collect::<Vec<_>>();
    let whole = |name: &str| values(name).first().map(|s| s.parse::<u64>().expect("a whole number"));
    let full = arguments.iter().any(|a| a == "full");
    let (seed, only) = (whole("--seed").unwrap_or(1), values("--only"));
    program::set(values("--program").pop());
    let asked = |name: &str| only.is_empty() || only.iter().any(|only| name.starts_with(only));
    let chosen = COMPARISONS.iter().filter(|c| asked(c.0)).map(|&(name, short_steps, full_steps, step)| {
        let steps = whole("--steps").unwrap_or(if full { full_steps } else { short_steps });
        Chosen { name, steps, step, tallies: Mutex::new(Vec::new()) }
    });
    println!("{} form, seed {seed}", if full { "full" } else { "short" });
    let (compared, differ) = run(&chosen.collect::<Vec<_>>(), seed);
    println!("{compared} compared, {differ} differ");
    std::process::exit(i32::from(differ > 0 || compared == 0));
}
