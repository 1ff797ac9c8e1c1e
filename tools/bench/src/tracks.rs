// The f32 root and the calls on tracks. A call of ours checks the track and works its lengths and tangents out anew, so the Rust's
// side is whole too: it builds the track and asks it once. Beside that stands the Rust's call alone, on a track already built; and all
// of it over the Rust's own root.
use crate::{ROUNDS, median, time};
use archive::riftkettle as ours;
use published::own::tracks::Track as Own;
use published::stand_ins;
use published::tracks::Track;
use second::random::Rng;
use second::tracks::road_like;
use std::hint::black_box;

#[derive(Clone, Copy)]
enum Call {
    Project,
    Pose,
    Tangents,
}

/// A track, a call, and what it is asked: a point, or an arc length.
struct Case {
    what: String,
    call: Call,
    points: Vec<f32>,
    theirs: Track,
    own: Own,
    asked: Vec<[f32; 3]>,
}

/// The Rust's side, by either root: the track built and asked once, or asked alone.
macro_rules! rust {
    ($ask:ident, $whole:ident, $track:ty) => {
        #[inline(never)]
        fn $ask(track: &$track, call: Call, asked: [f32; 3], list: &mut [f32]) {
            match call {
                Call::Project => drop(black_box(track.project(asked))),
                Call::Pose => drop(black_box(track.pose_at(asked[0]))),
                Call::Tangents => track.list_tangents(list),
            }
        }

        #[inline(never)]
        fn $whole(points: &[f32], call: Call, asked: [f32; 3], list: &mut [f32]) {
            $ask(black_box(&<$track>::new(points)), call, asked, list);
        }
    };
}
rust!(ask, whole, Track);
rust!(ask_own, whole_own, Own);

/// What is measured of a case: the call, its checks, and the Rust whole and alone, with the root of document 02 and with its own.
const SIDES: usize = 6;

impl Case {
    fn new(call: Call, n: usize, rng: &mut Rng) -> Self {
        let name = match call {
            Call::Project => "project on",
            Call::Pose => "pose on",
            Call::Tangents => "tangents of",
        };
        let points = road_like(&mut Rng::new(1, "bench of tracks"), n);
        let theirs = Track::new(&points);
        let length = f64::from(theirs.length());
        let asked = |rng: &mut Rng| {
            let s = rng.between(0.0, length) as f32;
            let [x, y, z, ..] = theirs.pose_at(s);
            match call {
                Call::Project => [x, y, z].map(|x| x + rng.between(-5.0, 5.0) as f32),
                _ => [s, 0.0, 0.0],
            }
        };
        let asked = (0..64).map(|_| asked(rng)).collect();
        Self { what: format!("{name} {n} points"), call, own: Own::new(&points), points, theirs, asked }
    }

    #[inline(never)]
    fn ours(&self, points: &[f32], [x, y, z]: [f32; 3], list: &mut [f32]) -> u32 {
        let (mut pose, mut projection) = ([0.0; 6], [0.0; 5]);
        let code = match self.call {
            Call::Project => ours::track_project(points, x, y, z, &mut projection),
            Call::Pose => ours::track_pose(points, x, &mut pose),
            Call::Tangents => ours::track_tangents(points, list),
        };
        black_box((&pose, &projection));
        code
    }

    /// `outside` is the track with its last coordinate outside, so that the call makes every check and nothing more.
    fn run(&self, side: usize, outside: &[f32], list: &mut [f32]) {
        for &asked in black_box(&self.asked) {
            let points = black_box(&self.points[..]);
            match side {
                0 => assert_eq!(self.ours(points, asked, list), 0),
                1 => assert_eq!(self.ours(black_box(outside), asked, list), 14),
                2 => whole(points, self.call, asked, list),
                3 => ask(black_box(&self.theirs), self.call, asked, list),
                4 => whole_own(points, self.call, asked, list),
                _ => ask_own(black_box(&self.own), self.call, asked, list),
            }
            black_box(&list);
        }
    }

    /// The sides in turn within each round.
    fn rows(&self) {
        let (mut outside, mut list) = (self.points.clone(), vec![0.0; self.points.len()]);
        *outside.last_mut().expect("a track has points") = f32::NAN;
        let times = (200 / (self.points.len() / 3)).max(2);
        let mut round = |_| -> [f64; SIDES] {
            std::array::from_fn(|side| time(&mut || self.run(side, &outside, &mut list), self.asked.len(), times))
        };
        let rounds: Vec<[f64; SIDES]> = (0..ROUNDS).map(&mut round).collect();
        let of = |f: &dyn Fn(&[f64; SIDES]) -> f64| median(rounds.iter().map(f).collect());
        let against = |k: usize| format!("{:.1} | {:.2}", of(&|r| r[k]), of(&|r| r[0] / r[k]));
        let what = &self.what;
        println!("| {what}; Rust: builds the track and asks it | {:.1} | {} | {} |", of(&|r| r[0]), against(2), against(4));
        println!("| likewise; Rust: asks a track already built | {:.1} | {} | {} |", of(&|r| r[0]), against(3), against(5));
        println!("| the check of that track | {:.1} | | | | |", of(&|r| r[1]));
    }
}

#[inline(never)]
fn rust_root32(x: f32) -> f32 {
    x.sqrt()
}

#[inline(never)]
fn whole_root32(x: f32) -> f32 {
    stand_ins::root32(x)
}

fn root32(rng: &mut Rng) {
    let sizes: Vec<f32> = (0..1024).map(|_| rng.log_between(1e-6, 1e7) as f32).collect();
    let over = |f: fn(f32) -> f32| {
        black_box(black_box(&sizes).iter().map(|&x| f(x)).sum::<f32>());
    };
    let round = |_| [ours::root32, whole_root32, rust_root32].map(|f| time(&mut || over(f), sizes.len(), 60));
    let rounds: Vec<[f64; 3]> = (0..ROUNDS).map(round).collect();
    let of = |f: fn(&[f64; 3]) -> f64| median(rounds.iter().map(f).collect());
    let ([a, b, c], whole, own) = ([of(|r| r[0]), of(|r| r[1]), of(|r| r[2])], of(|r| r[0] / r[1]), of(|r| r[0] / r[2]));
    println!("| f32 root; Rust: in whole numbers, and the machine's | {a:.1} | {b:.1} | {whole:.2} | {c:.1} | {own:.2} |");
}

pub fn tracks() {
    let mut rng = Rng::new(2, "bench of tracks");
    println!(
        "\n| What | ours, ns | Rust with stand-ins, ns | ratio | Rust with its own root, ns | ratio |\n|---|---|---|---|---|---|"
    );
    root32(&mut rng);
    for (call, n) in [(Call::Project, 512), (Call::Pose, 512), (Call::Tangents, 512), (Call::Project, 2), (Call::Pose, 2)] {
        Case::new(call, n, &mut rng).rows();
    }
}
