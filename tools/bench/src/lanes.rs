// Records, poses without the check of the road, borders and lane heights.
use crate::{ROUNDS, compare, lay, median, one_geometry, row, time};
use archive::probes as inside;
use archive::riftkettle as ours;
use published::oracle::{Line, Oracle, Records};
use second::model::*;
use second::random::Rng;
use std::hint::black_box;

#[inline(never)]
fn rust_eval(list: &Records, i: usize, s: f64) -> f64 {
    list.eval(i, s)
}

#[inline(never)]
fn rust_active(list: &Records, s: f64) -> Option<usize> {
    list.active(s)
}

#[inline(never)]
fn rust_pose(line: &Line, s: f64) -> (f64, f64, f64) {
    line.pose(s)
}

#[inline(never)]
fn rust_list(oracle: &Oracle, s: f64, list: &mut [f64]) -> usize {
    oracle.list_borders(s, list)
}

#[inline(never)]
fn rust_lane(oracle: &Oracle, id: i32, s: f64) -> Option<[f64; 4]> {
    oracle.lane(0, id, s)
}

pub fn cubics(rng: &mut Rng) {
    let list: Vec<Cubic> = (0..1024)
        .map(|i| {
            let [a, b, c, d] = [8.0, 0.1, 0.001, 0.00001].map(|size| size * rng.between(-1.0, 1.0));
            Cubic { start: f64::from(i), a, b, c, d }
        })
        .collect();
    let at = |i: usize| i as f64 + 0.7;
    let theirs = Records::new(&list);
    let times = compare(
        list.len(),
        || {
            black_box(black_box(&list).iter().enumerate().map(|(i, c)| inside::eval(c, at(i))).sum::<f64>());
        },
        || {
            black_box((0..list.len()).map(|i| rust_eval(black_box(&theirs), i, at(i))).sum::<f64>());
        },
    );
    row("`Cubic::eval`", times);
    for n in [4, 64] {
        let part: Vec<f64> = list[..n].iter().flat_map(|c| [c.start, c.a, c.b, c.c, c.d]).collect();
        let theirs = Records::new(&list[..n]);
        let places: Vec<f64> = (0..256).map(|_| rng.between(0.0, n as f64)).collect();
        let times = compare(
            places.len(),
            || {
                black_box(places.iter().filter_map(|&s| inside::active(black_box(&part), s)).sum::<usize>());
            },
            || {
                black_box(places.iter().filter_map(|&s| rust_active(black_box(&theirs), s)).sum::<usize>());
            },
        );
        row(&format!("active record of {n}"), times);
    }
}

/// The admission of a road, as a line of its own. The Rust checks nothing.
fn admission(what: &str, m: &Memory) {
    let [ns, _, _] = compare(
        1,
        || {
            black_box(ours::admit(black_box(m)));
        },
        || (),
    );
    println!("| {what} | {ns:.1} | | |");
}

pub fn poses(stations: &[f64]) {
    let shapes = [("a line", Shape::Line), ("an arc", Shape::Arc(0.01)), ("a 400 m spiral", Shape::Spiral(0.0, 0.02))];
    for (what, shape) in shapes {
        let road = one_geometry(shape, 400.0);
        let (m, line, samples) = (lay(&road), Line::new(&road.geoms[0]), Oracle::new(&road).samples());
        let mut pose = [0.0; 3];
        let times = compare(
            stations.len(),
            || {
                for &s in black_box(stations) {
                    inside::pose(&m, &samples, 0, s, &mut pose);
                    black_box(&pose);
                }
            },
            || {
                for &s in black_box(stations) {
                    black_box(rust_pose(black_box(&line), s));
                }
            },
        );
        row(&format!("pose on {what}, the road not checked"), times);
        admission(&format!("the check of that road ({what})"), &m);
    }
}

/// A section of 6 lanes a side, each with 2 extents and 2 heights, on a road with 2 offsets and 2 profiles of 4 shapes.
pub fn twelve_lanes() -> Road {
    let cubic = |start: f64, a: f64| Cubic { start, a, b: 0.001, c: 0.00001, d: 0.0 };
    let height = |start: f64| Height { start, inner: 0.1, outer: 0.2 };
    let lane = |_| Lane {
        extents: vec![cubic(0.0, 3.0), cubic(200.0, 3.5)],
        heights: vec![height(0.0), height(300.0)],
        ..Lane::default()
    };
    let side = || (0..6).map(lane).collect();
    let shapes = || [-10.0, -5.0, 0.0, 5.0].map(|t| cubic(t, 0.2)).to_vec();
    Road {
        offset: vec![cubic(0.0, 0.5), cubic(200.0, 0.5)],
        sections: vec![Section { left: side(), right: side(), ..Section::default() }],
        profiles: vec![Profile { s: 0.0, shapes: shapes() }, Profile { s: 300.0, shapes: shapes() }],
        ..one_geometry(Shape::Line, 400.0)
    }
}

pub fn lanes(stations: &[f64]) {
    let road = twelve_lanes();
    let (m, oracle) = (lay(&road), Oracle::new(&road));
    borders(stations, &m, &oracle);
    let sixth = compare(
        stations.len(),
        || {
            for &s in black_box(stations) {
                black_box(inside::lane(&m, 0, (s, 0.0), false, 5));
            }
        },
        || {
            for &s in black_box(stations) {
                black_box(rust_lane(black_box(&oracle), 6, s));
            }
        },
    );
    row("borders and heights of the sixth lane of a side", sixth);
    let first = compare(
        stations.len(),
        || {
            for &s in black_box(stations) {
                black_box(inside::lane(&m, 0, (s, 0.0), false, 0));
            }
        },
        || {
            for &s in black_box(stations) {
                black_box(rust_lane(black_box(&oracle), 1, s));
            }
        },
    );
    row("likewise of the first; Rust: all six of the side", first);
}

/// The call, the check of the road alone, and their difference, measured in turn within each round.
fn borders(stations: &[f64], m: &Memory, oracle: &Oracle) {
    let (mut list, mut other, mut lanes) = ([0.0; 36], [0.0; 36], 0);
    let mut call = || {
        for &s in black_box(stations) {
            ours::borders(m, s, &mut list, &mut lanes);
            black_box(&list);
        }
    };
    let mut check = || {
        for _ in black_box(stations) {
            black_box(ours::admit(black_box(m)));
        }
    };
    let mut rust = || {
        for &s in black_box(stations) {
            black_box(rust_list(black_box(oracle), s, &mut other));
            black_box(&other);
        }
    };
    let n = stations.len();
    let rounds: Vec<[f64; 3]> =
        (0..ROUNDS).map(|_| [time(&mut call, n, 20), time(&mut check, n, 20), time(&mut rust, n, 60)]).collect();
    let of = |f: fn(&[f64; 3]) -> f64| median(rounds.iter().map(f).collect());
    let theirs = of(|r| r[2]);
    row("borders of 12 lanes, the call whole", [of(|r| r[0]), theirs, of(|r| r[0] / r[2])]);
    println!("| the check of that road | {:.1} | | |", of(|r| r[1]));
    row("borders of 12 lanes: the call less the check", [of(|r| r[0] - r[1]), theirs, of(|r| (r[0] - r[1]) / r[2])]);
}
