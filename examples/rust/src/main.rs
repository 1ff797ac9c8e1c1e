//! Reads a job text and asks the library what a controller asks: the surface at each want, lane borders and names, a lane's surface,
//! where a point of the plan lies on the road. Every answer is either there or a numbered refusal.
//!
//!     cargo run --manifest-path examples/rust/Cargo.toml [JOB]
//!
//! JOB is a job text (docs/JOB-TEXT.md); examples/jobs/lanes_width.job, from the repository's root, if none is named. examples/run.sh
//! builds and runs this, and the same in C and C++; all write what examples/stdout holds.
use std::env::args;
use std::fs;
use std::process::ExitCode;

use riftkettle::{Refusal, Road, SurfacePoint};

/// The end of a line: the answer in words, or the refusal.
fn told<T>(answer: Result<T, Refusal>, words: impl Fn(T) -> String) -> String {
    match answer {
        Ok(answer) => words(answer),
        Err(refusal) => format!("refused {} ({refusal:?})", refusal.number()),
    }
}

fn point(answer: Result<SurfacePoint, Refusal>) -> String {
    told(answer, |p| format!("x {:.4} y {:.4} z {:.4} heading {:.4}", p.x, p.y, p.z, p.heading))
}

fn surface(road: &Road, s: f64, t: f64) {
    println!("surface at s {s:.4} t {t:.4}: {}", point(road.surface(s, t)));
}

fn lane_surface(road: &Road, id: i32, s: f64, t: f64) {
    println!("surface of lane {id} at s {s:.4} t {t:.4}: {}", point(road.lane_surface(id, s, t)));
}

fn borders(road: &Road, s: f64) {
    let borders = road.borders(s);
    println!("borders at s {s:.4}: {}", told(borders, |list| format!("{} lanes", list.len())));
    for lane in borders.iter().flat_map(|list| list.iter()) {
        println!("  lane {}: inner {:.4} outer {:.4} width {:.4}", lane.id, lane.inner, lane.outer, lane.width);
    }
}

fn lane_named(road: &Road, s: f64, t: f64) {
    println!("lane at s {s:.4} t {t:.4}: {}", told(road.lane_named(s, t), |id| id.unwrap_or(0).to_string()));
}

fn locate(road: &Road, x: f64, y: f64, guess: f64) {
    let found = told(road.locate(x, y, guess), |found| {
        format!("s {:.4} t {:.4}, {} moves, {}", found.s, found.t, found.moves, if found.met { "met" } else { "not met" })
    });
    println!("x {x:.4} y {y:.4} from s {guess:.4}: {found}");
}

fn ask(road: &Road) {
    for (s, t) in road.wants() {
        surface(road, s, t);
    }
    let middle = road.length() / 2.0;
    borders(road, middle);
    lane_named(road, middle, 5.0);
    lane_named(road, middle, -1.0);
    lane_named(road, middle, 0.25);
    lane_surface(road, -2, middle, -4.0);
    locate(road, 30.0, 2.0, 0.0);
    surface(road, road.length() + 1.0, 0.0); // off the road
}

fn main() -> ExitCode {
    if !riftkettle::environment() {
        eprintln!("the floating-point environment is not the usual one: no answer would be sure");
        return ExitCode::FAILURE;
    }
    println!("riftkettle {}", riftkettle::VERSION);
    let path = args().nth(1).unwrap_or("examples/jobs/lanes_width.job".into());
    let text = match fs::read(&path) {
        Ok(text) => text,
        Err(error) => {
            eprintln!("{path}: {error}");
            return ExitCode::FAILURE;
        }
    };
    let mut road = Box::new(Road::new());
    let answer = road.read(&text);
    let held = |()| format!("length {:.4}, {} wants, {} samples", road.length(), road.wants().len(), road.samples().len() / 4);
    println!("job: {}", told(answer, held));
    if answer.is_err() {
        return ExitCode::FAILURE;
    }
    ask(&road);
    ExitCode::SUCCESS
}
