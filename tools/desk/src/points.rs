//! Surface points along a lane's border as CSV (`desk points`). The stations are counted here; every other number is the library's.
use crate::arguments::{self, Arguments, Failure};
use crate::grid::Farthest;
use riftkettle::layout::{LANES, LANES_STRIDE, SECTIONS};
use riftkettle::{Lent, Road, SurfacePoint};
use std::io::{self, BufWriter, IsTerminal, Write};
use std::process::ExitCode;
use std::time::{Duration, Instant};

pub const HELP: &str = "\
desk points JOB --every METRES --lane ID [--border inner|outer|middle] [--from S] [--to S]

Writes points of the road's surface along a lane's border (the outer one, if --border does not say
otherwise) as CSV: s,t,x,y,z,heading, in metres and radians. JOB is a job text (`-`: standard input).

- s is from + k * every, one product and one sum in f64, for k = 0, 1, 2, .. as long as it is before
  the end; the last station is the end itself. A station less than a nanometre before the end is left
  out for it. --from is 0 and --to the road's length where they are not given.
- t is the border of the lane at s as the library's `borders` answers it; for --border middle half
  the sum of inner and outer.
- x, y, z and heading (the reference line's, not the border's) are the library's `lane_surface` of
  that lane at s and t: where two lanes meet at different heights, the point is on the lane asked for.
- Each number is the shortest decimal that is read as the same f64. x, y and z are f32 numbers, which
  are f64 numbers too: nothing is rounded. Where x or y is 8,192 m or more from 0, it lies on a grid of
  0.98 mm or coarser; how coarse is said on standard error.

A station whose section has no such lane gets no line; how many there are and where is said on standard
error. A long run says there how far it is, if that is a terminal and the CSV goes elsewhere. At most
10,000,000 points. Status 0; 1 for a refused job; 2 for wrong arguments or a file that cannot be read.
";

/// The most points.
const MOST: f64 = 10_000_000.0;
/// Metres: stations nearer to the end are left out for it. The rounding of s is far below.
pub const NEAR: f64 = 1e-9;

pub fn run(arguments: &[String]) -> ExitCode {
    arguments::run("points", HELP, arguments, points)
}

fn points(arguments: &[String]) -> Result<(), Failure> {
    let arguments = Arguments::of(arguments, &["--every", "--lane", "--border", "--from", "--to"])?;
    // What is wrong whatever the road is, is told before the job is read.
    let (every, lane) = (every(&arguments)?, lane(&arguments)?);
    let border = Border::of(&arguments)?;
    let road = arguments.road()?;
    has_lane(road.lent(), lane)?;
    let line = Line { road: &road, lane, border };
    line.write(&Stations::of(&arguments, every, road.length())?)
}

// ---- arguments

/// A finite number.
fn number(arguments: &Arguments, name: &str) -> Result<Option<f64>, Failure> {
    match arguments.parsed(name, "a number")? {
        Some(x) if !f64::is_finite(x) => Err(Failure::of_arguments(format!("`{name}` needs a finite number"))),
        x => Ok(x),
    }
}

fn every(arguments: &Arguments) -> Result<f64, Failure> {
    match number(arguments, "--every")? {
        Some(every) if every > 0.0 => Ok(every),
        Some(_) => Err(Failure::of_arguments("`--every` needs a number above 0")),
        None => Err(Failure::of_arguments("`--every METRES` is needed")),
    }
}

fn lane(arguments: &Arguments) -> Result<i32, Failure> {
    match arguments.parsed("--lane", "a lane's id (1, 2, .. left, -1, -2, .. right)")? {
        Some(0) => Err(Failure::of_arguments("no lane has the id 0: left ones are 1, 2, .., right ones -1, -2, ..")),
        Some(lane) => Ok(lane),
        None => Err(Failure::of_arguments("`--lane ID` is needed")),
    }
}

#[derive(Clone, Copy)]
pub enum Border {
    Inner,
    Outer,
    Middle,
}

impl Border {
    fn of(arguments: &Arguments) -> Result<Self, Failure> {
        match arguments.value("--border") {
            Some("inner") => Ok(Self::Inner),
            Some("outer") | None => Ok(Self::Outer),
            Some("middle") => Ok(Self::Middle),
            Some(other) => Err(Failure::of_arguments(format!("`--border` needs inner, outer or middle, not `{other}`"))),
        }
    }

    fn t(self, lane: &riftkettle::Border) -> f64 {
        match self {
            Self::Inner => lane.inner,
            Self::Outer => lane.outer,
            Self::Middle => (lane.inner + lane.outer) / 2.0,
        }
    }
}

// ---- the road

/// Whether a section of the road has the lane, by how many each has on the left and on the right.
fn has_lane(road: Lent, lane: i32) -> Result<(), Failure> {
    let sections = road.words[LANES..].chunks(LANES_STRIDE).take(road.words[SECTIONS].into());
    let most = |side: usize| sections.clone().map(|section| i32::from(section[side])).max().unwrap_or(0);
    let (left, right) = (most(1), most(2));
    if (-right..=left).contains(&lane) {
        return Ok(());
    }
    Err(Failure::of_arguments(format!(
        "no section of the road has a lane {lane}: at most {left} are on the left (1, 2, ..), {right} on the right (-1, -2, ..)"
    )))
}

// ---- stations

struct Stations {
    from: f64,
    to: f64,
    every: f64,
}

impl Stations {
    fn of(arguments: &Arguments, every: f64, length: f64) -> Result<Self, Failure> {
        let from = number(arguments, "--from")?.unwrap_or(0.0);
        let to = number(arguments, "--to")?.unwrap_or(length);
        for (name, s) in [("--from", from), ("--to", to)] {
            if !(0.0..=length).contains(&s) {
                return Err(Failure::of_arguments(format!("`{name}` {s:?} is not on the road: its length is {length:?}")));
            }
        }
        if from > to {
            return Err(Failure::of_arguments(format!("`--from` {from:?} lies after `--to` {to:?}")));
        }
        if (to - from) / every > MOST - 1.0 {
            return Err(Failure::of_arguments(format!("`--every` {every:?} gives more than {MOST} points")));
        }
        Ok(Self { from, to, every })
    }

    fn each(&self) -> impl Iterator<Item = f64> {
        let counted = (0..).map(|k: u32| self.from + f64::from(k) * self.every);
        counted.take_while(|s| *s < self.to - NEAR).chain([self.to])
    }

    fn percent_done(&self, s: f64) -> u32 {
        (100.0 * (s - self.from) / (self.to - self.from)) as u32
    }
}

// ---- points

/// A border of a lane, along the road.
pub struct Line<'a> {
    pub road: &'a Road,
    pub lane: i32,
    pub border: Border,
}

/// A point of it.
pub struct Placed {
    pub t: f64,
    pub point: SurfacePoint,
}

/// The names of a point's cells.
pub const NAMES: &str = "s,t,x,y,z,heading";

impl Placed {
    /// x, y and z as f64, so that whoever reads f64 numbers has the same.
    pub fn cells(&self, s: f64) -> String {
        let (t, SurfacePoint { x, y, z, heading }) = (self.t, self.point);
        let [x, y, z] = [x, y, z].map(f64::from);
        format!("{s:?},{t:?},{x:?},{y:?},{z:?},{heading:?}")
    }
}

impl Line<'_> {
    fn write(&self, stations: &Stations) -> Result<(), Failure> {
        let mut out = BufWriter::with_capacity(1 << 16, io::stdout().lock());
        let (mut progress, mut left_out, mut count) = (Progress::new(), LeftOut::default(), 0);
        let mut farthest = Farthest::default();
        writeln!(out, "{NAMES}")?;
        for s in stations.each() {
            count += 1;
            match self.point(s)? {
                Some(placed) => {
                    writeln!(out, "{}", placed.cells(s))?;
                    farthest.add(placed.point.x.into(), placed.point.y.into());
                }
                None => left_out.add(count, s),
            }
            progress.show(|| stations.percent_done(s));
        }
        out.flush()?;
        drop(progress);
        left_out.tell(self.lane, count);
        if let Some(note) = farthest.note() {
            let _ = writeln!(io::stderr(), "desk points: {note}");
        }
        Ok(())
    }

    /// The point of a station, if its section has the lane.
    pub fn point(&self, s: f64) -> Result<Option<Placed>, Failure> {
        let refused = |refusal| Failure::of_content(format!("at s = {s:?}: {refusal}"));
        let borders = self.road.borders(s).map_err(refused)?;
        let Some(border) = borders.iter().find(|border| border.id == self.lane) else { return Ok(None) };
        let t = self.border.t(border);
        Ok(Some(Placed { t, point: self.road.lane_surface(self.lane, s, t).map_err(refused)? }))
    }
}

/// The stations whose section has no such lane, as runs.
#[derive(Default)]
struct LeftOut {
    count: usize,
    /// The number of the last station left out, and the first and last s of each run.
    last: usize,
    runs: Vec<[f64; 2]>,
}

impl LeftOut {
    fn add(&mut self, number: usize, s: f64) {
        match self.runs.last_mut() {
            Some(run) if self.last + 1 == number => run[1] = s,
            _ => self.runs.push([s, s]),
        }
        (self.last, self.count) = (number, self.count + 1);
    }

    fn tell(&self, lane: i32, stations: usize) {
        if self.count > 0 {
            let runs: Vec<String> = self.runs.iter().map(|[first, last]| format!("{first:?} to {last:?}")).collect();
            let (count, runs) = (self.count, runs.join(", "));
            let _ = writeln!(io::stderr(), "desk points: no lane {lane} at {count} of {stations} stations, left out: s = {runs}");
        }
    }
}

/// How far the work is, on standard error, once it takes half a second.
struct Progress {
    on: bool,
    shown: bool,
    next: Instant,
}

impl Progress {
    /// Points that run over the screen show the progress themselves, and would be torn apart by it.
    fn new() -> Self {
        let on = io::stderr().is_terminal() && !io::stdout().is_terminal();
        Self { on, shown: false, next: Instant::now() + Duration::from_millis(500) }
    }

    fn show(&mut self, percent: impl Fn() -> u32) {
        if self.on && Instant::now() >= self.next {
            let _ = write!(io::stderr(), "\rdesk points: {} %", percent());
            (self.shown, self.next) = (true, Instant::now() + Duration::from_millis(200));
        }
    }
}

impl Drop for Progress {
    fn drop(&mut self) {
        if self.shown {
            let _ = write!(io::stderr(), "\r\x1b[K");
        }
    }
}
