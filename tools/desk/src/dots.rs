//! Dots at equal spacing along a lane's outer border, where marks of kind 1 cover it, as CSV (`desk dots`). The stations that make the
//! line are counted here; every other number is the library's.
use crate::arguments::{self, Arguments, Failure};
use crate::draw::scale::short;
use crate::grid::Farthest;
use crate::points::{Border, Line, NAMES, NEAR};
use riftkettle::layout::{DOTS, LANES, LANES_STRIDE, SECTION, SECTIONS, STATIONS};
use riftkettle::{Refusal, Road};
use std::io::{self, BufWriter, Write};
use std::process::ExitCode;
use std::str::FromStr;

pub const HELP: &str = "\
desk dots JOB SECTION LANE SPACING

Writes dots at equal spacing along a lane's outer border, where marks of kind 1 cover it, as CSV:
dot,s,t,x,y,z,heading, in metres and radians. JOB is a job text (`-`: standard input), SECTION the
section's number, from 0, LANE the lane's id (1, 2, .. left, -1, -2, .. right), SPACING 0.1 to 100.

- dot counts the dots from 0; s is the dot as the library's `dots` answers it.
- The stations that `dots` is lent, between which its line runs straight, are the section's start, one
  every so many metres from there, and the section's end; one less than a nanometre before the end is
  left out for it. So many is the least number of tenths of a metre, 0.5 m or more, by which there are
  at most 512 stations: 0.5 m in a section of up to 255.5 m, 1 m up to 511 m, 19.6 m in one of 10 km.
  Where it is over 1 m, it is said on standard error.
- t is the lane's outer border at s, x, y and z the surface of the lane there, heading that of the
  reference line, each as `desk points` writes it; within two nanometres of the section's end, where the
  next section may count, they are those two nanometres before it.

That there are no dots is said on standard error. Status 0; 1 for a refused job; 2 for wrong arguments,
which a section, lane or spacing that is refused is too, or a file that cannot be read.
";

/// Metres: another section's lanes count from 1e-9 before its start, this section's still so far before it.
const BEFORE: f64 = 2e-9;
/// Tenths of a metre: the shortest step from station to station.
const SHORTEST: u32 = 5;
/// Metres: a longer step is told.
const LONG: f64 = 1.0;

pub fn run(arguments: &[String]) -> ExitCode {
    arguments::run("dots", HELP, arguments, dots)
}

fn dots(arguments: &[String]) -> Result<(), Failure> {
    let (arguments, words) = Arguments::with_words(arguments, ["SECTION", "LANE", "SPACING"], &[])?;
    let asked = Dotting::of(words)?;
    let road = arguments.road()?;
    asked.write(&road, &asked.dots(&road)?)
}

/// What is dotted, and how.
#[derive(Debug, Clone, Copy, PartialEq)]
pub struct Dotting {
    pub section: usize,
    pub lane: i32,
    pub spacing: f32,
}

fn parsed<T: FromStr>(name: &str, word: &str, what: &str) -> Result<T, Failure> {
    word.parse().map_err(|_| Failure::of_arguments(format!("{name} needs {what}, not `{word}`")))
}

impl Dotting {
    /// As SECTION, LANE and SPACING say.
    pub fn of([section, lane, spacing]: [&str; 3]) -> Result<Self, Failure> {
        Ok(Self {
            section: parsed("SECTION", section, "a section's number (0, 1, ..)")?,
            lane: parsed("LANE", lane, "a lane's id (1, 2, .. left, -1, -2, .. right)")?,
            spacing: parsed("SPACING", spacing, "a number")?,
        })
    }

    /// The dots, as the library answers them.
    pub fn dots(&self, road: &Road) -> Result<Vec<f64>, Failure> {
        let mut list = vec![0.0; DOTS];
        let stations = Extent::of(road, self.section).stations();
        match road.dots(self.section, self.lane, self.spacing, &stations, &mut list) {
            Ok(dots) => list.truncate(dots),
            Err(refusal) => return Err(self.refused(road, refusal)),
        }
        Ok(list)
    }

    /// The lane's place among those of its section, which has so many on the left.
    pub fn place(&self, left: usize) -> usize {
        let lane = self.lane.unsigned_abs() as usize;
        if self.lane > 0 { lane - 1 } else { left + lane - 1 }
    }

    /// Why, by what the road has.
    fn refused(&self, road: &Road, refusal: Refusal) -> Failure {
        let Self { section, lane, spacing } = *self;
        let sections = usize::from(road.lent().words[SECTIONS]);
        let why = match refusal {
            Refusal::Lane if section >= sections => match sections {
                1 => format!("the road has no section {section}: 0 is the only one"),
                _ => format!("the road has no section {section}: they are 0 to {}", sections - 1),
            },
            Refusal::Lane => {
                let lanes = &road.lent().words[LANES + LANES_STRIDE * section..];
                let (left, right) = (lanes[1], lanes[2]);
                format!(
                    "section {section} has no lane {lane}: {left} are on the left (1, 2, ..), {right} on the right (-1, -2, ..)"
                )
            }
            Refusal::Spacing => format!("SPACING {spacing:?} is outside 0.1..100"),
            Refusal::StationList => format!("section {section} has no length"),
            Refusal::DotSpace => format!("SPACING {spacing:?} gives more than {DOTS} dots in section {section}, kept or not"),
            other => return Failure::of_content(other.to_string()),
        };
        Failure::of_arguments(format!("{why} (refusal {})", refusal.number()))
    }

    fn write(&self, road: &Road, dots: &[f64]) -> Result<(), Failure> {
        let extent = Extent::of(road, self.section);
        let line = Line { road, lane: self.lane, border: Border::Outer };
        let mut out = BufWriter::with_capacity(1 << 16, io::stdout().lock());
        let mut farthest = Farthest::default();
        writeln!(out, "dot,{NAMES}")?;
        for (number, s) in dots.iter().enumerate() {
            let placed = extent.held(*s).map(|s| line.point(s)).transpose()?.flatten();
            let placed = placed
                .ok_or_else(|| Failure::of_content(format!("no call answers for section {} at s = {s:?}", self.section)))?;
            writeln!(out, "{number},{}", placed.cells(*s))?;
            farthest.add(placed.point.x.into(), placed.point.y.into());
        }
        out.flush()?;
        let none = format!("no dots: no mark of kind 1 covers one on lane {} of section {}", self.lane, self.section);
        let step = f64::from(extent.tenths()) / 10.0;
        let long =
            format!("the section is long: its stations are {} m apart, and the line is straight between them", short(step));
        let notes = [dots.is_empty().then_some(none), (step > LONG).then_some(long), farthest.note()];
        for note in notes.into_iter().flatten() {
            let _ = writeln!(io::stderr(), "desk dots: {note}");
        }
        Ok(())
    }
}

/// A section's stations: all from its start to its end.
#[derive(Debug, Clone, Copy)]
pub struct Extent {
    start: f64,
    end: f64,
    /// Whether another section follows.
    followed: bool,
}

impl Extent {
    /// Of a section of an admitted road; of one that is not there nothing is asked.
    pub fn of(road: &Road, section: usize) -> Self {
        let starts = &road.lent().numbers[SECTION..][..road.lent().words[SECTIONS].into()];
        let next = section.checked_add(1).and_then(|next| starts.get(next));
        Self {
            start: starts.get(section).copied().unwrap_or(0.0),
            end: next.copied().unwrap_or(road.length()),
            followed: next.is_some(),
        }
    }

    /// The start, one every so many tenths of a metre, and the end.
    fn each(self, tenths: u32) -> impl Iterator<Item = f64> {
        let counted = (1..).map(move |k: u32| self.start + f64::from(k * tenths) / 10.0);
        [self.start].into_iter().chain(counted.take_while(move |s| *s < self.end - NEAR)).chain([self.end])
    }

    /// The shortest step that makes no more stations than a line may have.
    fn tenths(self) -> u32 {
        (SHORTEST..).find(|tenths| self.each(*tenths).nth(STATIONS).is_none()).expect("a road of 10 km needs 196")
    }

    fn stations(self) -> Vec<f64> {
        self.each(self.tenths()).collect()
    }

    /// Where other calls are asked for what lies at s, so that they take this section's lanes; nowhere in a section too short for that.
    pub fn held(self, s: f64) -> Option<f64> {
        let held = if self.followed { s.min(self.end - BEFORE) } else { s };
        (held >= self.start).then_some(held)
    }
}

#[cfg(test)]
mod tests {
    use super::*;

    fn extent(start: f64, end: f64) -> Extent {
        Extent { start, end, followed: true }
    }

    #[test]
    fn the_step_is_the_shortest_that_does() {
        let steps =
            [0.1, 255.5, 255.6, 511.0, 511.1, 10_000.0].map(|end| (extent(0.0, end).tenths(), extent(0.0, end).stations().len()));
        assert_eq!(steps, [(5, 2), (5, 512), (6, 427), (10, 512), (11, 466), (196, 512)]);
        assert!([0.3, 255.5, 9876.5].iter().all(|end| extent(0.25, *end).stations().is_sorted_by(|a, b| a < b)));
    }

    #[test]
    fn the_end_is_one_and_comes_once() {
        assert_eq!(extent(0.25, 1.5).stations(), [0.25, 0.75, 1.25, 1.5]);
        assert_eq!(extent(0.25, 1.25).stations(), [0.25, 0.75, 1.25]);
        assert_eq!(extent(0.0, 0.5000000001).stations(), [0.0, 0.5000000001]);
        assert_eq!(extent(7.0, 7.0 + 1e-12).stations(), [7.0, 7.0 + 1e-12]);
    }

    #[test]
    fn other_calls_are_asked_before_the_next_section() {
        assert_eq!([3.0, 5.0 - 1e-10].map(|s| extent(1.0, 5.0).held(s)), [Some(3.0), Some(5.0 - BEFORE)]);
        assert_eq!(Extent { followed: false, ..extent(1.0, 5.0) }.held(5.0), Some(5.0));
        assert_eq!(extent(5.0 - 1e-9, 5.0).held(5.0 - 1e-9), None);
    }
}
