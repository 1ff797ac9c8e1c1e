//! `desk draw`: a picture of a road, for whoever wants to see at a glance whether it is the one that was meant.
//!
//! Every point, border, height and angle in it is an answer of the library. What lies in the road as data (kinds, starts, counts)
//! is read from its memory.
mod across;
mod dotted;
mod graph;
mod ground;
mod jumps;
mod labels;
mod lines;
mod names;
mod paint;
mod picture;
mod pieces;
mod plan;
mod plane;
mod profile;
mod progress;
mod sampled;
pub(crate) mod scale;
mod steps;
mod style;
mod subject;
mod svg;
mod table;
mod view;
mod wanted;

use std::fs;
use std::path::Path;
use std::process::ExitCode;

use crate::arguments::{self, Arguments, Failure};
use crate::dots::Dotting;
use dotted::Dotted;
use progress::Progress;
use subject::Subject;

pub const HELP: &str = "\
desk draw JOB [--at S] [--dots SECTION,LANE,SPACING] [--out FILE]

Draws the road of a job text as a picture (SVG, A4 or A3 landscape), to standard output or to FILE. JOB
`-` is standard input.

- The plan, to scale, with true coordinates: the reference line by kind of geometry, lanes, sections,
  wants. Where it is too small for lane ids there is a detail of it at the cross section. Marks are thick
  strokes along the outer border of their lane, coloured by kind.
- Elevation and bank of the reference line along s.
- The cross section at S: that of --at, else of the first want on the road, else the middle of the road;
  the marks that cover their lane there stand on its outer border.
- With --dots the dots of a lane, those that `desk dots` writes, as spots on the plan.
- The wants, with their points or the numbers of their refusals, and the jumps of the reference line:
  over 1 mm away, up or down, 0.05 degrees of heading or 0.1 of bank; and where s runs over 1 mm past a
  geometry's length, or ends before it. What jumps is drawn as a step or a gap, never as a slope.

Every point, border, height and angle is the library's answer. The plan's are those of the same road
moved to the origin, since points are f32 numbers, which far from it are centimetres apart; the wants'
and the stations of dots are those of the road as it is. Status 0; 1 for a refused job; 2 for wrong
arguments or a file that cannot be read.
";

/// Draws the job and answers the exit status.
pub fn run(arguments: &[String]) -> ExitCode {
    arguments::run("draw", HELP, arguments, draw)
}

fn draw(arguments: &[String]) -> Result<(), Failure> {
    let arguments = Arguments::of(arguments, &["--at", "--dots", "--out"])?;
    let at: Option<f64> = arguments.parsed("--at", "a number")?;
    let dots = arguments.value("--dots").map(dotting).transpose()?;
    let picture = drawn(arguments.file, &arguments.read()?, (at, dots), Progress::new())?;
    match arguments.value("--out") {
        Some(path) => write_file(path, arguments.file, &picture),
        None => arguments::write(&picture),
    }
}

/// SECTION,LANE,SPACING.
fn dotting(value: &str) -> Result<Dotting, Failure> {
    let words: Vec<&str> = value.split(',').collect();
    let wrong = || Failure::of_arguments(format!("`--dots` needs SECTION,LANE,SPACING, not `{value}`"));
    Dotting::of(words.try_into().map_err(|_| wrong())?)
}

/// The picture never takes the job's place.
fn write_file(path: &str, job: &str, picture: &str) -> Result<(), Failure> {
    if let (Ok(out), Ok(job)) = (fs::canonicalize(path), fs::canonicalize(job))
        && out == job
    {
        return Err(Failure::of_arguments(format!("`--out` is the job itself, {path}")));
    }
    fs::write(path, picture).map_err(|e| Failure::of_arguments(format!("cannot write {path}: {e}")))
}

/// The picture of a job text that was read from that file, cut across there or at the usual place.
pub fn picture(file: &str, text: &[u8], at: Option<f64>) -> Result<String, Failure> {
    drawn(file, text, (at, None), Progress::silent())
}

fn drawn(file: &str, text: &[u8], (at, dots): (Option<f64>, Option<Dotting>), mut progress: Progress) -> Result<String, Failure> {
    let name = shown_name(file);
    let subject = Subject::read(&name, text).map_err(|refusal| Failure::of_refusal(&name, file, text, refusal))?;
    let at = at.unwrap_or_else(|| picture::default_at(&subject.wants(), subject.length()));
    if !(0.0..=subject.length()).contains(&at) {
        return Err(Failure::of_arguments(format!("`--at` {at} is off the road: s is 0 to {}", subject.length())));
    }
    let dotted = dots.map(|asked| Dotted::of(&subject, asked)).transpose()?;
    Ok(picture::draw(&subject, at, dotted.as_ref(), &mut progress))
}

/// The file's name without its folders.
fn shown_name(file: &str) -> String {
    match file {
        "-" => "standard input".into(),
        _ => Path::new(file).file_name().map_or(file.into(), |name| name.to_string_lossy().into_owned()),
    }
}
