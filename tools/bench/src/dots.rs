// Dots at equal spacing. A call of ours checks the road and the stations, forms the line and finds its dots; the Rust forms the points by
// `lane_surface`, takes `along` at the last station and `station_at` of each multiple, and asks the spans of each whether they cover it.
use crate::sides::{self, Case};
use crate::surface::every_table;
use crate::{lay, one_geometry};
use archive::riftkettle as ours;
use published::dots::DottedLine;
use published::oracle::Oracle;
use published::own::dots::DottedLine as OwnLine;
use published::own::oracle::Oracle as Own;
use second::model::*;
use std::hint::black_box;

const STATIONS: usize = 500;
const DOTS: usize = 2_000;

/// A lane on the left of a road of one section that is painted throughout.
struct Dots {
    what: String,
    road: Road,
    m: Memory,
    samples: Vec<f64>,
    theirs: Oracle,
    own: Own,
    /// The lane's place in its section.
    place: usize,
    spacing: f32,
    stations: Vec<f64>,
}

impl Dots {
    fn new(what: &str, mut road: Road, place: usize) -> Self {
        road.sections[0].marks = vec![Mark { lane: place, kind: 1, start: 0.0, end: road.length }];
        let (theirs, own) = (Oracle::new(&road), Own::new(&road));
        let stations: Vec<f64> = (0..STATIONS).map(|i| road.length * i as f64 / (STATIONS - 1) as f64).collect();
        // the last multiple that there is room for lies half a step before the end
        let line = DottedLine::new(&theirs, 0, place as i32 + 1, &stations);
        let spacing = (f64::from(line.length()) / (DOTS as f64 - 0.5)) as f32;
        let dots = line.dots(&road.sections[0], place, spacing).expect("few multiples");
        let (m, samples) = (lay(&road), theirs.samples());
        let case = Self { what: what.into(), road, m, samples, theirs, own, place, spacing, stations };
        let mut list = vec![0.0; DOTS];
        assert_eq!((case.ours(case.spacing, &mut list), list), ((0, DOTS), dots));
        case
    }

    /// The code, and how many dots there are.
    #[inline(never)]
    fn ours(&self, spacing: f32, list: &mut [f64]) -> (u32, usize) {
        let mut dots = 0;
        let code = ours::dots(&self.m, &self.samples, 0, self.place as i32 + 1, spacing, &self.stations, list, &mut dots);
        (code, dots)
    }
}

/// The Rust's side, by either library.
macro_rules! rust {
    ($name:ident, $line:ident, $oracle:ty) => {
        #[inline(never)]
        fn $name(of: &$oracle, case: &Dots) {
            let line = $line::new(of, 0, case.place as i32 + 1, &case.stations);
            black_box(line.dots(&case.road.sections[0], case.place, case.spacing));
        }
    };
}
rust!(with_stand_ins, DottedLine, Oracle);
rust!(with_its_own, OwnLine, Own);

impl Case for Dots {
    fn what(&self) -> &str {
        &self.what
    }

    fn calls(&self) -> usize {
        1
    }

    fn runs(&self) -> usize {
        5
    }

    /// A spacing that is none is refused when the road, its samples and the lane are checked.
    fn run(&self, side: usize) {
        let mut list = [0.0; DOTS];
        match side {
            0 => assert_eq!(self.ours(black_box(self.spacing), &mut list).0, 0),
            1 => assert_eq!(self.ours(black_box(f32::NAN), &mut list).0, 15),
            2 => with_stand_ins(black_box(&self.theirs), self),
            _ => with_its_own(black_box(&self.own), self),
        }
        black_box(&list);
    }
}

/// A line of 400 m with one lane.
fn one_lane() -> Road {
    let wide = Cubic { a: 3.5, ..Cubic::default() };
    let left = vec![Lane { extents: vec![wide], ..Lane::default() }];
    Road { sections: vec![Section { left, ..Section::default() }], ..one_geometry(Shape::Line, 400.0) }
}

pub fn cases() -> Vec<Box<dyn Case>> {
    vec![
        Box::new(Dots::new("2,000 dots over 500 stations of a line with one lane", one_lane(), 0)),
        Box::new(Dots::new("2,000 dots over 500 stations of the third of 12 lanes, with every table", every_table(), 2)),
    ]
}

pub fn dots() {
    sides::table(&cases());
}
