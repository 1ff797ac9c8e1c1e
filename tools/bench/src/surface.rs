// Station, axes, surface, lane surface and locate: each call whole, the check of its road and arguments, and the call less that
// check; against the Rust with document 01's stand-ins, and against the Rust with its own library functions.
use crate::lanes::twelve_lanes;
use crate::{lay, one_geometry, sides};
use archive::riftkettle as ours;
use published::oracle::Oracle;
use published::own::oracle::Oracle as Own;
use second::model::*;
use second::random::Rng;
use std::hint::black_box;

#[derive(Clone, Copy)]
enum Call {
    Station,
    Axes,
    Surface,
    LaneSurface,
    Locate,
}

impl Call {
    /// Arguments that the call refuses last, so that it makes every check and nothing more.
    fn refused(self) -> [f64; 3] {
        match self {
            Call::Station | Call::Axes => [-1.0, 0.0, 0.0],
            Call::Surface | Call::LaneSurface => [1.0, 81.0, 0.0],
            Call::Locate => [1e9, 0.0, 1.0],
        }
    }
}

/// The lane that `LaneSurface` asks for.
const LANE: i32 = 3;

/// A road for all three sides, a call, and what it is asked: s and t, or x, y and a guess.
struct Case {
    what: String,
    call: Call,
    m: Memory,
    samples: Vec<f64>,
    theirs: Oracle,
    own: Own,
    asked: Vec<[f64; 3]>,
}

impl Case {
    fn new(what: &str, call: Call, road: &Road, rng: &mut Rng) -> Self {
        let theirs = Oracle::new(road);
        let place = |rng: &mut Rng| {
            let (s, t) = (rng.between(0.0, road.length), rng.between(-15.0, 15.0));
            match call {
                Call::Locate => {
                    let [x, y, ..] = theirs.xyz(s, t);
                    [x, y, s + rng.between(-3.0, 3.0)]
                }
                _ => [s, t, 0.0],
            }
        };
        let asked = (0..256).map(|_| place(rng)).collect();
        Self { what: what.into(), call, m: lay(road), samples: theirs.samples(), own: Own::new(road), asked, theirs }
    }

    #[inline(never)]
    fn ours(&self, [a, b, c]: [f64; 3]) -> u32 {
        let (m, samples) = (&self.m, &self.samples);
        let (mut station, mut axes, mut point, mut heading) = ([0.0; 8], [0.0; 9], [0.0; 3], 0.0);
        let (mut pair, mut moves, mut met) = ([0.0; 2], 0, 0);
        let code = match self.call {
            Call::Station => ours::station(m, samples, a, &mut station),
            Call::Axes => ours::axes(m, samples, a, &mut axes),
            Call::Surface => ours::surface(m, samples, a, b, &mut point, &mut heading),
            Call::LaneSurface => ours::lane_surface(m, samples, LANE, a, b, &mut point, &mut heading),
            Call::Locate => ours::locate(m, samples, a, b, c, &mut pair, &mut moves, &mut met),
        };
        black_box((&station, &axes, &point, heading, &pair, moves, met));
        code
    }
}

/// The Rust's side, by either library.
macro_rules! rust {
    ($name:ident, $oracle:ty) => {
        #[inline(never)]
        fn $name(of: &$oracle, call: Call, [a, b, c]: [f64; 3]) {
            match call {
                Call::Station => drop(black_box(of.station(a))),
                Call::Axes => drop(black_box(of.axes(a))),
                Call::Surface => drop(black_box(of.surface(a, b))),
                Call::LaneSurface => drop(black_box(of.lane_surface(0, LANE, a, b))),
                Call::Locate => drop(black_box(of.locate(a, b, c))),
            }
        }
    };
}
rust!(with_stand_ins, Oracle);
rust!(with_its_own, Own);

impl sides::Case for Case {
    fn what(&self) -> &str {
        &self.what
    }

    fn calls(&self) -> usize {
        self.asked.len()
    }

    fn runs(&self) -> usize {
        6
    }

    fn run(&self, side: usize) {
        let refused = self.call.refused();
        for &asked in black_box(&self.asked) {
            match side {
                0 => assert_eq!(self.ours(asked), 0),
                1 => assert!(self.ours(black_box(refused)) > 6),
                2 => with_stand_ins(black_box(&self.theirs), self.call, asked),
                _ => with_its_own(black_box(&self.own), self.call, asked),
            }
        }
    }
}

fn cubics(list: &[(f64, f64)]) -> Vec<Cubic> {
    list.iter().map(|&(start, a)| Cubic { start, a, b: 0.001, c: 0.000001, d: 0.0 }).collect()
}

/// Six lanes a side with heights, on a line that climbs and is banked.
fn raised() -> Road {
    Road { elev: cubics(&[(0.0, 12.0), (200.0, 12.3)]), bank: cubics(&[(0.0, 0.05), (200.0, 0.06)]), ..twelve_lanes() }
}

/// Six level lanes a side without heights of their own, on a line that climbs and is banked, without profiles and cross section.
fn level() -> Road {
    let mut road = Road { profiles: Vec::new(), ..raised() };
    let section = &mut road.sections[0];
    for lane in section.left.iter_mut().chain(&mut section.right) {
        (lane.level, lane.heights) = (true, Vec::new());
    }
    road
}

/// The same lanes, none of them level: nothing stands off.
fn bare_lanes() -> Road {
    let mut road = level();
    let section = &mut road.sections[0];
    section.left.iter_mut().chain(&mut section.right).for_each(|lane| lane.level = false);
    road
}

/// Every table: the same lanes, one of them level, on a line, an arc and a spiral, with a cross section of four strips.
pub fn every_table() -> Road {
    let mut road = raised();
    let geom = |s, x, y, hdg, length, shape| Geom { s, x, y, hdg, length, shape };
    road.geoms = vec![
        geom(0.0, 10.0, 20.0, 0.0, 150.0, Shape::Line),
        geom(150.0, 160.0, 20.0, 0.0, 150.0, Shape::Arc(0.004)),
        geom(300.0, 301.2, 63.7, 0.6, 100.0, Shape::Spiral(0.004, 0.0)),
    ];
    road.sections[0].left[4].level = true;
    road.tshift = cubics(&[(0.0, 0.2), (200.0, 0.3)]);
    let one = |a: f64| vec![Cubic { start: 0.0, a, ..Cubic::default() }];
    let strip = || Strip { relative: true, lists: [one(6.0), one(0.05), one(-0.02), one(0.0001), Vec::new()] };
    road.strips = [0, 1, 2, 3].map(|_| Some(strip()));
    road
}

pub fn cases() -> Vec<Box<dyn sides::Case>> {
    let mut rng = Rng::new(2, "bench of the surface");
    let shape = |shape| one_geometry(shape, 400.0);
    let (line, arc, spiral) = (shape(Shape::Line), shape(Shape::Arc(0.004)), shape(Shape::Spiral(0.0, 0.004)));
    let (raised, every, level, bare) = (raised(), every_table(), level(), bare_lanes());
    [
        ("station on a bare line", Call::Station, &line),
        ("station with every table", Call::Station, &every),
        ("axes on a bare line", Call::Axes, &line),
        ("axes with every table", Call::Axes, &every),
        ("surface on a bare line", Call::Surface, &line),
        ("surface on a bare 400 m spiral", Call::Surface, &spiral),
        ("surface with lanes and heights", Call::Surface, &raised),
        ("surface with every table", Call::Surface, &every),
        ("lane surface with lanes and heights", Call::LaneSurface, &raised),
        ("lane surface with every table", Call::LaneSurface, &every),
        ("locate on a bare line", Call::Locate, &line),
        ("locate on a bare arc", Call::Locate, &arc),
        ("locate on a bare 400 m spiral", Call::Locate, &spiral),
        ("locate with lanes and heights", Call::Locate, &raised),
        ("locate with every table", Call::Locate, &every),
        ("surface on 12 level lanes", Call::Surface, &level),
        ("lane surface on 12 level lanes", Call::LaneSurface, &level),
        ("locate on 12 level lanes", Call::Locate, &level),
        ("surface on 12 lanes, nothing raised", Call::Surface, &bare),
        ("lane surface on 12 lanes, nothing raised", Call::LaneSurface, &bare),
        ("locate on 12 lanes, nothing raised", Call::Locate, &bare),
    ]
    .map(|(what, call, road)| -> Box<dyn sides::Case> { Box::new(Case::new(what, call, road, &mut rng)) })
    .into()
}

pub fn surface() {
    sides::table(&cases());
}
