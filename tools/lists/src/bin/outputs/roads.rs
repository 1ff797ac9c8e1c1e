// The roads of the examples, one for each feature: realistic, and without holes, each geometry ending where the next begins.
use published::oracle::Line;
use second::model::{Cubic, Geom, Height, Lane, Mark, Profile, Road, Section, Shape, Strip};

pub fn cubic(start: f64, a: f64, b: f64, c: f64, d: f64) -> Cubic {
    Cubic { start, a, b, c, d }
}

/// A list of constants.
pub fn flat(list: &[[f64; 2]]) -> Vec<Cubic> {
    list.iter().map(|&[start, a]| cubic(start, a, 0.0, 0.0, 0.0)).collect()
}

/// Geometries head to tail from a pose on: each begins where the published Rust says that the last one ends.
pub fn chain(from: [f64; 3], parts: &[(f64, Shape)]) -> Vec<Geom> {
    let ([mut x, mut y, mut hdg], mut s) = (from, 0.0);
    let mut geoms = Vec::new();
    for &(length, shape) in parts {
        let g = Geom { s, x, y, hdg, length, shape };
        s += length;
        (x, y, hdg) = Line::new(&g).pose(s);
        geoms.push(g);
    }
    geoms
}

/// A road over a chain, with one section that has no lanes.
pub fn road(from: [f64; 3], parts: &[(f64, Shape)]) -> Road {
    let length = parts.iter().map(|p| p.0).sum();
    Road { length, geoms: chain(from, parts), sections: vec![Section::default()], ..Road::default() }
}

/// A straight road along x.
pub fn straight(length: f64) -> Road {
    road([0.0; 3], &[(length, Shape::Line)])
}

pub fn width(a: f64) -> Lane {
    Lane { extents: flat(&[[0.0, a]]), ..Lane::default() }
}

pub fn border(a: f64) -> Lane {
    Lane { border: true, ..width(a) }
}

/// The lane with a kerb: as high at its inner border as at its outer.
pub fn raised(lane: Lane, height: f64) -> Lane {
    Lane { heights: vec![Height { start: 0.0, inner: height, outer: height }], ..lane }
}

pub fn sloped(lane: Lane, inner: f64, outer: f64) -> Lane {
    Lane { heights: vec![Height { start: 0.0, inner, outer }], ..lane }
}

pub fn level(lane: Lane) -> Lane {
    Lane { level: true, ..lane }
}

pub fn section(start: f64, left: Vec<Lane>, right: Vec<Lane>) -> Section {
    Section { start, left, right, marks: Vec::new() }
}

/// The road with marks on a section: the place of the lane, kind, start, end.
pub fn marked(mut road: Road, section: usize, marks: &[(usize, u16, f64, f64)]) -> Road {
    road.sections[section].marks = marks.iter().map(|&(lane, kind, start, end)| Mark { lane, kind, start, end }).collect();
    road
}

/// A strip with a width and a fall across it.
pub fn strip(relative: bool, width: f64, slope: f64) -> Strip {
    Strip { relative, lists: [flat(&[[0.0, width]]), Vec::new(), flat(&[[0.0, slope]]), Vec::new(), Vec::new()] }
}

/// A bend between two straights, with a spiral into it and one out of it.
fn bend() -> Road {
    let k = 0.0125;
    let parts = [
        (50.0, Shape::Line),
        (30.0, Shape::Spiral(0.0, k)),
        (40.0, Shape::Arc(k)),
        (30.0, Shape::Spiral(k, 0.0)),
        (50.0, Shape::Line),
    ];
    road([500.0, 200.0, 0.5], &parts)
}

/// All of it: a bend to the left and one to the right, each banked into and entered by spirals, over a crest, with kerbs; on the left a
/// lane opens over 30 m.
fn country_road() -> Road {
    let k = 0.00625;
    let parts = [
        (60.0, Shape::Line),
        (40.0, Shape::Spiral(0.0, k)),
        (70.0, Shape::Arc(k)),
        (40.0, Shape::Spiral(k, 0.0)),
        (40.0, Shape::Spiral(0.0, -k)),
        (80.0, Shape::Arc(-k)),
        (40.0, Shape::Spiral(-k, 0.0)),
        (60.0, Shape::Line),
    ];
    // Two halves, each bent one way: the bound of one cubic that bends both ways would be over 8.
    let widening =
        vec![cubic(0.0, 0.0, 0.0, 0.007, 0.0), cubic(15.0, 1.575, 0.21, -0.007, 0.0), cubic(30.0, 3.15, 0.0, 0.0, 0.0)];
    let opening = Lane { extents: widening, ..Lane::default() };
    let kerb = || raised(width(1.5), 0.125);
    let right = || vec![width(3.5), kerb()];
    Road {
        elev: vec![
            cubic(0.0, 212.0, 0.03, 0.0, 0.0),
            cubic(150.0, 216.5, 0.03, -0.0002, 0.0),
            cubic(350.0, 214.5, -0.05, 0.0, 0.0),
        ],
        bank: vec![
            cubic(60.0, 0.0, -0.00125, 0.0, 0.0),
            cubic(100.0, -0.05, 0.0, 0.0, 0.0),
            cubic(170.0, -0.05, 0.00125, 0.0, 0.0),
            cubic(250.0, 0.05, 0.0, 0.0, 0.0),
            cubic(330.0, 0.05, -0.00125, 0.0, 0.0),
            cubic(370.0, 0.0, 0.0, 0.0, 0.0),
        ],
        sections: vec![
            section(0.0, vec![width(3.5), kerb()], right()),
            section(180.0, vec![width(3.5), opening, kerb()], right()),
            section(330.0, vec![width(3.5), width(3.15), kerb()], right()),
        ],
        ..road([500.0, 200.0, 0.5], &parts)
    }
}

pub type Example = (&'static str, Road, Vec<[f64; 2]>);

pub fn examples() -> Vec<Example> {
    let m1 = ("m1", straight(10.0), vec![[1.0, 2.0]]);
    let line = ("line", road([500.0, 200.0, 0.5], &[(120.0, Shape::Line)]), vec![[0.0, 0.0], [60.0, 3.5], [120.0, -3.5]]);
    let parts = [(40.0, Shape::Line), (60.0, Shape::Arc(0.02)), (20.0, Shape::Line)];
    let arc =
        ("arc", road([500.0, 200.0, 0.5], &parts), vec![[20.0, 1.75], [40.0, 0.0], [70.0, 1.75], [100.0, -1.75], [120.0, 0.0]]);
    let spiral = ("spiral", bend(), vec![[50.0, 0.0], [65.0, 1.75], [100.0, 1.75], [140.0, -1.75], [200.0, 0.0]]);

    // Up at 3 in 100, over a crest, down; a bank of 0.05 that grows from 50 to 100.
    let elevation_bank = Road {
        elev: vec![cubic(0.0, 100.0, 0.03, 0.0, 0.0), cubic(100.0, 103.0, 0.03, -0.0005, 0.0)],
        bank: vec![cubic(50.0, 0.0, 0.001, 0.0, 0.0), cubic(100.0, 0.05, 0.0, 0.0, 0.0)],
        ..road([500.0, 200.0, 0.5], &[(200.0, Shape::Line)])
    };
    let elevation_bank =
        ("elevation_bank", elevation_bank, vec![[25.0, 3.5], [75.0, 3.5], [130.0, 3.5], [130.0, -3.5], [200.0, 0.0]]);

    // A lane that narrows, and behind it a pavement an eighth of a metre high: where it begins follows from the width.
    let narrowing = Lane { extents: vec![cubic(0.0, 3.5, -0.005, 0.0, 0.0)], ..Lane::default() };
    let lanes_width = Road {
        offset: vec![cubic(0.0, 0.25, 0.0, 0.0, 0.0)],
        sections: vec![section(0.0, vec![narrowing, raised(width(2.0), 0.125)], vec![width(3.5), raised(width(1.5), 0.125)])],
        ..straight(100.0)
    };
    let lanes_width = ("lanes_width", lanes_width, vec![[0.0, 3.5], [80.0, 3.5], [50.0, 5.0], [50.0, -3.0], [50.0, -4.0]]);

    let lanes_border = Road {
        sections: vec![section(
            0.0,
            vec![border(3.5), raised(border(5.5), 0.125)],
            vec![border(-3.25), raised(border(-5.0), 0.125)],
        )],
        ..straight(100.0)
    };
    let lanes_border = ("lanes_border", lanes_border, vec![[10.0, 3.0], [10.0, 4.0], [50.0, -3.0], [50.0, -3.5], [90.0, 0.0]]);

    // A banked lane, and beside it a pavement that stays level behind its kerb; on the right one that falls outward.
    let level_heights = Road {
        bank: flat(&[[0.0, 0.05]]),
        sections: vec![section(
            0.0,
            vec![width(3.5), level(raised(width(2.0), 0.125))],
            vec![width(3.5), sloped(width(1.5), 0.125, 0.0625)],
        )],
        ..straight(100.0)
    };
    let level_heights = ("level_heights", level_heights, vec![[50.0, 3.0], [50.0, 4.0], [50.0, 5.5], [50.0, -4.0], [50.0, -5.0]]);

    // A crown that is flat at the road's end.
    let profiles = Road {
        profiles: vec![
            Profile { s: 0.0, shapes: vec![cubic(-4.0, -0.08, 0.02, 0.0, 0.0), cubic(0.0, 0.0, -0.02, 0.0, 0.0)] },
            Profile { s: 100.0, shapes: flat(&[[-4.0, 0.0]]) },
        ],
        ..straight(100.0)
    };
    let profiles = ("profiles", profiles, vec![[0.0, 0.0], [0.0, 3.0], [0.0, -3.0], [50.0, 3.0], [100.0, 3.0]]);

    // Falls of 2 in 100 to both sides, and beyond 3.5 m a shoulder that falls by 5 in 100 from the strip's edge; t is negative on the
    // right, so its slopes are positive.
    let strips = Road {
        tshift: flat(&[[0.0, 0.25]]),
        strips: [
            Some(strip(false, 3.5, -0.02)),
            Some(strip(true, 1.5, -0.05)),
            Some(strip(false, 3.5, 0.02)),
            Some(strip(true, 1.5, 0.05)),
        ],
        ..straight(100.0)
    };
    let strips = ("strips", strips, vec![[10.0, 0.25], [50.0, 2.0], [50.0, 4.5], [50.0, -2.0], [50.0, -4.5]]);

    // From 60 on a second lane on the left, so the pavement begins further out.
    let two_sections = Road {
        sections: vec![
            section(0.0, vec![width(3.5), raised(width(2.0), 0.125)], vec![width(3.5)]),
            section(60.0, vec![width(3.5), width(3.25), raised(width(2.0), 0.125)], vec![width(3.5)]),
        ],
        ..straight(100.0)
    };
    let wants = vec![[30.0, 3.0], [30.0, 4.0], [60.0, 4.0], [80.0, 7.0], [100.0, -3.0]];
    // The same road with paint on it, kind 1 with a gap, and the same points.
    let first = [(0, 1, 0.0, 20.0), (2, 2, 0.0, 60.0), (0, 1, 40.0, 60.0), (1, 3, 15.0, 45.0)];
    let marks = marked(marked(two_sections.clone(), 0, &first), 1, &[(0, 1, 0.0, 40.0), (1, 3, 10.0, 30.0), (3, 2, 0.0, 40.0)]);
    let marks = ("marks", marks, wants.clone());
    let two_sections = ("two_sections", two_sections, wants);

    let country_road =
        ("country_road", country_road(), vec![[30.0, 3.5], [135.0, -3.5], [195.0, 4.0], [290.0, 7.0], [400.0, -4.25]]);

    vec![
        m1,
        line,
        arc,
        spiral,
        elevation_bank,
        lanes_width,
        lanes_border,
        level_heights,
        profiles,
        strips,
        two_sections,
        marks,
        country_road,
    ]
}
