// The jobs, by kind: every kind of record, wants on the road and off it, every refusal that a job can have.
use crate::roads::{self, border, cubic, flat, level, marked, raised, road, section, sloped, straight, strip, width};
use crate::{List, job};
use lists::draft::{self, Draft};
use second::model::{Cubic, Height, Lane, Profile, Road, Shape, Strip};
use second::random::Rng;
use second::reader::Name::{self, *};
use second::reader::TABLES;
use second::texts;

const SEED: u64 = 1;

pub fn all(list: &mut List) {
    list.kind("example");
    roads::examples().iter().for_each(|(_, road, wants)| list.answered(road, wants));
    lines(list);
    arcs(list);
    spirals(list);
    along(list);
    sections(list);
    lanes(list);
    heights(list);
    profiles(list);
    strips(list);
    marks(list);
    wants(list);
    zeros(list);
    columns(list);
    random(list);
    refused(list);
}

/// Wants over a road: its ends, its middle, both sides.
fn over(length: f64) -> [[f64; 2]; 5] {
    [[0.0, 0.0], [length / 4.0, 1.75], [length / 2.0, -3.5], [length * 0.875, 5.25], [length, -6.5]]
}

// ---- along the road

fn lines(list: &mut List) {
    list.kind("line");
    for hdg in [0.0, 0.5, -2.0, 3.2, 1000.0, -999.5] {
        for [x, y] in [[0.0, 0.0], [1_000_000.0, -1_000_000.0], [123.456, -7.5]] {
            list.answered(&road([x, y, hdg], &[(80.0, Shape::Line)]), &over(80.0));
        }
    }
    for length in [0.01, 10_000.0] {
        list.answered(&road([1.0, 2.0, 0.25], &[(length, Shape::Line)]), &over(length));
    }
    // Neither line nor arc stops at its length; the last of equal starts counts.
    let mut short = road([5.0, 6.0, 0.75], &[(2.0, Shape::Line), (3.0, Shape::Arc(0.01))]);
    short.length = 40.0;
    list.answered(&short, &over(40.0));
    short.geoms[1].s = 0.0;
    list.answered(&short, &over(40.0));
}

fn arcs(list: &mut List) {
    list.kind("arc");
    for k in [0.0, 1e-9, 0.00001, 0.002, 0.0125, 0.5, 1.0] {
        for k in [k, -k] {
            list.answered(&road([10.0, 20.0, 0.3], &[(60.0, Shape::Arc(k))]), &over(60.0));
        }
    }
    let s = [(20.0, Shape::Arc(0.02)), (20.0, Shape::Arc(-0.02)), (20.0, Shape::Line)];
    list.answered(&road([10.0, 20.0, -0.3], &s), &over(60.0));
}

fn spirals(list: &mut List) {
    list.kind("spiral");
    for (k0, k1) in [(0.0, 0.01), (0.01, 0.0), (-0.02, 0.02), (1.0, -1.0), (0.05, 0.05)] {
        for length in [0.01, 0.5, 0.6, 33.1] {
            list.answered(&road([10.0, 20.0, 0.3], &[(length, Shape::Spiral(k0, k1))]), &over(length));
        }
    }
    list.answered(&road([0.0; 3], &[(499.75, Shape::Spiral(0.001, -0.001))]), &over(499.75));
    let two = [(30.0, Shape::Spiral(0.0, 0.02)), (25.0, Shape::Arc(0.02)), (30.0, Shape::Spiral(0.02, 0.0)), (15.0, Shape::Line)];
    list.answered(&road([-40.0, 12.0, 2.5], &two), &over(100.0));
    // A spiral stops at its length.
    let mut short = road([5.0, 6.0, 0.75], &[(2.0, Shape::Spiral(0.0, 0.5))]);
    short.length = 10.0;
    list.answered(&short, &over(10.0));
}

/// Lists along the road, of one record and of several: constants, slopes, cubics, none before the first start.
fn lists(a: f64, length: f64) -> [Vec<Cubic>; 6] {
    [
        flat(&[[0.0, a]]),
        flat(&[[length / 3.0, a]]),
        vec![cubic(0.0, 0.0, a / length, 0.0, 0.0)],
        vec![cubic(0.0, a / 2.0, -a / (4.0 * length), a / (8.0 * length * length), -a / (16.0 * length * length * length))],
        flat(&[[0.0, a], [length / 4.0, -a], [length / 2.0, 0.0], [length / 2.0, a / 2.0]]),
        vec![cubic(0.0, a / 4.0, 0.0, 0.0, 0.0), cubic(length / 2.0, 0.0, a / (2.0 * length), 0.0, 0.0)],
    ]
}

fn along(list: &mut List) {
    let base = || Road {
        sections: vec![section(0.0, vec![width(3.5), raised(width(2.0), 0.125)], vec![border(-3.5), raised(border(-6.0), 0.25)])],
        ..road([100.0, 50.0, 0.7], &[(30.0, Shape::Line), (50.0, Shape::Arc(-0.01))])
    };
    list.kind("elev");
    for elev in lists(12.0, 80.0).into_iter().chain(lists(-5_000.0, 80.0).into_iter().take(2)) {
        list.answered(&Road { elev, ..base() }, &over(80.0));
    }
    list.kind("bank");
    for bank in lists(0.0625, 80.0).into_iter().chain([flat(&[[0.0, 0.75]]), flat(&[[0.0, -0.75]])]) {
        list.answered(&Road { bank, elev: flat(&[[0.0, 12.0]]), ..base() }, &over(80.0));
    }
    list.kind("offset");
    for offset in lists(1.5, 80.0).into_iter().chain([flat(&[[0.0, 8.0]])]) {
        list.answered(&Road { offset, ..base() }, &over(80.0));
    }
    list.kind("tshift");
    for tshift in lists(0.5, 80.0).into_iter().chain([flat(&[[0.0, -8.0]])]) {
        let strips = [Some(strip(false, 3.0, 0.02)), None, Some(strip(false, 3.0, -0.03)), None];
        list.answered(&Road { tshift, strips, ..base() }, &over(80.0));
    }
    // The cross section is there by tshift alone, and no strip stands in it.
    list.answered(&Road { tshift: flat(&[[0.0, 0.5]]), ..base() }, &over(80.0));
}

// ---- across the road

fn sections(list: &mut List) {
    list.kind("section");
    for n in [1, 2, 3, 5, 16] {
        let lane = |i: usize| raised(width(1.0 + i as f64 / 4.0), 0.0625 * (i + 1) as f64);
        let made = (0..n).map(|i| section(100.0 / n as f64 * i as f64, vec![lane(i), lane(i + 1)], vec![lane(i)]));
        let road = Road { sections: made.collect(), ..straight(100.0) };
        list.answered(&road, &over(100.0));
        list.answered(&road, &[[50.0 - 5e-10, 1.5], [50.0, 1.5], [50.0 + 5e-10, 1.5], [99.999, -0.5]]);
    }
    // A section without lanes, and one that starts at the road's end.
    let last = |start| section(start, vec![raised(width(2.0), 0.25)], vec![raised(border(-2.0), 0.5)]);
    list.answered(&Road { sections: vec![section(0.0, Vec::new(), Vec::new()), last(50.0)], ..straight(100.0) }, &over(100.0));
    list.answered(&Road { sections: vec![last(0.0), last(100.0)], ..straight(100.0) }, &over(100.0));
}

fn lanes(list: &mut List) {
    let wants = [[0.0, 1.0], [20.0, 3.25], [50.0, 5.0], [60.0, -3.0], [80.0, -5.5], [100.0, 7.0]];
    for (kind, lane) in [("width lane", width as fn(f64) -> Lane), ("border lane", border)] {
        list.kind(kind);
        let is_border = kind == "border lane";
        for n in 1..=6_u32 {
            let at = |i: u32, sign: f64| if is_border { sign * 1.25 * f64::from(i) } else { 1.25 };
            let side = |sign| (1..=n).map(|i| raised(lane(at(i, sign)), 0.0625 * f64::from(i))).collect();
            list.answered(&Road { sections: vec![section(0.0, side(1.0), side(-1.0))], ..straight(100.0) }, &wants);
            list.answered(
                &Road { offset: flat(&[[0.0, 1.0]]), sections: vec![section(0.0, side(1.0), Vec::new())], ..straight(100.0) },
                &wants,
            );
        }
        let outward = if is_border { [3.0, -2.0, 5.0, 4.0] } else { [3.0, -2.0, 2.0, 0.0] };
        let left: Vec<Lane> = outward.into_iter().map(|a| sloped(lane(a), 0.125, 0.25)).collect();
        let right = if is_border { left.iter().cloned().rev().collect() } else { left.clone() };
        list.answered(&Road { sections: vec![section(0.0, left, right)], ..straight(100.0) }, &wants);
        // No extent, an extent that begins later, and one that narrows.
        let none = Lane { extents: Vec::new(), ..raised(lane(0.0), 0.25) };
        let later = Lane { extents: flat(&[[40.0, 3.0]]), ..raised(lane(0.0), 0.125) };
        let narrow = Lane { extents: vec![cubic(0.0, 3.5, -0.03, 0.0, 0.0)], ..raised(lane(0.0), 0.5) };
        list.answered(&Road { sections: vec![section(0.0, vec![none, later.clone()], vec![later])], ..straight(100.0) }, &wants);
        list.answered(
            &Road {
                sections: vec![section(0.0, vec![narrow.clone(), raised(lane(4.0), 0.25)], vec![narrow])],
                ..straight(100.0)
            },
            &wants,
        );
    }
}

fn heights(list: &mut List) {
    let wants = [[0.0, 1.0], [25.0, 4.0], [50.0, 5.0], [60.0, -3.0], [80.0, -5.5], [100.0, 9.0], [100.0, -9.0]];
    let sides = |left: Vec<Lane>, right: Vec<Lane>| Road { sections: vec![section(0.0, left, right)], ..straight(100.0) };
    list.kind("level");
    for bank in [0.0, 0.05, -0.05, 0.75] {
        for at in 0..3 {
            let lane = |i: usize| if i == at { level(width(2.0)) } else { width(2.0) };
            let side = || (0..3).map(lane).collect();
            list.answered(&Road { bank: flat(&[[0.0, bank]]), ..sides(side(), side()) }, &wants);
        }
    }
    list.answered(
        &Road {
            bank: flat(&[[0.0, 0.05]]),
            ..sides(vec![level(raised(border(3.0), 0.125)), border(6.0)], vec![level(border(-3.0))])
        },
        &wants,
    );
    list.kind("height");
    let steps = |list: &[[f64; 3]]| {
        let heights = list.iter().map(|&[start, inner, outer]| Height { start, inner, outer }).collect();
        Lane { heights, ..width(4.0) }
    };
    for step in [
        &[[0.0, 0.125, 0.25]][..],
        &[[0.0, 0.0, 1.0], [10.0, 2.0, 1.5]],
        &[[30.0, 0.25, -0.25], [60.0, 0.5, 0.0], [60.5, 2.0, -2.0]],
        &[[-5.0, 0.1, 0.2], [50.0, 0.3, 0.4], [50.002, 0.5, 0.6], [99.0, 0.7, 0.8]],
        &[[0.0, 0.0, 0.0], [1.0, 0.0, 0.0]],
    ] {
        list.answered(&sides(vec![steps(step)], Vec::new()), &wants);
        list.answered(&sides(vec![steps(step), steps(step)], vec![steps(step)]), &wants);
        list.answered(
            &Road {
                bank: flat(&[[0.0, 0.1]]),
                elev: flat(&[[0.0, 40.0]]),
                ..sides(vec![width(1.0), steps(step)], vec![steps(step)])
            },
            &wants,
        );
    }
}

fn profiles(list: &mut List) {
    list.kind("profile");
    let wants = [[0.0, 0.0], [12.5, 2.0], [25.0, -3.0], [50.0, -80.0], [75.0, 80.0], [100.0, 1.0], [50.0, -4.5]];
    let crown = || vec![cubic(-4.0, -0.08, 0.02, 0.0, 0.0), cubic(0.0, 0.0, -0.02, 0.0, 0.0)];
    let sag =
        || vec![cubic(-80.0, 0.5, -0.001, 0.00001, 0.0), cubic(-2.0, 0.25, 0.0, 0.01, -0.001), cubic(5.0, 1.0, 0.0, 0.0, 0.0)];
    let set = [
        vec![(0.0, crown())],
        vec![(40.0, crown())],
        vec![(0.0, crown()), (50.0, sag())],
        vec![(20.0, sag()), (60.0, crown()), (60.002, sag())],
        vec![(0.0, flat(&[[0.0, 0.25], [0.0, 0.5], [3.0, 0.125]]))],
        vec![(0.0, flat(&[[80.0, 40.0]])), (100.0, flat(&[[-80.0, -40.0]]))],
    ];
    for profiles in set {
        let profiles: Vec<Profile> = profiles.into_iter().map(|(s, shapes)| Profile { s, shapes }).collect();
        list.answered(&Road { profiles: profiles.clone(), ..straight(100.0) }, &wants);
        list.answered(
            &Road { profiles: profiles.clone(), offset: flat(&[[0.0, 1.0]]), bank: flat(&[[0.0, -0.05]]), ..straight(100.0) },
            &wants,
        );
        let sections = vec![section(0.0, vec![width(3.0), raised(width(2.0), 0.125)], vec![level(border(-3.0))])];
        list.answered(&Road { profiles, sections, elev: flat(&[[0.0, 7.0]]), ..straight(100.0) }, &wants);
    }
}

fn strips(list: &mut List) {
    list.kind("strip");
    let wants = [[0.0, 0.0], [20.0, 2.0], [50.0, 4.5], [50.0, -4.5], [70.0, -2.0], [100.0, 40.0], [100.0, -80.0]];
    let terms = |relative, at: f64| Strip {
        relative,
        lists: [
            vec![cubic(at, 3.0, 0.01, 0.0, 0.0)],
            flat(&[[0.0, 0.05], [60.0, 0.1]]),
            flat(&[[0.0, -0.02]]),
            vec![cubic(10.0, 0.001, 0.0, 0.0, 0.0)],
            flat(&[[0.0, -0.00001]]),
        ],
    };
    let set = [
        [Some(strip(false, 3.0, -0.02)), None, None, None],
        [None, None, Some(strip(false, 3.0, 0.02)), None],
        [None, Some(strip(true, 3.0, 0.1)), None, Some(strip(false, 3.0, 0.1))],
        [
            Some(strip(false, 3.5, -0.02)),
            Some(strip(true, 1.5, -0.05)),
            Some(strip(false, 3.5, -0.02)),
            Some(strip(false, 1.5, -0.05)),
        ],
        [Some(terms(false, 0.0)), Some(terms(true, 0.0)), Some(terms(true, 30.0)), Some(terms(false, 0.0))],
        [Some(Strip::default()), Some(strip(true, 1.0, 0.05)), Some(strip(false, 0.0, 0.05)), Some(strip(true, 1.0, 0.05))],
    ];
    for strips in set {
        list.answered(&Road { strips: strips.clone(), ..straight(100.0) }, &wants);
        let sections = vec![section(0.0, vec![width(3.0), raised(width(2.0), 0.125)], vec![level(border(-3.0))])];
        let more = Road { sections, bank: flat(&[[0.0, 0.05]]), tshift: flat(&[[0.0, 0.25]]), ..straight(100.0) };
        list.answered(&Road { strips: strips.clone(), ..more }, &wants);
        let profiles = vec![Profile { s: 0.0, shapes: flat(&[[0.0, 0.5]]) }];
        list.answered(&Road { strips, profiles, ..road([9.0, 8.0, 1.0], &[(100.0, Shape::Spiral(0.0, 0.01))]) }, &wants);
    }
}

/// Points are unaffected by spans: each road with its marks and without.
fn marks(list: &mut List) {
    list.kind("mark");
    let lanes = || vec![width(3.0), raised(width(2.0), 0.125)];
    let two = || vec![section(0.0, lanes(), vec![level(border(-3.0))]), section(60.0, vec![width(2.5)], lanes())];
    let base = || Road { sections: two(), bank: flat(&[[0.0, 0.05]]), ..straight(100.0) };
    let full: Vec<_> = (0..16).map(|k| (k % 3, k as u16 + 1, 3.0 * k as f64, 60.0)).collect();
    let set = [
        &[(0, 1, 0.0, 60.0)][..],
        &[(0, 255, 0.0, 0.0), (1, 1, 60.0, 60.0), (2, 2, -0.0, 30.0)],
        &[(2, 1, 0.0, 60.0), (0, 1, 25.0, 50.0), (2, 1, 25.0, 30.0), (0, 3, 25.0, 26.0)],
        &full,
    ];
    list.answered(&base(), &over(100.0));
    for marks in set {
        list.answered(&marked(base(), 0, marks), &over(100.0));
    }
    list.answered(&marked(marked(base(), 0, &full), 1, &[(2, 7, 0.0, 40.0)]), &over(100.0));
}

// ---- wants

fn bits(bits: u64) -> f64 {
    f64::from_bits(bits)
}

fn wants(list: &mut List) {
    list.kind("wants");
    let d = job(&road([100.0, 50.0, 0.7], &[(30.0, Shape::Line), (50.0, Shape::Arc(-0.01))]), &[[1.0, 2.0]]);
    let with =
        |wants: &[[f64; 2]]| d.change(Want, |lines| *lines = wants.iter().map(|w| w.map(texts::digits).into()).collect()).text();
    // "s = length answered, above it 7"; "NaN is outside every range".
    let (nan, quiet, negative) = (bits(0x7ff0_0000_0000_0001), bits(0x7ff8_0000_0000_0000), bits(0xffff_ffff_ffff_ffff));
    for (s, says) in [
        (0.0, "p"),
        (-0.0, "p"),
        (bits(1), "p"),
        (80.0, "p"),
        (80_f64.next_down(), "p"),
        (80_f64.next_up(), "7"),
        (bits(0x8000_0000_0000_0001), "7"),
        (-1.0, "7"),
        (f64::MAX, "7"),
        (f64::INFINITY, "7"),
        (f64::NEG_INFINITY, "7"),
        (nan, "7"),
        (quiet, "7"),
        (negative, "7"),
    ] {
        list.job(with(&[[s, 2.0]]), says);
        // Both outside: row 7 is first.
        list.job(with(&[[s, 81.0], [s, quiet]]), &if says == "p" { "8" } else { "7" }.repeat(2));
    }
    for (t, says) in [
        (0.0, "p"),
        (-0.0, "p"),
        (80.0, "p"),
        (-80.0, "p"),
        (80_f64.next_up(), "8"),
        (-80_f64.next_up(), "8"),
        (f64::INFINITY, "8"),
        (f64::NEG_INFINITY, "8"),
        (nan, "8"),
        (quiet, "8"),
        (negative, "8"),
        (bits(0x8000_0000_0000_0001), "p"),
    ] {
        list.job(with(&[[10.0, t]]), says);
    }
    list.job(with(&[[1.0, 2.0], [-1.0, 2.0], [1.0, 99.0], [nan, negative], [80.0, -80.0]]), "p787p");
    // Every want of the 16 that there may be; none; a table of wants without lines; one that is missing.
    let n = |n: u32| (0..n).map(|i| [f64::from(i) * 5.0, f64::from(i) - 8.0]).collect::<Vec<_>>();
    for k in [1, 2, 3, 8, 15, 16] {
        list.job(with(&n(k)), &"p".repeat(k as usize));
    }
    let same = [[10.0, 0.5]; 16];
    list.job(with(&same), &"p".repeat(16));
    list.job(with(&[[-1.0, 0.0]; 16]), &"7".repeat(16));
    list.job(with(&[[1.0, 80.5]; 16]), &"8".repeat(16));
    list.job(with(&[]), "");
    let mut missing = d.clone();
    missing.tables.retain(|&t| t != Want);
    list.job(missing.text(), "");
    list.job(with(&n(17)), "refused 2");
}

/// Results of -0: y at s = 0 of a road with y = -0, and a height of -0.
fn zeros(list: &mut List) {
    list.kind("zero");
    for hdg in [0.0, -0.5, 3.0] {
        for y in [0.0, -0.0] {
            for a in [0.0, -0.0] {
                let road = Road { elev: flat(&[[0.0, a]]), ..road([y, y, hdg], &[(80.0, Shape::Line)]) };
                list.answered(&road, &[[0.0, 0.0], [-0.0, 0.0], [0.0, -0.0], [-0.0, -0.0]]);
            }
        }
    }
}

// ---- the form

/// "columns in any order".
fn columns(list: &mut List) {
    list.kind("columns in any order");
    let d = draft::mixed();
    list.job(d.text(), "pp");
    let mut reversed = d.clone();
    for form in &TABLES {
        let mut turned = d.clone();
        turned.columns[form.table as usize].rotate_left(1);
        if form.columns.len() > 1 {
            list.job(turned.text(), "pp");
        }
        reversed.columns[form.table as usize].reverse();
    }
    list.job(reversed.text(), "pp");
    // t and s given to the wrong names.
    let mut misled = d.clone();
    misled.columns[Want as usize].swap(0, 1);
    list.job(d.text().replacen(&d.names(Want), &misled.names(Want), 1), "p7");
}

/// Jobs of random roads, all that are short: permuted, tables without lines, wants of any bits.
fn random(list: &mut List) {
    list.kind("random");
    let mut rng = Rng::new(SEED, "outputs");
    let mut left = 40;
    while left > 0 {
        let job = texts::made(&mut rng);
        if job.text.len() <= 2_500 {
            list.add(&job.text);
            left -= 1;
        }
    }
}

// ---- refused jobs

fn refused(list: &mut List) {
    let m1 = draft::m1();
    let d = draft::mixed();
    list.kind("refused");
    for (text, number) in [("", 3), ("\n", 1), ("x", 1), ("road length\n", 1), ("road length\n\n", 3), ("\0", 1)] {
        list.job(text, &format!("refused {number}"));
    }
    let bytes = m1.text();
    list.job(bytes.replace('\n', "\r\n"), "refused 1");
    list.job(&bytes[..bytes.len() - 1], "refused 1");
    list.job(format!("{bytes}\n"), "refused 1");
    list.job(format!("{bytes} "), "refused 1");
    list.job(bytes.to_uppercase(), "refused 1");
    list.job(bytes.replacen(" 4", "  4", 1), "refused 1");
    list.job(m1.cell(Geom, 0, "kind", "clothoid").text(), "refused 1");
    list.job(m1.cell(Want, 0, "s", "1.0").text(), "refused 1");
    list.job(d.cell(Lane, 0, "id", "01").text(), "refused 1");
    let mut swapped = m1.clone();
    swapped.tables.swap(1, 2);
    list.job(swapped.text(), "refused 1");
    // One line more than a table may have.
    for (table, lines) in [(Road, 2), (Geom, 65), (Section, 17), (Profile, 17), (Strip, 5), (Mark, 257), (Want, 17)] {
        list.job(full(&d, table, lines).text(), "refused 2");
    }
    list.job("\n".repeat(65_537), "refused 2");
    // Counts, references and order.
    for table in [Road, Geom, Section, Lane, Profile, Shape, Strip] {
        list.job(d.change(table, Vec::clear).text(), "refused 3");
    }
    list.job(m1.number(Geom, 0, "s", 1.0).text(), "refused 3");
    list.job(m1.number(Section, 0, "start", f64::NAN).text(), "refused 3");
    list.job(d.number(Section, 1, "start", 0.0).text(), "refused 3");
    list.job(d.cell(Lane, 0, "section", "2").text(), "refused 3");
    list.job(d.number(Height, 1, "start", 0.0009).text(), "refused 3");
    list.job(full(&d, Mark, 17).text(), "refused 3");
    list.job(d.cell(Mark, 0, "id", "0").text(), "refused 3");
    list.job(d.cell(Mark, 3, "section", "2").text(), "refused 3");
    list.job(d.number(Mark, 0, "start", 6.0).text(), "refused 3");
    // Numbers that are not finite or outside their limits.
    for (table, column, x) in [
        (Road, "length", 0.0099),
        (Road, "length", 10_000.1),
        (Road, "length", f64::NAN),
        (Geom, "x", 1_000_000.1),
        (Geom, "hdg", 1000.1),
        (Geom, "length", f64::INFINITY),
        (Geom, "k0", 0.5),
        (Elev, "a", 10_000.1),
        (Elev, "b", 1.5),
        (Bank, "a", 0.75_f64.next_up()),
        (Offset, "a", 8.1),
        (Tshift, "d", 1.0),
        (Extent, "a", -8.1),
        (Height, "inner", 2.1),
        (Shape, "a", 40.1),
        (Cubic, "a", 100.1),
        (Mark, "start", -1.0),
        (Mark, "end", 50.1),
    ] {
        list.job(d.number(table, 0, column, x).text(), "refused 4");
    }
    list.job(d.cell(Mark, 0, "kind", "256").text(), "refused 4");
    list.job(d.cell(Mark, 0, "kind", "-1").text(), "refused 4");
    let arc = |k: f64| m1.cell(Geom, 0, "kind", "arc").number(Geom, 0, "k0", k).text();
    list.job(arc(0.000002), "refused 4");
    list.job(arc(1.1), "refused 4");
    // "2,000 samples admitted, one more 5".
    let spiral = |length| m1.cell(Geom, 0, "kind", "spiral").number(Geom, 0, "length", length).text();
    list.job(spiral(499.75), "p");
    list.job(spiral(500.0), "refused 5");
    list.job(spiral(10_000.0), "refused 5");
    // The wants of a refused job are not answered, and a broken one is 1 in a job whose road is refused too.
    list.job(d.number(Bank, 0, "a", 3.0).cell(Want, 1, "t", "0").text(), "refused 1");
}

/// A table with so many lines, each its first.
fn full(d: &Draft, table: Name, lines: usize) -> Draft {
    d.change(table, |all| *all = vec![all[0].clone(); lines])
}
