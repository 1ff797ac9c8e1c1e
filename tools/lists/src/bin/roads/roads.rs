// The roads that are asked about: random admitted ones that take few lines.
use crate::List;
use lists::laid::{admitted, laid};
use published::oracle::Oracle;
use second::generate;
use second::model::*;
use second::random::Rng;

/// The first of the drafts that is admitted and takes at most so many lines; it is put into the list.
fn put(list: &mut List, rng: &mut Rng, most: usize, draft: impl Fn(&mut Rng) -> Option<Road>) -> Road {
    loop {
        let Some(road) = draft(rng) else { continue };
        let Some(laid) = laid(rng, &road) else { continue };
        if laid.changes(&list.memory) <= most && admitted(rng, &road) {
            list.put(&road, &laid);
            return road;
        }
    }
}

/// A road with a reference line only, of a few geometries; half of them have spirals, some an arc at the limits of curvature.
pub fn line(list: &mut List, rng: &mut Rng) -> Road {
    let spiral = rng.one_in(2);
    put(list, rng, 90, |rng| {
        let Road { length, mut geoms, .. } = generate::draft(rng);
        if rng.one_in(3) {
            let last = geoms.len() - 1;
            geoms[last].shape = Shape::Arc(rng.pick(&[1e-9, -1e-9, 0.00001, -0.00001, 1.0, -1.0]));
        }
        let road = Road { length, geoms, sections: vec![Section::default()], ..Road::default() };
        ((road.spirals() > 0) == spiral).then_some(road)
    })
}

/// What a road with lanes has beside them.
#[derive(Clone, Copy)]
pub enum With {
    Strips,
    Profiles,
    Anything,
}

pub const WITH: [With; 3] = [With::Strips, With::Profiles, With::Anything];

impl With {
    fn fits(self, road: &Road) -> bool {
        match self {
            With::Strips => road.strips.iter().flatten().count() > 1,
            With::Profiles => !road.profiles.is_empty(),
            With::Anything => true,
        }
    }
}

/// A road with lanes of every kind and a bank.
pub fn lanes(list: &mut List, rng: &mut Rng, with: With) -> Road {
    put(list, rng, 190, |rng| {
        let mut road = if rng.one_in(4) { generate::draft(rng) } else { generate::across(rng).0 };
        road.geoms = vec![Geom { s: 0.0, x: 0.0, y: 0.0, hdg: 0.0, length: road.length, shape: Shape::Line }];
        road.elev.clear();
        if road.bank.is_empty() {
            road.bank = bank(rng, road.length);
        }
        shorten(rng, &mut road);
        (with.fits(&road) && wide(&road)).then_some(road)
    })
}

/// A road with records of every kind, a spiral among its geometries.
pub fn whole(list: &mut List, rng: &mut Rng, with: With) -> Road {
    put(list, rng, 220, |rng| {
        let mut road = generate::draft(rng);
        last(&mut road.elev, 2);
        shorten(rng, &mut road);
        let lists = [&road.elev, &road.bank, &road.offset];
        let fits = road.spirals() > 0 && road.sections.len() > 1 && lists.iter().all(|list| !list.is_empty());
        (fits && with.fits(&road) && wide(&road)).then_some(road)
    })
}

/// Keeps the last records of a list, which leaves their reaches as they are.
fn last<T>(list: &mut Vec<T>, most: usize) {
    list.drain(..list.len().saturating_sub(most));
}

/// Keeps the last records of each list across the road, and the inner lanes of each side; of marks those on the lanes that stay.
fn shorten(rng: &mut Rng, road: &mut Road) {
    let strips = road.strips.iter_mut().flatten().flat_map(|strip| &mut strip.lists);
    [&mut road.bank, &mut road.offset, &mut road.tshift].into_iter().chain(strips).for_each(|l| last(l, rng.from_to(1, 2)));
    last(&mut road.profiles, 3);
    road.profiles.iter_mut().for_each(|p| last(&mut p.shapes, rng.from_to(1, 3)));
    for side in road.sections.iter_mut().flat_map(|section| [&mut section.left, &mut section.right]) {
        side.truncate(rng.from_to(2, 4));
        for lane in side {
            last(&mut lane.extents, rng.from_to(1, 3));
            last(&mut lane.heights, 3);
        }
    }
    for section in &mut road.sections {
        let lanes = section.left.len() + section.right.len();
        section.marks.retain(|mark| mark.lane < lanes);
        last(&mut section.marks, 2);
    }
}

/// At least two lanes, and half of those in the middle of the road have a width.
fn wide(road: &Road) -> bool {
    let (rust, s) = (Oracle::new(road), 0.5 * road.length);
    let lanes = rust.borders(rust.section_at(s), s);
    lanes.len() > 1 && lanes.len() <= 2 * lanes.iter().filter(|b| b[2] > 0.0).count()
}

/// One or two records of a bank.
fn bank(rng: &mut Rng, length: f64) -> Vec<Cubic> {
    let mut starts = vec![if rng.one_in(2) { 0.0 } else { rng.between(0.0, length) }];
    if rng.one_in(2) {
        starts.push(rng.between(starts[0], length));
    }
    let cubic = |start| Cubic { start, a: rng.between(-0.4, 0.4), b: rng.between(-0.3, 0.3) / length, c: 0.0, d: 0.0 };
    starts.into_iter().map(cubic).collect()
}
