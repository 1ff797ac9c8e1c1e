// The roads that are dotted: random admitted ones that take few lines.
use crate::List;
use lists::laid::{admitted, laid};
use second::generate;
use second::model::*;
use second::random::Rng;

/// What a road has beside lanes and marks.
#[derive(Clone, Copy)]
pub enum With {
    Spirals,
    Heights,
    Sections,
    Anything,
}

pub const WITH: [With; 4] = [With::Spirals, With::Heights, With::Sections, With::Anything];

impl With {
    fn fits(self, road: &Road) -> bool {
        let raised = |l: &Lane| !l.heights.is_empty() || l.level && !road.bank.is_empty();
        match self {
            With::Spirals => road.spirals() > 0,
            With::Heights => road.lanes().any(raised),
            With::Sections => road.sections.len() > 1,
            With::Anything => true,
        }
    }
}

/// The road takes the place of the one before.
pub fn put(list: &mut List, rng: &mut Rng, road: &Road) {
    let laid = laid(rng, road).expect("it fits");
    list.put(road, &laid);
}

/// The first of the roads to dot that has lanes and takes at most so many lines; it is put into the list.
pub fn drawn(list: &mut List, rng: &mut Rng, with: With) -> Road {
    loop {
        let road = generate::dotted(rng).0;
        let Some(laid) = laid(rng, &road) else { continue };
        let painted = road.sections.iter().any(|section| section.marks.iter().any(|mark| mark.kind == 1));
        if painted && with.fits(&road) && laid.changes(&list.memory) <= 130 && admitted(rng, &road) {
            list.put(&road, &laid);
            return road;
        }
    }
}
