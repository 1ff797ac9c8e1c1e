// A road with what is lent beside it, for the calls that take samples: which numbers they refuse by, and how an answer is held
// against what it must be.
use crate::places::{any, asked, on_road, starts_across, starts_along, stations, within_80};
use crate::tally::{Tally, hex, same};
use crate::{make_foreign, same_memory, untouched};
use published::oracle::Oracle;
use second::admission;
use second::generate;
use second::limits;
use second::model::{Memory, Road};
use second::random::Rng;

pub struct Lent {
    pub road: Road,
    pub m: Memory,
    pub oracle: Oracle,
    /// What the road needs, and now and then more: a sample that is not whole, or several.
    pub samples: Vec<f64>,
    /// How many numbers it needs.
    needed: usize,
    /// The samples were made from the road, so that demand 3 holds.
    pub own: bool,
    /// The number by which the road is refused.
    pub refused: Option<u32>,
}

/// One of the generator's roads.
fn any_road(rng: &mut Rng) -> (Road, Memory) {
    match rng.below(5) {
        0 | 1 => generate::admitted(rng),
        2 => generate::across(rng),
        _ => generate::surfaced(rng),
    }
}

impl Lent {
    pub fn new(rng: &mut Rng) -> Self {
        let drawn = any_road(rng);
        Self::of(rng, drawn)
    }

    /// A road to dot, with lanes.
    pub fn dotted(rng: &mut Rng) -> Self {
        let mut drawn = generate::dotted(rng);
        while drawn.0.lanes().next().is_none() {
            drawn = generate::dotted(rng);
        }
        Self::of(rng, drawn)
    }

    pub fn of(rng: &mut Rng, (road, m): (Road, Memory)) -> Self {
        let oracle = Oracle::new(&road);
        let mut samples = oracle.samples();
        let needed = samples.len();
        samples.extend(untouched(rng.pick(&[0, 0, 1, 2, 3, 4, 9])));
        Self { road, m, oracle, samples, needed, own: true, refused: None }
    }

    /// With samples that were not made from the road: to be asked within `by_count`.
    pub fn foreign(rng: &mut Rng, draw: fn(&mut Rng) -> Self) -> Self {
        let mut new = draw(rng);
        while new.needed == 0 {
            new = draw(rng);
        }
        make_foreign(rng, &mut new.samples[..new.needed]);
        Self { oracle: Oracle::with_samples(&new.road, &new.samples), own: false, ..new }
    }

    /// A road near a limit, perhaps refused. Its oracle is of the road before.
    pub fn near_limit(rng: &mut Rng, draw: fn(&mut Rng) -> Self) -> Self {
        let new = draw(rng);
        let (m, _) = limits::around_a_limit(rng, &new.m);
        let number = admission::admit(&m.words, &m.numbers);
        Self { m, refused: (number != 0).then_some(number), ..new }
    }

    /// Stations around starts of all kinds.
    pub fn stations(&self, rng: &mut Rng, most: usize) -> Vec<f64> {
        let mut starts = starts_along(rng, &self.road);
        starts.extend(starts_across(&self.road));
        stations(rng, &self.road, starts, most)
    }

    /// Rows 3 to 6 for a slice of samples.
    pub fn sampled(&self, samples: &[f64]) -> Result<(), u32> {
        let enough = samples.len() / 4 >= self.needed / 4;
        self.refused.map_or(if enough { Ok(()) } else { Err(6) }, Err)
    }

    /// Rows 3 to 7.
    pub fn on_road(&self, samples: &[f64], s: f64) -> Result<(), u32> {
        self.sampled(samples)?;
        if on_road(&self.road, s) { Ok(()) } else { Err(7) }
    }

    /// Rows 3 to 8.
    pub fn on_surface(&self, samples: &[f64], s: f64, t: f64) -> Result<(), u32> {
        self.on_road(samples, s)?;
        if within_80(t) { Ok(()) } else { Err(8) }
    }

    /// The samples, or one number fewer than the road needs, or fewer still.
    pub fn some_samples(&self, rng: &mut Rng) -> &[f64] {
        let short = match rng.below(4) {
            0 => 1,
            1 => rng.from_to(1, 9),
            _ => return &self.samples,
        };
        &self.samples[..self.needed.saturating_sub(short)]
    }

    /// On the road, or beside its ends, or far off, or no number.
    pub fn some_s(&self, rng: &mut Rng) -> f64 {
        let l = self.road.length;
        match rng.below(4) {
            0 => rng.pick(&[f64::NAN, f64::INFINITY, f64::NEG_INFINITY, -1.0, -5e-324, l.next_up(), 2.0 * l]),
            1 => rng.pick(&[0.0, -0.0, l, l.next_down()]),
            2 => any(rng),
            _ => l * rng.unit(),
        }
    }

    pub fn asked(&self, s: f64) -> String {
        asked(&self.road, s)
    }

    /// How many lanes a section has, left and right.
    pub fn lanes(&self, section: usize) -> (i32, i32) {
        let section = &self.road.sections[section];
        (section.left.len() as i32, section.right.len() as i32)
    }

    /// No call has changed the road or the samples.
    pub fn end(self, tally: &mut Tally, before: (Memory, Vec<f64>)) {
        let bits = |list: &[f64]| list.iter().map(|x| x.to_bits()).collect::<Vec<_>>();
        let kept = same_memory(&self.m, &before.0) && bits(&self.samples) == bits(&before.1);
        tally.check(kept, || "a call changed the road or its samples".into());
    }

    /// What is lent, to be held against later.
    pub fn copies(&self) -> (Memory, Vec<f64>) {
        (self.m.clone(), self.samples.clone())
    }
}

// ---- answers

/// So often a call's arguments may be wrong, on each road.
pub const ROWS: usize = 6;

/// Different numbers that no call would write, whole ones, so that they stand for every type.
pub fn before<const N: usize>() -> [f64; N] {
    std::array::from_fn(|i| 777.0 + i as f64)
}

/// One answer against the number or the values that it must be; a refusal leaves all as it was. f32 and whole numbers are compared
/// as f64, to which they widen exactly.
pub fn check<const N: usize>(
    tally: &mut Tally,
    call: &'static str,
    (code, found): (u32, [f64; N]),
    expected: Result<[f64; N], u32>,
    input: impl FnOnce() -> String,
) {
    let number = expected.err().unwrap_or(0);
    let due = expected.unwrap_or_else(|_| before());
    tally.outcome(call, number);
    let equal = code == number && found.iter().zip(&due).all(|(a, b)| same(*a, *b));
    tally.check(equal, || format!("{call}: ours {code} {}, theirs {number} {} {}", hex(&found), hex(&due), input()));
}
