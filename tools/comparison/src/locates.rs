// The comparison of locate: the pair and the count of moves with the published Rust; met, which the Rust does not answer, with
// document 01's rule, worked out afresh at the Rust's pair by the Rust's surface.
use crate::demands;
use crate::lent::{Lent, ROWS, before, check};
use crate::places::{any, on_road, within_80};
use crate::tally::{Tally, hex};
use archive::riftkettle as ours;
use published::stand_ins::hypot;
use second::random::{Rng, beside, nudge};

/// How far a target may lie from the origin, along x and along y.
const MAP: f64 = 2_000_000.0;

/// Where, and from which guess.
#[derive(Clone, Copy)]
struct Asked {
    target: [f64; 2],
    guess: f64,
}

impl Lent {
    /// Pair, moves and met of an admitted road.
    fn located(&self, Asked { target: [x, y], guess }: Asked) -> [f64; 4] {
        let ([s, t], moves) = self.oracle.locate(x, y, guess);
        let [px, py, ..] = self.oracle.xyz(s, t);
        let met = on_road(&self.road, s) && within_80(t) && hypot(px - x, py - y) < 0.0000009;
        [s, t, f64::from(moves), f64::from(u8::from(met))]
    }

    fn locate_row(&self, samples: &[f64], asked: Asked) -> Result<(), u32> {
        self.sampled(samples)?;
        let on_map = |x: f64| -MAP <= x && x <= MAP;
        match () {
            () if !asked.guess.is_finite() => Err(7),
            () if !asked.target.into_iter().all(on_map) => Err(9),
            () => Ok(()),
        }
    }

    fn check_locate(&self, tally: &mut Tally, samples: &[f64], asked: Asked) {
        let expected = self.locate_row(samples, asked).map(|()| self.located(asked));
        let ([s, t, m, n], [x, y]) = (before(), asked.target);
        let (mut pair, mut moves, mut met) = ([s, t], m as u32, n as u32);
        let code = ours::locate(&self.m, samples, x, y, asked.guess, &mut pair, &mut moves, &mut met);
        let found = [pair[0], pair[1], f64::from(moves), f64::from(met)];
        let input = || format!("target and guess {}: {:?}", hex(&[x, y, asked.guess]), self.road);
        check(tally, "locate", (code, found), expected, input);
        if let Ok(answer) = expected {
            tally.outcome(if answer[3] == 1.0 { "met after" } else { "astray after" }, answer[2] as u32);
            tally.outcome("NaN in the pair", u32::from(answer[0].is_nan() || answer[1].is_nan()));
        }
        if code == 0 && met == 1 && self.own {
            let [px, py, ..] = self.oracle.xyz(pair[0], pair[1]);
            demands::met(tally, pair, self.road.length, [x, y], [px, py], input);
        }
    }

    /// A place to aim at: on the road, at its ends and a little past them, where geometries meet.
    fn aim(&self, rng: &mut Rng) -> [f64; 2] {
        let g = &self.road.geoms[rng.below(self.road.geoms.len())];
        let s = match rng.below(8) {
            0 => rng.pick(&[0.0, self.road.length]),
            1 => g.s + rng.between(-0.001, 0.001),
            2 => g.s + g.length + rng.between(-1.0, 1.0),
            3 => rng.pick(&[-1e-4, self.road.length + 1e-4, self.road.length - 5e-5]),
            4 => rng.pick(&[0.0, self.road.length]) + rng.between(-2e-6, 2e-6),
            _ => self.road.length * rng.unit(),
        };
        let t = match rng.below(8) {
            0 => rng.pick(&[0.0, 80.0, -80.0, 80f64.next_up()]),
            1 => rng.between(-300.0, 300.0),
            2 => beside(rng, self.oracle.base(s)),
            _ => rng.between(-20.0, 20.0),
        };
        [s, t]
    }

    /// A target on the surface there, rounded to f32, off it, far away, or anything.
    fn target(&self, rng: &mut Rng, [s, t]: [f64; 2]) -> [f64; 2] {
        let [x, y, ..] = self.oracle.xyz(s, t);
        match rng.below(12) {
            0 => [x, y].map(|x| x as f32 as f64),
            1 => [x, y].map(|x| x + rng.between(-300.0, 300.0)),
            2 => [x, y].map(|x| x + rng.between(-2e-6, 2e-6)),
            3 => [0; 2].map(|_| rng.between(-MAP, MAP)),
            4 => [0; 2].map(|_| nudge(MAP * rng.sign(), rng.from_to(0, 2) as i32 - 1)),
            5 => [x, any(rng)],
            _ => [x, y],
        }
    }

    fn guess(&self, rng: &mut Rng, s: f64) -> f64 {
        match rng.below(8) {
            0 => rng.pick(&[-5.0, 1e300, -0.0, 0.0, 5e-324, f64::MAX, f64::MIN, self.road.length, 2.0 * self.road.length]),
            1 => self.road.length * rng.unit(),
            2 => s,
            3 => any(rng),
            _ => s + rng.between(-3.0, 3.0),
        }
    }

    pub fn locate_somewhere(&self, rng: &mut Rng, tally: &mut Tally) {
        let place = self.aim(rng);
        let asked = Asked { target: self.target(rng, place), guess: self.guess(rng, place[0]) };
        self.check_locate(tally, &self.samples, asked);
    }

    pub fn locate_rows(&self, rng: &mut Rng, tally: &mut Tally) {
        let number = |rng: &mut Rng, good: f64| match rng.below(3) {
            0 => rng.pick(&[f64::NAN, f64::INFINITY, f64::NEG_INFINITY]),
            1 => rng.pick(&[MAP.next_up(), -MAP.next_up(), MAP, -MAP, 1e300]),
            _ => good,
        };
        let place = self.aim(rng);
        let target = self.oracle.xyz(place[0], place[1]);
        let asked = Asked { target: [number(rng, target[0]), number(rng, target[1])], guess: number(rng, place[0]) };
        self.check_locate(tally, self.some_samples(rng), asked);
    }
}

pub fn locate(rng: &mut Rng, tally: &mut Tally) {
    let on = Lent::new(rng);
    let before = on.copies();
    (0..24).for_each(|_| on.locate_somewhere(rng, tally));
    (0..ROWS).for_each(|_| on.locate_rows(rng, tally));
    on.end(tally, before);
}
