// The calls of the surface layer: the number of the first of 01's rows that fails, else what the published Rust answers.
use crate::List;
use published::oracle::Oracle;
use published::stand_ins::hypot;
use second::admission;

/// A row of 01's table: its number, and whether it passes.
type Row = (u32, bool);

/// What `locate` answers.
pub struct Located {
    pub pair: [f64; 2],
    pub moves: u32,
    pub met: bool,
}

/// The mark has no counterpart in the Rust. It is worked out by 01's rule, from the point before it narrows.
pub fn located(rust: &Oracle, length: f64, [x, y, guess]: [f64; 3]) -> Located {
    let (pair, moves) = rust.locate(x, y, guess);
    let [s, t] = pair;
    let [px, py, ..] = rust.xyz(s, t);
    let met = (0.0..=length).contains(&s) && t.abs() <= 80.0 && hypot(px - x, py - y) < 0.0000009;
    Located { pair, moves, met }
}

impl Located {
    fn kind(&self) -> &'static str {
        match (self.met, self.moves) {
            _ if self.pair.iter().any(|x| x.is_nan()) => "astray, a NaN in the pair",
            (true, 24) => "met after 24 moves",
            (true, _) => "met",
            (false, 24) => "astray after 24 moves",
            (false, _) => "astray",
        }
    }
}

/// The number that stands for an id.
fn id_number(id: i32) -> u64 {
    let id = i64::from(id);
    if id < 0 { 2 * (-1 - id) as u64 + 1 } else { 2 * id as u64 }
}

fn point(([x, y, z], heading): ([f32; 3], f64)) -> Vec<f64> {
    vec![f64::from(x), f64::from(y), f64::from(z), heading]
}

/// Where t lies to a lane.
fn beside([inner, outer, ..]: [f64; 4], t: f64) -> &'static str {
    if inner == outer {
        "lane of width 0"
    } else if inner.min(outer) <= t && t <= inner.max(outer) {
        "in the lane"
    } else {
        "past the lane"
    }
}

impl List {
    /// What the calls after it share: the third argument, and how many numbers of the slice are lent.
    pub fn set(&mut self, third: u64, lending: usize) {
        if (third, lending) != self.set {
            self.line('c', third, lending as u64);
            self.set = (third, lending);
        }
    }

    /// A number of the lent slice.
    pub fn spoil(&mut self, place: usize, x: f64) {
        self.line('f', place as u64, x.to_bits());
        self.lent[place] = x;
    }

    /// Asks a call. With an answer comes the kind that the run's report counts it under.
    fn call<F>(&mut self, letter: char, [a, b]: [u64; 2], rows: &[Row], count: usize, answer: F)
    where
        F: FnOnce() -> (Vec<f64>, &'static str),
    {
        let refused = rows.iter().find(|(_, passes)| !passes).map_or(0, |&(number, _)| number);
        let (answer, kind) = if refused == 0 { answer() } else { (Vec::new(), "") };
        let kind = match refused {
            0 if letter != 'x' && answer.iter().any(|x| x.is_nan()) => format!("{letter} NaN"),
            0 => format!("{letter} {kind}"),
            _ => format!("{letter} refused {refused}"),
        };
        *self.kinds.entry(kind).or_default() += 1;
        let mut numbers = vec![f64::from(refused)];
        numbers.extend(answer);
        numbers.resize(count, 0.0);
        self.ask(letter, a, b, &[], &numbers);
    }

    /// Rows 3 to 6. The slice begins with the samples that the Rust has: the answers follow what it holds.
    fn road_rows(&self, rust: &Oracle) -> [Row; 2] {
        let samples = rust.samples();
        assert!(self.lent.iter().zip(&samples).all(|(a, b)| a.to_bits() == b.to_bits()), "the slice holds other samples");
        let road = admission::admit(&self.memory.words, &self.memory.numbers);
        [(road, road == 0), (6, samples.len() / 4 <= self.set.1 / 4)]
    }

    /// Rows 3 to 7.
    fn rows(&self, rust: &Oracle, s: f64) -> [Row; 3] {
        let [road, samples] = self.road_rows(rust);
        [road, samples, (7, (0.0..=self.memory.numbers[0]).contains(&s))]
    }

    pub fn station(&mut self, rust: &Oracle, s: f64) {
        let rows = self.rows(rust, s);
        self.call('q', [s.to_bits(), 0], &rows, 9, || (rust.station(s).to_vec(), "station"));
    }

    pub fn axes(&mut self, rust: &Oracle, s: f64) {
        let rows = self.rows(rust, s);
        self.call('a', [s.to_bits(), 0], &rows, 10, || (rust.axes(s).to_vec(), "axes"));
    }

    pub fn surface(&mut self, rust: &Oracle, s: f64, t: f64) {
        let rows = [&self.rows(rust, s)[..], &[(8, t.abs() <= 80.0)]].concat();
        let kind = || {
            let section = rust.section_at(s);
            let bare = rust.is_flat() && !rust.raised(section);
            let lane = rust.lane_at(section, s, t).and_then(|id| rust.lane(section, id, s));
            if bare { "bare road" } else { lane.map_or("no lane", |lane| beside(lane, t)) }
        };
        self.call('u', [s.to_bits(), t.to_bits()], &rows, 5, || (point(rust.surface(s, t)), kind()));
    }

    pub fn lane_surface(&mut self, rust: &Oracle, id: i32, s: f64, t: f64) {
        self.set(id_number(id), self.set.1);
        let section = rust.section_at(s);
        let lane = rust.lane(section, id, s);
        let rows = [&self.rows(rust, s)[..], &[(8, t.abs() <= 80.0), (10, lane.is_some())]].concat();
        let kind = || lane.map_or("no lane", |lane| beside(lane, t));
        self.call('v', [s.to_bits(), t.to_bits()], &rows, 5, || (point(rust.lane_surface(section, id, s, t)), kind()));
    }

    pub fn locate(&mut self, rust: &Oracle, [x, y, guess]: [f64; 3]) {
        self.set(guess.to_bits(), self.set.1);
        let on_map = x.abs() <= 2_000_000.0 && y.abs() <= 2_000_000.0;
        let rows = [&self.road_rows(rust)[..], &[(7, guess.is_finite()), (9, on_map)]].concat();
        let length = self.memory.numbers[0];
        self.call('x', [x.to_bits(), y.to_bits()], &rows, 5, || {
            let found = located(rust, length, [x, y, guess]);
            let [s, t] = found.pair;
            (vec![s, t, f64::from(found.moves), f64::from(u8::from(found.met))], found.kind())
        });
    }
}
