// The stub's calls on a road with its samples: a plain text of document 01's "Values" over the Rust's poses and lanes, with the
// faults that the comparison must find.
use crate::{Lent, admission, admitted, fault, guarded};
use published::oracle::{Across, Oracle};
use published::stand_ins::{self, cos, hypot, root, sin, sin_cos};
use second::model::*;

/// A road that is admitted, with as many samples as it needs.
pub struct On {
    pub road: Road,
    pub oracle: Oracle,
}

/// A row of a call's arguments, and whether it refuses.
pub type Row = (u32, bool);

pub fn first(rows: &[Row]) -> Result<(), u32> {
    rows.iter().find(|row| row.1).map_or(Ok(()), |row| Err(row.0))
}

impl On {
    /// Rows 3 to 6, then those of the arguments.
    pub fn new((words, numbers): Lent, samples: &[f64], rows: &[Row]) -> Result<Self, u32> {
        if fault("road last") {
            first(rows)?;
        }
        let number = admitted((words, numbers));
        if number != 0 {
            return Err(number);
        }
        if fault("row 6 last") {
            first(rows)?;
        }
        let needed: usize = admission::samples_of(words, numbers).iter().sum();
        let short = if fault("row 6 by numbers") { samples.len() + 4 < 4 * needed } else { samples.len() / 4 < needed };
        if short {
            return Err(6);
        }
        first(rows)?;
        let road = Road::read(words, numbers);
        Ok(Self { oracle: Oracle::with_samples(&road, samples), road })
    }
}

/// Answers as a C function does: 0 and the answer written, or the number.
pub fn answered<T>(answer: impl FnOnce() -> Result<T, u32>, write: impl FnOnce(T)) -> u32 {
    let whole = || match answer() {
        Ok(value) => {
            write(value);
            0
        }
        Err(number) => number,
    };
    guarded(|| if fault("leading") { whole() } else { stand_ins::by_count(whole) })
}

fn station_row(road: Lent, s: f64) -> Row {
    let length = road.1.first().copied().unwrap_or(f64::NAN);
    let on_road = if fault("open end") { 0.0 <= s && s < length } else { 0.0 <= s && s <= length };
    (7, !on_road)
}

fn surface_rows(road: Lent, s: f64, t: f64) -> [Row; 2] {
    let rows = [station_row(road, s), (8, !(-80.0 <= t && t <= 80.0))];
    if fault("row 8 before 7") { [rows[1], rows[0]] } else { rows }
}

// ---- station and axes

pub fn station(road: Lent, samples: &[f64], s: f64, to: &mut [f64; 8]) -> u32 {
    let early = fault("station early").then_some(*to);
    let code = answered(|| Ok(On::new(road, samples, &[station_row(road, s)])?.oracle.station(s)), |answer| *to = answer);
    match () {
        () if early.is_some() && code == 7 => to[0] = s,
        () if fault("rates") => to.swap(5, 7),
        () if fault("heading turns") && code == 0 => to[3] %= std::f64::consts::TAU,
        () => {}
    }
    code
}

pub fn axes(road: Lent, samples: &[f64], s: f64, to: &mut [f64; 9]) -> u32 {
    answered(|| Ok(On::new(road, samples, &[station_row(road, s)])?.axes(s)), |answer| *to = answer)
}

fn unit(v: [f64; 3]) -> [f64; 3] {
    let size = root((v[0] * v[0] + v[1] * v[1]) + v[2] * v[2]);
    v.map(|x| x / size)
}

fn cross(a: [f64; 3], b: [f64; 3]) -> [f64; 3] {
    [(1, 2), (2, 0), (0, 1)].map(|(i, k)| a[i] * b[k] - a[k] * b[i])
}

impl On {
    fn axes(&self, s: f64) -> [f64; 9] {
        let [_, _, _, heading, _, grade, bank, _] = self.oracle.station(s);
        let ((sh, ch), (sb, cb)) = (sin_cos(heading), sin_cos(bank));
        let along = unit([ch, sh, if fault("level along") { 0.0 } else { grade }]);
        let up = unit(cross(along, [-sh * cb, ch * cb, sb]));
        let across = cross(up, along);
        let across = if fault("second axis") { unit(across) } else { across };
        let axes = if fault("axes order") { [across, along, up] } else { [along, across, up] };
        std::array::from_fn(|i| axes[i / 3][i % 3])
    }

    // ---- surfaces

    /// The point at t across the road, that height off it, and the heading.
    fn raised(&self, s: f64, t: f64, height: f64) -> ([f64; 3], f64) {
        let [_, x, y, heading, z, _, bank, _] = self.oracle.station(s);
        let (sb, cb) = sin_cos(bank);
        let flat = t * cb;
        let point = [x - flat * sin(heading), y + flat * cos(heading), z + t * sb];
        if height == 0.0 {
            return (point, heading);
        }
        let axes = self.axes(s);
        let up = if fault("upright") { [0.0, 0.0, 1.0] } else { [axes[6], axes[7], axes[8]] };
        ([0, 1, 2].map(|i| point[i] + up[i] * height), heading)
    }

    fn surface(&self, s: f64, t: f64) -> ([f64; 3], f64) {
        let section = self.oracle.section_at(s);
        let bare = !self.oracle.raised(section) && self.oracle.is_flat();
        let name = if bare { None } else { self.oracle.lane_at(section, s, t) };
        let lane = name.and_then(|id| self.lane(section, id, s));
        let height = match &lane {
            Some(lane) if fault("carried on") => lane.height(t),
            Some(lane) => lane.kept_height(t),
            None => self.oracle.height(s, t),
        };
        self.raised(s, t, height)
    }

    fn lane(&self, section: usize, id: i32, s: f64) -> Option<Across> {
        let lanes = if fault("bank for tangent") {
            let [.., bank, _] = self.oracle.station(s);
            self.oracle.across_by(section, s, bank)
        } else {
            self.oracle.across(section, s)
        };
        lanes.into_iter().find(|lane| lane.id() == id)
    }

    fn lane_surface(&self, id: i32, s: f64, t: f64) -> Result<([f64; 3], f64), u32> {
        let section = self.oracle.section_at(s);
        let bare = !self.oracle.raised(section) && self.oracle.is_flat();
        let lane = self.lane(section, id, s);
        let height = match &lane {
            None if fault("bare 10") && bare => 0.0,
            None if fault("lane 0") && id == 0 => self.oracle.height(s, self.oracle.base(s)),
            None => return Err(10),
            Some(_) if bare && !fault("no shortcut") => 0.0,
            Some(lane) if fault("kept") => lane.kept_height(t),
            Some(lane) => lane.height(t),
        };
        Ok(self.raised(s, t, height))
    }
}

fn narrowed(x: f64) -> f32 {
    let y = x as f32;
    if fault("cut off") && f64::from(y).abs() > x.abs() { f32::from_bits(y.to_bits() - 1) } else { y }
}

fn write_point((p, h): ([f64; 3], f64), point: &mut [f32; 3], heading: &mut f64) {
    (*point, *heading) = (p.map(narrowed), h);
}

pub fn surface(road: Lent, samples: &[f64], s: f64, t: f64, point: &mut [f32; 3], heading: &mut f64) -> u32 {
    let answer = || Ok(On::new(road, samples, &surface_rows(road, s, t))?.surface(s, t));
    let code = answered(answer, |answer| write_point(answer, point, heading));
    // Paint is taken for a layer.
    if fault("mark height") && code == 0 && painted(&Road::read(road.0, road.1), s) {
        point[2] += 0.001;
    }
    code
}

/// Whether a mark covers its lane at s.
pub fn painted(road: &Road, s: f64) -> bool {
    road.sections.iter().any(|section| section.marks.iter().any(|mark| mark.covers(s - section.start)))
}

pub fn lane_surface(road: Lent, samples: &[f64], id: i32, s: f64, t: f64, point: &mut [f32; 3], heading: &mut f64) -> u32 {
    let answer = || On::new(road, samples, &surface_rows(road, s, t))?.lane_surface(id, s, t);
    let code = answered(answer, |answer| write_point(answer, point, heading));
    if fault("lane early") && code == 10 {
        *heading = 0.0;
    }
    code
}

// ---- locate

/// A walk's end: the pair, the moves made, and whether it stopped by itself.
struct End {
    pair: [f64; 2],
    moves: u32,
    stopped: bool,
}

struct Walk<'a> {
    on: &'a On,
    target: [f64; 2],
}

impl Walk<'_> {
    fn miss(&self, s: f64, t: f64) -> [f64; 2] {
        let p = self.on.surface(s, t).0;
        [p[0] - self.target[0], p[1] - self.target[1]]
    }

    fn held(&self, s: f64) -> f64 {
        let length = self.on.road.length;
        if s < 0.0 {
            0.0
        } else if s > length {
            length
        } else {
            s
        }
    }

    fn start(&self, guess: f64) -> [f64; 2] {
        let s = self.held(guess);
        let [_, x, y, heading, _, _, bank, _] = self.on.oracle.station(s);
        let [dx, dy] = [self.target[0] - x, self.target[1] - y];
        [s, (dy * cos(heading) - dx * sin(heading)) / cos(bank)]
    }

    /// The next pair and how far it is, or None where the walk stays.
    fn next(&self, [s, t]: [f64; 2]) -> Option<([f64; 2], f64)> {
        let r = self.miss(s, t);
        if hypot(r[0], r[1]) < 1e-9 {
            return None;
        }
        let ahead = if s + 1e-4 <= self.on.road.length || fault("ahead") { 1e-4 } else { -1e-4 };
        let rate = |m: [f64; 2], step: f64| [0, 1].map(|i| (m[i] - r[i]) / step);
        let (along, across) = (rate(self.miss(s + ahead, t), ahead), rate(self.miss(s, t + 1e-4), 1e-4));
        let det = along[0] * across[1] - along[1] * across[0];
        if det.abs() < 1e-12 {
            return None;
        }
        let ds = (r[1] * across[0] - r[0] * across[1]) / det;
        let dt = (r[0] * along[1] - r[1] * along[0]) / det;
        let next = if fault("not held") { s + ds } else { self.held(s + ds) };
        Some(([next, t + dt], (next - s).abs() + dt.abs()))
    }

    fn end(&self, guess: f64) -> End {
        let mut pair = self.start(guess);
        for moves in 0..24 {
            let Some((next, moved)) = self.next(pair) else { return End { pair, moves, stopped: true } };
            if !(fault("first copy") && moves == 0) {
                pair = next;
            }
            if moved < 1e-9 {
                return End { pair, moves: moves + 1, stopped: true };
            }
        }
        End { pair, moves: 24, stopped: false }
    }

    fn met(&self, end: &End) -> bool {
        let ([s, t], bound) = (end.pair, if fault("met bound") { 0.000001 } else { 0.0000009 });
        let [x, y] = self.miss(s, t);
        let near = if fault("met exit") { end.stopped } else { hypot(x, y) < bound };
        0.0 <= s && s <= self.on.road.length && (t.abs() <= 80.0 || fault("met t") && !t.is_nan()) && near
    }
}

fn locate_rows(road: Lent, [x, y]: [f64; 2], guess: f64) -> [Row; 2] {
    let guessed = guess.is_finite() && !(fault("guess on road") && station_row(road, guess).1);
    let rows = [(7, !guessed), (9, !(x.abs() <= 2_000_000.0 && y.abs() <= 2_000_000.0))];
    if fault("row 9 before 7") { [rows[1], rows[0]] } else { rows }
}

pub fn locate(
    road: Lent,
    samples: &[f64],
    x: f64,
    y: f64,
    guess: f64,
    pair: &mut [f64; 2],
    moves: &mut u32,
    met: &mut u32,
) -> u32 {
    let target = [x, y];
    let answer = || {
        let on = On::new(road, samples, &locate_rows(road, target, guess))?;
        let walk = Walk { on: &on, target };
        let end = walk.end(guess);
        Ok((walk.met(&end), end))
    };
    let code = answered(answer, |(is_met, end)| {
        (*pair, *moves, *met) = (end.pair, end.moves + u32::from(fault("moves")), u32::from(is_met));
    });
    if fault("locate early") && code == 9 {
        *met = 0;
    }
    code
}
