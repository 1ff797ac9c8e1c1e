// The stub's dots: a plain text of document 02's Point 4 over the Rust's surface, with the faults that the comparison must find.
use crate::surfaces::{On, Row, answered, first};
use crate::tracks::root32;
use crate::{Lent, fault};

/// What is asked on a road.
struct Asked<'a> {
    section: usize,
    id: i32,
    spacing: f32,
    stations: &'a [f64],
    room: usize,
}

// ---- the rows

impl Asked<'_> {
    /// The lane's place in its section.
    fn place(&self, on: &On) -> Option<usize> {
        let section = on.road.sections.get(self.section)?;
        (0..section.left.len() + section.right.len()).find(|&place| section.id(place) == self.id)
    }

    fn end(&self, on: &On) -> f64 {
        on.road.sections.get(self.section + 1).map_or(on.road.length, |next| next.start)
    }

    /// 0.1 and 100 are in; the neighbours and NaN are out.
    fn spaced(&self) -> bool {
        let (x, least, most) = (self.spacing, 0.1f32, 100f32);
        let [least, most] = if fault("dots wide limits") { [least.next_down(), most.next_up()] } else { [least, most] };
        match () {
            () if fault("dots open limits") => least < x && x < most,
            () if fault("dots NaN spacing") => !(x < least || most < x),
            () => least <= x && x <= most,
        }
    }

    fn counted(&self) -> bool {
        let least = if fault("dots 1 station") { 1 } else { 2 };
        let most = if fault("dots 511") { 511 } else { 512 + usize::from(fault("dots 513")) };
        least <= self.stations.len() && self.stations.len() <= most
    }

    fn listed(&self, on: &On) -> bool {
        let (all, start, end) = (self.stations, on.road.sections[self.section].start, self.end(on));
        let rises = |w: &[f64]| match () {
            () if fault("dots equal stations") => w[0] <= w[1],
            () if fault("dots signed zeros") => w[0].total_cmp(&w[1]).is_lt(),
            () => w[0] < w[1],
        };
        let near = if fault("dots near ends") { 1e-9 } else { 0.0 };
        self.counted()
            && all.windows(2).all(rises)
            && match () {
                () if fault("dots from start to end") => all[0] == start && all[all.len() - 1] == end,
                () if fault("dots open start") => start < all[0] && all[all.len() - 1] <= end,
                () if fault("dots open end") => start <= all[0] && all[all.len() - 1] < end,
                () => start - near <= all[0] && all[all.len() - 1] <= end + near,
            }
    }

    /// Rows 10, 15 and 16, but for the line.
    fn rows(&self, on: &On) -> Vec<Row> {
        let lane = self.place(on);
        let listed = lane.is_some() && self.listed(on);
        let full = (17, !listed && self.room == 0);
        let [ten, fifteen, sixteen] = [(10, lane.is_none()), (15, !self.spaced()), (16, !listed)];
        match () {
            () if fault("dots 15 before 10") => vec![fifteen, ten, sixteen],
            () if fault("dots 16 before 15") => vec![ten, sixteen, fifteen],
            () if fault("dots 17 before 16") => vec![ten, fifteen, full, sixteen],
            () => vec![ten, fifteen, sixteen],
        }
    }
}

// ---- the line

type Vector = [f32; 3];

struct Line<'a> {
    points: Vec<Vector>,
    stations: &'a [f64],
}

impl<'a> Line<'a> {
    fn new(on: &On, asked: &Asked<'a>) -> Self {
        let point = |&s: &f64| {
            let section = if fault("dots section at") { on.oracle.section_at(s) } else { asked.section };
            let lane = on.oracle.borders(section, s);
            let of = &on.road.sections[section];
            let border = (0..lane.len()).find(|&place| of.id(place) == asked.id).map_or([0.0; 3], |place| lane[place]);
            let t = match () {
                () if fault("dots inner") => border[0],
                () if fault("dots middle") => (border[0] + border[1]) / 2.0,
                () => border[1],
            };
            let surface =
                if fault("dots surface") { on.oracle.surface(s, t) } else { on.oracle.lane_surface(section, asked.id, s, t) };
            surface.0
        };
        Self { points: asked.stations.iter().map(point).collect(), stations: asked.stations }
    }

    fn inside(&self) -> bool {
        let coordinates = self.points.iter().flatten();
        if fault("dots NaN point") {
            coordinates.into_iter().all(|x| !(x.abs() > 2e6))
        } else {
            coordinates.into_iter().all(|x| x.abs() <= 2e6)
        }
    }

    fn step(&self, i: usize) -> f32 {
        let d: Vector = std::array::from_fn(|k| self.points[i + 1][k] - self.points[i][k]);
        let up = if fault("dots plan") { 0.0 } else { d[2] };
        root32((d[0] * d[0] + d[1] * d[1]) + up * up)
    }

    fn length(&self) -> f32 {
        let steps = (0..self.points.len() - 1).map(|i| self.step(i));
        if fault("dots wide sum") { steps.map(f64::from).sum::<f64>() as f32 } else { steps.fold(0.0, |sum, step| sum + step) }
    }

    fn station_at(&self, arc: f32) -> f64 {
        let (mut before, mut i) = (0.0, 0);
        while i < self.points.len() - 2 {
            let end = before + self.step(i);
            if end > arc || end == arc && !fault("dots equality") {
                break;
            }
            (before, i) = (end, i + 1);
        }
        let [a, b] = [self.stations[i], self.stations[i + 1]];
        a + (b - a) * into(before, self.step(i), arc)
    }
}

/// How far into a segment.
fn into(before: f32, step: f32, arc: f32) -> f64 {
    let f = (arc - before) / step;
    match () {
        () if !(step > 0.0) => 0.0,
        () if fault("dots wide fraction") => ((f64::from(arc) - f64::from(before)) / f64::from(step)).clamp(0.0, 1.0),
        () if fault("dots clamp") => f64::from(f),
        () => f64::from(f.clamp(0.0, 1.0)),
    }
}

// ---- the dots

/// How often a dot is kept: once where a span of kind 1 covers the lane at s.
fn times(on: &On, asked: &Asked, place: usize, s: f64) -> usize {
    let section = &on.road.sections[asked.section];
    let d = s - section.start;
    let near = if fault("dots nanometre") { 1e-9 } else { 0.0 };
    let begun = |start: f64| if fault("dots span start") { start < d } else { start <= d + near };
    let ended = |end: f64| if fault("dots span end") { end < d } else { end <= d };
    let is_of = |lane: usize, kind: u16| (kind == 1 || fault("dots kind")) && (lane == place || fault("dots lane"));
    let spans = section.marks.iter().filter(|m| is_of(m.lane, m.kind) && begun(m.start) && !ended(m.end)).count();
    if fault("dots twice") { spans } else { spans.min(1) }
}

/// The arc lengths of all multiples, up to one more than there may be.
fn multiples(line: &Line, spacing: f32) -> Vec<f32> {
    let (length, mut sum) = (line.length(), 0.0f32);
    let mut all = Vec::new();
    for k in 0..=65_536 {
        let arc = match () {
            () if fault("dots sum") => sum,
            () => k as f32 * spacing,
        };
        sum += spacing;
        if arc > length || fault("dots short of the end") && arc == length {
            break;
        }
        all.push(arc);
    }
    if fault("dots last") {
        all.pop();
    }
    if fault("dots first") {
        all.remove(0);
    }
    all
}

fn found(on: &On, asked: &Asked) -> Result<Vec<f64>, u32> {
    first(&asked.rows(on))?;
    let place = asked.place(on).ok_or(10u32)?;
    let line = Line::new(on, asked);
    let outside = !line.inside();
    if outside && !fault("dots 17 before 16") {
        return Err(if fault("dots 14") { 14 } else { 16 });
    }
    let arcs = multiples(&line, asked.spacing);
    let most = match () {
        () if fault("dots 65536") => 65_535,
        () if fault("dots 65537") => 65_537,
        () => 65_536,
    };
    let kept = |arc: &f32| {
        let s = line.station_at(*arc);
        std::iter::repeat_n(s, times(on, asked, place, s))
    };
    let over = arcs.len() > most;
    let mut dots: Vec<f64> = if over { Vec::new() } else { arcs.iter().flat_map(kept).collect() };
    if fault("dots sorted") {
        dots.sort_by(f64::total_cmp);
    }
    if fault("dots once") {
        dots.dedup();
    }
    let needed = if fault("dots room for all") { arcs.len() } else { dots.len() };
    let last = [(17, over || needed > asked.room), (16, outside)];
    first(&last)?;
    Ok(dots)
}

pub fn dots(
    road: Lent,
    samples: &[f64],
    section: usize,
    id: i32,
    spacing: f32,
    stations: &[f64],
    list: &mut [f64],
    count: &mut usize,
) -> u32 {
    let asked = Asked { section, id, spacing, stations, room: list.len() };
    let mut dots = Vec::new();
    let early = fault("dots 15 before 3") && !asked.spaced();
    let answer = || if early { Err(15) } else { found(&On::new(road, samples, &[])?, &asked) };
    let code = answered(answer, |kept| dots = kept);
    list[..dots.len()].copy_from_slice(&dots);
    match () {
        () if code == 0 => *count = dots.len(),
        () if fault("dots count early") => *count = 0,
        () if fault("dots early") && !list.is_empty() => list[0] = 0.0,
        () => {}
    }
    if fault("dots tail") && code == 0 {
        list[dots.len()..].fill(0.0);
    }
    code
}
