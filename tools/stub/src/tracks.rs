// The stub's tracks: a plain text of document 02's Point 1, with the faults that the comparison must find.
use crate::{fault, guarded};
use published::stand_ins;

type Vector = [f32; 3];

pub fn root32(x: f32) -> f32 {
    let y = stand_ins::root32(x);
    // the root cut off
    let above = y.is_finite() && f64::from(y) * f64::from(y) > f64::from(x);
    if fault("root32") && above { y.next_down() } else { y }
}

// ---- vectors

fn less(a: Vector, b: Vector) -> Vector {
    [a[0] - b[0], a[1] - b[1], a[2] - b[2]]
}

fn dot(a: Vector, b: Vector) -> f32 {
    if fault("track sum") { a[0] * b[0] + (a[1] * b[1] + a[2] * b[2]) } else { (a[0] * b[0] + a[1] * b[1]) + a[2] * b[2] }
}

fn length(v: Vector) -> f32 {
    root32(dot(v, v))
}

fn unit(v: Vector) -> Vector {
    let size = length(v);
    match () {
        () if !(size.is_finite() && size > 0.0) => [0.0; 3],
        () if fault("track quotient") => v.map(|x| x / size),
        () => {
            let k = 1.0 / size;
            v.map(|x| x * k)
        }
    }
}

fn level([x, y, z]: Vector) -> Vector {
    [x, y, if fault("track level") { z } else { 0.0 }]
}

fn between(a: Vector, b: Vector, t: f32) -> Vector {
    let by = less(b, a);
    match () {
        () if fault("track between") => [0, 1, 2].map(|i| a[i] * (1.0 - t) + b[i] * t),
        () => [0, 1, 2].map(|i| a[i] + by[i] * t),
    }
}

// ---- the track

struct Line(Vec<Vector>);

impl Line {
    fn new(points: &[f32]) -> Self {
        Self(points.chunks_exact(3).map(|p| [p[0], p[1], p[2]]).collect())
    }

    /// From point i to the next.
    fn segment(&self, i: usize) -> Vector {
        less(self.0[i + 1], self.0[i])
    }

    fn cumulative(&self) -> Vec<f32> {
        let mut sums = vec![0.0f32];
        let mut wide = 0.0f64;
        for i in 0..self.0.len() - 1 {
            let size = length(self.segment(i));
            wide += f64::from(size);
            sums.push(if fault("track wide sum") { wide as f32 } else { sums[i] + size });
        }
        sums
    }

    fn tangent(&self, i: usize) -> Vector {
        let last = self.0.len() - 1;
        let none = [0.0; 3];
        let before = if i > 0 { unit(level(self.segment(i - 1))) } else { none };
        let after = if i < last { unit(level(self.segment(i))) } else { none };
        let both = [0, 1, 2].map(|k| before[k] + after[k]);
        match () {
            () if fault("track ends") && (i == 0 || i == last) => both,
            () if fault("track halves") => both.map(|x| x / 2.0),
            () => unit(both),
        }
    }

    fn pose(&self, s: f32) -> [f32; 6] {
        let (sums, last) = (self.cumulative(), self.0.len() - 2);
        let end = sums[last + 1];
        let s = match () {
            () if fault("track s") => s,
            () if s < 0.0 => 0.0,
            () if s > end => end,
            () => s,
        };
        let leads = |c: &&f32| if fault("track leading") { **c < s } else { **c <= s };
        let i = sums.iter().take_while(leads).count().saturating_sub(1).min(last);
        let size = if fault("track own length") { length(self.segment(i)) } else { sums[i + 1] - sums[i] };
        let some = if fault("track millionth") { size >= 1e-6 } else { size > 1e-6 };
        let t = if some { (s - sums[i]) / size } else { 0.0 };
        let ([x, y, z], heading) = (between(self.0[i], self.0[i + 1], t), between(self.tangent(i), self.tangent(i + 1), t));
        let [hx, hy, hz] = if fault("track heading") { heading } else { unit(heading) };
        [x, y, z, hx, hy, hz]
    }

    fn project(&self, at: Vector) -> [f32; 5] {
        let sums = self.cumulative();
        let (mut nearest, mut best) = (f32::INFINITY, [0.0; 5]);
        for i in 0..self.0.len() - 1 {
            let (a, by) = (self.0[i], self.segment(i));
            let square = dot(by, by);
            let some = if fault("track nanometre") { square >= 1e-9 } else { square > 1e-9 };
            let t = if some { dot(less(at, a), by) / square } else { 0.0 };
            let t = match () {
                () if fault("track foot") => t,
                () if t < 0.0 => 0.0,
                () if t > 1.0 => 1.0,
                () => t,
            };
            let foot = [0, 1, 2].map(|k| a[k] + by[k] * t);
            let off = less(at, foot);
            let distance = if fault("track plan") { dot([off[0], off[1], 0.0], [off[0], off[1], 0.0]) } else { dot(off, off) };
            if distance < nearest || fault("track ties") && distance <= nearest {
                nearest = distance;
                let size = if fault("track along") { sums[i + 1] - sums[i] } else { length(by) };
                best = [sums[i] + size * t, foot[0], foot[1], foot[2], offset(by, off)];
            }
        }
        best
    }
}

/// How far the foot is missed in plan, left of the segment positive.
fn offset(by: Vector, off: Vector) -> f32 {
    let heading = unit([by[0], by[1], 0.0]);
    let normal = [-heading[1], heading[0], 0.0];
    let normal = if fault("track normal") { normal } else { unit(normal) };
    let plan = dot([off[0], off[1], 0.0], normal);
    match () {
        () if fault("track space") => length(off).copysign(plan),
        () if fault("track right") => -plan,
        () => plan,
    }
}

// ---- the rows

/// Row 13, and row 14, of a track, of the numbers lent for its tangents, and of a projected point.
fn refused(points: &[f32], room: usize, at: &[f32]) -> u32 {
    let most = if fault("track 511") { 511 } else { 512 + usize::from(fault("track 513")) };
    let least = if fault("track 1 point") { 1 } else { 2 };
    let whole = points.len() % 3 == 0 || fault("track part");
    let n = points.len() / 3;
    let needed = if fault("track room") { n.saturating_sub(1) } else { n };
    let first = !whole || n < least || n > most || room / 3 < needed;
    let outside = |x: &f32| match () {
        () if fault("track limit") => !(x.abs() < 2_000_000.0),
        () if fault("track next") => !(x.abs() <= 2_000_000.125),
        () if fault("track NaN") => x.abs() > 2_000_000.0,
        () => !(x.abs() <= 2_000_000.0),
    };
    let at = if fault("track place") { &[] } else { at };
    let points = if fault("track last") { &points[..points.len().saturating_sub(1)] } else { points };
    let second = points.iter().chain(at).any(outside);
    match () {
        () if fault("track rows") && second => 14,
        () if first => 13,
        () if second => 14,
        () => 0,
    }
}

pub fn track_tangents(points: &[f32], list: &mut [f32]) -> u32 {
    guarded(|| list_tangents(points, list))
}

fn list_tangents(points: &[f32], list: &mut [f32]) -> u32 {
    let number = refused(points, list.len(), &[]);
    if number != 0 {
        if fault("track early") && !list.is_empty() {
            list[0] = 0.0;
        }
        return number;
    }
    let line = Line::new(points);
    for (i, to) in (0..line.0.len()).zip(list.chunks_exact_mut(3)) {
        to.copy_from_slice(&line.tangent(i));
    }
    if fault("track tail") && list.len() > points.len() {
        list[points.len()..].fill(0.0);
    }
    0
}

pub fn track_pose(points: &[f32], s: f32, pose: &mut [f32; 6]) -> u32 {
    guarded(|| {
        let number = if fault("track NaN s") && s.is_nan() { 14 } else { refused(points, usize::MAX, &[]) };
        if number == 0 {
            *pose = Line::new(points).pose(s);
        } else if fault("track pose early") {
            pose[3..].fill(0.0);
        }
        number
    })
}

pub fn track_project(points: &[f32], x: f32, y: f32, z: f32, projection: &mut [f32; 5]) -> u32 {
    guarded(|| {
        let number = refused(points, usize::MAX, &[x, y, z]);
        if number == 0 {
            *projection = Line::new(points).project([x, y, z]);
        } else if fault("track project early") {
            projection[4] = 0.0;
        }
        number
    })
}
