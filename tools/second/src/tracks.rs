// Track lines of document 02, Point 1: the rows 13 and 14 a second time, and a generator of tracks, of arc lengths and of points to
// project. A track is a list of f32, three a point.
use crate::random::Rng;

pub const POINTS: usize = 512;
pub const LIMIT: f32 = 2_000_000.0;

/// The row by which a call is refused, if any. 02: "13, fewer than 2 or more than 512 points, a slice that is not three f32 a point, or
/// a list lent for tangents shorter than the points, checked first; 14, a coordinate outside or NaN, the projected point's included,
/// checked next". `list` is how many numbers are lent for tangents, `at` the coordinates of a projected point.
pub fn refused(points: &[f32], list: Option<usize>, at: &[f32]) -> Option<u32> {
    let (count, rest) = (points.len() / 3, points.len() % 3);
    let room = list.is_none_or(|numbers| numbers / 3 >= count);
    let within = |x: &f32| (-LIMIT..=LIMIT).contains(x);
    match () {
        () if rest != 0 || !(2..=POINTS).contains(&count) || !room => Some(13),
        () if !points.iter().chain(at).all(within) => Some(14),
        () => None,
    }
}

// ---- numbers

/// x moved by some steps through the f32 numbers.
pub fn nudge(x: f32, steps: i32) -> f32 {
    (0..steps.unsigned_abs()).fold(x, |x, _| if steps > 0 { x.next_up() } else { x.next_down() })
}

fn near(rng: &mut Rng, x: f32) -> f32 {
    nudge(x, rng.from_to(0, 4) as i32 - 2)
}

/// A number within the limit, of any bits.
fn pattern(rng: &mut Rng) -> f32 {
    loop {
        let x = f32::from_bits(rng.bits() as u32);
        if x.abs() <= LIMIT {
            return x;
        }
    }
}

fn held(x: f32) -> f32 {
    x.clamp(-LIMIT, LIMIT)
}

fn sized(rng: &mut Rng, low: f64, high: f64) -> f32 {
    (rng.log_between(low, high) * rng.sign()) as f32
}

/// Numbers that no call takes for a coordinate.
pub const OUTSIDE: [f32; 8] = [
    f32::NAN,
    f32::INFINITY,
    f32::NEG_INFINITY,
    f32::from_bits(0x49f4_2401),
    f32::from_bits(0xc9f4_2401),
    f32::MAX,
    4_000_000.0,
    -1e30,
];

/// For the f32 root: any bits, squares, places next to the square of a number halfway between two f32, subnormals.
pub fn for_root32(rng: &mut Rng) -> f32 {
    match rng.below(5) {
        0 => f32::from_bits(rng.bits() as u32),
        1 => f32::from_bits(rng.bits() as u32 >> 1),
        2 => {
            let x = f32::from_bits(rng.bits() as u32 >> 1);
            near(rng, x * x)
        }
        3 => {
            // (m + 1/2)² for 24 digits, rounded down or up, times a power of 4.
            let odd = (rng.bits() >> 40 | 1 << 23) * 2 + 1;
            let shift = 64 - (odd * odd).leading_zeros() - 24;
            let top = (odd * odd >> shift) + u64::from(rng.one_in(2));
            (top as f64 * f64::from(shift).exp2() * 4f64.powi(rng.from_to(0, 120) as i32 - 85)) as f32
        }
        _ => {
            let some = [0.0, -0.0, 1.0, 4.0, f32::MIN_POSITIVE, f32::MAX, f32::INFINITY, f32::NEG_INFINITY, f32::NAN, -1.0];
            let x = rng.pick(&some);
            near(rng, x)
        }
    }
}

// ---- tracks

/// How many points: few, for a call goes through them all; now and then many, and as many as there may be.
fn count(rng: &mut Rng) -> usize {
    match rng.below(40) {
        0 => rng.from_to(POINTS - 2, POINTS),
        1..4 => rng.from_to(2, POINTS),
        4..12 => rng.from_to(9, 60),
        12..18 => 2,
        _ => rng.from_to(2, 8),
    }
}

/// A place where a track starts: the origin, near it, far off, at the limits.
fn start(rng: &mut Rng) -> [f32; 3] {
    match rng.below(5) {
        0 => [rng.pick(&[0.0, -0.0]); 3],
        1 => [0; 3].map(|_| rng.between(-100.0, 100.0) as f32),
        2 => [0; 3].map(|_| rng.between(-2e6, 2e6) as f32),
        3 => [0; 3].map(|_| rng.pick(&[LIMIT, -LIMIT, 0.0]) * rng.pick(&[1.0, 1.0, 0.999])),
        _ => [rng.between(-1e6, 1e6) as f32, rng.between(-1e6, 1e6) as f32, rng.between(-10.0, 900.0) as f32],
    }
}

/// A step that is of no size, or of one where a sum, a square or a test turns.
fn step(rng: &mut Rng) -> [f32; 3] {
    let one = |rng: &mut Rng, low, high| [0; 3].map(|_| if rng.one_in(4) { 0.0 } else { sized(rng, low, high) });
    match rng.below(7) {
        0 => one(rng, 1e-45, 1e-38),
        1 => one(rng, 1e-24, 1e-18),
        2 => one(rng, 1e-7, 1e-4),
        3 => one(rng, 0.01, 10.0),
        4 => one(rng, 1e3, 2e6),
        5 => limit_step(rng),
        _ => [0; 3].map(|_| rng.from_to(0, 4) as f32 - 2.0),
    }
}

/// A step whose length is about 1e-6, or its square about 1e-9, to the last bit: there the tests of a segment turn.
fn limit_step(rng: &mut Rng) -> [f32; 3] {
    if rng.one_in(2) {
        let size = near(rng, 1e-6);
        return [size, 0.0, 0.0];
    }
    // a second part fills up what the first leaves
    let square = near(rng, 1e-9);
    let first = nudge(square.sqrt(), -(rng.from_to(0, 3) as i32));
    [first, (square - first * first).max(0.0).sqrt(), 0.0]
}

/// Straight on, back, up and down, left and right, or none: by whole metres, so that many distances are equal.
fn whole_step(rng: &mut Rng) -> [f32; 3] {
    let size = rng.from_to(0, 2) as f32;
    let mut step = [0.0; 3];
    step[rng.below(3)] = size * rng.sign() as f32;
    if rng.one_in(3) {
        step[rng.below(2)] = size * rng.sign() as f32;
    }
    step
}

/// Points by steps from a start.
fn stepped(rng: &mut Rng, n: usize, start: [f32; 3], mut next: impl FnMut(&mut Rng) -> [f32; 3]) -> Vec<f32> {
    let mut at = start;
    let mut all = at.to_vec();
    for _ in 1..n {
        let by = next(rng);
        at = [0, 1, 2].map(|i| held(at[i] + by[i]));
        all.extend(at);
    }
    all
}

/// A line as of a road: a metre a point, turning and climbing a little.
pub fn road_like(rng: &mut Rng, n: usize) -> Vec<f32> {
    let (mut heading, mut turn) = (rng.between(-3.2, 3.2), 0.0);
    let at = start(rng).map(|x| x * 0.99);
    let grade = rng.between(-0.1, 0.1) as f32;
    stepped(rng, n, at, |rng| {
        if rng.one_in(20) {
            turn = rng.between(-0.1, 0.1);
        }
        heading += turn;
        [heading.cos() as f32, heading.sin() as f32, grade]
    })
}

/// Away and back again along one line, in plan or upright; the way back may miss the way there by next to nothing.
fn back_and_forth(rng: &mut Rng, n: usize) -> Vec<f32> {
    let from = if rng.one_in(2) { [0.0; 3] } else { start(rng) };
    let (along, upright) = (step(rng), rng.one_in(4));
    let along = if upright { [0.0, 0.0, along[0]] } else { along };
    // beside a metre these are lost, but the sum of both directions is made of them alone, and its square underflows
    let (along, beside) =
        if rng.one_in(2) { ([1.0, 0.0, 0.0], rng.log_between(1e-24, 1e-20) as f32) } else { (along, rng.pick(&[0.0, 1e-45])) };
    let mut sign = 1.0;
    stepped(rng, n, from, |rng| {
        sign = if rng.one_in(4) { sign } else { -sign };
        [along[0] * sign, along[1] * sign + beside, along[2] * sign]
    })
}

/// Long steps there and back with short ones between, which are lost in the sum of lengths.
fn mixed(rng: &mut Rng, n: usize) -> Vec<f32> {
    let far = [sized(rng, 1e3, 2e6), sized(rng, 1e-3, 1e6), sized(rng, 1e-3, 100.0)];
    let (mut away, small) = (false, rng.log_between(1e-6, 0.1));
    stepped(rng, n, [0.0; 3], |rng| match rng.below(3) {
        0 => {
            away = !away;
            far.map(|x| if away { x } else { -x })
        }
        _ => [0; 3].map(|_| (small * rng.between(-1.0, 1.0)) as f32),
    })
}

/// A track that every call takes.
pub fn track(rng: &mut Rng) -> Vec<f32> {
    let n = count(rng);
    let mut all = match rng.below(13) {
        0 | 1 => road_like(rng, n),
        2 | 3 => stepped(rng, n, [0.0; 3], whole_step),
        4 => back_and_forth(rng, n),
        5 => mixed(rng, n),
        6 => (0..3 * n).map(|_| pattern(rng)).collect(),
        7 => (0..3 * n).map(|_| near_limit(rng)).collect(),
        8 => {
            let all = start(rng);
            all.map(held).repeat(n)
        }
        9 => (0..3 * n).map(|_| rng.between(-2e6, 2e6) as f32).collect(),
        10 => {
            let from = start(rng);
            stepped(rng, n, from.map(held), step)
        }
        11 => stepped(rng, n, [0.0; 3], step),
        _ => stepped(rng, n, [0.0; 3], limit_step),
    };
    // some points once more, or as they were two points before
    for i in 1..n {
        let back = if i > 1 && rng.one_in(2) { 2 } else { 1 };
        if rng.one_in(16) {
            all.copy_within(3 * (i - back)..3 * (i - back) + 3, 3 * i);
        }
    }
    all
}

/// A coordinate at the limit, just inside it, 0, or half of it.
fn near_limit(rng: &mut Rng) -> f32 {
    let x = rng.pick(&[LIMIT, LIMIT, LIMIT.next_down(), 0.0, -0.0, LIMIT / 2.0]);
    x * rng.sign() as f32
}

/// Tracks whose answers are known: all points alike, straight back, upright, a first point repeated, a corner, and one whose middle
/// tangent is no unit, since the square of the sum underflows.
pub const KNOWN: &[&[f32]] = &[
    &[3.0, 4.0, 5.0, 3.0, 4.0, 5.0],
    &[0.0, 0.0, 0.0, 8.0, 0.0, 0.0, 0.0, 0.0, 0.0],
    &[0.0, 0.0, 0.0, 0.0, 0.0, 8.0],
    &[1.0, 1.0, 0.0, 1.0, 1.0, 0.0, 1.0, 5.0, 0.0],
    &[0.0, 0.0, 0.0, 4.0, 0.0, 0.0, 4.0, 4.0, 0.0],
    &[0.0, 0.0, 0.0, 1.0, 1.35e-23, 0.0, 0.0, 2.7e-23, 0.0],
];

/// Slices that are no tracks: of 7 numbers, of 4 NaNs, of one point, of none; then with a coordinate outside.
pub const WRONG: &[&[f32]] = &[
    &[1.0; 7],
    &[f32::NAN; 4],
    &[1.0; 3],
    &[],
    &[1.0; 1539],
    &[1.0, 1.0, f32::NAN, 1.0, 1.0, 1.0],
    &[LIMIT, -LIMIT, -0.0, 0.0, 1.0, LIMIT.next_up()],
];

// ---- where a track is asked

fn at(points: &[f32], i: usize) -> [f32; 3] {
    [0, 1, 2].map(|k| points[3 * i + k])
}

/// The sums of the segments' lengths, from 0, one a point.
pub fn lengths(points: &[f32]) -> Vec<f32> {
    let mut sum = 0.0;
    let segment = |w: &[f32]| [0, 1, 2].map(|k| w[3 + k] - w[k]);
    let length = |d: [f32; 3]| ((d[0] * d[0] + d[1] * d[1]) + d[2] * d[2]).sqrt();
    let sums = points.windows(6).step_by(3).map(|w| {
        sum += length(segment(w));
        sum
    });
    [0.0].into_iter().chain(sums).collect()
}

/// Arc lengths: at the sums of lengths and beside them, between them, at the ends and past them, and no number.
pub fn arc_lengths(rng: &mut Rng, points: &[f32], most: usize) -> Vec<f32> {
    let sums = lengths(points);
    let length = sums[sums.len() - 1];
    let mut all = sums.clone();
    while all.len() > most {
        all.swap_remove(rng.below(all.len()));
    }
    let beside: Vec<f32> = all.iter().flat_map(|&s| [s, s.next_up(), s.next_down()]).collect();
    let between = |rng: &mut Rng| {
        let i = rng.below(sums.len() - 1);
        sums[i] + (sums[i + 1] - sums[i]) * rng.unit() as f32
    };
    let wide = [f32::NAN, f32::INFINITY, f32::NEG_INFINITY, -1.0, -1e-45, 1e-45, f32::MAX, f32::MIN, 2.0 * length];
    all = vec![0.0, -0.0, length, length.next_up(), length.next_down(), length * rng.unit() as f32, between(rng)];
    all.extend([rng.pick(&wide), rng.pick(&wide), f32::from_bits(rng.bits() as u32), between(rng)]);
    all.extend(beside);
    all
}

/// A point to project: at a point of the track, on its line and beside it, as far from two segments, far off, at the limits.
pub fn place(rng: &mut Rng, points: &[f32]) -> [f32; 3] {
    let n = points.len() / 3;
    let i = rng.below(n - 1);
    let (a, b) = (at(points, i), at(points, i + 1));
    let on = |t: f32| [0, 1, 2].map(|k| a[k] + (b[k] - a[k]) * t);
    let found = match rng.below(11) {
        0 => a,
        1 => at(points, n - 1),
        2 => on(rng.unit() as f32),
        3 => on(rng.between(-1.0, 2.0) as f32),
        4 => {
            // off the segment in plan, at any height
            let [p, by] = [on(rng.unit() as f32), [sized(rng, 1e-6, 1e3); 3]];
            let [dx, dy] = [0, 1].map(|k| b[k] - a[k]);
            let size = (dx * dx + dy * dy).sqrt().max(1e-30);
            let up = if rng.one_in(2) { 0.0 } else { sized(rng, 0.01, 100.0) };
            [p[0] - dy / size * by[0], p[1] + dx / size * by[1], p[2] + up]
        }
        5 | 6 => bisector(rng, points, i),
        7 => [0; 3].map(|_| near_limit(rng)),
        8 => [0; 3].map(|_| pattern(rng)),
        9 => {
            let by = step(rng);
            [0, 1, 2].map(|k| a[k] + by[k])
        }
        _ => {
            // halves of a metre around a point: as far from several segments where the track goes by whole metres
            [0, 1, 2].map(|k| a[k] + (rng.from_to(0, 12) as f32 - 6.0) * 0.5)
        }
    };
    found.map(held)
}

/// On the line that halves the corner at the point after segment i: as far from both segments, and exactly so on whole metres.
fn bisector(rng: &mut Rng, points: &[f32], i: usize) -> [f32; 3] {
    let n = points.len() / 3;
    let (a, b, c) = (at(points, i), at(points, i + 1), at(points, (i + 2).min(n - 1)));
    let unit = |v: [f32; 3]| {
        let size = ((v[0] * v[0] + v[1] * v[1]) + v[2] * v[2]).sqrt();
        if size > 0.0 { v.map(|x| x / size) } else { [0.0; 3] }
    };
    let (before, after) = (unit([0, 1, 2].map(|k| a[k] - b[k])), unit([0, 1, 2].map(|k| c[k] - b[k])));
    let by = rng.pick(&[0.25, 0.5, 1.0, -1.0, 2.0]);
    [0, 1, 2].map(|k| b[k] + (before[k] + after[k]) * by)
}

// ---- refusals

/// A track with one or two things wrong, most of the time: a length that is none of a track, and numbers outside.
pub fn damaged(rng: &mut Rng) -> Vec<f32> {
    let mut all = track(rng);
    let n = all.len();
    match rng.below(8) {
        0 => all.truncate(n - rng.from_to(1, n.min(5))),
        1 => all.truncate(rng.below(n.min(7))),
        2 => all.resize(n + rng.from_to(1, 4), 1.0),
        3 => all.resize(3 * POINTS + rng.from_to(0, 7), 0.5),
        4 => all.resize(3 * POINTS, -0.5),
        _ => {}
    }
    if !all.is_empty() {
        for _ in 0..rng.pick(&[0, 1, 1, 2]) {
            let i = rng.below(all.len());
            all[i] = if rng.one_in(4) { near_limit(rng) } else { rng.pick(&OUTSIDE) };
        }
    }
    all
}

/// A point to project with a coordinate outside, now and then.
pub fn damaged_place(rng: &mut Rng) -> [f32; 3] {
    let mut place = [0; 3].map(|_| near_limit(rng));
    if rng.one_in(2) {
        place[rng.below(3)] = rng.pick(&OUTSIDE);
    }
    place
}

/// How many numbers are lent for the tangents of a track: as many as it needs, a few more or fewer, or some.
pub fn room(rng: &mut Rng, points: usize) -> usize {
    let near = points + 6;
    match rng.below(8) {
        0 => rng.below(points + 1),
        1 => points + rng.below(40),
        _ => near.saturating_sub(rng.below(13)),
    }
}
