// What is asked of each track.
use crate::{List, shapes};
use second::random::Rng;
use second::tracks::{LIMIT, OUTSIDE, POINTS, lengths, nudge, place, road_like, track};

const NANS: [u32; 4] = [0x7fc0_0000, 0xffc0_0000, 0x7f80_0001, 0x7fff_ffff];

/// Numbers of a lent list: each another, so that one which is moved shows; a NaN, zeros and an infinity among them.
fn marked(n: usize) -> Vec<f32> {
    let mark = |i: usize| match i % 16 {
        5 => f32::NAN,
        9 => -0.0,
        12 => f32::INFINITY,
        _ => 1000.5 + i as f32,
    };
    (0..n).map(mark).collect()
}

/// Arc lengths at the ends and outside, at the sums of lengths and beside them, and between.
fn stations(rng: &mut Rng, points: &[f32], most: usize) -> Vec<f32> {
    let sums = lengths(points);
    let length = sums[sums.len() - 1];
    let mut all = vec![0.0, -0.0, length, length.next_up(), length.next_down(), length * 0.5];
    all.extend([-1.0, length * 2.0 + 1.0, f32::INFINITY, f32::NEG_INFINITY, f32::from_bits(rng.pick(&NANS))]);
    let inner: Vec<f32> = sums[1..sums.len() - 1].to_vec();
    for _ in 0..inner.len().min(most) {
        let s = rng.pick(&inner);
        all.push(nudge(s, rng.from_to(0, 2) as i32 - 1));
    }
    for _ in 0..most.min(3) {
        let i = rng.below(sums.len() - 1);
        all.push(sums[i] + (sums[i + 1] - sums[i]) * rng.unit() as f32);
    }
    all
}

/// The tracks by hand: tangents into a list with a tail, into the same list again, and where there is no room.
pub fn shapes(list: &mut List, rng: &mut Rng) {
    for (name, shapes) in shapes::all() {
        for (k, shape) in shapes.iter().enumerate() {
            let points = shape.points.concat();
            list.put(&points);
            list.lend(&marked(points.len() + k % 5));
            list.tangents();
            if k % 3 == 0 {
                list.lend(&marked(points.len() - 1));
                list.tangents();
            }
            stations(rng, &points, 3).into_iter().for_each(|s| list.pose(s));
            shape.points.iter().take(2).for_each(|&p| list.project(p));
            shape.places.iter().for_each(|&p| list.project(p));
            for _ in 0..4 {
                list.project(place(rng, &points));
            }
            *list.kinds.entry(format!("track {name}")).or_default() += 1;
        }
    }
}

/// Tracks that tools/second draws, those of few points.
pub fn drawn(list: &mut List, rng: &mut Rng) {
    let mut left = 40;
    while left > 0 {
        let points = track(rng);
        if points.len() > 3 * 24 {
            continue;
        }
        left -= 1;
        list.put(&points);
        list.lend(&marked(points.len() + rng.below(4)));
        list.tangents();
        stations(rng, &points, 2).into_iter().for_each(|s| list.pose(s));
        for _ in 0..10 {
            list.project(place(rng, &points));
        }
        *list.kinds.entry("track drawn".to_owned()).or_default() += 1;
    }
}

/// As many points as there may be: as of a road, from corner to corner of all there is, all alike; one more; and a last coordinate
/// outside.
pub fn longest(list: &mut List, rng: &mut Rng) {
    let road = road_like(rng, POINTS);
    let corner = |i: usize| [1, 2, 4].map(|bit| if (i * 5 + i / 8) & bit == 0 { LIMIT } else { -LIMIT });
    let corners: Vec<f32> = (0..POINTS).flat_map(corner).collect();
    let alike = [1.5, -2.5, 3.5].repeat(POINTS);
    list.lend(&marked(3 * POINTS + 2));
    for points in [&road, &corners, &alike] {
        list.put(points);
        list.tangents();
        stations(rng, points, 8).into_iter().for_each(|s| list.pose(s));
        for _ in 0..16 {
            list.project(place(rng, points));
        }
        *list.kinds.entry("track of 512 points".to_owned()).or_default() += 1;
    }
    let mut outside = road.clone();
    outside[3 * POINTS - 1] = f32::NAN;
    list.put(&outside);
    list.tangents();
    list.pose(1.0);
    list.project([0.0; 3]);
    list.put(&road);
    list.lend(&marked(3 * POINTS - 1));
    list.tangents();
    list.lend(&marked(8));
    list.tangents();
    for over in [1, 2, 3] {
        list.put(&[&road[..], &road[..over]].concat());
        list.tangents();
        list.pose(1.0);
        list.project([0.0; 3]);
    }
}

/// The three calls on what is held.
fn each(list: &mut List) {
    list.tangents();
    list.pose(0.5);
    list.project([1.0, 2.0, 3.0]);
}

pub fn refusals(list: &mut List) {
    let good = [0.0, 0.0, 0.0, 4.0, 0.0, 0.0, 4.0, 4.0, 1.0];
    let mut wrong = good;
    wrong[4] = f32::NAN;
    // counts that are none of a track, with good numbers and with NaNs: 13 is first
    list.lend(&marked(11));
    for n in [0, 1, 2, 3, 4, 5, 7, 8] {
        list.put(&good[..n]);
        each(list);
        list.put(&vec![f32::NAN; n]);
        each(list);
        list.project([f32::NAN, 0.0, 0.0]);
    }
    // room for the tangents, by whole threes, and no room though a coordinate is outside
    for n in [0, 1, 2, 3, 6, 8, 9, 10, 11, 12, 15] {
        list.put(&good);
        list.lend(&marked(n));
        each(list);
        list.put(&wrong);
        each(list);
    }
    // a coordinate outside: each in turn, and each number that is none
    list.lend(&marked(10));
    for (i, &x) in (0..9).zip(OUTSIDE.iter().cycle()) {
        let mut points = good;
        points[i] = x;
        list.put(&points);
        each(list);
    }
    for x in OUTSIDE.iter().copied().chain(NANS.map(f32::from_bits)) {
        let mut points = good;
        points[5] = x;
        list.put(&points);
        each(list);
    }
    // the projected place: outside, with a good track, with one outside, with a count that is none; and at the limits
    for points in [&good[..], &wrong, &good[..7]] {
        list.put(points);
        for (k, x) in OUTSIDE.iter().copied().chain(NANS.map(f32::from_bits)).enumerate() {
            let mut at = [1.0, -0.0, 2.0];
            at[k % 3] = x;
            list.project(at);
        }
    }
    list.put(&good);
    for at in [[LIMIT; 3], [-LIMIT; 3], [LIMIT, -0.0, -LIMIT], [f32::NAN; 3], [0.0, LIMIT.next_up(), f32::NAN]] {
        list.project(at);
    }
    NANS.iter().for_each(|&bits| list.pose(f32::from_bits(bits)));
}
