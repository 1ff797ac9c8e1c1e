// Tracks by hand, each with the places that are projected on it beside those that every track gets: where two segments are as far
// away, or where a foot meets a point.
use second::tracks::{LIMIT, nudge};

pub struct Shape {
    pub points: Vec<[f32; 3]>,
    pub places: Vec<[f32; 3]>,
}

fn shape(points: &[[f32; 3]], places: &[[f32; 3]]) -> Shape {
    Shape { points: points.to_vec(), places: places.to_vec() }
}

/// Points along x.
fn along(xs: &[f32]) -> Shape {
    Shape { points: xs.iter().map(|&x| [x, 0.0, 0.0]).collect(), places: vec![] }
}

const O: [f32; 3] = [0.0; 3];

fn straight() -> Vec<Shape> {
    vec![
        along(&[0.0, 1.0]),
        along(&[-3.0, -1.0, 0.5, 10.0]),
        shape(&[O, [3.0, 4.0, 12.0]], &[[0.0, 5.0, 1.0], [4.0, 0.0, -1.0]]),
        shape(&[[1.0, 2.0, 3.0], [-1.0, -7.0, 3.5], [-5.0, -25.0, 4.5]], &[]),
        shape(&[O, [0.0, 2.0, 0.0], [0.0, 5.0, 0.0]], &[[-1.0, 2.0, 0.0], [1.0, 2.0, 0.0], [0.0, 2.0, 9.0]]),
    ]
}

/// A segment goes back along the one before it: the tangent between them is zero, or is made of what rounding left.
fn straight_back() -> Vec<Shape> {
    vec![
        shape(&[O, [8.0, 0.0, 0.0], O], &[[2.0, 1.0, 0.0], [8.0, -1.0, 0.0], [9.0, 2.0, 0.0]]),
        shape(&[O, [3.0, 4.0, 0.0], O, [3.0, 4.0, 0.0]], &[[1.5, 2.0, 0.0], [3.0, 0.0, 1.0]]),
        shape(&[O, [1.0, 1.0, 1.0], [-1.0, -1.0, -1.0], [1.0, 1.0, 0.0]], &[[0.5, 0.0, 0.0]]),
        shape(&[O, [1.0, 1.35e-23, 0.0], [0.0, 2.7e-23, 0.0]], &[[0.5, 1.0, 0.0], [0.5, 1e-23, 0.0]]),
        shape(&[O, [1.0, 1e-20, 0.0], [0.0, 2e-20, 0.0], [1.0, 3e-20, 0.0]], &[]),
        shape(&[O, [1.0, 0.1, 0.0], [2e-8, 0.0, 0.0]], &[]),
    ]
}

/// Segments that have no direction in plan.
fn upright() -> Vec<Shape> {
    vec![
        shape(&[O, [0.0, 0.0, 8.0]], &[[1.0, 0.0, 4.0], [0.0, -5.0, 9.0], [2.0, 2.0, -1.0]]),
        shape(&[[1.0, 2.0, 3.0], [1.0, 2.0, -5.0], [1.0, 2.0, 9.0]], &[[2.0, 3.0, 0.0]]),
        shape(&[O, [0.0, 0.0, 2.0], [4.0, 0.0, 2.0], [4.0, 0.0, 0.0]], &[[2.0, 1.0, 1.0], [-1.0, 0.0, 2.0], [5.0, 1.0, 2.0]]),
        shape(&[O, [3.0, 0.0, 0.0], [3.0, 0.0, 5.0], [6.0, 0.0, 5.0]], &[[3.0, 1.0, 2.5], [4.0, 1.0, 2.5]]),
        shape(&[O, [1e-30, 0.0, 5.0], [0.0, 1e-25, 9.0]], &[[1.0, 1.0, 5.0]]),
    ]
}

/// Points that stand more than once, and tracks of one place only.
fn repeated() -> Vec<Shape> {
    let (a, b, c) = ([1.0, 1.0, 0.0], [1.0, 5.0, 0.0], [4.0, 5.0, 1.0]);
    let mut all = vec![
        shape(&[a, a, b], &[[0.0, 1.0, 0.0], a]),
        shape(&[a, a, a, b, c], &[a, b]),
        shape(&[a, b, b, c], &[b, [0.0, 6.0, 0.0]]),
        shape(&[a, b, c, c, c], &[c, [9.0, 5.0, 1.0]]),
        shape(&[a, a, b, b, c, c], &[[2.5, 5.0, 0.5]]),
        shape(&[a, b, a, b, c, a], &[a, b, [2.0, 3.0, 0.0]]),
        shape(&[O, [-0.0, 0.0, -0.0], O, [0.0, -0.0, 1.0]], &[[1.0, 0.0, 0.0]]),
    ];
    for (n, at) in [(2, O), (2, [3.0, 4.0, 5.0]), (3, [-0.0; 3]), (7, [LIMIT, -LIMIT, 1.5])] {
        all.push(shape(&vec![at; n], &[at, O, [2.0, 4.0, 8.0]]));
    }
    all
}

/// Coordinates at the limit: the longest segments there are.
fn at_limits() -> Vec<Shape> {
    let l = LIMIT;
    vec![
        shape(&[[-l; 3], [l; 3]], &[O, [l, -l, l], [-l, l, -l]]),
        shape(&[[-l, l, -l], [l, -l, l], [-l, l, -l]], &[O, [l, l, l]]),
        shape(&[[l, l, l], [l, l, -l], [-l, l, -l], [-l, -l, -l]], &[O, [0.0, l, 0.0], [l, -l, 0.0]]),
        shape(&[[l, 0.0, 0.0], [l.next_down(), 0.0, 0.0], [l, 0.125, 0.0]], &[[l, 0.0625, 0.0]]),
        shape(&[[-l, -l, 0.0], [-l, l, 0.0], [-l.next_down(), l, 0.0]], &[[-l, l, 1.0]]),
    ]
}

/// Steps whose squares, or they themselves, are next to nothing.
fn tiny() -> Vec<Shape> {
    let e = f32::from_bits(1);
    vec![
        along(&[0.0, e, 2.0 * e, 3.0 * e]),
        along(&[0.0, 1e-40, 3e-40]),
        along(&[0.0, 1e-22, 3e-22, 1e-19]),
        along(&[1.0, 1.0f32.next_up(), nudge(1.0, 2)]),
        shape(&[O, [1e-40, 1e-40, 1e-40], [1.0, 0.0, 0.0]], &[[1e-40, 1e-40, 0.0], [0.5, 1e-38, 0.0]]),
        shape(&[O, [1e-21, 1e-22, 0.0], [1e-20, -1e-21, 1e-23]], &[[1e-21, 0.0, 0.0]]),
    ]
}

/// A step in plan with this square of its length, to the last bit: its second part fills up what the first leaves.
fn of_square(square: f32) -> [f32; 3] {
    let first = (0..1000).map(|k| nudge(square.sqrt(), -k));
    let mut steps = first.map(|x| [x, (square - x * x).max(0.0).sqrt(), 0.0]);
    steps.find(|[x, y, _]| x * x + y * y == square).expect("some step has this square")
}

/// Segments about 1e-6 long, or with a square of about 1e-9: there the two tests of a segment turn.
fn tests_turn() -> Vec<Shape> {
    let size = |k| nudge(1e-6, k);
    let squared = |k| {
        let step = of_square(nudge(1e-9, k));
        shape(&[O, step, [1.0, 0.0, 0.0]], &[step.map(|x| x * 0.75), [0.0, step[1] * 2.0, 0.0], [0.0, 1.0, 0.0]])
    };
    vec![
        along(&[0.0, size(-1)]),
        along(&[0.0, size(0)]),
        along(&[0.0, size(1)]),
        squared(-1),
        squared(0),
        squared(1),
        along(&[1.0, 1.0 + 1e-6, 1.0 + 2e-5, 1.0 + 4e-5, 2.0]),
        // the sum swallows the short segment, and the last one
        along(&[-LIMIT, LIMIT, LIMIT - 0.125, LIMIT]),
        shape(&[[-LIMIT, 0.0, 0.0], [LIMIT, 0.0, 0.0], [LIMIT, 0.1, 0.0], [LIMIT, 1.0, 0.0]], &[[LIMIT, 0.05, 0.0]]),
    ]
}

/// Places as far from several segments: the earlier one is kept.
fn ties() -> Vec<Shape> {
    let square = [O, [4.0, 0.0, 0.0], [4.0, 4.0, 0.0], [0.0, 4.0, 0.0], O];
    let eight = [[-2.0, -2.0, 0.0], [2.0, 2.0, 0.0], [2.0, -2.0, 0.0], [-2.0, 2.0, 0.0]];
    let steps = [O, [1.0, 0.0, 0.0], [1.0, 1.0, 0.0], [2.0, 1.0, 0.0], [2.0, 2.0, 0.0], [3.0, 2.0, 0.0]];
    vec![
        shape(&[[-1.0, 1.0, 0.0], O, [1.0, 1.0, 0.0]], &[[0.0, 1.0, 0.0], [0.0, 5.0, 0.0], [0.0, -1.0, 0.0], [0.0, 1.0, 3.0]]),
        shape(
            &square,
            &[[2.0, 2.0, 0.0], [2.0, 2.0, 7.0], [5.0, 5.0, 0.0], [1.0, 1.0, 0.0], [3.0, 3.0, 0.0], O, [-1.0, -1.0, 0.0]],
        ),
        shape(&[O, [4.0, 0.0, 0.0], [4.0, 2.0, 0.0], [0.0, 2.0, 0.0]], &[[2.0, 1.0, 0.0], [1.0, 1.0, 0.0], [3.0, 1.0, 0.0]]),
        shape(&eight, &[O, [0.0, 0.0, 2.0], [1.0, 0.0, 0.0], [0.0, 1.0, 0.0]]),
        shape(&steps, &[[0.5, 0.5, 0.0], [1.5, 0.5, 0.0], [1.5, 1.5, 0.0], [2.0, 1.0, 5.0]]),
        shape(&[[0.0, 0.0, 1.0], [6.0, 0.0, 1.0], [6.0, 0.0, -1.0], [0.0, 0.0, -1.0]], &[[3.0, 0.0, 0.0], [3.0, 2.0, 0.0]]),
    ]
}

/// All of them, by a name.
pub fn all() -> Vec<(&'static str, Vec<Shape>)> {
    vec![
        ("straight", straight()),
        ("straight back", straight_back()),
        ("upright", upright()),
        ("repeated points", repeated()),
        ("at the limits", at_limits()),
        ("tiny steps", tiny()),
        ("where a test turns", tests_turn()),
        ("ties", ties()),
    ]
}
