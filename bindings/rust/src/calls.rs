//! The calls on slices of the caller's. Every one is sound for slices of every length and content.
use crate::answers::{Axes, Located, Pose, Station, SurfacePoint};
use crate::ffi;
use crate::layout::{LANES, LANES_STRIDE, SECTION, SECTIONS};
use crate::refusal::Refusal;

/// A road in memory of the caller's, laid out as `include/riftkettle.h` says (the places are in [`layout`](crate::layout)). Each call
/// checks it whole: [`Refusal::Structure`], [`Refusal::Range`] or [`Refusal::SampleBudget`] where it is no road.
#[derive(Debug, Clone, Copy)]
pub struct Lent<'a> {
    /// Counts, codes and ranges: at least [`WORDS`](crate::layout::WORDS).
    pub words: &'a [u16],
    /// All that is an f64: at least [`NUMBERS`](crate::layout::NUMBERS).
    pub numbers: &'a [f64],
}

/// What a return code says: 0 is an answer, 1 to 17 a refusal. Any other is no code of this version, so nothing that the call wrote can
/// be trusted.
pub(crate) fn answered(code: u32) -> Result<(), Refusal> {
    match Refusal::from_number(code) {
        _ if code == 0 => Ok(()),
        Some(refusal) => Err(refusal),
        None => panic!("riftkettle: the linked archive returned {code}, which version {} never does", crate::VERSION),
    }
}

/// The f64 nearest the exact root; NaN below 0.
pub fn root(x: f64) -> f64 {
    ffi::riftkettle_root(x)
}

/// The f32 nearest the exact root; NaN below 0.
pub fn root32(x: f32) -> f32 {
    ffi::riftkettle_root32(x)
}

/// The root of `a * a + b * b`, each operation rounded once.
pub fn hypot(a: f64, b: f64) -> f64 {
    ffi::riftkettle_hypot(a, b)
}

/// The sine; NaN outside -12000..12000.
pub fn sin(h: f64) -> f64 {
    ffi::riftkettle_sin(h)
}

/// The cosine; NaN outside -12000..12000.
pub fn cos(h: f64) -> f64 {
    ffi::riftkettle_cos(h)
}

/// Sine / cosine; NaN outside -12000..12000.
pub fn tan(h: f64) -> f64 {
    ffi::riftkettle_tan(h)
}

/// The f32 nearest `x`, halves to even.
pub fn narrow(x: f64) -> f32 {
    ffi::riftkettle_narrow(x)
}

/// Axis counts: `v * 10,000`, rounded once, to the nearest whole number, halves away from zero. Refuses [`Refusal::CountRange`].
pub fn counts(v: f64) -> Result<i64, Refusal> {
    let mut count = 0;
    // SAFETY: the count is written to a local.
    let code = unsafe { ffi::riftkettle_counts(v, &mut count) };
    answered(code).map(|()| count)
}

/// Reads a job text into a road and its wants (`s`, then `t`, of each, as the bits of an f64), and answers how many wants there are. The
/// slices need [`WORDS`](crate::layout::WORDS), [`NUMBERS`](crate::layout::NUMBERS) and [`WANTS`](crate::layout::WANTS) elements. The
/// road is admitted; the slices hold zeros wherever nothing was read. This is the one call whose refusal clears what was lent.
///
/// Refuses [`Refusal::Capacity`], [`Refusal::Form`], [`Refusal::Structure`], [`Refusal::Range`], [`Refusal::SampleBudget`].
pub fn read(text: &[u8], words: &mut [u16], numbers: &mut [f64], wants: &mut [u64]) -> Result<usize, Refusal> {
    let mut count = 0;
    // SAFETY: pointers and lengths are those of slices; what is written is borrowed mutably, so it overlaps nothing.
    let code = unsafe {
        ffi::riftkettle_read(
            text.as_ptr(),
            text.len(),
            words.as_mut_ptr(),
            words.len(),
            numbers.as_mut_ptr(),
            numbers.len(),
            wants.as_mut_ptr(),
            wants.len(),
            &mut count,
        )
    };
    answered(code).map(|()| count)
}

/// Whether the road is admitted. Refuses as [`Lent`] says, as do all calls below.
pub fn admit(road: Lent<'_>) -> Result<(), Refusal> {
    let Lent { words, numbers } = road;
    // SAFETY: pointers and lengths are those of slices; nothing is written.
    let code = unsafe { ffi::riftkettle_admit(words.as_ptr(), words.len(), numbers.as_ptr(), numbers.len()) };
    answered(code)
}

/// Makes the samples of the road's spirals, four numbers each from `samples[0]` on, and answers how many were made. What lies past them
/// stays as it was. [`SAMPLES`](crate::layout::SAMPLES) numbers are enough for every road; a road without spirals needs none.
///
/// Refuses also [`Refusal::SampleSpace`].
pub fn samples(road: Lent<'_>, samples: &mut [f64]) -> Result<usize, Refusal> {
    let Lent { words, numbers } = road;
    let mut made = 0;
    // SAFETY: pointers and lengths are those of slices; what is written is borrowed mutably, so it overlaps nothing.
    let code = unsafe {
        ffi::riftkettle_samples(
            words.as_ptr(),
            words.len(),
            numbers.as_ptr(),
            numbers.len(),
            samples.as_mut_ptr(),
            samples.len(),
            &mut made,
        )
    };
    answered(code).map(|()| made)
}

/// The pose at `s` on the geometry of that number (from 0), whether it is in use there or not. Lines and arcs run on past their length
/// and before their start; a spiral stays at its ends. [`station`] answers on the one in use.
///
/// Refuses also [`Refusal::SampleSpace`], [`Refusal::Structure`] where there is no such geometry, [`Refusal::Station`].
pub fn pose(road: Lent<'_>, samples: &[f64], geometry: usize, s: f64) -> Result<Pose, Refusal> {
    let Lent { words, numbers } = road;
    let mut pose = [0.0; 3];
    // SAFETY: pointers and lengths are those of slices; the answer is written to a local.
    let code = unsafe {
        ffi::riftkettle_pose(
            words.as_ptr(),
            words.len(),
            numbers.as_ptr(),
            numbers.len(),
            samples.as_ptr(),
            samples.len(),
            geometry,
            s,
            &mut pose,
        )
    };
    answered(code)?;
    let [x, y, heading] = pose;
    Ok(Pose { x, y, heading })
}

/// The borders of the lanes of the section at `s`, three numbers a lane from `list[0]` on (`t` of its inner border, `t` of its outer
/// border, its width), the left lanes from the center outward, then the right ones from the center outward; answers how many lanes. What
/// lies past them stays as it was. [`BORDERS`](crate::layout::BORDERS) numbers are enough for every road. [`left_lanes`] tells which
/// lane an item is.
///
/// Refuses also [`Refusal::Station`], [`Refusal::BorderSpace`].
pub fn borders(road: Lent<'_>, s: f64, list: &mut [f64]) -> Result<usize, Refusal> {
    let Lent { words, numbers } = road;
    let mut lanes = 0;
    // SAFETY: pointers and lengths are those of slices; what is written is borrowed mutably, so it overlaps nothing.
    let code = unsafe {
        ffi::riftkettle_borders(
            words.as_ptr(),
            words.len(),
            numbers.as_ptr(),
            numbers.len(),
            s,
            list.as_mut_ptr(),
            list.len(),
            &mut lanes,
        )
    };
    answered(code).map(|()| lanes)
}

/// The number of left lanes of the section at `s`. It tells which lane an item of [`borders`] is: the first so many are lanes
/// 1, 2, .., the others lanes -1, -2, .. The section at `s` is the last whose start is at most `s + 1e-9` (one f64 sum), the first
/// where there is none.
///
/// The road is not checked: every slice has an answer, which means something where [`borders`] answered for the same road and `s`.
pub fn left_lanes(road: Lent<'_>, s: f64) -> usize {
    let Lent { words, numbers } = road;
    let word = |at| words.get(at).map_or(0, |&word| usize::from(word));
    let mut starts = numbers.get(SECTION..).unwrap_or_default().iter().take(word(SECTIONS));
    let section = starts.rposition(|&start| start <= s + 1e-9).unwrap_or(0);
    word(LANES + LANES_STRIDE * section + 1)
}

/// The id of the lane at `s` and `t`, beyond all borders the outermost: 1, 2, .. on the left and -1, -2, .. on the right, from the center
/// outward. `None`, the C interface's 0, where `t` is at the base or on a side without lanes.
///
/// Refuses also [`Refusal::Station`], [`Refusal::Offset`].
pub fn lane_named(road: Lent<'_>, s: f64, t: f64) -> Result<Option<i32>, Refusal> {
    let Lent { words, numbers } = road;
    let mut id = 0;
    // SAFETY: pointers and lengths are those of slices; the id is written to a local.
    let code = unsafe { ffi::riftkettle_lane_named(words.as_ptr(), words.len(), numbers.as_ptr(), numbers.len(), s, t, &mut id) };
    answered(code).map(|()| (id != 0).then_some(id))
}

/// The reference line at `s`.
///
/// Here and below, `samples` are those that [`samples`] made of this road: call it first. An answer follows what they hold: a
/// slice of zeros of the right length is no refusal and gives wrong points on spirals, and with others the answer may be NaN.
///
/// Refuses also [`Refusal::SampleSpace`], [`Refusal::Station`].
pub fn station(road: Lent<'_>, samples: &[f64], s: f64) -> Result<Station, Refusal> {
    let Lent { words, numbers } = road;
    let mut station = [0.0; 8];
    // SAFETY: pointers and lengths are those of slices; the answer is written to a local.
    let code = unsafe {
        ffi::riftkettle_station(
            words.as_ptr(),
            words.len(),
            numbers.as_ptr(),
            numbers.len(),
            samples.as_ptr(),
            samples.len(),
            s,
            &mut station,
        )
    };
    answered(code)?;
    let [s, x, y, heading, z, grade, bank, bank_rate] = station;
    Ok(Station { s, x, y, heading, z, grade, bank, bank_rate })
}

/// The road's own axes at `s`. The squares of `along` sum to within 0.001 of 1, and so do those of `up`; `across` is their cross product
/// as it is.
///
/// Refuses also [`Refusal::SampleSpace`], [`Refusal::Station`].
pub fn axes(road: Lent<'_>, samples: &[f64], s: f64) -> Result<Axes, Refusal> {
    let Lent { words, numbers } = road;
    let mut axes = [0.0; 9];
    // SAFETY: pointers and lengths are those of slices; the answer is written to a local.
    let code = unsafe {
        ffi::riftkettle_axes(
            words.as_ptr(),
            words.len(),
            numbers.as_ptr(),
            numbers.len(),
            samples.as_ptr(),
            samples.len(),
            s,
            &mut axes,
        )
    };
    answered(code)?;
    let [a0, a1, a2, c0, c1, c2, u0, u1, u2] = axes;
    Ok(Axes { along: [a0, a1, a2], across: [c0, c1, c2], up: [u0, u1, u2] })
}

/// The surface at `s` and `t`, `t` in the banked plane, positive to the left; a positive bank raises the left. Where lanes, profiles or a
/// cross section stand off the road's plane the point does; past the outermost lane its outer height holds.
///
/// Refuses also [`Refusal::SampleSpace`], [`Refusal::Station`], [`Refusal::Offset`].
pub fn surface(road: Lent<'_>, samples: &[f64], s: f64, t: f64) -> Result<SurfacePoint, Refusal> {
    let Lent { words, numbers } = road;
    let mut point = [0.0; 3];
    let mut heading = 0.0;
    // SAFETY: pointers and lengths are those of slices; the answer is written to two locals.
    let code = unsafe {
        ffi::riftkettle_surface(
            words.as_ptr(),
            words.len(),
            numbers.as_ptr(),
            numbers.len(),
            samples.as_ptr(),
            samples.len(),
            s,
            t,
            &mut point,
            &mut heading,
        )
    };
    answered(code)?;
    let [x, y, z] = point;
    Ok(SurfacePoint { x, y, z, heading })
}

/// The same on the surface of the lane of that id (1, 2, .. left and -1, -2, .. right), which runs on straight past its borders. Past the
/// borders of a narrow lane the point may be infinite or NaN, which is no refusal.
///
/// Refuses also [`Refusal::SampleSpace`], [`Refusal::Station`], [`Refusal::Offset`], [`Refusal::Lane`].
pub fn lane_surface(road: Lent<'_>, samples: &[f64], id: i32, s: f64, t: f64) -> Result<SurfacePoint, Refusal> {
    let Lent { words, numbers } = road;
    let mut point = [0.0; 3];
    let mut heading = 0.0;
    // SAFETY: pointers and lengths are those of slices; the answer is written to two locals.
    let code = unsafe {
        ffi::riftkettle_lane_surface(
            words.as_ptr(),
            words.len(),
            numbers.as_ptr(),
            numbers.len(),
            samples.as_ptr(),
            samples.len(),
            id,
            s,
            t,
            &mut point,
            &mut heading,
        )
    };
    answered(code)?;
    let [x, y, z] = point;
    Ok(SurfacePoint { x, y, z, heading })
}

/// Where the point `x`, `y` lies on the road, from a guess of its station, by at most 24 moves. A finite guess off the road counts as the
/// nearer end.
///
/// Refuses also [`Refusal::SampleSpace`], [`Refusal::Station`] where the guess is not finite, [`Refusal::Target`].
pub fn locate(road: Lent<'_>, samples: &[f64], x: f64, y: f64, guess: f64) -> Result<Located, Refusal> {
    let Lent { words, numbers } = road;
    let mut pair = [0.0; 2];
    let (mut moves, mut met) = (0, 0);
    // SAFETY: pointers and lengths are those of slices; the answer is written to three locals.
    let code = unsafe {
        ffi::riftkettle_locate(
            words.as_ptr(),
            words.len(),
            numbers.as_ptr(),
            numbers.len(),
            samples.as_ptr(),
            samples.len(),
            x,
            y,
            guess,
            &mut pair,
            &mut moves,
            &mut met,
        )
    };
    answered(code)?;
    let [s, t] = pair;
    Ok(Located { s, t, moves, met: met == 1 })
}

/// The dots of a lane: stations at equal spacing along its outer border, where marks of kind 1 cover it. Writes them into `list` in order
/// from `list[0]` on and answers how many. What lies past them stays as it was. [`DOTS`](crate::layout::DOTS) numbers are enough for
/// every line.
///
/// The section is named by its number, from 0. `stations` are 2 to 512 of it, each above the one before, none before the section's start
/// nor past its end; they need not begin or end there. At each stands the point of the lane's surface at its outer border, as f32, and
/// the line runs straight from point to point; f32 lengths along it, in space, count from the first. A dot lies at each multiple
/// `0`, `spacing`, `2 * spacing`, .. that is at most the line's length. It is a station and divides the way between the stations of its
/// segment's ends as the multiple divides that between their lengths. Kept are the dots that a mark of kind 1 on the lane covers. No dot
/// lies more than 0.000000001 m below the one before it.
///
/// ```
/// // lane 1 of the first section, 60 m long, is marked from 0 to 20 and from 40 to 60
/// let mut road = Box::new(riftkettle::Road::new());
/// road.read(&std::fs::read("../../examples/jobs/marks.job").unwrap())?;
/// let stations: Vec<f64> = (0..=60).map(f64::from).collect();
/// let mut list = [0.0; 20];
/// let dots = riftkettle::dots(road.lent(), road.samples(), 0, 1, 5.0, &stations, &mut list)?;
/// assert_eq!(list[..dots], [0.0, 5.0, 10.0, 15.0, 40.0, 45.0, 50.0, 55.0]);
/// # Ok::<(), riftkettle::Refusal>(())
/// ```
///
/// Refuses also [`Refusal::SampleSpace`]; [`Refusal::Lane`] where there is no such section or no such lane of it; [`Refusal::Spacing`]
/// outside 0.1..100; [`Refusal::StationList`] where the stations are others, or a coordinate of the line is outside
/// -2,000,000..2,000,000, as it may be with samples of another road; [`Refusal::DotSpace`] where over 65,536 multiples, kept or not, are
/// at most the line's length, or the list is shorter than the dots kept.
pub fn dots(
    road: Lent<'_>,
    samples: &[f64],
    section: usize,
    lane: i32,
    spacing: f32,
    stations: &[f64],
    list: &mut [f64],
) -> Result<usize, Refusal> {
    let Lent { words, numbers } = road;
    let mut dots = 0;
    // SAFETY: pointers and lengths are those of slices; what is written is borrowed mutably, so it overlaps nothing.
    let code = unsafe {
        ffi::riftkettle_dots(
            words.as_ptr(),
            words.len(),
            numbers.as_ptr(),
            numbers.len(),
            samples.as_ptr(),
            samples.len(),
            section,
            lane,
            spacing,
            stations.as_ptr(),
            stations.len(),
            list.as_mut_ptr(),
            list.len(),
            &mut dots,
        )
    };
    answered(code).map(|()| dots)
}
