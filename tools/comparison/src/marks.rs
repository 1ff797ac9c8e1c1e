// Points, borders and their sizes are unaffected by marks: every call answers alike, bit for bit, on a road with marks and on the same
// road with other marks or none.
use crate::lent::Lent;
use crate::places::any;
use crate::tally::Tally;
use archive::riftkettle as ours;
use second::generate;
use second::model::{MARK, Memory, NUMBERS, SECTION_MARK_WORDS, Section, Style, WORDS};
use second::random::{Rng, nudge};

/// The arguments of the calls at one place.
struct Asked {
    s: f64,
    t: f64,
    id: i32,
    geometry: usize,
    target: [f64; 2],
}

impl Asked {
    fn random(rng: &mut Rng, on: &Lent, s: f64) -> Self {
        let t = if rng.one_in(8) { any(rng) } else { rng.between(-20.0, 20.0) };
        let [x, y, ..] = on.oracle.xyz(s, t);
        Self { s, t, id: rng.from_to(0, 12) as i32 - 6, geometry: rng.below(on.road.geoms.len()), target: [x, y] }
    }
}

/// All that every call answers and writes, as bits.
fn answers(m: &Memory, samples: &[f64], asked: &[Asked]) -> Vec<u64> {
    let (mut made, mut lent) = (777, vec![1.5; samples.len() + 1]);
    let mut all = vec![ours::admit(m).into(), ours::samples(m, &mut lent, &mut made).into(), made as u64];
    all.extend(lent.iter().map(|x| x.to_bits()));
    asked.iter().for_each(|at| answers_at(&mut all, m, samples, at));
    all
}

fn answers_at(all: &mut Vec<u64>, m: &Memory, samples: &[f64], at: &Asked) {
    let &Asked { s, t, id, geometry, target: [x, y] } = at;
    let (mut list, mut lanes, mut name) = ([1.5; 36], 777, 777);
    let (mut pose, mut station, mut axes) = ([1.5; 3], [1.5; 8], [1.5; 9]);
    let ([mut point, mut on_lane], [mut heading, mut lane_heading]) = ([[1.5; 3]; 2], [1.5; 2]);
    let (mut pair, mut moves, mut met) = ([1.5; 2], 777, 777);
    let codes = [
        ours::pose(m, samples, geometry, s, &mut pose),
        ours::borders(m, s, &mut list, &mut lanes),
        ours::lane_named(m, s, t, &mut name),
        ours::station(m, samples, s, &mut station),
        ours::axes(m, samples, s, &mut axes),
        ours::surface(m, samples, s, t, &mut point, &mut heading),
        ours::lane_surface(m, samples, id, s, t, &mut on_lane, &mut lane_heading),
        ours::locate(m, samples, x, y, s, &mut pair, &mut moves, &mut met),
    ];
    all.extend(codes.into_iter().chain([lanes as u32, name as u32, moves, met]).map(u64::from));
    let numbers = [&list[..], &pose, &station, &axes, &pair, &[heading, lane_heading]].concat();
    all.extend(numbers.iter().map(|x| x.to_bits()));
    all.extend([point, on_lane].concat().iter().map(|x: &f32| u64::from(x.to_bits())));
}

/// The road with the marks of another memory.
fn with_marks(m: &Memory, other: &Memory) -> Memory {
    let mut new = m.clone();
    new.words[SECTION_MARK_WORDS.at..WORDS].copy_from_slice(&other.words[SECTION_MARK_WORDS.at..WORDS]);
    new.numbers[MARK.at..NUMBERS].copy_from_slice(&other.numbers[MARK.at..NUMBERS]);
    new
}

/// Where some mark starts and ends, and beside it.
fn edges(rng: &mut Rng, on: &Lent) -> Vec<f64> {
    let spans =
        |section: &Section| section.marks.iter().map(|m| [section.start + m.start, section.start + m.end]).collect::<Vec<_>>();
    let all: Vec<[f64; 2]> = on.road.sections.iter().flat_map(spans).collect();
    rng.pick(&all).into_iter().flat_map(|s| [s, nudge(s, -1)]).collect()
}

pub fn marks(rng: &mut Rng, tally: &mut Tally) {
    let on = loop {
        let on = Lent::new(rng);
        if on.road.sections.iter().any(|section| !section.marks.is_empty()) {
            break on;
        }
    };
    let mut stations = on.stations(rng, 2);
    stations.extend(edges(rng, &on));
    let asked: Vec<Asked> = stations.into_iter().map(|s| Asked::random(rng, &on, s)).collect();
    let found = answers(&on.m, &on.samples, &asked);
    let bare = Memory { words: vec![0; WORDS], numbers: vec![0.0; NUMBERS] };
    let mut changed = on.road.clone();
    generate::mark_anew(rng, &mut changed);
    let style = Style::random(rng);
    for (what, other) in [("without marks", Some(bare)), ("with other marks", changed.lay(rng, style))] {
        let Some(other) = other else { continue };
        let expected = answers(&with_marks(&on.m, &other), &on.samples, &asked);
        tally.check(found == expected, || {
            let at = found.iter().zip(&expected).position(|(a, b)| a != b);
            format!("the road {what}: first other answer at {at:?}: {:?}", on.road)
        });
    }
}
