//! `Road` against the functions on slices: the same answers, and what it holds after reading, a refusal, and a road put in by hand.
mod common;

use std::iter::successors;

use common::{Bits, job, jobs, road_of, told};
use riftkettle::layout::{
    BORDERS, GEOM, GEOM_STRIDE, GEOMS, KIND, LANES, LANES_STRIDE, LENGTH, MARK, MARK_STRIDE, MARKS, MARKS_STRIDE, NUMBERS,
    SAMPLES, SECTION, SECTIONS, SPAN, SPAN_STRIDE, WANTS, WORDS,
};
use riftkettle::*;

fn same_answers(road: &Road) {
    let (lent, made) = (road.lent(), road.samples());
    assert_eq!(told(road.admit()), told(admit(lent)));
    for s in [-1.0, 0.0, road.length() / 2.0, road.length(), f64::NAN] {
        assert_eq!(told(road.pose(0, s)), told(pose(lent, made, 0, s)));
        assert_eq!(told(road.pose(64, s)), told(pose(lent, made, 64, s)));
        assert_eq!(told(road.station(s)), told(station(lent, made, s)));
        assert_eq!(told(road.axes(s)), told(axes(lent, made, s)));
        assert_eq!(told(road.locate(s, 1.0, s)), told(locate(lent, made, s, 1.0, s)));
        for t in [-81.0, -4.0, 0.0, 3.0] {
            assert_eq!(told(road.lane_named(s, t)), told(lane_named(lent, s, t)));
            assert_eq!(told(road.surface(s, t)), told(surface(lent, made, s, t)));
            for id in [-1, 0, 2] {
                assert_eq!(told(road.lane_surface(id, s, t)), told(lane_surface(lent, made, id, s, t)));
            }
        }
        for (section, lane) in [(0, 1), (1, -1), (2, 1)] {
            let (stations, mut list, mut own) = ([0.0, s], [0.0; 9], [0.0; 9]);
            let answer = dots(lent, made, section, lane, 12.5, &stations, &mut list);
            assert_eq!((road.dots(section, lane, 12.5, &stations, &mut own), own), (answer, list));
        }
        let mut list = [0.0; BORDERS];
        let lanes = borders(lent, s, &mut list);
        assert_eq!(road.borders(s).map(|b| b.bits()), lanes.map(|n| list[..3 * n].bits()));
    }
}

#[test]
fn the_sample_jobs() {
    for (name, text) in jobs() {
        let road = road_of(&text);
        let (mut words, mut numbers, mut wants, mut made) = ([0; WORDS], [0.0; NUMBERS], [0; WANTS], [0.0; SAMPLES]);
        let count = read(&text, &mut words, &mut numbers, &mut wants).unwrap();
        let lent = Lent { words: &words, numbers: &numbers };
        let samples = 4 * samples(lent, &mut made).unwrap();
        assert_eq!((road.lent().words, road.lent().numbers.bits()), (&words[..], numbers.bits()), "{name}");
        assert_eq!(road.samples().bits(), made[..samples].bits());
        assert_eq!(road.wants().len(), count);
        assert_eq!(road.wants().flat_map(|(s, t)| [s.to_bits(), t.to_bits()]).collect::<Vec<_>>(), wants[..2 * count]);
        assert_eq!(road.length(), numbers[LENGTH]);
        same_answers(&road);
        same_answers(&road.clone());
    }
}

/// Nothing is left of the road before.
fn none_held(road: &Road) {
    assert_eq!((road.length(), road.wants().len(), road.samples().len()), (0.0, 0, 0));
    assert_eq!(road.admit(), Err(Refusal::Structure));
    assert!(road.lent().words.iter().all(|v| *v == 0) && road.lent().numbers.iter().all(|v| v.to_bits() == 0));
    same_answers(road);
}

#[test]
fn no_road_before_reading_and_after_a_refusal() {
    none_held(&Road::new());
    none_held(&Road::default());
    none_held(Road::new_in(Box::leak(Box::new_uninit())));
    let mut road = road_of(&job("spiral"));
    assert_eq!(road.read(b"road\n"), Err(Refusal::Form));
    none_held(&road);
    assert_eq!(road.read(&job("spiral")), Ok(()));
    assert_eq!(road.wants().len(), 5);
    assert_eq!(road.read(&[b' '; 65537]), Err(Refusal::Capacity));
    none_held(&road);
}

#[test]
fn a_road_by_hand() {
    let mut road = Box::new(Road::new());
    road.numbers_mut()[LENGTH] = 12.0;
    road.numbers_mut()[GEOM..][..GEOM_STRIDE].copy_from_slice(&[0.0, 0.0, 0.0, 0.0, 10.0, 0.0, 0.0]);
    road.numbers_mut()[GEOM + GEOM_STRIDE..][..GEOM_STRIDE].copy_from_slice(&[10.0, 10.0, 0.0, 0.0, 2.0, 0.0, 0.5]);
    (road.words_mut()[GEOMS], road.words_mut()[KIND + 1], road.words_mut()[SECTIONS]) = (2, 2, 1);
    assert_eq!((road.admit(), road.station(4.0)), (Ok(()), Err(Refusal::SampleSpace)));
    assert_eq!((road.make_samples(), road.samples().len()), (Ok(()), 36));
    same_answers(&road);
    let found = road.locate(10.5, 0.25, 9.0).unwrap();
    assert!(found.met && found.moves > 0);

    // samples of another road are not kept
    road.words_mut()[KIND + 1] = 2;
    assert_eq!((road.samples().len(), road.make_samples(), road.samples().len()), (0, Ok(()), 36));
    road.numbers_mut()[GEOM + GEOM_STRIDE + 6] = 1.5;
    assert_eq!((road.samples().len(), road.make_samples(), road.samples().len()), (0, Err(Refusal::Range), 0));
}

#[test]
fn borders_are_a_slice() {
    let borders = road_of(&job("lanes_width")).borders(50.0).unwrap();
    assert_eq!(borders.len(), 4);
    assert_eq!(borders[2], Border { id: -1, inner: 0.25, outer: -3.25, width: 3.5 });
    assert_eq!(borders, borders.clone());
    assert!(road_of(&job("line")).borders(0.0).unwrap().is_empty());
}

/// Stations of the road at each section's start and 1e-9 before it, where it comes into use, with their neighbours among the f64.
fn around_sections(road: &Road) -> Vec<f64> {
    let starts = road.lent().numbers[SECTION..].iter().take(road.lent().words[SECTIONS].into());
    let places = starts.flat_map(|start| [start - 1e-6, start - 1e-9, *start, start + 1e-6]);
    let lowest = places.map(|place| (0..9).fold(place, |s, _| s.next_down()));
    let stations = lowest.flat_map(|s| successors(Some(s), |s| Some(s.next_up())).take(19));
    stations.filter(|s| (0.0..=road.length()).contains(s)).collect()
}

/// The ids at `s` are those of the lanes that the library has there, each at its lane's place.
fn ids_are_right(road: &Road, s: f64) {
    let borders = road.borders(s).unwrap();
    let there = (1..9).chain((1..9).map(|id| -id)).filter(|id| road.lane_surface(*id, s, 0.0) != Err(Refusal::Lane));
    assert!(borders.iter().map(|lane| lane.id).eq(there), "at {s}: {borders:?}");
    for lane in borders.iter() {
        let middle = (lane.inner + lane.outer) / 2.0;
        // a lane may be so narrow that no f64 lies between its borders
        if middle != lane.inner && middle != lane.outer {
            assert_eq!(road.lane_named(s, middle), Ok(Some(lane.id)), "at {s}: {borders:?}");
        }
    }
}

#[test]
fn ids_of_the_sample_jobs() {
    for (_, text) in jobs() {
        let road = road_of(&text);
        for s in around_sections(&road).into_iter().chain([road.length() / 2.0, road.length()]) {
            ids_are_right(&road, s);
        }
    }
}

/// Sixteen sections, each with another number of left lanes than the one before. A start just past a power of two tells the sum
/// `s + 1e-9` from the difference `start - 1e-9`, since the f64 lie closer below it.
#[test]
fn ids_of_sections_by_hand() {
    let mut road = Box::new(Road::new());
    (road.numbers_mut()[LENGTH], road.numbers_mut()[GEOM + 4]) = (9000.0, 9000.0);
    (road.words_mut()[GEOMS], road.words_mut()[SECTIONS]) = (1, 16);
    for i in 0..16 {
        road.numbers_mut()[SECTION + i] = if i == 0 { 0.0 } else { 2_f64.powi(i as i32 - 2).next_up() };
        road.words_mut()[LANES + LANES_STRIDE * i..][..LANES_STRIDE].copy_from_slice(&[0, 3 * i as u16 % 7, 5 * i as u16 % 7]);
    }
    for s in around_sections(&road) {
        ids_are_right(&road, s);
    }
}

/// The last mark of the table, at the header's places: admitted or refused, and no part of an answer.
#[test]
fn marks_by_hand() {
    let mut road = road_of(&job("two_sections"));
    let points = |road: &Road| [[30.0, 3.0], [59.0, 4.0], [80.0, -3.0]].map(|[s, t]| road.surface(s, t));
    let plain = points(&road);
    let mut lay = |[lane, kind]: [u16; 2], span: [f64; 2]| {
        road.words_mut()[MARKS..][..MARKS_STRIDE].copy_from_slice(&[255, 1]);
        road.words_mut()[MARK + MARK_STRIDE * 255..][..MARK_STRIDE].copy_from_slice(&[lane, kind]);
        road.numbers_mut()[SPAN + SPAN_STRIDE * 255..][..SPAN_STRIDE].copy_from_slice(&span);
        (road.admit(), points(&road))
    };
    for (words, span) in [([0, 1], [0.0, 60.0]), ([2, 255], [60.0, 60.0])] {
        assert_eq!(lay(words, span), (Ok(()), plain));
    }
    assert_eq!(lay([3, 1], [0.0, 1.0]).0, Err(Refusal::Structure));
    for (words, span) in [([0, 0], [0.0, 1.0]), ([0, 256], [0.0, 1.0]), ([0, 1], [0.0, 60f64.next_up()]), ([0, 1], [2.0, 1.0])] {
        assert_eq!(lay(words, span).0, Err(Refusal::Range));
    }
}

#[test]
fn size_and_debug() {
    assert!((135_000..136_000).contains(&size_of::<Road>()));
    let road = road_of(&job("spiral"));
    let samples = road.samples().len() / 4;
    assert_eq!(format!("{road:?}"), format!("Road {{ length: 200.0, wants: 5, samples: {samples}, .. }}"));
}
