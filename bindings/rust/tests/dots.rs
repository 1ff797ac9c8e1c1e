//! The dots of a lane against the C interface as it is, and by what they must be on roads where that is seen at once; and the worked
//! example of docs/ROAD.md.
mod common;

use common::{Bits, MARK, raw, road_of, told};
use riftkettle::layout::{DOTS, ELEV, EXTENT, GEOM, KIND, STATIONS};
use riftkettle::*;

/// A mark on a lane: its id, start, end and kind.
type Mark = (i32, f64, f64, u16);

fn hex(x: f64) -> String {
    format!("{:016x}", x.to_bits())
}

/// A road east along the x axis, by its sections: the start, the width of its lanes 1 and -1, and the marks of each.
fn straight(length: f64, sections: &[(f64, f64, &[Mark])]) -> Box<Road> {
    let (zero, end) = (hex(0.0), hex(length));
    let [mut starts, mut lanes, mut extents, mut marks] = [const { String::new() }; 4];
    for (i, (start, width, marked)) in sections.iter().enumerate() {
        starts += &format!("{}\n", hex(*start));
        for id in [1, -1] {
            lanes += &format!("{i} {id} width 0\n");
            extents += &format!("{i} {id} {zero} {} {zero} {zero} {zero}\n", hex(*width));
        }
        for (id, start, end, kind) in *marked {
            marks += &format!("{i} {id} {} {} {kind}\n", hex(*start), hex(*end));
        }
    }
    let text = format!(
        "road length\n{end}\n\n\
         geom s x y hdg length kind k0 k1\n{zero} {zero} {zero} {zero} {end} line {zero} {zero}\n\n\
         elev start a b c d\n{zero} {zero} {zero} {zero} {zero}\n\n\
         section start\n{starts}\n\
         lane section id extent level\n{lanes}\n\
         extent section id start a b c d\n{extents}\n\
         mark section id start end kind\n{marks}\n"
    );
    road_of(text.as_bytes())
}

/// Ten metres with one section, its lanes 2 m wide.
fn ten_metres(marks: &[Mark]) -> Box<Road> {
    straight(10.0, &[(0.0, 2.0, marks)])
}

/// Each whole metre up to the last.
fn metres(last: u32) -> Vec<f64> {
    (0..=last).map(f64::from).collect()
}

/// The dots by both, in so much room of marked memory: the same answer and the same memory, and what lies past the dots as it was.
fn dots_in(road: &Road, at: (usize, i32), spacing: f32, stations: &[f64], room: usize) -> Result<Vec<f64>, Refusal> {
    let (lent, made) = (road.lent(), road.samples());
    let (mut list, mut raw_list) = (vec![MARK; room + 4], vec![MARK; room + 4]);
    let answer = road.dots(at.0, at.1, spacing, stations, &mut list[..room]);
    assert_eq!(told(answer), raw::dots(lent, made, at, spacing, stations, &mut raw_list[..room]));
    assert_eq!(list.bits(), raw_list.bits());
    let dots = answer.unwrap_or(0);
    assert!(list[dots..].iter().all(|v| v.to_bits() == MARK.to_bits()));
    list.truncate(dots);
    answer.map(|_| list)
}

fn dots_of(road: &Road, at: (usize, i32), spacing: f32, stations: &[f64]) -> Result<Vec<f64>, Refusal> {
    dots_in(road, at, spacing, stations, 100)
}

#[test]
fn a_mark_is_dotted_from_its_start_to_just_below_its_end() {
    let road = ten_metres(&[(1, 2.0, 5.0, 1)]);
    assert_eq!(dots_of(&road, (0, 1), 1.0, &metres(10)), Ok(vec![2.0, 3.0, 4.0]));
    assert_eq!(dots_of(&road, (0, 1), 0.5, &metres(10)), Ok(vec![2.0, 2.5, 3.0, 3.5, 4.0, 4.5]));
    assert_eq!(dots_of(&road, (0, -1), 1.0, &metres(10)), Ok(vec![]));
    let nearly = ten_metres(&[(1, 2_f64.next_up(), 5_f64.next_up(), 1)]);
    assert_eq!(dots_of(&nearly, (0, 1), 1.0, &metres(10)), Ok(vec![3.0, 4.0, 5.0]));
}

#[test]
fn marks_of_kind_1_alone_are_dotted_and_a_dot_comes_once() {
    let marks = [(1, 0.0, 4.0, 1), (-1, 1.0, 3.0, 1), (1, 2.0, 6.0, 1), (1, 5.0, 9.0, 2), (1, 7.0, 7.0, 1)];
    let road = ten_metres(&marks);
    assert_eq!(dots_of(&road, (0, 1), 1.0, &metres(10)), Ok(vec![0.0, 1.0, 2.0, 3.0, 4.0, 5.0]));
    assert_eq!(dots_of(&road, (0, -1), 1.0, &metres(10)), Ok(vec![1.0, 2.0]));
}

#[test]
fn lengths_count_from_the_first_station_and_the_end_is_one() {
    let road = ten_metres(&[(1, 0.0, 10.0, 1)]);
    assert_eq!(dots_of(&road, (0, 1), 1.0, &[2.5, 3.5, 4.5]), Ok(vec![2.5, 3.5, 4.5]));
    assert_eq!(dots_of(&road, (0, 1), 100.0, &[2.5, 3.5]), Ok(vec![2.5]));
    assert_eq!(dots_of(&road, (0, 1), 1.5, &[2.5, 4.25]), Ok(vec![2.5, 2.5 + 1.75 * f64::from(1.5_f32 / 1.75)]));
}

/// A slope of 3 in 4, so that 4 m along the road are 5 m of the line.
#[test]
fn lengths_are_in_space() {
    let mut road = ten_metres(&[(1, 0.0, 10.0, 1)]);
    road.numbers_mut()[ELEV + 2] = 0.75;
    assert_eq!(dots_of(&road, (0, 1), 5.0, &[0.0, 4.0, 8.0]), Ok(vec![0.0, 4.0, 8.0]));
    assert_eq!(dots_of(&road, (0, 1), 2.5, &[0.0, 4.0, 8.0]), Ok(vec![0.0, 2.0, 4.0, 6.0, 8.0]));
}

/// A lane that widens by 3 in 4, so that 4 m along the road are 5 m of its outer border.
#[test]
fn the_line_is_the_outer_border() {
    let mut road = ten_metres(&[(1, 0.0, 10.0, 1)]);
    (road.numbers_mut()[EXTENT + 1], road.numbers_mut()[EXTENT + 2]) = (0.25, 0.75);
    assert_eq!(dots_of(&road, (0, 1), 5.0, &[0.0, 4.0, 8.0]), Ok(vec![0.0, 4.0, 8.0]));
}

/// The second section's lanes are 1 m wide: with its border at the end the line would be 5.1 m long.
#[test]
fn the_section_named_holds_at_its_end_too() {
    let road = straight(10.0, &[(0.0, 2.0, &[(-1, 0.0, 5.0, 1)]), (5.0, 1.0, &[(-1, 0.0, 5.0, 1)])]);
    assert_eq!(dots_of(&road, (0, -1), 4.0, &[0.0, 5.0]), Ok(vec![0.0, 5.0 * f64::from(0.8_f32)]));
    assert_eq!(dots_of(&road, (0, -1), 5.0625, &[0.0, 5.0]), Ok(vec![0.0]));
    assert_eq!(dots_of(&road, (1, -1), 1.0, &[5.0, 6.0, 7.0]), Ok(vec![5.0, 6.0, 7.0]));
    // a dot at the section's end is not covered
    assert_eq!(dots_of(&road, (0, -1), 1.0, &[3.0, 4.0, 5.0]), Ok(vec![3.0, 4.0]));
}

#[test]
fn refusals_in_their_order() {
    let road = straight(10.0, &[(0.0, 2.0, &[(1, 0.0, 5.0, 1)]), (5.0, 1.0, &[])]);
    for at in [(0, 0), (0, 2), (0, -2), (0, i32::MIN), (2, 1), (usize::MAX, 1)] {
        assert_eq!(dots_in(&road, at, f32::NAN, &[1.0], 0), Err(Refusal::Lane), "{at:?}");
    }
    for spacing in [f32::NAN, 0.0, -1.0, 0.1_f32.next_down(), 100_f32.next_up(), f32::INFINITY] {
        assert_eq!(dots_in(&road, (0, 1), spacing, &[1.0], 0), Err(Refusal::Spacing), "{spacing}");
    }
    let nan = f64::NAN;
    for stations in
        [&[][..], &[1.0], &[1.0, 1.0], &[2.0, 1.0], &[-0.0, 0.0], &[-0.5, 1.0], &[1.0, 5.5], &[nan, 1.0], &[1.0, nan, 2.0]]
    {
        assert_eq!(dots_in(&road, (0, 1), 1.0, stations, 0), Err(Refusal::StationList), "{stations:?}");
    }
    assert_eq!(dots_in(&road, (1, 1), 1.0, &[5.0_f64.next_down(), 6.0], 0), Err(Refusal::StationList));
    assert_eq!(dots_in(&road, (0, 1), 1.0, &metres(5), 4), Err(Refusal::DotSpace));
    assert_eq!(dots_in(&road, (0, 1), 1.0, &metres(5), 5), Ok(metres(4)));
    assert_eq!(dots_in(&road, (1, 1), 1.0, &[5.0, 6.0], 0), Ok(vec![]));
    for spacing in [0.1, 100.0] {
        assert!(dots_in(&road, (0, 1), spacing, &metres(5), 50).is_ok());
    }
}

#[test]
fn as_many_stations_as_there_may_be() {
    let road = ten_metres(&[(1, 0.0, 1.0, 1)]);
    let stations = |n: usize| (0..n).map(|i| i as f64 / 64.0).collect::<Vec<_>>();
    assert_eq!(dots_of(&road, (0, 1), 0.5, &stations(STATIONS)), Ok(vec![0.0, 0.5]));
    assert_eq!(dots_of(&road, (0, 1), 0.5, &stations(STATIONS + 1)), Err(Refusal::StationList));
}

/// All multiples count, kept or not, and the end is one: 8,191.875 m have 65,536 at 0.125 m.
#[test]
fn as_many_multiples_as_there_may_be() {
    let road = straight(8192.0, &[(0.0, 2.0, &[(1, 0.0, 1.0, 1), (-1, 0.0, 8192.0, 1)])]);
    let whole = |last: f64| [0.0, 1.0, last];
    let eighths = |n: u32| (0..n).map(|k| f64::from(k) / 8.0).collect::<Vec<_>>();
    assert_eq!(dots_in(&road, (0, 1), 0.125, &whole(8191.875), 8), Ok(eighths(8)));
    assert_eq!(dots_in(&road, (0, 1), 0.125, &whole(8192.0), 8), Err(Refusal::DotSpace));
    assert_eq!(dots_in(&road, (0, -1), 0.125, &whole(8191.875), DOTS - 1), Err(Refusal::DotSpace));
    let all = dots_in(&road, (0, -1), 0.125, &whole(8191.875), DOTS).unwrap();
    assert_eq!((all.len(), &all[..9]), (DOTS, &eighths(9)[..]));
    assert!(all.is_sorted());
}

/// A line of other samples than the road's may be no track.
#[test]
fn a_line_that_is_no_track() {
    let mut road = ten_metres(&[(1, 0.0, 5.0, 1)]);
    (road.words_mut()[KIND], road.numbers_mut()[GEOM + 6]) = (2, 0.01);
    road.make_samples().unwrap();
    assert_eq!(dots_of(&road, (0, 1), 1.0, &metres(10)).map(|dots| dots.len()), Ok(5));
    for wrong in [f64::NAN, f64::INFINITY, -2.1e6] {
        let mut made = road.samples().to_vec();
        made.iter_mut().skip(1).step_by(4).for_each(|x| *x = wrong);
        let mut list = [MARK; 9];
        assert_eq!(dots(road.lent(), &made, 0, 1, 1.0, &metres(10), &mut list), Err(Refusal::StationList));
        assert_eq!(list.bits(), [MARK; 9].bits());
    }
}

/// The numbers of docs/ROAD.md, "Dots".
#[test]
fn the_worked_example() {
    let road = ten_metres(&[(1, 2.0, 5.0, 1)]);
    assert_eq!(dots_of(&road, (0, 1), 1.0, &metres(10)), Ok(vec![2.0, 3.0, 4.0]));
    assert_eq!(dots_of(&road, (0, 1), 1.5, &metres(10)), Ok(vec![3.0, 4.5]));
    let between = vec![2.0, 2.500000014901161, 3.0000000298023224, 3.5, 4.000000059604645, 4.499999940395355];
    assert_eq!(dots_of(&road, (0, 1), 0.5, &[2.0, 5.0]), Ok(between));
}
