//! Marks, refusal by refusal: in a job text and in lent memory. Document 02, point 2.
use second::admission::admit;
use second::generate;
use second::model::*;
use second::random::Rng;
use second::reader::{self, WANTS};
use second::texts::digits;

const NAN: f64 = f64::NAN;

/// A road of 100 with sections from 0 and from 60: two left lanes and one right one, one left lane.
const ROAD: &str = "road length\n4059000000000000\n\n\
    geom s x y hdg length kind k0 k1\n\
    0000000000000000 0000000000000000 0000000000000000 0000000000000000 4059000000000000 line 0000000000000000 0000000000000000\n\n\
    section start\n0000000000000000\n404e000000000000\n\n\
    lane section id extent level\n0 1 width 0\n0 2 width 0\n0 -1 border 1\n1 1 width 0\n\n";
const WANT: &str = "want s t\n3ff0000000000000 4000000000000000\n\n";
const NAMES: &str = "mark section id start end kind\n";

fn read(text: &str) -> (Result<usize, u32>, Memory) {
    let (mut m, mut wants) = (Memory { words: vec![9; WORDS], numbers: vec![9.0; NUMBERS] }, [9; WANTS]);
    let answer = reader::read(text.as_bytes(), &mut m.words, &mut m.numbers, &mut wants);
    (answer, m)
}

/// A line of marks.
fn line(section: i32, id: i32, start: f64, end: f64, kind: impl ToString) -> String {
    format!("{section} {id} {} {} {}\n", digits(start), digits(end), kind.to_string())
}

fn with(lines: &[String]) -> Result<usize, u32> {
    read(&format!("{ROAD}{NAMES}{}\n{WANT}", lines.concat())).0
}

fn one(section: i32, id: i32, start: f64, end: f64, kind: impl ToString) -> Result<usize, u32> {
    with(&[line(section, id, start, end, kind)])
}

#[test]
fn the_table_and_its_form() {
    let (answer, m) = read(&format!(
        "{ROAD}mark kind end id start section\n7 4034000000000000 -1 4024000000000000 0\n255 404e000000000000 1 0000000000000000 0\n\
         1 4044000000000000 1 0000000000000000 1\n\n{WANT}"
    ));
    assert_eq!(answer, Ok(1));
    assert_eq!(m.words[1347..1351], [0, 2, 2, 1]);
    assert_eq!(m.words[1379..1387], [2, 7, 0, 255, 0, 1, 0, 0]);
    assert_eq!(m.numbers[7937..7945], [10.0, 20.0, 0.0, 60.0, 0.0, 40.0, 0.0, 0.0]);
    let road = Road::read(&m.words, &m.numbers);
    assert_eq!(road.sections[0].marks[0], Mark { lane: 2, kind: 7, start: 10.0, end: 20.0 });
    assert_eq!(road.sections[1].marks.len(), 1);
    let empty = format!("{NAMES}\n");
    for (text, expected) in [
        (format!("{ROAD}{WANT}"), Ok(1)),
        (format!("{ROAD}{empty}{WANT}"), Ok(1)),
        (format!("{ROAD}{empty}"), Ok(0)),
        (format!("{ROAD}{WANT}{empty}"), Err(1)),
        (format!("{ROAD}{empty}{empty}{WANT}"), Err(1)),
        (format!("{ROAD}{empty}strip side place relative\n\n{WANT}"), Err(1)),
        (format!("{ROAD}cubic side place term start a b c d\n\n{empty}{WANT}"), Ok(1)),
        (format!("{ROAD}mark section id start end\n\n{WANT}"), Err(1)),
        (format!("{ROAD}mark section id start end end\n\n{WANT}"), Err(1)),
        (format!("{ROAD}{NAMES}{WANT}"), Err(1)),
    ] {
        assert_eq!(read(&text).0, expected, "{text}");
    }
}

#[test]
fn kinds() {
    for kind in ["1", "2", "255"] {
        assert_eq!(one(0, 1, 0.0, 1.0, kind), Ok(1), "{kind}");
    }
    for kind in ["0", "256", "-1", "9999", "-9999", "257", "512", "-255"] {
        assert_eq!(one(0, 1, 0.0, 1.0, kind), Err(4), "{kind}");
    }
    for kind in ["01", "-0", "10000", "-", "+1", "1.0", "", "white"] {
        assert_eq!(one(0, 1, 0.0, 1.0, kind), Err(1), "{kind}");
    }
    // A kind below 0 is refused by 4 alone: it is kept, as one that is none.
    assert_eq!(with(&[line(0, 1, 0.0, 1.0, -1), line(0, 9, 0.0, 1.0, 1)]), Err(3));
}

#[test]
fn counts() {
    let lines = |section, n| vec![line(section, 1, 0.0, 1.0, 1); n];
    assert_eq!([0, 1, 16, 17].map(|n| with(&lines(0, n))), [Ok(1), Ok(1), Ok(1), Err(3)]);
    // 16 a section, whichever lanes they are on.
    let both = |n: i32| (0..n).map(|i| line(0, [1, 2, -1][i as usize % 3], 0.0, 1.0, 1)).collect::<Vec<_>>();
    assert_eq!([16, 17].map(|n| with(&both(n))), [Ok(1), Err(3)]);
    assert_eq!(with(&[lines(0, 16), lines(1, 16)].concat()), Ok(1));
    // 256 in all: the next line is 2 in its place among the lines, whatever it and those before it say.
    assert_eq!([256, 257].map(|n| with(&lines(0, n))), [Err(3), Err(2)]);
    assert_eq!(with(&[lines(0, 256), vec![line(9, 0, NAN, NAN, 0)]].concat()), Err(2));
    assert_eq!(with(&[lines(0, 256), vec![line(0, 1, 0.0, 1.0, "01")]].concat()), Err(1));
    assert_eq!(with(&[lines(0, 255), vec![line(0, 1, 0.0, 1.0, "01")], lines(0, 2)].concat()), Err(1));
    let full = generate::full().lay(&mut Rng::new(1, "marks"), Style::default()).expect("fits");
    assert_eq!((full.words[SECTION_MARK_WORDS.line(15)], full.words[SECTION_MARK_WORDS.line(15) + 1]), (240, 16));
}

#[test]
fn references_and_order_of_lines() {
    for (section, id, expected) in [
        (0, 1, Ok(1)),
        (0, 2, Ok(1)),
        (0, -1, Ok(1)),
        (1, 1, Ok(1)),
        (0, 0, Err(3)),
        (0, 3, Err(3)),
        (0, -2, Err(3)),
        (1, 2, Err(3)),
        (1, -1, Err(3)),
        (2, 1, Err(3)),
        (-1, 1, Err(3)),
        (9999, 1, Err(3)),
    ] {
        assert_eq!(one(section, id, 0.0, 1.0, 1), expected, "section {section}, id {id}");
    }
    let at = |section, id, start| line(section, id, start, 30.0, 1);
    for (lines, expected) in [
        // A section's ids in any order; sections never fall.
        (vec![at(0, -1, 0.0), at(0, 2, 0.0), at(0, 1, 0.0)], Ok(1)),
        (vec![at(0, 1, 0.0), at(1, 1, 0.0), at(0, 1, 0.0)], Err(3)),
        // Starts never fall on one lane of one section, whatever stands between.
        (vec![at(0, 1, 1.0), at(0, -1, 0.0), at(0, 1, 0.5)], Err(3)),
        (vec![at(0, 1, 1.0), at(0, -1, 0.0), at(0, 1, 1.0)], Ok(1)),
        (vec![at(0, 1, 0.0), at(0, 1, -0.0)], Ok(1)),
        (vec![at(0, 1, 1f64.next_up()), at(0, 1, 1.0)], Err(3)),
        (vec![at(0, 1, 20.0), at(1, 1, 0.0)], Ok(1)),
        (vec![at(0, 2, 20.0), at(0, 1, 0.0)], Ok(1)),
        // Spans may overlap, and a later one may end first.
        (vec![line(0, 1, 0.0, 60.0, 1), line(0, 1, 1.0, 2.0, 1)], Ok(1)),
    ] {
        assert_eq!(with(&lines), expected, "{lines:?}");
    }
}

#[test]
fn spans() {
    let inf = f64::INFINITY;
    for (section, start, end, expected) in [
        (0, 0.0, 0.0, Ok(1)),
        (0, -0.0, -0.0, Ok(1)),
        (0, 60.0, 60.0, Ok(1)),
        (0, 0.0, 60.0, Ok(1)),
        (0, 0.0, 60f64.next_up(), Err(4)),
        (1, 0.0, 40.0, Ok(1)),
        (1, 0.0, 40f64.next_up(), Err(4)),
        (0, -5e-324, 1.0, Err(4)),
        (0, 2.0, 1.0, Err(4)),
        (0, 1f64.next_up(), 1.0, Err(4)),
        (0, NAN, 1.0, Err(4)),
        (0, 0.0, NAN, Err(4)),
        (0, inf, inf, Err(4)),
        (0, -inf, 1.0, Err(4)),
        (0, 0.0, inf, Err(4)),
    ] {
        assert_eq!(one(section, 1, start, end, 1), expected, "section {section}, {start}..{end}");
    }
    // A start that is compared is 3, an end never is; infinite starts do not fall.
    assert_eq!(with(&[line(0, 1, NAN, 1.0, 1), line(0, 1, 0.0, 1.0, 1)]), Err(3));
    assert_eq!(with(&[line(0, 1, 0.0, 1.0, 1), line(0, 1, NAN, 1.0, 1)]), Err(3));
    assert_eq!(with(&[line(0, 1, NAN, 1.0, 1), line(0, 2, NAN, 1.0, 1), line(1, 1, NAN, 1.0, 1)]), Err(4));
    assert_eq!(with(&[line(0, 1, 0.0, NAN, 1), line(0, 1, 0.0, NAN, 1)]), Err(4));
    assert_eq!(with(&[line(0, 1, 0.0, 1.0, 1), line(0, 1, inf, 1.0, 1), line(0, 1, inf, 1.0, 1)]), Err(4));
}

/// The rows keep their places: 3 of a mark before any 4, 4 of a mark before 5.
#[test]
fn rows() {
    let (falling, kind) = ([line(0, 1, 1.0, 1.0, 1), line(0, 1, 0.0, 1.0, 1)].concat(), line(0, 1, 0.0, 1.0, 0));
    let job = |road: &str, lines: &str| read(&format!("{road}{NAMES}{lines}\n{WANT}")).0;
    let long = ROAD.replacen("4059000000000000", "7ff8000000000000", 1);
    assert_eq!((job(&long, &falling), job(&long, "")), (Err(3), Err(4)));
    // A spiral of 1,000 m needs 4,001 samples.
    let spiral = ROAD.replacen("4059000000000000 line", "408f400000000000 spiral", 1);
    assert_eq!((job(&spiral, ""), job(&spiral, &kind), job(&spiral, &falling)), (Err(5), Err(4), Err(3)));
}

// ---- lent memory

/// The road above with three marks.
fn lent() -> Memory {
    let lines = [line(0, 1, 0.0, 10.0, 1), line(0, -1, 5.0, 60.0, 255), line(1, 1, 0.0, 40.0, 7)];
    let (answer, m) = read(&format!("{ROAD}{NAMES}{}\n{WANT}", lines.concat()));
    assert_eq!(answer, Ok(1));
    m
}

fn changed(change: impl FnOnce(&mut Memory)) -> u32 {
    let mut m = lent();
    change(&mut m);
    admit(&m.words, &m.numbers)
}

#[test]
fn lent_ranges() {
    let range = |section: usize, first: u16, count: u16| {
        changed(|m| m.words[SECTION_MARK_WORDS.line(section)..][..2].copy_from_slice(&[first, count]))
    };
    for (section, first, count, expected) in [
        (0, 0, 0, 0),
        (0, 256, 0, 0),
        (0, 257, 0, 3),
        (0, 65_535, 0, 3),
        (0, 0, 17, 3),
        (0, 65_535, 1, 3),
        (0, 65_535, 2, 3),
        (0, 1, 65_535, 3),
        (0, 255, 2, 3),
        // over the other section's mark, and past the marks that are there: their kind is 0
        (0, 1, 2, 0),
        (0, 0, 4, 4),
        (0, 240, 16, 4),
        (0, 241, 16, 3),
        // the right lane of the first section is none of the second's
        (1, 1, 1, 3),
        (1, 0, 1, 0),
        // a section that is not there
        (2, 300, 300, 0),
        (15, 65_535, 65_535, 0),
    ] {
        assert_eq!(range(section, first, count), expected, "section {section}: {first}, {count}");
    }
    let shared = |m: &mut Memory| m.words[1349..1351].copy_from_slice(&[0, 1]);
    assert_eq!(changed(|m| shared(m)), 0);
    // its extent is 40
    assert_eq!(changed(|m| (shared(m), m.numbers[7938] = 41.0).1), 4);
}

#[test]
fn lent_lanes_and_kinds() {
    let word = |at: usize, value: u16| changed(|m| m.words[at] = value);
    assert_eq!([0, 1, 2, 3, 65_535].map(|lane| word(MARK_WORDS.line(1), lane)), [0, 0, 0, 3, 3]);
    assert_eq!([0, 1, 65_535].map(|lane| word(MARK_WORDS.line(2), lane)), [0, 3, 3]);
    assert_eq!([1, 255, 0, 256, 257, 65_535].map(|kind| word(MARK_WORDS.line(0) + 1, kind)), [0, 0, 4, 4, 4, 4]);
    // words and numbers of marks that no section has
    assert_eq!([word(MARK_WORDS.line(3), 65_535), word(MARK_WORDS.line(3) + 1, 65_535)], [0, 0]);
    assert_eq!(changed(|m| m.numbers[MARK.line(3)] = NAN), 0);
    // a lane that is there no more
    assert_eq!(changed(|m| m.words[SECTION_WORDS.line(0) + 2] = 0), 3);
}

#[test]
fn lent_slices() {
    let cut = |words: usize, numbers: usize| changed(|m| (m.words.truncate(words), m.numbers.truncate(numbers)).1);
    assert_eq!((WORDS, NUMBERS), (1891, 8449));
    assert_eq!([cut(1891, 8449), cut(1890, 8449), cut(1891, 8448), cut(1347, 7937)], [0, 3, 3, 3]);
    let text = format!("{ROAD}{WANT}");
    for (words, numbers, expected) in [(1891, 8449, Ok(1)), (1890, 8449, Err(2)), (1891, 8448, Err(2)), (1347, 7937, Err(2))] {
        let (mut words, mut numbers) = (vec![9; words], vec![9.0; numbers]);
        assert_eq!(reader::read(text.as_bytes(), &mut words, &mut numbers, &mut [9; WANTS]), expected);
        assert!(expected.is_ok() || words.iter().all(|&w| w == 0) && numbers.iter().all(|&x| x == 0.0));
    }
}

/// start ≤ d < end.
#[test]
fn cover() {
    let mark = |start, end| Mark { lane: 0, kind: 1, start, end };
    let covers = |d| mark(5.0, 10.0).covers(d);
    assert_eq!([5f64.next_down(), 5.0, 10f64.next_down(), 10.0, NAN].map(covers), [false, true, true, false, false]);
    assert!(!mark(5.0, 5.0).covers(5.0) && mark(-0.0, 1.0).covers(0.0) && mark(0.0, 1.0).covers(-0.0));
}

/// Of the generated roads: how many have each kind of marks.
#[test]
fn generated() {
    let rng = &mut Rng::new(1, "generated marks");
    type Has = fn(&Section, f64) -> bool;
    let features: &[(&str, Has)] = &[
        ("none", |s, _| s.marks.is_empty()),
        ("one", |s, _| s.marks.len() == 1),
        ("16", |s, _| s.marks.len() == 16),
        ("of kind 1", |s, _| s.marks.iter().any(|m| m.kind == 1)),
        ("of kind 255", |s, _| s.marks.iter().any(|m| m.kind == 255)),
        ("start = end", |s, _| s.marks.iter().any(|m| m.start == m.end)),
        ("end = extent", |s, extent| s.marks.iter().any(|m| m.end == extent && m.start < extent)),
        ("equal starts", |s, _| s.marks.windows(2).any(|w| w[0].lane == w[1].lane && w[0].start == w[1].start)),
        ("falling", |s, _| s.marks.windows(2).any(|w| w[0].start > w[1].start)),
        ("on the right", |s, _| s.marks.iter().any(|m| m.lane >= s.left.len())),
    ];
    let (mut with, mut full) = (vec![0; features.len()], 0);
    for _ in 0..3_000 {
        let road = generate::admitted(rng).0;
        let ends = road.sections.iter().skip(1).map(|s| s.start).chain([road.length]);
        for (section, end) in road.sections.iter().zip(ends) {
            features.iter().zip(&mut with).for_each(|((_, has), n)| *n += usize::from(has(section, end - section.start)));
        }
        full += usize::from(road.sections.iter().map(|s| s.marks.len()).sum::<usize>() > 128);
    }
    println!("3000 roads, {full} with over 128 marks");
    for ((name, _), n) in features.iter().zip(with) {
        println!("    {name:<20} {n}");
        assert!(n >= 20, "too few sections with marks: {name}");
    }
    assert!(full >= 20);
}
