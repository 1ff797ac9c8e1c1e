//! A fault says what is so: its number is the one that `admit` and `read` answer, its place has the value that it shows, and that
//! value breaks the limit that it names. Over generated roads at their limits, damaged memories and damaged texts.
use second::admission::{self, bound, slope};
use second::fault::{Fault, Limit, Measure, Measured, Order, Place, Reason, Tables};
use second::model::{Memory, NUMBERS, WORDS};
use second::random::Rng;
use second::reader::{self, TABLES, WANTS};
use second::{generate, limits, texts};
use std::collections::BTreeMap;

/// How often each number came.
type Counts = BTreeMap<u32, usize>;

fn breaks(limit: Limit, x: f64) -> bool {
    match limit {
        Limit::Range { low, high } => x.is_nan() || x < low || x > high,
        Limit::Size { most } => x.is_nan() || x.abs() > most,
        Limit::Arc { line, low, high } => x.is_nan() || x.abs() > line && (x.abs() < low || x.abs() > high),
        Limit::Unused => x.is_nan() || x < 0.0 || x > 0.0,
        Limit::Finite => x.is_nan() || x.is_infinite(),
        Limit::SpanStart => x.is_nan() || x < 0.0,
        Limit::SpanEnd { start } => x.is_nan() || x < start,
        Limit::SpanPast { extent } => x > extent,
    }
}

fn out_of_order(order: Order, a: f64, b: f64) -> bool {
    match order {
        _ if a.is_nan() || b.is_nan() => true,
        Order::Rises => a >= b,
        Order::NeverFalls => a > b,
        Order::Apart => (b - a).is_nan() || b - a < 0.001,
    }
}

/// The bound or slope as told, from the cubic as told, above the limit as told.
fn measured(m: &Measured) {
    let value = if m.measure == Measure::Bound { bound(m.cubic, m.reach) } else { slope(m.cubic, m.reach) };
    assert!(value.to_bits() == m.value.to_bits() || value.is_nan() && m.value.is_nan(), "{m:?}");
    assert!(value.is_nan() || value > m.most, "{m:?}");
    let reach = m.end - m.cubic.start;
    assert!(m.reach.is_nan() || m.reach == if reach < 0.0 { 0.0 } else { reach } + 0.001, "{m:?}");
}

/// The numbers that a fault shows, by themselves.
fn so(fault: &Fault) {
    match (fault.row, fault.place(), fault.reason()) {
        (1, Place::Byte { .. }, Reason::Form(_)) => {}
        (2, _, Reason::Short { length, needed, .. }) | (3, _, Reason::Short { length, needed, .. }) => assert!(length < needed),
        (2, _, Reason::LongText { length, most }) => assert!(length > most),
        (2, Place::Line { line, .. }, Reason::TooMany { most }) => assert_eq!(line, *most),
        (3, Place::Word { value, .. }, Reason::Code { most }) => assert!(usize::from(value) > *most),
        (3, Place::Word { .. }, Reason::Side { lanes, most, .. }) => assert!(lanes > most),
        (3, Place::Word { .. }, Reason::LanesPast { first, lanes, .. }) => assert!(first + lanes > 192),
        (3, Place::Word { .. }, Reason::Lines { list, least, most }) => {
            assert!(list.count < *least || list.count > *most || list.first + list.count > list.table.lines);
        }
        (3, Place::Word { value, .. }, Reason::NoLane { lanes, .. }) => assert!(usize::from(value) >= *lanes),
        (3, Place::Number { line, value, .. }, Reason::MarkOrder { earlier, before }) => {
            assert!(*earlier < line && out_of_order(Order::NeverFalls, *before, value), "{fault:?}")
        }
        (3, Place::Number { value, .. }, Reason::FirstStart) => assert!(value != 0.0),
        (3, Place::Number { value, .. }, Reason::Order { order, before }) => {
            assert!(out_of_order(*order, *before, value), "{fault:?}")
        }
        (3, Place::Line { .. }, Reason::NoParent(_) | Reason::ParentBehind | Reason::Id { .. } | Reason::PairAgain { .. }) => {}
        (3, Place::Whole, Reason::NoRoad) => {}
        (4, Place::Number { value, .. }, Reason::Limit(limit)) => assert!(breaks(*limit, value), "{fault:?}"),
        (4, Place::Word { value, .. }, Reason::Kind { least, most, .. }) => {
            assert!(!(*least..=*most).contains(&usize::from(value)), "{fault:?}")
        }
        (4, Place::Line { .. }, Reason::Measure(m)) => measured(m),
        (4, Place::Line { .. }, Reason::Terms { terms, sum, most, .. }) => {
            let [t0, t1, t2, t3] = terms.map(|(bound, _)| bound);
            assert!(*sum == ((t3 * 88.0 + t2) * 88.0 + t1) * 88.0 + t0 && sum > most, "{fault:?}");
        }
        (5, Place::Whole, Reason::Samples { spirals, sum, most }) => {
            assert!(spirals.iter().map(|spiral| spiral.samples).sum::<usize>() == *sum && sum > most);
        }
        _ => panic!("not a fault of its row: {fault:?}"),
    }
}

/// What the memory has at the place.
fn stands(fault: &Fault, m: &Memory) {
    match fault.place() {
        Place::Number { list, line, column, value } => {
            let there = m.numbers[list.table.line(line) + column];
            assert_eq!(there.to_bits(), value.to_bits(), "{fault:?}");
            assert!((list.first..list.first + list.count).contains(&line), "{fault:?}");
        }
        Place::Word { at, value } => assert_eq!(m.words[at], value, "{fault:?}"),
        _ => {}
    }
}

fn road(m: &Memory, counts: &mut Counts) {
    let judged = admission::judge(&m.words, &m.numbers);
    let number = admission::admit(&m.words, &m.numbers);
    assert_eq!(judged.as_ref().map_or_else(|fault| fault.row, |()| 0), number);
    if let Err(fault) = judged {
        so(&fault);
        stands(&fault, m);
        assert!(fault.tables.is_none());
    }
    *counts.entry(number).or_default() += 1;
}

#[test]
fn faults_of_roads() {
    let (mut rng, mut counts) = (Rng::new(1, "faults of roads"), Counts::new());
    for _ in 0..600 {
        let memory = generate::admitted(&mut rng).1;
        for _ in 0..30 {
            road(&limits::around_a_limit(&mut rng, &memory).0, &mut counts);
            let mut damaged = memory.clone();
            limits::damage(&mut rng, &mut damaged);
            road(&damaged, &mut counts);
        }
    }
    println!("{counts:?}");
    assert!([0, 3, 4, 5].iter().all(|number| counts[number] >= 100), "{counts:?}");
}

/// The line of the text from 1.
fn text_line(text: &[u8], line: usize) -> &[u8] {
    text.split(|&byte| byte == b'\n').nth(line - 1).expect("a line of the text")
}

/// The tables' names stand where it is said, and a number's digits stand on its line.
fn stands_in_text(fault: &Fault, tables: &Tables, text: &[u8]) {
    for (form, &line) in TABLES.iter().zip(&tables.0) {
        let names = if line == 0 { b"" } else { text_line(text, line) };
        assert!(line == 0 || names.split(|&byte| byte == b' ').next() == Some(form.name.as_bytes()), "{fault:?}");
    }
    if let Place::Number { list, line, value, .. } = fault.place() {
        let digits = texts::digits(value);
        let words = text_line(text, tables.line(list.name, line)).split(|&byte| byte == b' ');
        assert!(words.into_iter().any(|word| word == digits.as_bytes()), "{fault:?}");
    }
}

fn job(text: &[u8], lent: [usize; 3], counts: &mut Counts) {
    let memory = || (vec![9; lent[0]], vec![9.0; lent[1]], vec![9; lent[2]]);
    let (mut one, mut two) = (memory(), memory());
    let judged = reader::judge(text, &mut one.0, &mut one.1, &mut one.2);
    let read = reader::read(text, &mut two.0, &mut two.1, &mut two.2);
    assert!(one == two && read == judged.as_ref().map_err(|fault| fault.row).copied());
    if let Err(fault) = judged {
        so(&fault);
        match (fault.place(), &fault.tables) {
            (Place::Byte { line, column }, None) => assert!(column <= text_line(text, line).len() + 1, "{fault:?}"),
            (_, Some(tables)) => stands_in_text(&fault, tables, text),
            _ => assert!(matches!(fault.reason(), Reason::Short { .. } | Reason::LongText { .. })),
        }
    }
    *counts.entry(read.err().unwrap_or(0)).or_default() += 1;
}

#[test]
fn faults_of_texts() {
    let (mut rng, mut counts) = (Rng::new(1, "faults of texts"), Counts::new());
    let whole = [WORDS, NUMBERS, WANTS];
    for _ in 0..800 {
        let made = texts::made(&mut rng);
        job(&made.text, whole, &mut counts);
        job(&made.text, whole.map(|n| n - usize::from(rng.one_in(4))), &mut counts);
        for (_, damage) in texts::DAMAGES {
            let edits = damage(&mut rng, &made);
            job(&texts::edited(&made.text, edits), whole, &mut counts);
        }
    }
    let sample = texts::sample();
    for at in 0..sample.text.len() {
        job(&sample.text[..at], whole, &mut counts);
        job(&texts::edited(&sample.text, vec![(at..at + 1, vec![b'x'])]), whole, &mut counts);
    }
    println!("{counts:?}");
    assert!((0..=5).all(|number| counts[&number] >= 50), "{counts:?}");
}
