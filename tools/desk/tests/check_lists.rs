//! Every refusal of the lists of cases that the library's own tests run (crates/test_jobs/stdin, crates/test_admission/stdin) has
//! a reason, and its number is the library's. tools/lists says how a list is written.
use desk::check::{Explanation, explain_memory, explain_read, explain_samples};
use riftkettle::Lent;
use riftkettle::layout::{NUMBERS, WORDS};
use std::collections::BTreeMap;

/// The letter and the two numbers of each line.
fn lines(list: &str) -> Vec<(char, u64, u64)> {
    let path = format!("{}/../../crates/{list}/stdin", env!("CARGO_MANIFEST_DIR"));
    let text = std::fs::read_to_string(&path).unwrap_or_else(|error| panic!("{path}: {error}"));
    let number = |digits: &str| u64::from_str_radix(digits, 16).expect("16 digits");
    text.lines().map(|line| (line.chars().next().expect("a letter"), number(&line[2..18]), number(&line[19..35]))).collect()
}

/// How many cases have each number.
#[derive(Default)]
struct Tally(BTreeMap<u32, usize>);

impl Tally {
    /// Holds the explanation against the library's number.
    fn held(&mut self, case: u64, library: Result<(), riftkettle::Refusal>, explained: Option<Explanation>) {
        let number = library.map_or_else(|refusal| refusal.number(), |()| 0);
        assert_eq!(explained.as_ref().map_or(0, |e| e.number), number, "case {case:x}: {explained:?}");
        if let Some(explanation) = explained {
            told(case, &explanation);
        }
        *self.0.entry(number).or_default() += 1;
    }

    fn counts(self) -> Vec<(u32, usize)> {
        println!("{:?}", self.0);
        self.0.into_iter().collect()
    }
}

/// A reason says something, and where, unless it is about the whole.
fn told(case: u64, explanation: &Explanation) {
    let Explanation { place, reason, .. } = explanation;
    assert!(reason.len() > 10, "case {case:x}: {explanation:?}");
    let wholes = ["the lent slice", "the text has", "table road is missing", "the spirals need"];
    let whole = wholes.iter().any(|beginning| reason.starts_with(beginning));
    let beginnings = ["line ", "table ", "words["];
    let placed = beginnings.iter().any(|beginning| place.starts_with(beginning));
    assert!(if whole { place.is_empty() } else { placed }, "case {case:x}: {explanation:?}");
}

/// The texts of the list of jobs, put together as its lines say.
#[derive(Default)]
struct Texts {
    text: Vec<u8>,
    base: Vec<u8>,
}

impl Texts {
    fn line(&mut self, letter: char, a: u64, b: u64) {
        match letter {
            't' => self.text.extend([a, b].iter().flat_map(|part| part.to_be_bytes())),
            'x' => self.text.extend(&b.to_be_bytes()[8 - a as usize..]),
            'c' => self.text.extend(&self.base[a as usize..b as usize]),
            'b' => self.base = std::mem::take(&mut self.text),
            _ => panic!("a line of no case: {letter}"),
        }
    }
}

#[test]
fn every_refused_job_is_explained() {
    let (mut texts, mut lent, mut tally) = (Texts::default(), (WORDS, NUMBERS), Tally::default());
    for (letter, a, b) in lines("test_jobs") {
        match letter {
            'l' => lent = (a as usize, b as usize),
            'r' => {
                let memory = || (vec![0xabcd_u16; lent.0], vec![42.5_f64; lent.1], vec![7_u64; a as usize]);
                let (mut one, mut two) = (memory(), memory());
                let library = riftkettle::read(&texts.text, &mut one.0, &mut one.1, &mut one.2);
                let explained = explain_read(&texts.text, &mut two.0, &mut two.1, &mut two.2);
                tally.held(b, library.map(drop), explained);
                texts.text.clear();
                lent = (WORDS, NUMBERS);
            }
            _ => texts.line(letter, a, b),
        }
    }
    assert_eq!(tally.counts(), [(0, 258), (1, 1180), (2, 102), (3, 212), (4, 58), (5, 4)]);
}

/// A road in memory, with how much of it is lent.
#[derive(Clone)]
struct Memory {
    words: Vec<u16>,
    numbers: Vec<f64>,
    lent: (usize, usize),
    samples: usize,
}

impl Memory {
    /// The slices of the program are three longer than the layout.
    fn new() -> Self {
        Self { words: vec![0; WORDS + 3], numbers: vec![0.0; NUMBERS + 3], lent: (WORDS, NUMBERS), samples: 0 }
    }

    fn change(&mut self, letter: char, a: u64, b: u64) {
        match letter {
            'w' => self.words[a as usize] = b as u16,
            'n' => self.numbers[a as usize] = f64::from_bits(b),
            'l' => self.lent = (a as usize, b as usize),
            'm' => self.samples = a as usize,
            _ => panic!("a line of no case: {letter}"),
        }
    }

    fn lent(&self) -> Lent<'_> {
        Lent { words: &self.words[..self.lent.0], numbers: &self.numbers[..self.lent.1] }
    }
}

#[test]
fn every_refused_road_is_explained() {
    let (mut base, mut admitted, mut sampled) = (Memory::new(), Tally::default(), Tally::default());
    let mut road = base.clone();
    for (letter, a, b) in lines("test_admission") {
        let lent = road.lent();
        match letter {
            'b' => base = road.clone(),
            'a' => admitted.held(a, riftkettle::admit(lent), explain_memory(lent.words, lent.numbers)),
            's' => {
                let library = riftkettle::samples(lent, &mut vec![0.0; road.samples]);
                sampled.held(a, library.map(drop), explain_samples(lent.words, lent.numbers, road.samples));
            }
            _ => road.change(letter, a, b),
        }
        if letter == 'a' || letter == 's' {
            road = base.clone();
        }
    }
    assert_eq!(admitted.counts(), [(0, 849), (3, 677), (4, 829), (5, 11)]);
    assert_eq!(sampled.counts(), [(0, 22), (3, 15), (4, 9), (5, 2), (6, 25)]);
}
