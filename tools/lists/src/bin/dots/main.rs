// Writes the list of calls that the program `test_dots` replays, and the summary that it must print. One command makes both files
// anew, the same at every run:
//
//     tools/lists/run.sh dots
//
// A line is a letter and words, each a space and 16 digits: a number, or the bits of an f64. Digits are lowercase hexadecimal.
//
//     w  a place, a value    a word of the road
//     n  a place, bits       a number of the road
//     a                      samples: the call makes the road's samples in the slice that is lent for them; the answer
//     f  a place, bits       a number of that slice
//     c  a count             so many numbers of the slice are lent to the calls after it
//     s                      the station list, for the calls after it, up to the next s
//     l                      the list lent for dots; it is then as the last d left it
//     d                      dots: the section, the lane, the spacing's bits, the answer, then the whole lent list as it is afterwards
//
// The road is zeros at first, 1,891 words and 8,449 numbers; the slice for samples has 8,000 numbers, zeros at first, and all are lent.
// A section is a number below 2^64. A lane is 2 k for the id k, 2 k + 1 for the id -1 - k. A spacing is an f32: its eight digits stand
// after eight zeros. The answer is 2^63 and the number of samples or of dots, or the number of a refusal. What is answered is written as
// document 01 compares it: any zero is 0000000000000000, any NaN 7ff8000000000000. What is put in keeps its bits. Places of the road that
// its lists do not name keep what the roads before it left there.
//
// The dots are the published Rust's; the refusals are those of tools/second/src/dots.rs and admission.rs.
mod calls;
mod roads;

use lists::laid::Laid;
use lists::pattern;
use published::dots::DottedLine;
use published::oracle::Oracle;
use published::stand_ins;
use second::admission;
use second::dots::{self, Asked};
use second::model::{Memory, NUMBERS, Road, WORDS};
use second::random::Rng;
use std::collections::BTreeMap;

const SEED: u64 = 1;

/// What is added to a count, so that it is no refusal's number.
const COUNTS_FROM: u64 = 1 << 63;

/// The most words of a line.
const MOST_WORDS: usize = 700;

/// The text grows by lines; the rest is what the program then holds.
pub struct List {
    text: String,
    memory: Memory,
    /// the slice for samples, and how many of its numbers are lent
    lent: Vec<f64>,
    lending: usize,
    stations: Vec<f64>,
    list: Vec<f64>,
    /// how many lines make each call: samples, dots
    calls: [usize; 2],
    kinds: BTreeMap<String, usize>,
}

/// The word that stands for an id.
fn id_word(id: i32) -> u64 {
    let id = i64::from(id);
    if id < 0 { 2 * (-1 - id) as u64 + 1 } else { 2 * id as u64 }
}

fn bits(numbers: &[f64]) -> Vec<u64> {
    numbers.iter().map(|x| x.to_bits()).collect()
}

impl List {
    fn line(&mut self, letter: char, words: &[u64]) {
        self.text.push(letter);
        words.iter().for_each(|word| self.text += &format!(" {word:016x}"));
        self.text.push('\n');
    }

    fn count(&mut self, kind: String) {
        *self.kinds.entry(kind).or_default() += 1;
    }

    // ---- what is put in

    pub fn word(&mut self, at: usize, w: u16) {
        if self.memory.words[at] != w {
            self.line('w', &[at as u64, u64::from(w)]);
            self.memory.words[at] = w;
        }
    }

    pub fn number(&mut self, at: usize, x: f64) {
        if self.memory.numbers[at].to_bits() != x.to_bits() {
            self.line('n', &[at as u64, x.to_bits()]);
            self.memory.numbers[at] = x;
        }
    }

    /// The road takes the place of the one before, and its samples that of those.
    pub fn put(&mut self, road: &Road, laid: &Laid) {
        laid.words.iter().for_each(|&(at, w)| self.word(at, w));
        laid.numbers.iter().for_each(|&(at, x)| self.number(at, x));
        assert_eq!(admission::admit(&self.memory.words, &self.memory.numbers), 0, "this road is refused: {road:?}");
        assert_eq!(Road::read(&self.memory.words, &self.memory.numbers), *road, "the memory holds another road");
        self.samples();
    }

    pub fn spoil(&mut self, place: usize, x: f64) {
        self.line('f', &[place as u64, x.to_bits()]);
        self.lent[place] = x;
    }

    pub fn lending(&mut self, numbers: usize) {
        self.line('c', &[numbers as u64]);
        self.lending = numbers;
    }

    pub fn stations(&mut self, stations: &[f64]) {
        if bits(stations) != bits(&self.stations) {
            self.line('s', &bits(stations));
            self.stations = stations.to_vec();
        }
    }

    pub fn lend(&mut self, list: &[f64]) {
        self.line('l', &bits(list));
        self.list = list.to_vec();
    }

    // ---- the calls

    /// Rows 3 to 6, for calls that take samples.
    fn rows(&self) -> Result<Road, u32> {
        match admission::admit(&self.memory.words, &self.memory.numbers) {
            0 => {
                let needed: usize = admission::samples_of(&self.memory.words, &self.memory.numbers).iter().sum();
                let road = Road::read(&self.memory.words, &self.memory.numbers);
                if self.lending / 4 < needed { Err(6) } else { Ok(road) }
            }
            row => Err(row),
        }
    }

    pub fn samples(&mut self) {
        let answer = self.rows().map(|road| Oracle::new(&road).samples());
        let word = answer.as_ref().map_or_else(|row| u64::from(*row), |made| (made.len() / 4) as u64 + COUNTS_FROM);
        if let Ok(made) = answer {
            self.lent[..made.len()].copy_from_slice(&made);
        }
        self.calls[0] += 1;
        self.line('a', &[word]);
    }

    /// The line of points by the slice that is lent, where the list is right.
    fn points<T>(&self, road: &Road, section: usize, id: i32, ask: impl FnOnce(&DottedLine) -> T) -> Option<T> {
        dots::place(road, section, id).filter(|_| dots::listed(&self.stations, dots::ends(road, section)))?;
        stand_ins::by_count(|| {
            let oracle = Oracle::with_samples(road, &self.lent);
            Some(ask(&DottedLine::new(&oracle, section, id, &self.stations)))
        })
    }

    /// The dots by the Rust, once both texts agree on them.
    fn answer(&self, section: usize, id: i32, spacing: f32) -> Result<Vec<f64>, u32> {
        let road = self.rows()?;
        let asked = Asked { section, id, spacing, stations: &self.stations, room: self.list.len() };
        let points = self.points(&road, section, id, |line| line.numbers());
        let answer = dots::dots(&road, &asked, || points.expect("the list is right"))?;
        let place = dots::place(&road, section, id).expect("a lane");
        let theirs = self.points(&road, section, id, |line| line.dots(&road.sections[section], place, spacing)).flatten();
        assert_eq!(theirs.as_deref().map(bits), Some(bits(&answer)), "the second text has other dots: {road:?}");
        Ok(answer)
    }

    /// How many dots there are and how many multiples, whatever is lent; none where the call is refused before row 17.
    pub fn kept(&self, section: usize, id: i32, spacing: f32) -> Option<[usize; 2]> {
        let road = self.rows().ok()?;
        let place = dots::place(&road, section, id)?;
        self.points(&road, section, id, |line| {
            let kept = line.dots(&road.sections[section], place, spacing).map_or(0, |dots| dots.len());
            [kept, line.multiples(spacing)]
        })
    }

    pub fn length(&self, section: usize, id: i32) -> f32 {
        let road = self.rows().expect("a road that is right");
        self.points(&road, section, id, |line| line.length()).unwrap_or(1.0)
    }

    pub fn dots(&mut self, section: usize, id: i32, spacing: f32) {
        let answer = self.answer(section, id, spacing);
        let word = answer.as_ref().map_or_else(|row| u64::from(*row), |dots| dots.len() as u64 + COUNTS_FROM);
        self.count(match &answer {
            Ok(dots) if dots.is_empty() => "answered, no dots".to_owned(),
            Ok(dots) if dots.windows(2).any(|w| w[0] > w[1]) => "answered, a station that falls".to_owned(),
            Ok(dots) if dots.len() == self.list.len() => "answered, no number left".to_owned(),
            Ok(_) => "answered".to_owned(),
            Err(row) => format!("refused {row}"),
        });
        let dots = answer.unwrap_or_default();
        self.list[..dots.len()].copy_from_slice(&dots);
        let mut words = vec![section as u64, id_word(id), u64::from(spacing.to_bits()), word];
        words.extend(self.list.iter().map(|&x| pattern(x)));
        self.calls[1] += 1;
        self.line('d', &words);
    }
}

fn main() {
    let [to, summary]: [String; 2] =
        std::env::args().skip(1).collect::<Vec<_>>().try_into().expect("two files: dots LIST SUMMARY");
    let mut list = List {
        text: String::new(),
        memory: Memory { words: vec![0; WORDS], numbers: vec![0.0; NUMBERS] },
        lent: vec![0.0; 8000],
        lending: 8000,
        stations: vec![],
        list: vec![],
        calls: [0; 2],
        kinds: BTreeMap::new(),
    };
    calls::known(&mut list, &mut Rng::new(SEED, "known dots"));
    calls::drawn(&mut list, &mut Rng::new(SEED, "dots"));
    calls::rows(&mut list, &mut Rng::new(SEED, "rows of dots"));
    let [samples, dots] = list.calls;
    assert!(dots >= 1500, "too few: {:?}", list.calls);
    let refused = [3, 4, 5, 6, 10, 15, 16, 17].map(|row| format!("refused {row}"));
    let answered = ["no dots", "a station that falls", "no number left"].map(|kind| format!("answered, {kind}"));
    for kind in refused.iter().chain(&answered) {
        assert!(list.kinds.contains_key(kind), "no answer of the kind {kind}");
    }
    assert!(list.text.lines().all(|line| line.len() <= 1 + 17 * MOST_WORDS), "a line of over {MOST_WORDS} words");
    std::fs::write(&to, &list.text).expect("the list");
    let said = format!("samples {samples} lines, 0 differ\ndots {dots} lines, 0 differ\nbroken 0 lines\n");
    std::fs::write(&summary, said).expect("the summary");
    list.kinds.iter().for_each(|(kind, n)| println!("{n:5} {kind}"));
    println!("{samples} calls for samples, {dots} for dots, {} bytes", list.text.len());
}
