// Writes the list of questions that the program `test_roads` asks, and what the published Rust answers. One command makes both
// files anew, the same at every run:
//
//     tools/lists/run.sh roads
//
// A question is a line of 36 bytes: a letter, a space, 16 digits, a space, 16 digits, LF. Digits are lowercase hexadecimal, an
// f64 is its bits. Where nothing is said of a number it is 0.
//
//     w  place, value     a word of the road
//     n  place, bits      a number of the road
//     s  -, count         the samples call: n + 2^63 for n samples, then the first numbers of the lent slice
//     e  place, count     numbers of the lent slice from a place on
//     p  geometry, s      pose, with the samples that the lent slice holds: x, y, heading
//     b  s, count         the borders call: n + 2^63 for n lanes, then the first numbers of the lent slice
//     h  s, lane          a lane across the road: inner t, outer t, the height at each. 2 k is the k-th lane of the left, 2 k + 1
//                         the k-th of the right
//     l  s, t             the lane named at t: its id as an f64, 0 for none
//     t  s, t             the lateral height: toward the left, then toward the right
//
// The calls of the surface layer take the first numbers of the lent slice as samples. Each answers 0 and the numbers named here,
// whole ones as an f64 too, or the number of a refusal and zeros.
//
//     c  third, count     for the calls after it: a third argument, and how many numbers they are lent (at first 0 and 8,000)
//     f  place, bits      a number of the lent slice, so that calls meet samples that the road did not make
//     q  s                station: s, x, y, heading, z, grade, bank, its rate
//     a  s                axes: along, across, up, each x, y, z
//     u  s, t             surface: x, y, z, each an f32 and written as the f64 of that value, and the heading
//     v  s, t             lane surface, the same; the third argument is 2 k for the id k, 2 k + 1 for the id -1 - k
//     x  x, y             locate; the third argument is the guess: s, t, the count of moves, 1 for met and 0 for astray
//
// An answer is a line: each number's 16 digits and a space. Zeros are written alike, and NaNs (document 01). The lent slice has
// 8,000 numbers, zeros at first. Places of the road that its lists do not name keep what the roads before it left there.
//
// Document 01 says what is answered for roads that it admits, so every road is put to its second text of admission
// (tools/second/src/admission.rs), and this stops where it refuses or where s or t is out of range. Only the calls of the surface
// layer are also asked what 01 refuses: the rows are in calls.rs, the road's by that second text.
mod calls;
mod questions;
mod roads;
mod surfaces;

use lists::laid::Laid;
use lists::pattern;
use published::oracle::Oracle;
use second::admission;
use second::model::{Memory, NUMBERS, Road, WORDS};
use second::random::Rng;
use std::collections::BTreeMap;

pub const SEED: u64 = 1;

/// The files grow by questions, and the memory is what the program then holds.
pub struct List {
    memory: Memory,
    lent: Vec<f64>,
    questions: String,
    answers: String,
    asked: BTreeMap<char, usize>,
    /// the third number of a call, and how many numbers of the slice are lent
    set: (u64, usize),
    kinds: BTreeMap<String, usize>,
    /// roads with marks
    marked: usize,
}

impl List {
    fn line(&mut self, letter: char, a: u64, b: u64) {
        self.questions += &format!("{letter} {a:016x} {b:016x}\n");
    }

    pub fn word(&mut self, at: usize, w: u16) {
        if self.memory.words[at] != w {
            self.line('w', at as u64, u64::from(w));
            self.memory.words[at] = w;
        }
    }

    pub fn number(&mut self, at: usize, x: f64) {
        if self.memory.numbers[at].to_bits() != x.to_bits() {
            self.line('n', at as u64, x.to_bits());
            self.memory.numbers[at] = x;
        }
    }

    /// The road takes the place of the one before.
    pub fn put(&mut self, road: &Road, laid: &Laid) {
        laid.words.iter().for_each(|&(at, w)| self.word(at, w));
        laid.numbers.iter().for_each(|&(at, x)| self.number(at, x));
        let refusal = admission::admit(&self.memory.words, &self.memory.numbers);
        assert_eq!(refusal, 0, "the Rust answers for an admitted road, this one is refused: {road:?}");
        assert_eq!(Road::read(&self.memory.words, &self.memory.numbers), *road, "the memory holds another road");
        self.marked += usize::from(road.sections.iter().any(|section| !section.marks.is_empty()));
    }

    fn ask(&mut self, letter: char, a: u64, b: u64, words: &[u64], numbers: &[f64]) {
        self.line(letter, a, b);
        *self.asked.entry(letter).or_default() += 1;
        for word in words.iter().copied().chain(numbers.iter().map(|&x| pattern(x))) {
            self.answers += &format!("{word:016x} ");
        }
        self.answers += "\n";
    }

    /// A call that writes into the lent slice, and the first numbers of this.
    fn fill(&mut self, letter: char, a: u64, made: &[f64], columns: usize, count: usize) {
        self.lent[..made.len()].copy_from_slice(made);
        let shown = self.lent[..count].to_vec();
        self.ask(letter, a, count as u64, &[(made.len() / columns) as u64 + (1 << 63)], &shown);
    }

    pub fn samples(&mut self, rust: &Oracle, count: usize) {
        self.fill('s', 0, &rust.samples(), 4, count);
    }

    /// Numbers of the lent slice from a place on, as many as there are up to a count.
    pub fn lent(&mut self, place: usize, count: usize) {
        let shown: Vec<f64> = self.lent[place..].iter().copied().take(count).collect();
        self.ask('e', place as u64, shown.len() as u64, &[], &shown);
    }

    pub fn pose(&mut self, rust: &Oracle, geometry: usize, s: f64) {
        self.on_road(s, 0.0);
        self.ask('p', geometry as u64, s.to_bits(), &[], &rust.pose(geometry, s));
    }

    /// With some numbers past those written.
    pub fn borders(&mut self, rust: &Oracle, s: f64, past: usize) {
        self.on_road(s, 0.0);
        let made = rust.borders(rust.section_at(s), s).concat();
        self.fill('b', s.to_bits(), &made, 3, made.len() + past);
    }

    pub fn across(&mut self, rust: &Oracle, s: f64, id: i32) {
        self.on_road(s, 0.0);
        let lane = 2 * (id.unsigned_abs() - 1) + u32::from(id < 0);
        let numbers = rust.lane(rust.section_at(s), id, s).expect("a lane of the section");
        self.ask('h', s.to_bits(), u64::from(lane), &[], &numbers);
    }

    pub fn named(&mut self, rust: &Oracle, s: f64, t: f64) {
        self.on_road(s, t);
        let id = rust.lane_at(rust.section_at(s), s, t);
        self.ask('l', s.to_bits(), t.to_bits(), &[], &[id.map_or(0.0, f64::from)]);
    }

    pub fn toward(&mut self, rust: &Oracle, s: f64, t: f64) {
        self.on_road(s, t);
        let heights = [1.0, -1.0].map(|toward| rust.height_toward(s, t, toward));
        self.ask('t', s.to_bits(), t.to_bits(), &[], &heights);
    }

    fn on_road(&self, s: f64, t: f64) {
        let length = self.memory.numbers[0];
        assert!(0.0 <= s && s <= length && t.abs() <= 80.0, "({s}, {t}) is no point of a road of {length}");
    }
}

fn main() {
    let [questions, answers]: [String; 2] =
        std::env::args().skip(1).collect::<Vec<_>>().try_into().expect("two files: answers QUESTIONS ANSWERS");
    let memory = Memory { words: vec![0; WORDS], numbers: vec![0.0; NUMBERS] };
    let mut list = List {
        memory,
        lent: vec![0.0; 8000],
        questions: String::new(),
        answers: String::new(),
        asked: BTreeMap::new(),
        set: (0, 8000),
        kinds: BTreeMap::new(),
        marked: 0,
    };
    let calls = &mut Rng::new(SEED, "calls");
    questions::lines(&mut list, &mut Rng::new(SEED, "lines"), calls);
    questions::lanes(&mut list, &mut Rng::new(SEED, "lanes"), calls);
    surfaces::whole(&mut list, calls);
    let asked = |letters: &str| letters.chars().map(|c| list.asked[&c]).sum::<usize>();
    let answered = list.kinds.iter().filter(|(kind, _)| !kind.contains("refused")).map(|(_, n)| n).sum::<usize>();
    assert!(asked("sep") >= 1000 && asked("bh") >= 1000 && answered >= 2000, "too few: {answered}, {:?}", list.asked);
    for kind in ["u NaN", "v lane of width 0", "v refused 10", "x met after 24 moves", "x astray, a NaN in the pair"] {
        assert!(list.kinds.contains_key(kind), "no answer of the kind {kind}");
    }
    assert!(list.marked >= 10, "too few roads with marks: {}", list.marked);
    assert!(list.questions.len() <= 648_000, "the program has room for 18,000 lines");
    std::fs::write(&questions, &list.questions).expect("the list of questions");
    std::fs::write(&answers, &list.answers).expect("the list of answers");
    list.kinds.iter().for_each(|(kind, n)| println!("{n:5} {kind}"));
    println!("{:?}, {} bytes of questions, {} of answers", list.asked, list.questions.len(), list.answers.len());
}
