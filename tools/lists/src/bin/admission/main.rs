// Writes the list of cases that the program `test_admission` runs, and the summary that it must print.
//
//     tools/lists/run.sh admission
//
// The list is the same at every run. A line is 36 bytes: a letter, a space, 16 digits, a space, 16 digits, LF. Digits are
// lowercase hexadecimal, an f64 is its bits. Where nothing is said of a number it is 0.
//
//     w  place, value     a word of the road
//     n  place, bits      a number of the road
//     l  words, numbers   how much of the two slices is lent
//     m  length           how much of the slice for samples is lent
//     b                   the road as it now stands is the base
//     a  case, answer     admission is asked: 0, or the number of the refusal. The base road follows, lent whole.
//     s  case, answer     samples are asked: n + 2^63 for n samples, or the number of the refusal. The base road follows.
//
// Each answer is written beside its case, from documents 01 and 02, and checked here against tools/second/src/admission.rs, the
// second text of their limits.
mod marks;
mod roads;
mod rows;

use second::admission;
use second::model::{Memory, NUMBERS, WORDS};

/// One change to the base road, or to what is lent of it.
#[derive(Clone, Copy)]
pub enum Change {
    Word(usize, u16),
    Number(usize, f64),
    /// How many words and numbers are lent.
    Lent(usize, usize),
}

/// The slices of the program are this much longer than the layout.
const SPARE: usize = 3;

/// Most numbers that the program lends for samples.
pub const SAMPLES: usize = 8004;

pub struct List {
    base: Memory,
    text: String,
    cases: u64,
}

impl List {
    fn line(&mut self, letter: char, a: u64, b: u64) {
        self.text += &format!("{letter} {a:016x} {b:016x}\n");
    }

    fn change(&mut self, change: Change) {
        match change {
            Change::Word(at, w) => self.line('w', at as u64, u64::from(w)),
            Change::Number(at, x) => self.line('n', at as u64, x.to_bits()),
            Change::Lent(words, numbers) => self.line('l', words as u64, numbers as u64),
        }
    }

    /// From here on cases change this road.
    pub fn base(&mut self, road: Memory) {
        for at in 0..road.words.len() {
            if road.words[at] != self.base.words[at] {
                self.change(Change::Word(at, road.words[at]));
            }
        }
        for at in 0..road.numbers.len() {
            if road.numbers[at].to_bits() != self.base.numbers[at].to_bits() {
                self.change(Change::Number(at, road.numbers[at]));
            }
        }
        self.line('b', 0, 0);
        self.base = road;
    }

    pub fn number(&self, at: usize) -> f64 {
        self.base.numbers[at]
    }

    /// Writes the changes and gives what the second text says of the road.
    fn changed(&mut self, changes: &[Change]) -> (Memory, u32) {
        let (mut road, mut lent) = (self.base.clone(), (WORDS, NUMBERS));
        for &change in changes {
            self.change(change);
            match change {
                Change::Word(at, w) => road.words[at] = w,
                Change::Number(at, x) => road.numbers[at] = x,
                Change::Lent(words, numbers) => lent = (words, numbers),
            }
        }
        let answer = admission::admit(&road.words[..lent.0], &road.numbers[..lent.1]);
        (road, answer)
    }

    /// A case of admission: the row of the requirements that it stands for, the changes, the answer.
    pub fn case(&mut self, row: &str, changes: &[Change], answer: u32) {
        let (_, second) = self.changed(changes);
        self.cases += 1;
        assert_eq!(second, answer, "case {:x}, {row}: the second text and the answer written here", self.cases);
        self.line('a', self.cases, u64::from(answer));
    }

    /// A case of samples: the length of the slice, and the number of samples or the number of the refusal.
    pub fn samples(&mut self, row: &str, changes: &[Change], length: usize, answer: Result<usize, u32>) {
        let (road, refused) = self.changed(changes);
        self.line('m', length as u64, 0);
        self.cases += 1;
        let needed = || admission::samples_of(&road.words, &road.numbers).iter().sum::<usize>();
        let second = match refused {
            0 if length / 4 < needed() => Err(6),
            0 => Ok(needed()),
            _ => Err(refused),
        };
        assert_eq!(second, answer, "case {:x}, {row}: the second text and the answer written here", self.cases);
        let answer = answer.map_or_else(u64::from, |n| n as u64 + (1 << 63));
        self.line('s', self.cases, answer);
    }
}

fn main() {
    let base = Memory { words: vec![0; WORDS + SPARE], numbers: vec![0.0; NUMBERS + SPARE] };
    let mut list = List { base, text: String::new(), cases: 0 };
    rows::all(&mut list);
    print!("{}", list.text);
    eprintln!("{} cases, 0 differ, 0 broken lines", list.cases);
}
