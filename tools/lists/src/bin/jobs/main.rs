// Writes the list of cases that the program `test_jobs` reads, and what it must print: a text, how much of the three slices is
// lent, and the answer, the number of wants and a checksum of all memory afterwards.
//
//     tools/lists/run.sh jobs
//
// The list is the same at every run. A line is 36 bytes: a letter, a space, 16 digits (a), a space, 16 digits (b), LF. Digits are
// lowercase hexadecimal. The list writes one text after the other; a text is made of bytes given and of pieces of an earlier
// text, the base.
//
//     t  a, b   append the eight bytes of a and the eight of b
//     x  a, b   append the last a bytes of b, at most eight
//     c  a, b   append bytes a..b of the base
//     b         the text becomes the base, and the text is empty
//     l  a, b   the next case lends a words and b numbers
//     r  a, b   case b: a wants are lent, the text is read; then the text is empty
//
// Each answer is written beside its case, from documents 01 and 02, and checked here against tools/second/src/reader.rs, the second
// text of their job text.
mod cases;
mod marks;
mod pieces;

use pieces::Piece;
use second::model::{NUMBERS, WORDS};
use second::reader::{self, WANTS};

/// The program's memory: words, numbers, wants. Before each case all of it is filled.
pub const MEMORY: [usize; 3] = [1900, 8500, 40];
const FILL: (u16, u64, u64) = (0xabcd, 0x4045_abcd_abcd_abcd, 0xabcd_abcd_abcd_abcd);

/// What is lent where a case says nothing else.
pub const LENT: [usize; 3] = [WORDS, NUMBERS, WANTS];

#[derive(Default)]
pub struct List {
    base: Vec<u8>,
    list: String,
    answers: String,
    cases: u64,
}

impl List {
    fn line(&mut self, letter: char, a: u64, b: u64) {
        self.list += &format!("{letter} {a:016x} {b:016x}\n");
    }

    fn text(&mut self, text: &[u8]) {
        let mut made: Vec<u8> = Vec::new();
        for piece in pieces::of(text, &self.base) {
            match piece {
                Piece::Copy(at) => {
                    self.line('c', at.start as u64, at.end as u64);
                    made.extend(&self.base[at]);
                }
                Piece::Bytes(bytes) => {
                    self.bytes(bytes);
                    made.extend(bytes);
                }
            }
        }
        assert!(made == text, "the pieces are those of the text");
    }

    fn bytes(&mut self, bytes: &[u8]) {
        let whole = |bytes: &[u8]| bytes.iter().fold(0, |n, &b| n << 8 | u64::from(b));
        let mut rest = bytes;
        while let Some((sixteen, more)) = rest.split_at_checked(16) {
            self.line('t', whole(&sixteen[..8]), whole(&sixteen[8..]));
            rest = more;
        }
        for eight in rest.chunks(8) {
            self.line('x', eight.len() as u64, whole(eight));
        }
    }

    /// From here on texts take their pieces from this one. Its own repeated lines are made by doubling.
    pub fn base(&mut self, text: &[u8]) {
        let shorter = pieces::halved_runs(text);
        if shorter.len() < text.len() {
            self.base(&shorter);
        }
        self.text(text);
        self.line('b', 0, 0);
        self.base = text.to_vec();
    }

    /// A case: the sentence of 01 that it stands for, its text, and the answer, 0 where the job is accepted.
    pub fn case(&mut self, rule: &str, text: impl AsRef<[u8]>, answer: u32) {
        self.lent_case(rule, text, LENT, answer);
    }

    pub fn lent_case(&mut self, rule: &str, text: impl AsRef<[u8]>, lent: [usize; 3], answer: u32) {
        self.text(text.as_ref());
        if lent[..2] != LENT[..2] {
            self.line('l', lent[0] as u64, lent[1] as u64);
        }
        self.cases += 1;
        self.line('r', lent[2] as u64, self.cases);
        let (mut words, mut numbers, mut wants) =
            (vec![FILL.0; MEMORY[0]], vec![f64::from_bits(FILL.1); MEMORY[1]], vec![FILL.2; MEMORY[2]]);
        let second = reader::read(text.as_ref(), &mut words[..lent[0]], &mut numbers[..lent[1]], &mut wants[..lent[2]]);
        let number = second.err().unwrap_or(0);
        assert_eq!(number, answer, "case {}, {rule}: the second text and the answer written here", self.cases);
        let all = words.into_iter().map(u64::from).chain(numbers.into_iter().map(f64::to_bits)).chain(wants);
        let checksum = all.fold(1, |h: u64, e| h.rotate_left(32).wrapping_mul(0x9e37_79b1).wrapping_add(e));
        self.answers += &format!("{} {number} {} {checksum:016x}\n", self.cases, second.unwrap_or(0));
    }
}

fn main() {
    let mut list = List::default();
    cases::all(&mut list);
    print!("{}", list.list);
    eprint!("{}{} cases, 0 broken lines\n", list.answers, list.cases);
}
