// The comparison of reading: the library's against the second reader (reader.rs), by the number answered, the count of wants, and
// every element of the three slices afterwards, what lies past them too.
use crate::tally::Tally;
use archive::riftkettle as ours;
use second::model::{NUMBERS, WORDS};
use second::random::Rng;
use second::reader::{self, WANTS};
use second::texts::{self, DAMAGES, Job, SAMPLE_BYTES, SAMPLE_LINES};
use std::sync::OnceLock;
use std::sync::atomic::{AtomicUsize, Ordering};

/// Three slices in longer memory, all of it filled with what no reading writes.
#[derive(PartialEq)]
struct Lent {
    lengths: [usize; 3],
    words: Vec<u16>,
    numbers: Vec<u64>,
    wants: Vec<u64>,
}

/// So much lies past each slice.
const PAST: usize = 3;

impl Lent {
    fn new(lengths: [usize; 3]) -> Self {
        let [n, m, k] = lengths.map(|length| length + PAST);
        Self { lengths, words: vec![0xabcd; n], numbers: vec![0x4045_abcd_abcd_abcd; m], wants: vec![0xabcd_abcd_abcd_abcd; k] }
    }

    /// Reads into the slices. Numbers are kept as bits, so that signs of zeros count.
    fn read<T>(&mut self, reader: impl FnOnce(&mut [u16], &mut [f64], &mut [u64]) -> T) -> T {
        let [n, m, k] = self.lengths;
        // An f64 and a u64 have the same size and alignment, and all bits are values of both.
        let numbers = unsafe { std::slice::from_raw_parts_mut(self.numbers.as_mut_ptr().cast(), m) };
        reader(&mut self.words[..n], numbers, &mut self.wants[..k])
    }
}

/// How much is lent: mostly what is needed, or more; now and then less.
fn lengths(rng: &mut Rng) -> [usize; 3] {
    let mut lengths = [WORDS, NUMBERS, WANTS];
    match rng.below(16) {
        0 => {
            let short = &mut lengths[rng.below(3)];
            *short = if rng.one_in(2) { *short - 1 } else { rng.below(*short) };
        }
        1..5 => lengths = lengths.map(|length| length + rng.below(9)),
        _ => {}
    }
    lengths
}

fn check(tally: &mut Tally, place: &'static str, text: &[u8], lengths: [usize; 3]) {
    let (mut one, mut two, mut count) = (Lent::new(lengths), Lent::new(lengths), 777);
    let code = one.read(|words, numbers, wants| ours::read(text, words, numbers, wants, &mut count));
    let expected = two.read(|words, numbers, wants| reader::read(text, words, numbers, wants));
    let (number, wants) = expected.map_or_else(|number| (number, 777), |wants| (0, wants));
    tally.outcome(place, number);
    tally.check((code, count) == (number, wants) && one == two, || {
        let at = [
            one.words.iter().zip(&two.words).position(|(a, b)| a != b),
            one.numbers.iter().zip(&two.numbers).position(|(a, b)| a != b),
            one.wants.iter().zip(&two.wants).position(|(a, b)| a != b),
        ];
        let answers = format!("ours {code} {count}, second reader {number} {wants}");
        format!(
            "{place}: {answers}; first place unlike in words, numbers, wants {at:?}; lent {lengths:?}; text kept as {}",
            keep(text)
        )
    });
}

/// Writes a text that shows a difference to a file.
pub fn keep(text: &[u8]) -> String {
    static KEPT: AtomicUsize = AtomicUsize::new(0);
    let path = format!("target/differential/differs-{}.job", KEPT.fetch_add(1, Ordering::Relaxed));
    std::fs::write(&path, text).map_or_else(|e| e.to_string(), |()| path)
}

/// A random job, then each kind of damage to it, then texts of no job.
pub fn read(rng: &mut Rng, tally: &mut Tally) {
    let job = texts::made(rng);
    check(tally, "as made", &job.text, lengths(rng));
    for &(place, damage) in DAMAGES {
        let text = texts::edited(&job.text, damage(rng, &job));
        check(tally, place, &text, lengths(rng));
    }
    check(tally, "several", &texts::edited(&job.text, texts::several(rng, &job)), lengths(rng));
    check(tally, "random bytes", &texts::random_bytes(rng), lengths(rng));
    check(tally, "random words", &texts::random_words(rng), lengths(rng));
    if rng.one_in(16) {
        check(tally, "65,536 bytes", &texts::of_greatest_length(rng), lengths(rng));
    }
}

fn sample() -> &'static Job {
    static SAMPLE: OnceLock<Job> = OnceLock::new();
    SAMPLE.get_or_init(texts::sample)
}

/// Every byte of the sample job in turn with one other byte in its place; after the last, the next other byte.
pub fn bytes(_: &mut Rng, tally: &mut Tally) {
    static OTHERS: OnceLock<Vec<u8>> = OnceLock::new();
    let (step, others) = (tally.at() as usize, OTHERS.get_or_init(texts::other_bytes));
    let mut text = sample().text.clone();
    let n = text.len();
    text[step % n] = others[step / n % others.len()];
    check(tally, "sample", &text, [WORDS, NUMBERS, WANTS]);
}

/// Every cut, then six ways for each line.
pub const CUTS: u64 = SAMPLE_BYTES + 1 + 6 * SAMPLE_LINES;

/// The sample job cut after every byte; then each of its lines dropped, doubled, swapped with each of the next three, and an
/// empty line put before it.
pub fn cuts(_: &mut Rng, tally: &mut Tally) {
    let (step, text, lines) = (tally.at() as usize, &sample().text, sample().lines());
    let whole = [WORDS, NUMBERS, WANTS];
    let Some(step) = step.checked_sub(text.len() + 1) else { return check(tally, "cut", &text[..step], whole) };
    let (i, way) = (step % lines.len(), step / lines.len());
    let (a, b) = (lines[i].clone(), lines[(i + way) % lines.len()].clone());
    let [of_a, of_b] = [&a, &b].map(|at| text[at.clone()].to_vec());
    let edits = match way {
        0 => vec![(a, Vec::new())],
        1..4 => vec![(a, of_b), (b, of_a)],
        4 => vec![(a.start..a.start, of_a)],
        _ => vec![(a.start..a.start, b"\n".to_vec())],
    };
    check(tally, "line", &texts::edited(text, edits), whole);
}
