//! The reason of a refusal in words, for a job text and for a road in lent memory.
use super::wording::{counted, meaning, thousands};
use super::{form, places, reasons};
use second::admission;
use second::fault::{Fault, Place, Reason};
use second::model::{NUMBERS, WORDS};
use second::reader::{self, WANTS};
use std::fmt;

/// Why a job or a road is refused, by the second text of the rules.
#[derive(Debug, Clone)]
pub struct Explanation {
    pub number: u32,
    /// Where it is wrong; empty where it is the text or the road as a whole.
    pub place: String,
    /// What is wrong there, in one line or more.
    pub reason: String,
}

impl fmt::Display for Explanation {
    fn fmt(&self, f: &mut fmt::Formatter<'_>) -> fmt::Result {
        writeln!(f, "refused {}: {}", self.number, meaning(self.number))?;
        self.place.lines().chain(self.reason.lines()).try_for_each(|line| writeln!(f, "  {line}"))
    }
}

/// Why a job text is refused; nothing where it is read.
pub fn explain_text(text: &[u8]) -> Option<Explanation> {
    explain_read(text, &mut vec![0; WORDS], &mut vec![0.0; NUMBERS], &mut [0; WANTS])
}

/// Why a job text is refused that is to be read into these slices. They are filled or cleared as by a reading.
pub fn explain_read(text: &[u8], words: &mut [u16], numbers: &mut [f64], wants: &mut [u64]) -> Option<Explanation> {
    reader::judge(text, words, numbers, wants).err().map(|fault| explain(&fault, text))
}

/// Why a road in lent memory is refused; nothing where it is admitted.
pub fn explain_memory(words: &[u16], numbers: &[f64]) -> Option<Explanation> {
    admission::judge(words, numbers).err().map(|fault| explain(&fault, &[]))
}

/// Why the samples of a road are not made into a slice of that many numbers: the road itself, or row 6.
pub fn explain_samples(words: &[u16], numbers: &[f64], lent: usize) -> Option<Explanation> {
    if let Err(fault) = admission::judge(words, numbers) {
        return Some(explain(&fault, &[]));
    }
    let needed = admission::samples_of(words, numbers).iter().sum();
    let reason = format!(
        "the lent slice has {}, room for {}; the road needs {}",
        counted(lent, "number", "numbers"),
        counted(lent / 4, "sample", "samples"),
        thousands(needed)
    );
    (lent / 4 < needed).then_some(Explanation { number: 6, place: String::new(), reason })
}

fn explain(fault: &Fault, text: &[u8]) -> Explanation {
    let (place, reason) = match (fault.place(), fault.reason()) {
        (Place::Byte { line, column }, Reason::Form(expected)) => form::explain(text, line, column, *expected),
        _ => (places::of(fault), reasons::of(fault, text)),
    };
    Explanation { number: fault.row, place, reason }
}
