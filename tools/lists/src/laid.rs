// A road as the places of memory that it names.
use second::admission;
use second::model::*;
use second::random::Rng;

/// The places of memory that a road names, and what it puts there.
pub struct Laid {
    pub words: Vec<(usize, u16)>,
    pub numbers: Vec<(usize, f64)>,
}

impl Laid {
    /// How many lines it takes to put the road into this memory: one for each place that holds something else.
    pub fn changes(&self, memory: &Memory) -> usize {
        let words = self.words.iter().filter(|&&(at, w)| memory.words[at] != w).count();
        words + self.numbers.iter().filter(|&&(at, x)| memory.numbers[at].to_bits() != x.to_bits()).count()
    }
}

/// A place that the road names holds the same whatever was there before: zeros or random bits.
pub fn laid(rng: &mut Rng, road: &Road) -> Option<Laid> {
    let style = Style { share: rng.one_in(2), gaps: false, garbage: false, longer: false };
    let m = road.lay(rng, style)?;
    let other = road.lay(rng, Style { garbage: true, ..style })?;
    let words = (0..WORDS).filter(|&i| m.words[i] == other.words[i]);
    let numbers = (0..NUMBERS).filter(|&i| m.numbers[i].to_bits() == other.numbers[i].to_bits());
    Some(Laid { words: words.map(|i| (i, m.words[i])).collect(), numbers: numbers.map(|i| (i, m.numbers[i])).collect() })
}

pub fn admitted(rng: &mut Rng, road: &Road) -> bool {
    let memory = road.lay(rng, Style::default());
    memory.is_some_and(|m| admission::admit(&m.words, &m.numbers) == 0)
}
