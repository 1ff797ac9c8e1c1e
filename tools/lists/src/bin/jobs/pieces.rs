// A text as pieces of another one and bytes between, so that a list of many texts that are nearly alike stays short.
use std::collections::HashMap;
use std::ops::Range;

pub enum Piece<'a> {
    /// Bytes of the base.
    Copy(Range<usize>),
    Bytes(&'a [u8]),
}

/// A copy takes a line of the list, as 16 bytes do.
const LEAST: usize = 16;

/// The most places of the base that are tried for one copy.
const TRIED: usize = 200;

pub fn of<'a>(text: &'a [u8], base: &[u8]) -> Vec<Piece<'a>> {
    let mut places: HashMap<&[u8], Vec<usize>> = HashMap::new();
    for (at, window) in base.windows(LEAST).enumerate() {
        places.entry(window).or_default().push(at);
    }
    let same = |at: usize, i: usize| base[at..].iter().zip(&text[i..]).take_while(|(a, b)| a == b).count();
    let (mut pieces, mut i, mut open) = (Vec::new(), 0, 0);
    while i < text.len() {
        let found = text.get(i..i + LEAST).and_then(|window| places.get(window));
        // Mostly the text follows the base from its start or to its end.
        let likely = [Some(i), (i + base.len()).checked_sub(text.len())].into_iter().flatten().filter(|&at| at <= base.len());
        let tried = found.into_iter().flatten().copied().take(TRIED).chain(likely);
        let best = tried.map(|at| (same(at, i), at)).max().filter(|&(length, _)| length >= LEAST);
        let Some((length, at)) = best else {
            i += 1;
            continue;
        };
        if open < i {
            pieces.push(Piece::Bytes(&text[open..i]));
        }
        pieces.push(Piece::Copy(at..at + length));
        i += length;
        open = i;
    }
    if open < text.len() {
        pieces.push(Piece::Bytes(&text[open..]));
    }
    pieces
}

/// The text with half of each run of equal lines.
pub fn halved_runs(text: &[u8]) -> Vec<u8> {
    let lines: Vec<&[u8]> = text.split_inclusive(|&b| b == b'\n').collect();
    let runs = lines.chunk_by(|a, b| a == b);
    runs.flat_map(|run| &run[..run.len().div_ceil(2)]).copied().flatten().copied().collect()
}
