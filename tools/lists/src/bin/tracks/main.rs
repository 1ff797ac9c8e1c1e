// Writes the list of calls on tracks that the program `test_tracks` replays, and the summary that it must print. One command makes
// both files anew, the same at every run:
//
//     tools/lists/run.sh tracks
//
// A line is a letter and words, each a space and eight digits: the bits of an f32, or a number. Digits are lowercase hexadecimal.
//
//     t  the track, three words a point: for the calls after it, up to the next t
//     l  the list lent for tangents, likewise; it is then as the last g left it
//     g  tangents: the answer, then the whole lent list as it is afterwards
//     p  pose: s, the answer, then position and heading
//     j  project: x, y and z, the answer, then s, the foot's x, y and z, and the offset
//
// The answer is 0, for tangents 2^31 and the number of points, or the number of a refusal; zeros stand for what p and j then lack.
// What is answered is written as document 01 compares it: any zero is 00000000, any NaN 7fc00000. What is put in keeps its bits.
//
// The values are the published Rust's, the refusals those of tools/second/src/tracks.rs.
mod calls;
mod shapes;

use published::tracks::Track;
use second::random::Rng;
use second::tracks::refused;
use std::collections::BTreeMap;

const SEED: u64 = 1;

/// The text grows by lines; the track and the list are what the program then holds.
pub struct List {
    text: String,
    pub track: Vec<f32>,
    pub list: Vec<f32>,
    /// how many lines make each call: tangents, pose, project
    calls: [usize; 3],
    kinds: BTreeMap<String, usize>,
}

/// The word that is written for a number of an answer.
fn pattern(x: f32) -> u32 {
    if x == 0.0 {
        0
    } else if x.is_nan() {
        0x7fc0_0000
    } else {
        x.to_bits()
    }
}

impl List {
    fn line(&mut self, letter: char, given: &[f32], answer: Option<u32>, answered: &[f32]) {
        self.text.push(letter);
        let words = given.iter().map(|x| x.to_bits()).chain(answer).chain(answered.iter().map(|&x| pattern(x)));
        words.for_each(|word| self.text += &format!(" {word:08x}"));
        self.text.push('\n');
    }

    /// A line that makes a call, counted by its place among the three and by how it ends.
    fn call(&mut self, place: usize, given: &[f32], answer: u32, answered: &[f32]) {
        let name = ["tangents", "pose", "project"][place];
        self.calls[place] += 1;
        let end = match answer {
            13 | 14 => format!("refused {answer}"),
            _ if place > 0 && answered.iter().any(|x| x.is_nan()) => "answered, a NaN in it".to_owned(),
            _ => "answered".to_owned(),
        };
        *self.kinds.entry(format!("{name} {end}")).or_default() += 1;
        self.line(['g', 'p', 'j'][place], given, Some(answer), answered);
    }

    pub fn put(&mut self, points: &[f32]) {
        self.track = points.to_vec();
        self.line('t', points, None, &[]);
    }

    pub fn lend(&mut self, list: &[f32]) {
        self.list = list.to_vec();
        self.line('l', list, None, &[]);
    }

    pub fn tangents(&mut self) {
        let answer = refused(&self.track, Some(self.list.len()), &[]).unwrap_or_else(|| {
            let made = Track::new(&self.track).tangents();
            self.list[..made.len()].copy_from_slice(&made);
            (1 << 31) + (made.len() / 3) as u32
        });
        self.call(0, &[], answer, &self.list.clone());
    }

    pub fn pose(&mut self, s: f32) {
        let refused = refused(&self.track, None, &[]);
        let answered = if refused.is_some() { [0.0; 6] } else { Track::new(&self.track).pose_at(s) };
        self.call(1, &[s], refused.unwrap_or(0), &answered);
    }

    pub fn project(&mut self, at: [f32; 3]) {
        let refused = refused(&self.track, None, &at);
        let answered = if refused.is_some() { [0.0; 5] } else { Track::new(&self.track).project(at) };
        self.call(2, &at, refused.unwrap_or(0), &answered);
    }
}

fn main() {
    let [to, summary]: [String; 2] =
        std::env::args().skip(1).collect::<Vec<_>>().try_into().expect("two files: tracks LIST SUMMARY");
    let mut list = List { text: String::new(), track: vec![], list: vec![], calls: [0; 3], kinds: BTreeMap::new() };
    calls::shapes(&mut list, &mut Rng::new(SEED, "shapes"));
    calls::drawn(&mut list, &mut Rng::new(SEED, "tracks"));
    calls::longest(&mut list, &mut Rng::new(SEED, "longest"));
    calls::refusals(&mut list);
    let [tangents, pose, project] = list.calls;
    assert!(tangents + pose + project >= 1000, "too few: {:?}", list.calls);
    for kind in ["tangents refused 13", "tangents refused 14", "pose refused 13", "pose refused 14", "project refused 13"] {
        assert!(list.kinds.contains_key(kind), "no answer of the kind {kind}");
    }
    for kind in ["project refused 14", "pose answered, a NaN in it"] {
        assert!(list.kinds.contains_key(kind), "no answer of the kind {kind}");
    }
    assert!(list.text.lines().all(|line| line.len() <= 1 + 9 * 1600), "the program has room for 1,600 words of a line");
    std::fs::write(&to, &list.text).expect("the list");
    let said = format!(
        "tangents {tangents} lines, 0 differ\npose {pose} lines, 0 differ\nproject {project} lines, 0 differ\nbroken 0 lines\n"
    );
    std::fs::write(&summary, said).expect("the summary");
    list.kinds.iter().for_each(|(kind, n)| println!("{n:5} {kind}"));
    println!("{} calls, {} bytes", tangents + pose + project, list.text.len());
}
