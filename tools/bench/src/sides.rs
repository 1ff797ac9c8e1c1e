// Cases of four sides: a call of ours, its check of the road and the arguments, the Rust with the stand-ins of documents 01 and 02, and
// the Rust with its own functions.
use crate::{ROUNDS, median, time};

pub const SIDES: usize = 4;

pub trait Case {
    fn what(&self) -> &str;

    /// How many calls a run of a side makes.
    fn calls(&self) -> usize;

    /// How many runs of a side in turn are timed at once.
    fn runs(&self) -> usize;

    /// The sides in this order: the call, its check, the Rust with the stand-ins, the Rust with its own functions.
    fn run(&self, side: usize);
}

/// The sides in turn within each round.
fn rows(case: &dyn Case) {
    let round = |_| -> [f64; SIDES] { std::array::from_fn(|side| time(&mut || case.run(side), case.calls(), case.runs())) };
    let rounds: Vec<[f64; SIDES]> = (0..ROUNDS).map(round).collect();
    let of = |f: fn(&[f64; SIDES]) -> f64| median(rounds.iter().map(f).collect());
    let (theirs, own) = (of(|r| r[2]), of(|r| r[3]));
    let row = |what: &str, ns: f64, ratio: f64, own_ratio: f64| {
        println!("| {what} | {ns:.1} | {theirs:.1} | {ratio:.2} | {own:.1} | {own_ratio:.2} |");
    };
    row(&format!("{}, the call whole", case.what()), of(|r| r[0]), of(|r| r[0] / r[2]), of(|r| r[0] / r[3]));
    println!("| the check of that road and place | {:.1} | | | | |", of(|r| r[1]));
    let less = format!("{}: the call less the check", case.what());
    row(&less, of(|r| r[0] - r[1]), of(|r| (r[0] - r[1]) / r[2]), of(|r| (r[0] - r[1]) / r[3]));
}

pub fn table(cases: &[Box<dyn Case>]) {
    println!(
        "\n| What | ours, ns | Rust with stand-ins, ns | ratio | Rust with its own functions, ns | ratio |\n|---|---|---|---|---|---|"
    );
    cases.iter().for_each(|case| rows(&**case));
}

/// One side of one case, run a number of times, for a tool that counts instructions. None: of all cases how many calls a run makes, and
/// the name.
pub fn one(cases: &[Box<dyn Case>], case: usize, side: usize, times: usize) {
    match times {
        0 => cases.iter().for_each(|c| println!("{} {}", c.calls(), c.what())),
        _ => (0..times).for_each(|_| cases[case].run(side)),
    }
}
