// Counting what was compared and what differs, and showing the first differences with their inputs.
use std::collections::BTreeMap;
use std::io::IsTerminal;
use std::ops::Range;
use std::time::Instant;

/// Zeros alike and NaNs alike (document 01), else bit for bit.
pub fn same(a: f64, b: f64) -> bool {
    a.to_bits() == b.to_bits() || (a.is_nan() && b.is_nan()) || (a == 0.0 && b == 0.0)
}

pub fn same_f32(a: f32, b: f32) -> bool {
    a.to_bits() == b.to_bits() || (a.is_nan() && b.is_nan()) || (a == 0.0 && b == 0.0)
}

/// Bits of each, for a message.
pub fn hex(numbers: &[f64]) -> String {
    numbers.iter().map(|x| format!("{:016x}", x.to_bits())).collect::<Vec<_>>().join(" ")
}

pub struct Tally {
    name: &'static str,
    terminal: bool,
    began: Instant,
    shown: Instant,
    seconds: f64,
    steps: Range<u64>,
    done: u64,
    compared: u64,
    differ: u64,
    outcomes: BTreeMap<&'static str, BTreeMap<u32, u64>>,
    demands: BTreeMap<&'static str, (u64, f64)>,
}

/// A part shows so many differences.
const SHOW: u64 = 1;

impl Tally {
    /// For a part of a comparison: those of its steps.
    pub fn new(name: &'static str, steps: Range<u64>) -> Self {
        let now = Instant::now();
        Self {
            name,
            terminal: std::io::stderr().is_terminal(),
            began: now,
            shown: now,
            seconds: 0.0,
            done: steps.start,
            steps,
            compared: 0,
            differ: 0,
            outcomes: BTreeMap::new(),
            demands: BTreeMap::new(),
        }
    }

    fn differs(&mut self, input: impl FnOnce() -> String) {
        self.differ += 1;
        if self.differ <= SHOW {
            eprintln!("{}: DIFFERS: {}", self.name, input());
        }
    }

    /// One result compared. `input` is worked out only where it differs.
    pub fn check(&mut self, equal: bool, input: impl FnOnce() -> String) {
        self.compared += 1;
        if !equal {
            self.differs(input);
        }
    }

    pub fn number(&mut self, ours: f64, theirs: f64, input: impl FnOnce() -> String) {
        self.check(same(ours, theirs), || format!("{}: ours {}, theirs {}", input(), hex(&[ours]), hex(&[theirs])));
    }

    /// One answer held to a bound of demand 3, with how large it is, to be shown. It is not counted as compared.
    pub fn demand(&mut self, what: &'static str, size: f64, holds: bool, input: impl FnOnce() -> String) {
        let (times, largest) = self.demands.entry(what).or_default();
        *times += 1;
        *largest = largest.max(size);
        if !holds {
            self.differs(|| format!("demand 3, {what} {size}: {}", input()));
        }
    }

    /// Remembers which number came out at a place, so that a run shows which places were met from both sides.
    pub fn outcome(&mut self, place: &'static str, number: u32) {
        *self.outcomes.entry(place).or_default().entry(number).or_default() += 1;
    }

    /// The number of this step among all of the comparison, from 0.
    pub fn at(&self) -> u64 {
        self.done
    }

    pub fn is_done(&self) -> bool {
        self.done == self.steps.end
    }

    /// One step done. Progress is shown twice a second on a terminal, else every ten seconds.
    pub fn step(&mut self) {
        self.done += 1;
        let terminal = self.terminal;
        if self.done % 64 == 0 && self.shown.elapsed().as_millis() > if terminal { 500 } else { 10_000 } {
            self.shown = Instant::now();
            let (at, of) = (self.done - self.steps.start, self.steps.end - self.steps.start);
            let percent = 100 * at / of.max(1);
            eprint!(
                "{}{:<10} {percent:3} % of a part{}",
                if terminal { "\r" } else { "" },
                self.name,
                if terminal { "" } else { "\n" }
            );
        }
    }

    /// The part is done.
    pub fn finished(mut self) -> Self {
        self.seconds = self.began.elapsed().as_secs_f64();
        self
    }

    /// The tally of two parts.
    pub fn join(mut self, other: Self) -> Self {
        self.seconds += other.seconds;
        self.compared += other.compared;
        self.differ += other.differ;
        for (place, numbers) in other.outcomes {
            let all = self.outcomes.entry(place).or_default();
            numbers.into_iter().for_each(|(number, times)| *all.entry(number).or_default() += times);
        }
        for (what, (times, size)) in other.demands {
            let (all, largest) = self.demands.entry(what).or_default();
            (*all, *largest) = (*all + times, largest.max(size));
        }
        self
    }

    /// Prints the lines of this comparison and answers (compared, differ).
    pub fn end(self) -> (u64, u64) {
        let (name, compared, differ, seconds) = (self.name, self.compared, self.differ, self.seconds);
        let mut text = format!("{name:<10} {compared:>12} compared, {differ} differ, {seconds:.1} s\n");
        for (place, numbers) in &self.outcomes {
            let each: Vec<String> = numbers.iter().map(|(number, times)| format!("{number}: {times}")).collect();
            text += &format!("    {place:<16} {}\n", each.join(", "));
        }
        for (what, (times, largest)) in &self.demands {
            let largest = if *largest < 0.001 { format!("{largest:.4e}") } else { largest.to_string() };
            text += &format!("    {what:<16} at most {largest}, of {times}\n");
        }
        print!("{}{text}", if self.terminal { "\r" } else { "" });
        (self.compared, self.differ)
    }
}
