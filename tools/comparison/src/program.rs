// The comparison of the program `surface` with a second one (second_program.rs): what it writes for a job, byte for byte, but zeros
// alike.
use crate::tally::Tally;
use published::second_program;
use second::generate;
use second::random::Rng;
use second::reader::TEXT;
use second::texts::{self, DAMAGES, Job, Writing};
use std::io::{Read, Write};
use std::process::{Command, Stdio};
use std::sync::OnceLock;

static PROGRAM: OnceLock<String> = OnceLock::new();

/// Names the program's file.
pub fn set(file: Option<String>) {
    if let Some(file) = file {
        PROGRAM.set(file).expect("named once");
    }
}

fn named() -> &'static str {
    PROGRAM.get().expect("the comparison of the program needs --program FILE")
}

/// What the program writes for an input that comes in pieces. It may stop reading before the end, as it does for long ones.
fn written(pieces: &[&[u8]]) -> Vec<u8> {
    let command = Command::new(named()).stdin(Stdio::piped()).stdout(Stdio::piped()).spawn();
    let mut child = command.unwrap_or_else(|e| panic!("{}: {e}", named()));
    let mut input = child.stdin.take().expect("a pipe");
    let _ = pieces.iter().try_for_each(|piece| input.write_all(piece));
    drop(input);
    let mut out = Vec::new();
    child.stdout.take().expect("a pipe").read_to_end(&mut out).expect("what it writes can be read");
    child.wait().expect("it ends");
    out
}

/// What it writes where standard input is closed.
fn written_without_input() -> Vec<u8> {
    let command = Command::new("sh").args(["-c", "exec \"$0\" <&-", named()]).output();
    command.expect("sh runs it").stdout
}

/// The output with every zero of x, y and z as 00000000.
fn zeros_alike(out: &[u8]) -> Vec<u8> {
    let mut out = out.to_vec();
    for line in out.split_mut(|b| *b == b'\n').skip(1).filter(|line| line.len() == 60) {
        for cell in line[34..].chunks_mut(9) {
            if cell.starts_with(b"80000000") {
                cell[0] = b'0';
            }
        }
    }
    out
}

/// Which numbers the output has: the job's, or each want's.
fn outcomes(tally: &mut Tally, place: &'static str, out: &str) {
    let number = |line: &str| line.rsplit(' ').next().and_then(|n| n.parse().ok()).unwrap_or(0);
    if out.starts_with("refused") {
        return tally.outcome(place, number(out.trim_end()));
    }
    tally.outcome(place, 0);
    for line in out.lines().skip(1) {
        tally.outcome("wants", if line.contains('-') { number(line) } else { 0 });
    }
}

fn check(tally: &mut Tally, place: &'static str, text: &[u8], found: &[u8]) {
    let expected = second_program::output(text);
    outcomes(tally, place, &expected);
    tally.check(zeros_alike(found) == zeros_alike(expected.as_bytes()), || {
        let found = String::from_utf8_lossy(found);
        format!("{place}: ours {found:?}, theirs {expected:?}; text kept as {}", crate::reading::keep(text))
    });
}

fn ask(rng: &mut Rng, tally: &mut Tally, place: &'static str, text: &[u8]) {
    let cut = if rng.one_in(8) { rng.below(text.len() + 1) } else { text.len() };
    let found = written(&[&text[..cut], &text[cut..]]);
    check(tally, place, text, &found);
}

/// A job of a road that is admitted, with wants on it, on its edges and off it.
fn job(rng: &mut Rng) -> Job {
    let road = generate::surfaced(rng).0;
    let (wants, writing) = (texts::wants(rng, road.length), Writing::random(rng));
    Job::of(rng, &road, &wants, writing)
}

/// A job, and damage to it; now and then what is no job; now and then nothing to read from.
pub fn program(rng: &mut Rng, tally: &mut Tally) {
    let job = if rng.one_in(2) { texts::made(rng) } else { job(rng) };
    ask(rng, tally, "as made", &job.text);
    let (place, damage) = rng.pick(DAMAGES);
    let text = texts::edited(&job.text, damage(rng, &job));
    ask(rng, tally, place, &text);
    if rng.one_in(16) {
        let (place, other) = rng.pick(OTHERS);
        let text = other(rng);
        ask(rng, tally, place, &text);
    }
    if rng.one_in(64) {
        check(tally, "closed input", &[], &written_without_input());
    }
}

/// Texts that are no jobs, or far too long for one.
const OTHERS: &[(&str, fn(&mut Rng) -> Vec<u8>)] = &[
    ("65,536 bytes", texts::of_greatest_length),
    ("random bytes", texts::random_bytes),
    ("random words", texts::random_words),
    ("empty", |_| Vec::new()),
    ("10 MB", long),
];

/// Far more than a job may have.
fn long(rng: &mut Rng) -> Vec<u8> {
    let piece = match rng.below(3) {
        0 => vec![rng.pick(b"\n x0")],
        1 => texts::sample().text,
        _ => (0..TEXT).map(|_| rng.bits() as u8).collect(),
    };
    let times = 10_000_000 / piece.len() + 1;
    piece.repeat(times)
}
