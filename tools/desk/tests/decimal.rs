//! `desk decimal` and `desk hex`: there and back is the same job, a broken text is told by its place, people write as they do.
use desk::decimal::{Fault, to_decimal, to_hex};
use second::model::{NUMBERS, WORDS};
use second::random::Rng;
use second::reader::{self, WANTS};
use second::texts::{self, DAMAGES, Job, Writing};
use std::fs;
use std::io::Write;
use std::path::{Path, PathBuf};
use std::process::{Command, Output, Stdio};

/// How many jobs are generated of a kind. A build that is not optimized takes a twentieth of them.
const JOBS: usize = if cfg!(debug_assertions) { 1_500 } else { 30_000 };

fn checkout(path: &str) -> PathBuf {
    Path::new(env!("CARGO_MANIFEST_DIR")).join("../..").join(path)
}

fn sample_jobs() -> Vec<(PathBuf, Vec<u8>)> {
    let files = fs::read_dir(checkout("examples/jobs")).unwrap().map(|entry| entry.unwrap().path());
    let jobs = files.filter(|path| path.extension().is_some_and(|end| end == "job"));
    jobs.map(|path| (path.clone(), fs::read(path).unwrap())).collect()
}

/// What the second reader answers: 0 or the number of the refusal.
fn answer(text: &[u8]) -> u32 {
    let (mut words, mut numbers, mut wants) = (vec![0; WORDS], vec![0.0; NUMBERS], vec![0; WANTS]);
    reader::read(text, &mut words, &mut numbers, &mut wants).err().unwrap_or(0)
}

/// The laws for any text: it is turned exactly when its form is right, and then there and back is the same, also from the job text
/// itself. A fault stands in the first line that is wrong. Answers whether it was turned.
fn holds(text: &[u8]) -> bool {
    let (answer, turned) = (answer(text), to_decimal(text));
    match &turned {
        Ok(decimal) => {
            assert_ne!(answer, 1);
            assert_eq!(to_hex(decimal.as_bytes()).as_deref().map(str::as_bytes), Ok(text));
            assert_eq!(to_hex(text).as_deref().map(str::as_bytes), Ok(text));
        }
        Err(fault) => {
            // Over its limits the second reader stops before the line that breaks the form.
            assert!(answer == 1 || answer == 2, "{fault}: {answer}");
            faulty_there(text, fault);
        }
    }
    turned.is_ok()
}

/// The lines before the fault are right as far as they go, and the fault's line is wrong whatever follows.
fn faulty_there(text: &[u8], fault: &Fault) {
    let lines: Vec<&[u8]> = text.split_inclusive(|&b| b == b'\n').collect();
    let until = |n: usize| to_decimal(&lines[..n.min(lines.len())].concat());
    if let Err(earlier) = until(fault.line - 1) {
        assert_eq!((earlier.line, earlier.column), (fault.line, 1), "{fault}");
        assert!(earlier.message.starts_with("expected an empty line after the last table"), "{earlier}");
    }
    assert_eq!(until(fault.line).as_ref(), Err(fault));
    let columns = lines.get(fault.line - 1).map_or(0, |line| line.len()) + 1;
    assert!((1..=columns).contains(&fault.column), "{fault}");
}

#[test]
fn sample_jobs_there_and_back() {
    let jobs = sample_jobs();
    assert!(jobs.len() >= 11);
    for (path, job) in jobs {
        assert!(holds(&job), "{path:?}");
    }
}

/// The texts of crates/test_jobs, whose list says how each is put together (crates/test_jobs/src/steps.rt).
#[test]
fn listed_texts_there_and_back() {
    let list = fs::read_to_string(checkout("crates/test_jobs/stdin")).unwrap();
    let (mut text, mut base, mut texts, mut turned) = (Vec::new(), Vec::new(), 0, 0);
    for line in list.lines() {
        let number = |i: usize| u64::from_str_radix(line.split(' ').nth(i).unwrap_or("0"), 16).unwrap();
        let (a, b) = (number(1), number(2));
        match &line[..1] {
            "t" => text.extend([a.to_be_bytes(), b.to_be_bytes()].concat()),
            "x" => text.extend(&b.to_be_bytes()[8 - a as usize..]),
            "c" => text.extend(&base[a as usize..b as usize]),
            "b" => base = std::mem::take(&mut text),
            "r" => {
                texts += 1;
                turned += u32::from(holds(&std::mem::take(&mut text)));
            }
            _ => (),
        }
    }
    assert!(texts > 1500 && turned > 300, "{turned} of {texts} turned");
}

#[test]
fn generated_jobs_there_and_back() {
    let mut rng = Rng::new(1, "decimal: jobs");
    for _ in 0..JOBS {
        assert!(holds(&texts::made(&mut rng).text));
    }
    for bytes in [57_000, 65_536, 65_537] {
        assert!(holds(&texts::of_bytes(bytes).text));
    }
    assert!(holds(b"") && holds(&texts::sample().text));
}

#[test]
fn damaged_jobs_are_told_or_turned() {
    let mut rng = Rng::new(1, "decimal: damage");
    let mut turned = 0;
    for i in 0..JOBS {
        let job = if i % 8 == 0 { texts::made(&mut rng) } else { short(&mut rng) };
        let edits = DAMAGES[i % DAMAGES.len()].1(&mut rng, &job);
        turned += usize::from(holds(&texts::edited(&job.text, edits)));
    }
    assert!((JOBS / 5..JOBS * 4 / 5).contains(&turned), "{turned}");
}

/// A short job with lines in all tables.
fn short(rng: &mut Rng) -> Job {
    let road = second::generate::small();
    let (wants, writing) = (texts::wants(rng, road.length), Writing::random(rng));
    Job::of(rng, &road, &wants, writing)
}

#[test]
fn texts_of_no_job_are_told() {
    let mut rng = Rng::new(1, "decimal: no jobs");
    for _ in 0..JOBS {
        holds(&texts::random_bytes(&mut rng));
        holds(&texts::random_words(&mut rng));
    }
    for _ in 0..20 {
        holds(&texts::of_greatest_length(&mut rng));
    }
    // hex answers for every text, and what it answers has the form.
    for _ in 0..JOBS {
        let text = if rng.one_in(2) { texts::random_bytes(&mut rng) } else { texts::random_words(&mut rng) };
        if let Ok(job) = to_hex(&text) {
            assert!(holds(job.as_bytes()));
        }
    }
}

/// Every kind of bits, in one long table: its limit is no matter of form.
#[test]
fn all_numbers_there_and_back() {
    let mut rng = Rng::new(1, "decimal: numbers");
    let powers = (-330..310).flat_map(|e| [format!("1e{e}"), format!("-9.5e{e}")]).map(|text| text.parse::<f64>().unwrap());
    let special =
        [0.0, -0.0, f64::INFINITY, f64::NEG_INFINITY, f64::NAN, -f64::NAN, f64::MAX, f64::MIN_POSITIVE, 5e-324, 1e15, 1e16];
    let nans = [0x7ff0_0000_0000_0001, 0xfff0_0000_0000_0001, 0x7ff8_0000_0000_0001, u64::MAX, u64::MAX >> 1].map(f64::from_bits);
    let mut all: Vec<f64> = powers.chain(special).chain(nans).collect();
    all.extend((0..20 * JOBS).map(|_| rng.pattern()));
    all.extend((0..5 * JOBS).map(|_| rng.bits() as f64 / 1000.0));
    all.extend((0..5 * JOBS).map(|_| (rng.bits() >> rng.below(64)) as f64));
    let lines: String = all.iter().map(|&x| texts::digits(x) + " 0000000000000000\n").collect();
    let job = format!("want s t\n{lines}\n");
    let decimal = to_decimal(job.as_bytes()).unwrap();
    assert_eq!(to_hex(decimal.as_bytes()).unwrap(), job);
    for (x, line) in all.iter().zip(decimal.lines().skip(1)) {
        let word = line.split_whitespace().next().unwrap();
        assert!(word.len() != 16 || word.bytes().any(|b| !b.is_ascii_hexdigit()), "{word}");
        assert!(x.is_nan() || word.parse::<f64>().unwrap().to_bits() == x.to_bits(), "{word}");
    }
}

/// The job text of one want whose s is written so.
fn want(s: &str) -> Result<u64, Fault> {
    let job = to_hex(format!("want s t\n{s} 0\n").as_bytes())?;
    Ok(u64::from_str_radix(&job["want s t\n".len()..][..16], 16).unwrap())
}

const AS_WRITTEN: &[(&str, f64)] = &[
    ("1", 1.0),
    ("1.5", 1.5),
    ("-0.25", -0.25),
    ("+2", 2.0),
    (".5", 0.5),
    ("-.5", -0.5),
    ("3.", 3.0),
    ("1e-3", 0.001),
    ("1E3", 1000.0),
    ("1e+3", 1000.0),
    ("007", 7.0),
    ("0", 0.0),
    ("-0", -0.0),
    ("-0.0", -0.0),
    ("5e-324", 5e-324),
    ("1e-400", 0.0),
    ("0.1000000000000000055511151231257827", 0.1),
    ("1.7976931348623157e308", f64::MAX),
    ("inf", f64::INFINITY),
    ("-inf", f64::NEG_INFINITY),
    ("1000000000000000.0", 1e15),
    ("1e15", 1e15),
    ("10000000000000000", 1e16),
    ("100000000000000", 1e14),
    ("3ff0000000000000", 1.0),
    ("4024000000000000", 10.0),
];

#[test]
fn decimals_as_people_write_them() {
    for (text, x) in AS_WRITTEN {
        assert_eq!(want(text), Ok(x.to_bits()), "{text}");
    }
    // 16 lowercase hexadecimal digits are never a decimal.
    for text in ["1000000000000000", "9007199254740993", "12345678901234e5", "0000000000000001"] {
        assert_eq!(want(text), Ok(u64::from_str_radix(text, 16).unwrap()), "{text}");
    }
    assert_eq!(want("nan:fff0000000000001"), Ok(0xfff0_0000_0000_0001));
    // The middle of 1 and the next f64 (a half, to even), and one digit past it.
    let middle = "1.00000000000000011102230246251565404236316680908203125";
    for (text, more) in [(middle.to_string(), 0), (format!("{middle}1"), 1)] {
        assert_eq!(want(&text), Ok(1f64.to_bits() + more), "{text}");
    }
}

#[test]
fn words_that_are_no_numbers() {
    let words = [
        ("1,5", "(the decimal sign is a point)"),
        ("\u{2212}1.5", "(the sign is -)"),
        ("nan", "(a NaN is nan: and its 16 digits)"),
        ("-NaN", "(a NaN is nan: and its 16 digits)"),
        ("3FF0000000000000", "(hexadecimal digits are lowercase)"),
        ("1E00000000000000", "(hexadecimal digits are lowercase)"),
        ("1e309", "(beyond the greatest f64)"),
        ("-1e99999999999999999999", "(beyond the greatest f64)"),
        ("nan:3ff0000000000000", "000`"),
        ("nan:7ff8", "`"),
        ("nan:7FF8000000000000", "`"),
        ("infinity", "`"),
        ("+inf", "`"),
        ("0x10", "`"),
        ("1_000", "`"),
        ("1e", "`"),
        ("e5", "`"),
        (".", "`"),
        ("-", "`"),
        ("1.5m", "`"),
        ("3ff000000000000g", "`"),
        ("\u{e9}", "`"),
    ];
    for (word, ending) in words {
        let fault = want(word).unwrap_err();
        assert_eq!((fault.line, fault.column), (2, 1), "{word}");
        let begin = "expected a number (decimal, or 16 lowercase hexadecimal digits) for s of want or the table's end, found `";
        assert!(fault.message.starts_with(begin) && fault.message.ends_with(ending), "{word}: {fault}");
    }
}

const BY_HAND: &str = "\u{feff}
# A straight road of 10 m, with a lane. Größe: π.

road length   # metres
10\r
# the reference line

   # (indented)
geom s x y hdg length kind k0 k1
  0\t0 0 .0 1e1 line 0 0
section start
-0


lane section id extent level
0 -1 width 0
extent d c b a start id section
0 0 0 3.5 0 -1 0  # the lane's width

want s t
3ff0000000000000 2";

#[test]
fn a_job_by_hand() {
    let job = "road length
4024000000000000

geom s x y hdg length kind k0 k1
0000000000000000 0000000000000000 0000000000000000 0000000000000000 4024000000000000 line 0000000000000000 0000000000000000

section start
8000000000000000

lane section id extent level
0 -1 width 0

extent d c b a start id section
0000000000000000 0000000000000000 0000000000000000 400c000000000000 0000000000000000 -1 0

want s t
3ff0000000000000 4000000000000000

";
    assert_eq!(to_hex(BY_HAND.as_bytes()).as_deref(), Ok(job));
    assert_eq!(answer(job.as_bytes()), 0);
    assert_eq!(to_hex(b"# nothing\n\n").as_deref(), Ok(""));
    assert_eq!(to_hex(b"\xff # no UTF-8 is needed in a comment: \xff\n").unwrap_err().column, 1);
    assert_eq!(to_hex(b"road length # \xff\n1").as_deref(), Ok("road length\n3ff0000000000000\n\n"));
}

/// Spaces, tabs, comments, empty lines and line ends as no program would write them.
#[test]
fn freely_spaced_texts_give_the_same_job() {
    let mut rng = Rng::new(1, "decimal: spaces");
    for _ in 0..JOBS / 10 {
        let job = short(&mut rng).text;
        let text = respaced(&mut rng, &to_decimal(&job).unwrap());
        assert_eq!(to_hex(text.as_bytes()).unwrap().as_bytes(), job, "{text}");
    }
}

fn respaced(rng: &mut Rng, text: &str) -> String {
    let blank = |rng: &mut Rng| ["", " ", "\t", "   \t "][rng.below(4)];
    let mut new = String::new();
    for line in text.lines() {
        if rng.one_in(6) {
            new += &format!("{}# 0 want s t # road\n", blank(rng));
        }
        let keep_empty = !line.is_empty() || rng.one_in(2);
        for word in line.split_whitespace() {
            new += &format!("{}{word} ", blank(rng));
        }
        if keep_empty {
            new += ["\n", "\r\n", "# 1\n", " \n"][if line.is_empty() { 3 * rng.below(2) } else { rng.below(4) }];
        }
        if line.is_empty() && keep_empty && rng.one_in(3) {
            new += "\n \t\r\n";
        }
    }
    new
}

/// A text, the line and column of its fault, what is expected and what is found.
type Told = (&'static str, [usize; 2], &'static str, &'static str);

const DECIMAL: &str = "a number (decimal, or 16 lowercase hexadecimal digits) for t of want";
const DIGITS: &str = "a number (16 lowercase hexadecimal digits) for length of road or the table's end";
const TABLE: &str = "the name of a table that may still come (road, geom, elev, bank, offset, tshift, section, lane, extent, \
                     height, profile, shape, strip, cubic, mark, want)";

const OF_DECIMAL_FORM: &[Told] = &[
    ("raod length\n1\n", [1, 1], TABLE, "`raod`"),
    ("want s t\n1 2\n\nroad length\n", [4, 1], "the end of the text, as no table comes after want", "`road`"),
    ("want s t\n\n1 2\n", [3, 1], "the end of the text, as no table comes after want", "`1`"),
    ("cubic side place term start a b c d\nstrip", [2, 1], "the name of a table that may still come (mark, want)", "`strip`"),
    ("  want s", [1, 9], "a column of want (still to be named: t)", "the end of the line"),
    ("want s s t", [1, 8], "a column of want (still to be named: t)", "`s`"),
    ("want   x", [1, 8], "a column of want (s, t)", "`x`"),
    ("want t s 1", [1, 10], "the end of the line", "`1`"),
    ("want s t\n1 2\t3\n", [2, 5], "the end of the line", "`3`"),
    ("want s t\n# one\n1  # two\n", [3, 4], DECIMAL, "the end of the line"),
    ("want s t\n1 2\u{a0}3\n", [2, 3], DECIMAL, "`2\\u{a0}3`"),
    (
        "lane section id extent level\n0 01 width 0\n",
        [2, 3],
        "a whole number (up to four digits, no leading zeros, - if negative) for id of lane",
        "`01`",
    ),
    (
        "lane id section extent level\n10000 0 width 0\n",
        [2, 1],
        "a whole number (up to four digits, no leading zeros, - if negative) for id of lane or the table's end",
        "`10000`",
    ),
    ("lane section id extent level\n0 1 Width 0\n", [2, 5], "one of the words width, border for extent of lane", "`Width`"),
    ("strip side place relative\nleft 2 0\n", [2, 6], "one of the words 0, 1 for place of strip", "`2`"),
];

const OF_JOB_TEXT: &[Told] = &[
    ("\n", [1, 1], TABLE, "an empty line"),
    ("# road\n", [1, 1], TABLE, "`#`"),
    ("road length\r\n", [1, 6], "a column of road (length)", "`length\\r`"),
    ("road  length\n", [1, 6], "a column of road (length)", "a space too many"),
    ("road length \n", [1, 12], "the end of the line", "a space too many"),
    ("road length\n 0000000000000000\n", [2, 1], DIGITS, "a space too many"),
    ("road length\n1.0\n\n", [2, 1], DIGITS, "`1.0`"),
    ("road length\n0000000000000000\ngeom s\n", [3, 1], DIGITS, "`geom`"),
    ("road length\n0000000000000000\n", [3, 1], "an empty line after the last table", "the end of the text"),
    ("road length\n0000000000000000", [2, 17], "a line feed", "the end of the text"),
    ("road length\n0000000000000000 \n", [2, 17], "the end of the line", "a space too many"),
];

#[test]
fn faults_are_told_by_place_and_word() {
    let of_decimal_form = OF_DECIMAL_FORM.iter().map(|told| (told, to_hex(told.0.as_bytes())));
    let of_job_text = OF_JOB_TEXT.iter().map(|told| (told, to_decimal(told.0.as_bytes())));
    for ((text, [line, column], expected, found), turned) in of_decimal_form.chain(of_job_text) {
        let told = format!("line {line}, column {column}: expected {expected}, found {found}");
        assert_eq!(turned.unwrap_err().to_string(), told, "{text:?}");
    }
    let long = format!("want s t\n{} 1\n", "x".repeat(1000));
    assert!(to_hex(long.as_bytes()).unwrap_err().message.ends_with(&format!("found `{}..`", "x".repeat(40))));
}

#[test]
fn columns_stand_under_their_names() {
    let text = b"geom s x y hdg length kind k0 k1\n0 -0.25 1e300 0 100 line 0 0\n10 0 0 0 5 spiral inf 0\nwant t s\n";
    let job = to_hex(text).unwrap();
    let decimal = "\
geom  s     x      y      hdg  length  kind    k0   k1
      0.0   -0.25  1e300  0.0  100.0   line    0.0  0.0
      10.0  0.0    0.0    0.0  5.0     spiral  inf  0.0

want  t  s
";
    assert_eq!(to_decimal(job.as_bytes()).as_deref(), Ok(decimal));
}

// ---- the programs

fn desk(arguments: &[&str], input: &[u8]) -> Output {
    let mut command = Command::new(env!("CARGO_BIN_EXE_desk"));
    command.args(arguments).stdin(Stdio::piped()).stdout(Stdio::piped()).stderr(Stdio::piped());
    let mut child = command.spawn().unwrap();
    // A program that fails early does not read.
    let _ = child.stdin.take().unwrap().write_all(input);
    child.wait_with_output().unwrap()
}

#[test]
fn programs_there_and_back() {
    for (path, job) in sample_jobs() {
        let decimal = desk(&["decimal", path.to_str().unwrap()], b"");
        assert_eq!((decimal.status.code(), &decimal.stderr[..]), (Some(0), &b""[..]));
        let back = desk(&["hex", "-"], &decimal.stdout);
        assert_eq!((back.status.code(), &back.stderr[..], &back.stdout), (Some(0), &b""[..], &job));
    }
}

#[test]
fn programs_say_what_is_wrong() {
    let cases: [(&[&str], &str, i32, &str); 9] = [
        (&["decimal", "-"], "road length\n1\n\n", 1, "desk decimal: standard input, line 2, column 1: expected a number (16"),
        (&["hex", "-"], "road length\none\n\n", 1, "desk hex: standard input, line 2, column 1: expected a number (decimal"),
        (&["decimal"], "", 2, "desk decimal: a FILE is needed"),
        (&["hex", "a", "b"], "", 2, "desk hex: one FILE is read, `b` is one more"),
        (&["hex", "--fast", "a"], "", 2, "desk hex: unknown option `--fast`; known are --help"),
        (&["decimal", "-x"], "", 2, "desk decimal: unknown option `-x`"),
        (&["decimal", "/nowhere/a.job"], "", 2, "desk decimal: cannot read /nowhere/a.job: "),
        (&["hex", "/"], "", 2, "desk hex: cannot read /: "),
        (&["hex", ""], "", 2, "desk hex: cannot read : "),
    ];
    for (arguments, input, status, message) in cases {
        let output = desk(arguments, input.as_bytes());
        assert_eq!(output.status.code(), Some(status), "{arguments:?}");
        assert_eq!(output.stdout, b"", "{arguments:?}");
        let said = String::from_utf8(output.stderr).unwrap();
        assert!(said.starts_with(message) && said.lines().count() == 1, "{said}");
    }
}

#[test]
fn the_help_is_right() {
    for name in ["decimal", "hex"] {
        let output = desk(&[name, "--help"], b"");
        assert_eq!((output.status.code(), &output.stderr[..]), (Some(0), &b""[..]));
        assert!(output.stdout.starts_with(format!("desk {name} ").as_bytes()));
    }
    // The help's example is M1.
    let help = String::from_utf8(desk(&["hex", "-h"], b"").stdout).unwrap();
    let example: String =
        help.lines().filter(|line| line.is_empty() || line.starts_with("    ")).map(|line| format!("{line}\n")).collect();
    let m1 = fs::read(checkout("examples/jobs/m1.job")).unwrap();
    assert_eq!(to_hex(example.as_bytes()).unwrap().as_bytes(), m1);
}
