//! `desk points`: its lines are the library's answers at the stations promised, and everything else is told.
use riftkettle::{Refusal, Road};
use second::generate;
use second::random::Rng;
use second::texts::{Job, Writing};
use std::fs;
use std::io::{Read, Write};
use std::path::Path;
use std::process::{Command, Output, Stdio};

fn sample_job(name: &str) -> String {
    Path::new(env!("CARGO_MANIFEST_DIR")).join("../../examples/jobs").join(name).to_str().unwrap().into()
}

fn command(arguments: &str, input: Stdio) -> Command {
    let mut command = Command::new(env!("CARGO_BIN_EXE_desk"));
    command.arg("points").args(arguments.split_whitespace()).stdin(input).stdout(Stdio::piped()).stderr(Stdio::piped());
    command
}

/// Runs `desk points` on the job from standard input.
fn points(job: &[u8], arguments: &str) -> Output {
    let mut child = command(&format!("- {arguments}"), Stdio::piped()).spawn().unwrap();
    // A program that fails early does not read.
    let _ = child.stdin.take().unwrap().write_all(job);
    child.wait_with_output().unwrap()
}

fn sample(name: &str, arguments: &str) -> (String, String, i32) {
    let output = command(&format!("{} {arguments}", sample_job(name)), Stdio::null()).output().unwrap();
    let text = |bytes: Vec<u8>| String::from_utf8(bytes).unwrap();
    (text(output.stdout), text(output.stderr), output.status.code().unwrap())
}

#[test]
fn known_points() {
    // Right lanes of 3.5 and 1.5 m beside an offset of 0.25; the outer one is raised by 0.125.
    let (inner, ..) = sample("lanes_width.job", "--every 40 --lane -2 --border inner");
    let lines: Vec<&str> = inner.lines().collect();
    assert_eq!(lines[..3], ["s,t,x,y,z,heading", "0.0,-3.25,0.0,-3.25,0.125,0.0", "40.0,-3.25,40.0,-3.25,0.125,0.0"]);
    assert_eq!(lines[3..], ["80.0,-3.25,80.0,-3.25,0.125,0.0", "100.0,-3.25,100.0,-3.25,0.125,0.0"]);
    // The same place on the lane beside it.
    let (outer, ..) = sample("lanes_width.job", "--to 0 --lane=-1 --every=40");
    assert_eq!(outer, "s,t,x,y,z,heading\n0.0,-3.25,0.0,-3.25,0.0,0.0\n");
    let (middle, ..) = sample("lanes_width.job", "--from 2.5 --every 2.5 --to 5 --border middle --lane -2");
    assert_eq!(middle, "s,t,x,y,z,heading\n2.5,-4.0,2.5,-4.0,0.125,0.0\n5.0,-4.0,5.0,-4.0,0.125,0.0\n");
}

#[test]
fn stations_left_out_are_told() {
    // Lane 3 is in the second section alone, which begins at 60.
    let (out, err, status) = sample("two_sections.job", "--every 0.5 --lane 3");
    assert_eq!(err, "desk points: no lane 3 at 120 of 201 stations, left out: s = 0.0 to 59.5\n");
    assert_eq!((out.lines().count(), status), (1 + 81, 0));
    assert!(out.lines().nth(1).unwrap().starts_with("60.0,"));
    let (out, err, status) = sample("two_sections.job", "--every 0.5 --lane 3 --to 3");
    assert_eq!(err, "desk points: no lane 3 at 7 of 7 stations, left out: s = 0.0 to 3.0\n");
    assert_eq!((out.as_str(), status), ("s,t,x,y,z,heading\n", 0));
    // Half a nanometre before a section the station is the section's.
    let (out, err, _) = sample("two_sections.job", "--every 1 --lane 3 --from 59.9999999995 --to 60");
    assert_eq!((out.lines().count(), err.as_str()), (1 + 1, ""));
    let (out, err, _) = sample("two_sections.job", "--every 1 --lane 3 --from 59.9999999995 --to 59.9999999995");
    assert_eq!((out.lines().count(), err.as_str()), (1 + 1, ""));
}

/// 899996.1 is the shortest decimal of the f32, but another f64.
#[test]
fn far_points_are_exact_and_their_grid_is_told() {
    let job = fs::read(sample_job("lanes_width.job")).unwrap();
    let mut lines: Vec<String> = String::from_utf8(job).unwrap().lines().map(String::from).collect();
    let geom = lines.iter().position(|line| line.starts_with("geom ")).unwrap() + 1;
    let mut cells: Vec<String> = lines[geom].split(' ').map(String::from).collect();
    cells[1] = format!("{:016x}", 899_996.1_f64.to_bits());
    lines[geom] = cells.join(" ");
    let output = points((lines.join("\n") + "\n").as_bytes(), "--every 1000 --lane -2 --to 0");
    let [out, err] = [output.stdout, output.stderr].map(|bytes| String::from_utf8(bytes).unwrap());
    assert_eq!(out, "s,t,x,y,z,heading\n0.0,-4.75,899996.125,-4.75,0.125,0.0\n");
    let note = "at x = 899996.125 they lie on a grid of 0.0625 m; an origin near the site makes it finer";
    assert_eq!(err, format!("desk points: points are f32: {note}\n"));
    assert_eq!(output.status.code(), Some(0));
}

fn stations(arguments: &str) -> Vec<f64> {
    let (out, err, status) = sample("lanes_width.job", &format!("--lane 1 {arguments}"));
    assert_eq!((err.as_str(), status), ("", 0), "{arguments}");
    out.lines().skip(1).map(|line| line.split(',').next().unwrap().parse().unwrap()).collect()
}

#[test]
fn stations_are_counted_and_the_end_is_one() {
    assert_eq!(stations("--every 30"), [0.0, 30.0, 60.0, 90.0, 100.0]);
    assert_eq!(stations("--every 50"), [0.0, 50.0, 100.0]);
    assert_eq!(stations("--every 1000"), [0.0, 100.0]);
    assert_eq!(stations("--every 1 --from 7 --to 7"), [7.0]);
    assert_eq!(stations("--every 1 --from 100"), [100.0]);
    // 3 * 0.1 is above 0.3 in f64, and 0.7 - 0.6 below 0.1: the end comes once.
    assert_eq!(stations("--every 0.1 --to 0.3"), [0.0, 0.1, 0.2, 0.3]);
    assert_eq!(stations("--every 0.1 --from 0.6 --to 0.7"), [0.6, 0.7]);
    // No sum runs up.
    let tenths = stations("--every 0.1");
    assert_eq!(tenths.len(), 1001);
    assert!(tenths.iter().enumerate().all(|(k, &s)| s == if k == 1000 { 100.0 } else { k as f64 * 0.1 }));
    assert_eq!(stations("--every 0.001 --from 12.3456789 --to 42.3456789").len(), 30_001);
}

/// Every line of many roads, bit by bit, and every station without one.
#[test]
fn lines_are_the_answers_of_the_library() {
    let mut rng = Rng::new(1, "points");
    let mut road = Box::new(Road::new());
    let (mut lines, mut left_out) = (0, 0);
    for _ in 0..300 {
        let drawn = if rng.one_in(2) { generate::surfaced(&mut rng).0 } else { generate::admitted(&mut rng).0 };
        let job = Job::of(&mut rng, &drawn, &[], Writing::default()).text;
        let most = drawn.sections.iter().map(|s| [s.left.len(), s.right.len()]);
        let [left, right] = most.fold([0, 0], |[a, b], [c, d]| [a.max(c), b.max(d)]);
        // Generated roads may be longer than a text.
        if road.read(&job).is_err() || left + right == 0 {
            continue;
        }
        let lane = rng.below(left + right) as i32 - right as i32;
        let lane = if lane >= 0 { lane + 1 } else { lane };
        let border = rng.pick(&["inner", "outer", "middle"]);
        let (from, every) = (road.length() * rng.pick(&[0.0, 0.25]), road.length() / rng.between(1.0, 200.0));
        let output = points(&job, &format!("--lane {lane} --border {border} --every {every} --from {from}"));
        let [some, none] = compare(&road, lane, border, [from, every], &output);
        (lines, left_out) = (lines + some, left_out + none);
    }
    assert!(lines > 6_000 && left_out > 1_000, "{lines} {left_out}");
}

/// Answers how many stations have a line and how many have none.
fn compare(road: &Road, lane: i32, border: &str, [from, every]: [f64; 2], output: &Output) -> [usize; 2] {
    assert_eq!(output.status.code(), Some(0));
    let out = str::from_utf8(&output.stdout).unwrap();
    let (mut lines, mut counts, mut far, end) = (out.lines().skip(1), [0, 0], false, road.length());
    let stations = (0..).map(|k| from + k as f64 * every).take_while(|s| *s < end - 1e-9).chain([end]);
    for s in stations {
        if road.lane_surface(lane, s, 0.0) == Err(Refusal::Lane) {
            counts[1] += 1;
            continue;
        }
        counts[0] += 1;
        let cells: Vec<&str> = lines.next().unwrap().split(',').collect();
        let [s_read, t, x, y, z, heading] = [0, 1, 2, 3, 4, 5].map(|i| cells[i].parse::<f64>().unwrap());
        let point = road.lane_surface(lane, s, t).unwrap();
        assert_eq!((s_read.to_bits(), heading.to_bits()), (s.to_bits(), point.heading.to_bits()));
        assert_eq!([x, y, z].map(f64::to_bits), [point.x, point.y, point.z].map(|x| f64::from(x).to_bits()));
        on_border(road, lane, border, s, t);
        far |= x.abs() >= 8192.0 || y.abs() >= 8192.0;
    }
    assert_eq!(lines.next(), None);
    told(str::from_utf8(&output.stderr).unwrap(), lane, counts, far);
    counts
}

/// What is said beside the points: stations left out, then the grid of far points, nothing else.
fn told(err: &str, lane: i32, [some, none]: [usize; 2], far: bool) {
    let left_out = format!("desk points: no lane {lane} at {none} of {} stations, left out: s = ", some + none);
    let expected = [(none > 0, left_out.as_str()), (far, "desk points: points are f32: at ")];
    let expected: Vec<&str> = expected.into_iter().filter(|(there, _)| *there).map(|(_, words)| words).collect();
    assert_eq!(err.lines().count(), expected.len(), "{err}");
    assert!(err.lines().zip(expected).all(|(line, words)| line.starts_with(words)), "{err}");
}

/// t is that border of a lane of the list, and that lane is the one named inside it where it is not too thin to tell.
fn on_border(road: &Road, lane: i32, border: &str, s: f64, t: f64) {
    let borders = road.borders(s).unwrap();
    let of = |b: &riftkettle::Border| match border {
        "inner" => b.inner,
        "outer" => b.outer,
        _ => (b.inner + b.outer) / 2.0,
    };
    let mut named = borders.iter().filter(|b| of(b).to_bits() == t.to_bits()).peekable();
    assert!(named.peek().is_some());
    assert!(named.any(|b| {
        let right = (b.outer - b.inner) * f64::from(lane.signum()) >= 0.0;
        let thin = (b.outer - b.inner).abs() < 1e-6;
        right && (thin || road.lane_named(s, (b.inner + b.outer) / 2.0) == Ok(Some(lane)))
    }));
}

#[test]
fn wrong_arguments_are_told() {
    let cases = [
        ("--lane 1", "`--every METRES` is needed"),
        ("--every 1", "`--lane ID` is needed"),
        ("--every 0 --lane 1", "`--every` needs a number above 0"),
        ("--every -1 --lane 1", "`--every` needs a number above 0"),
        ("--every nan --lane 1", "`--every` needs a finite number"),
        ("--every 1e999 --lane 1", "`--every` needs a finite number"),
        ("--every x --lane 1", "`--every` needs a number, not `x`"),
        ("--every 0.00001 --lane 1", "`--every` 1e-5 gives more than 10000000 points"),
        ("--every 5e-324 --lane 1", "`--every` 5e-324 gives more than 10000000 points"),
        ("--every --lane 1", "`--every` needs a value"),
        ("--every 1 --lane", "`--lane` needs a value"),
        ("--every 1 --lane 0", "no lane has the id 0"),
        ("--every 1 --lane 1.5", "`--lane` needs a lane's id (1, 2, .. left, -1, -2, .. right), not `1.5`"),
        (
            "--every 1 --lane 3",
            "no section of the road has a lane 3: at most 2 are on the left (1, 2, ..), 2 on the right (-1, -2, ..)",
        ),
        ("--every 1 --lane -2147483648", "no section of the road has a lane -2147483648"),
        ("--every 1 --lane 1 --border left", "`--border` needs inner, outer or middle, not `left`"),
        ("--every 1 --lane 1 --from 5 --to 4", "`--from` 5.0 lies after `--to` 4.0"),
        ("--every 1 --lane 1 --from -0.5", "`--from` -0.5 is not on the road: its length is 100.0"),
        ("--every 1 --lane 1 --to 100.5", "`--to` 100.5 is not on the road: its length is 100.0"),
        ("--every 1 --lane 1 --to nan", "`--to` needs a finite number"),
        ("--every 1 --lane 1 --every 2", "`--every` is given twice"),
        ("--every 1 --lane 1 --step 2", "unknown option `--step`; known are --every, --lane, --border, --from, --to, --help"),
        ("--every 1 --lane 1 b.job", "one FILE is read, `b.job` is one more"),
    ];
    for (arguments, message) in cases {
        let (out, err, status) = sample("lanes_width.job", arguments);
        assert_eq!((out.as_str(), status), ("", 2), "{arguments}");
        assert!(err.starts_with(&format!("desk points: {message}")) && err.lines().count() == 1, "{err}");
    }
    let none = command("--every 1 --lane 1", Stdio::null()).output().unwrap();
    assert_eq!(none.status.code(), Some(2));
    let missing = command("/nowhere.job --every 1 --lane 1", Stdio::null()).output().unwrap();
    assert_eq!(missing.status.code(), Some(2));
}

#[test]
fn refused_jobs_are_told() {
    let job = fs::read_to_string(sample_job("lanes_width.job")).unwrap();
    let cases = [
        (job.replace("road", "raod"), 1),
        (job.replace("road length\n", "road length\n4059000000000000\n"), 2),
        (String::new(), 3),
        (job.replacen("4059000000000000", "7ff8000000000000", 1), 4),
    ];
    for (job, number) in cases {
        let output = points(job.as_bytes(), "--every 1 --lane 1");
        assert_eq!((output.status.code(), &output.stdout[..]), (Some(1), &b""[..]));
        let said = String::from_utf8(output.stderr).unwrap();
        assert!(said.starts_with("desk points: standard input is refused: "), "{said}");
        assert!(said.ends_with(&format!("(refusal {number}); `desk check -` explains it\n")), "{said}");
    }
}

#[test]
fn the_decimal_form_is_told() {
    let decimal = desk::decimal::to_decimal(&fs::read(sample_job("lanes_width.job")).unwrap()).unwrap();
    let output = points(decimal.as_bytes(), "--every 1 --lane 1");
    let said = String::from_utf8(output.stderr).unwrap();
    assert!(said.ends_with("(refusal 1); `desk check -` explains it, `desk hex -` makes a job of it\n"), "{said}");
}

/// A reader that closes the pipe early, and a full disk.
#[test]
fn writing_that_fails() {
    let arguments = format!("{} --every 0.01 --lane 3", sample_job("two_sections.job"));
    let mut child = command(&arguments, Stdio::null()).spawn().unwrap();
    let mut some = [0; 10];
    child.stdout.take().unwrap().read_exact(&mut some).unwrap();
    let output = child.wait_with_output().unwrap();
    assert_eq!((output.status.code(), &output.stderr[..]), (Some(0), &b""[..]));
    let full = fs::File::options().write(true).open("/dev/full").unwrap();
    let output = command(&arguments, Stdio::null()).stdout(full).output().unwrap();
    assert_eq!(output.status.code(), Some(1));
    assert!(output.stderr.starts_with(b"desk points: cannot write: "));
}

#[test]
fn the_help_is_written() {
    let output = command("--help", Stdio::null()).output().unwrap();
    assert_eq!((output.status.code(), &output.stderr[..]), (Some(0), &b""[..]));
    assert!(output.stdout.starts_with(b"desk points JOB --every METRES --lane ID "));
}
