//! `desk dots`: its lines are the library's answers over the stations promised, and everything else is told.
use riftkettle::layout::{DOTS, STATIONS};
use riftkettle::{Refusal, Road};
use second::generate;
use second::model;
use second::random::Rng;
use second::texts::{Job, Writing};
use std::fs;
use std::io::Write;
use std::path::Path;
use std::process::{Command, Output, Stdio};

fn sample_job(name: &str) -> String {
    Path::new(env!("CARGO_MANIFEST_DIR")).join("../../examples/jobs").join(name).to_str().unwrap().into()
}

fn command(arguments: &str, input: Stdio) -> Command {
    let mut command = Command::new(env!("CARGO_BIN_EXE_desk"));
    command.arg("dots").args(arguments.split_whitespace()).stdin(input).stdout(Stdio::piped()).stderr(Stdio::piped());
    command
}

/// Runs `desk dots` on the job from standard input.
fn dots(job: &[u8], arguments: &str) -> Output {
    let mut child = command(&format!("- {arguments}"), Stdio::piped()).spawn().unwrap();
    // A program that fails early does not read.
    let _ = child.stdin.take().unwrap().write_all(job);
    child.wait_with_output().unwrap()
}

fn told(output: Output) -> (String, String, i32) {
    let text = |bytes: Vec<u8>| String::from_utf8(bytes).unwrap();
    (text(output.stdout), text(output.stderr), output.status.code().unwrap())
}

fn sample(name: &str, arguments: &str) -> (String, String, i32) {
    told(command(&format!("{} {arguments}", sample_job(name)), Stdio::null()).output().unwrap())
}

/// Lane 1 is 3.5 m wide and marked by kind 1 from 0 to 20 and 40 to 60, then in the next section from 60 to 100; lane 2 by kind 3 alone.
#[test]
fn known_dots() {
    let (out, err, status) = sample("marks.job", "0 1 7.5");
    let row = |(number, s): (usize, f64)| format!("{number},{s:?},3.5,{s:?},3.5,0.0,0.0\n");
    let rows = |dots: &[f64]| dots.iter().copied().enumerate().map(row).collect::<String>();
    assert_eq!(out, format!("dot,s,t,x,y,z,heading\n{}", rows(&[0.0, 7.5, 15.0, 45.0, 52.5])));
    assert_eq!((err.as_str(), status), ("", 0));
    let (out, err, status) = sample("marks.job", "1 1 12.5");
    assert_eq!(out, format!("dot,s,t,x,y,z,heading\n{}", rows(&[60.0, 72.5, 85.0, 97.5])));
    assert_eq!((err.as_str(), status), ("", 0));
    let (out, err, status) = sample("marks.job", "0 2 0.1");
    assert_eq!((out.as_str(), status), ("dot,s,t,x,y,z,heading\n", 0));
    assert_eq!(err, "desk dots: no dots: no mark of kind 1 covers one on lane 2 of section 0\n");
}

/// A straight road of that length, its only lane, on the left, marked throughout.
fn marked(length: f64, starts: &[f64]) -> Vec<u8> {
    let hex = |x: f64| format!("{:016x}", x.to_bits());
    let (zero, end, wide) = (hex(0.0), hex(length), hex(2.0));
    let ends = starts.iter().skip(1).chain([&length]);
    let each = |line: &dyn Fn(usize, f64) -> String| {
        starts.iter().zip(ends.clone()).enumerate().map(|(i, (start, end))| line(i, end - start)).collect::<String>()
    };
    let sections: String = starts.iter().map(|start| hex(*start) + "\n").collect();
    let lanes = each(&|i, _| format!("{i} 1 width 0\n"));
    let extents = each(&|i, _| format!("{i} 1 {zero} {wide} {zero} {zero} {zero}\n"));
    let marks = each(&|i, extent| format!("{i} 1 {zero} {} 1\n", hex(extent)));
    let text = format!(
        "road length\n{end}\n\ngeom s x y hdg length kind k0 k1\n{zero} {zero} {zero} {zero} {end} line {zero} {zero}\n\n\
         section start\n{sections}\nlane section id extent level\n{lanes}\n\
         extent section id start a b c d\n{extents}\nmark section id start end kind\n{marks}\n"
    );
    text.into_bytes()
}

#[test]
fn long_sections_and_far_points_are_told() {
    let (out, err, status) = told(dots(&marked(511.0, &[0.0]), "0 1 100"));
    assert_eq!((out.lines().count(), err.as_str(), status), (1 + 6, "", 0));
    let (out, err, status) = told(dots(&marked(10_000.0, &[0.0]), "0 1 100"));
    assert_eq!((out.lines().count(), status), (1 + 100, 0));
    let long = "the section is long: its stations are 19.6 m apart, and the line is straight between them";
    let far = "points are f32: at x = 9900 they lie on a grid of 0.0009765625 m; an origin near the site makes it finer";
    assert_eq!(err, format!("desk dots: {long}\ndesk dots: {far}\n"));
}

/// The stations of a section as the help says them: to each tenth of a metre, from half a metre on, until they are few enough.
fn stations(start: f64, end: f64) -> Vec<f64> {
    (5..)
        .map(|tenths| {
            let mut list = vec![start];
            list.extend((1..).map(|k| start + f64::from(k * tenths) / 10.0).take_while(|s| *s < end - 1e-9));
            list.push(end);
            list
        })
        .find(|list| list.len() <= STATIONS)
        .unwrap()
}

/// Every line of many roads, bit by bit, and every refusal.
#[test]
fn lines_are_the_answers_of_the_library() {
    let mut rng = Rng::new(1, "dots");
    let mut road = Box::new(Road::new());
    let (mut lines, mut none) = (0, 0);
    for _ in 0..300 {
        let mut drawn = if rng.one_in(2) { generate::surfaced(&mut rng).0 } else { generate::admitted(&mut rng).0 };
        generate::mark_anew(&mut rng, &mut drawn);
        drawn.sections.iter_mut().flat_map(|section| &mut section.marks).filter(|_| rng.one_in(2)).for_each(|mark| mark.kind = 1);
        let job = Job::of(&mut rng, &drawn, &[], Writing::default()).text;
        // Generated roads may be longer than a text.
        if road.read(&job).is_err() {
            continue;
        }
        let section = rng.below(drawn.sections.len());
        let lanes = drawn.sections[section].left.len() + drawn.sections[section].right.len();
        if lanes == 0 {
            continue;
        }
        let spacing = (drawn.length / rng.between(1.0, 200.0)).clamp(0.1, 100.0) as f32;
        let dots = compare(&road, &drawn, (section, rng.below(lanes), spacing), &job);
        (lines, none) = (lines + dots, none + usize::from(dots == 0));
    }
    assert!(lines > 1_000 && none > 10, "{lines} {none}");
}

/// Answers how many dots there are.
fn compare(road: &Road, drawn: &model::Road, (section, place, spacing): (usize, usize, f32), job: &[u8]) -> usize {
    let lane = drawn.sections[section].id(place);
    let (out, err, status) = told(dots(job, &format!("{section} {lane} {spacing}")));
    let end = drawn.sections.get(section + 1).map_or(drawn.length, |next| next.start);
    let mut list = vec![0.0; DOTS];
    match road.dots(section, lane, spacing, &stations(drawn.sections[section].start, end), &mut list) {
        Ok(dots) => list.truncate(dots),
        Err(refusal) => {
            assert!(matches!(refusal, Refusal::StationList | Refusal::DotSpace), "{refusal}");
            assert_eq!((out.as_str(), status), ("", 2));
            assert!(err.contains(&format!("(refusal {})", refusal.number())), "{err}");
            return 0;
        }
    }
    let followed = section + 1 < drawn.sections.len();
    if followed && end - 2e-9 < drawn.sections[section].start && !list.is_empty() {
        assert_eq!(status, 1, "{err}");
        return 0;
    }
    assert_eq!(status, 0, "{err}");
    assert_eq!(err.contains("no dots"), list.is_empty());
    assert_eq!(out.lines().count(), 1 + list.len());
    for ((number, s), line) in list.iter().enumerate().zip(out.lines().skip(1)) {
        let cells: Vec<f64> = line.split(',').map(|cell| cell.parse().unwrap()).collect();
        let at = if followed { s.min(end - 2e-9) } else { *s };
        let border = road.borders(at).unwrap()[place];
        let point = road.lane_surface(lane, at, border.outer).unwrap();
        let expected = [number as f64, *s, border.outer, point.x.into(), point.y.into(), point.z.into(), point.heading];
        assert_eq!(cells.iter().map(|x| x.to_bits()).collect::<Vec<_>>(), expected.map(f64::to_bits));
    }
    list.len()
}

#[test]
fn wrong_arguments_are_told() {
    let cases = [
        ("", "SECTION is needed"),
        ("0", "LANE is needed"),
        ("0 1", "SPACING is needed"),
        ("0 1 1 1", "after FILE come SECTION, LANE, SPACING; `1` is one more"),
        ("x 1 1", "SECTION needs a section's number (0, 1, ..), not `x`"),
        ("-1 1 1", "SECTION needs a section's number (0, 1, ..), not `-1`"),
        ("0 1.5 1", "LANE needs a lane's id (1, 2, .. left, -1, -2, .. right), not `1.5`"),
        ("0 1 x", "SPACING needs a number, not `x`"),
        ("2 1 1", "the road has no section 2: they are 0 to 1 (refusal 10)"),
        ("18446744073709551615 1 1", "the road has no section 18446744073709551615: they are 0 to 1 (refusal 10)"),
        ("0 0 1", "section 0 has no lane 0: 2 are on the left (1, 2, ..), 1 on the right (-1, -2, ..) (refusal 10)"),
        ("0 -2 1", "section 0 has no lane -2: 2 are on the left (1, 2, ..), 1 on the right (-1, -2, ..) (refusal 10)"),
        ("0 1 0.09", "SPACING 0.09 is outside 0.1..100 (refusal 15)"),
        ("0 1 100.1", "SPACING 100.1 is outside 0.1..100 (refusal 15)"),
        ("0 1 -1", "SPACING -1.0 is outside 0.1..100 (refusal 15)"),
        ("0 1 nan", "SPACING NaN is outside 0.1..100 (refusal 15)"),
        ("0 1 1 --lane 2", "unknown option `--lane`; known are --help"),
    ];
    for (arguments, message) in cases {
        let (out, err, status) = sample("marks.job", arguments);
        assert_eq!((out.as_str(), err, status), ("", format!("desk dots: {message}\n"), 2), "{arguments}");
    }
    let (out, err, status) = told(dots(&marked(10.0, &[0.0, 10.0]), "1 1 1"));
    assert_eq!((out.as_str(), err.as_str(), status), ("", "desk dots: section 1 has no length (refusal 16)\n", 2));
    let (out, err, status) = told(dots(&marked(7_000.0, &[0.0]), "0 1 0.1"));
    let many = "desk dots: SPACING 0.1 gives more than 65536 dots in section 0, kept or not (refusal 17)\n";
    assert_eq!((out.as_str(), err.as_str(), status), ("", many, 2));
    let none = command("", Stdio::null()).output().unwrap();
    assert_eq!((none.status.code(), &none.stderr[..]), (Some(2), &b"desk dots: a FILE is needed (`-` is standard input)\n"[..]));
    assert_eq!(command("/nowhere.job 0 1 1", Stdio::null()).output().unwrap().status.code(), Some(2));
}

/// No call but `dots` answers for a section that is shorter than the nanometre in which the next one counts.
#[test]
fn a_section_too_short_to_be_asked() {
    let job = marked(10.0, &[0.0, 5.0, 5.0 + 5e-10]);
    let (_, err, status) = told(dots(&job, "1 1 1"));
    assert_eq!((err.as_str(), status), ("desk dots: no call answers for section 1 at s = 5.0\n", 1));
    let (out, _, status) = told(dots(&job, "0 1 1"));
    assert_eq!((out.lines().count(), status), (1 + 5, 0));
}

#[test]
fn refused_jobs_are_told() {
    let (out, err, status) = told(dots(b"no road\n", "0 1 1"));
    assert_eq!((out.as_str(), status), ("", 1));
    assert!(err.starts_with("desk dots: standard input is refused: ") && err.ends_with("`desk check -` explains it\n"), "{err}");
}

/// A full disk.
#[test]
fn writing_that_fails() {
    let full = fs::File::options().write(true).open("/dev/full").unwrap();
    let output = command(&format!("{} 0 1 1", sample_job("marks.job")), Stdio::null()).stdout(full).output().unwrap();
    assert_eq!(output.status.code(), Some(1));
    assert!(output.stderr.starts_with(b"desk dots: cannot write: "));
}

#[test]
fn the_help_is_written() {
    let output = command("--help", Stdio::null()).output().unwrap();
    assert_eq!((output.status.code(), &output.stderr[..]), (Some(0), &b""[..]));
    assert!(output.stdout.starts_with(b"desk dots JOB SECTION LANE SPACING\n"));
}
