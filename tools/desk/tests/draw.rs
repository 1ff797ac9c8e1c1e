//! `desk draw`: every sample job and some hard ones are drawn, well formed and with what they should have; all else is refused.
use std::fs;
use std::io::Write;
use std::path::{Path, PathBuf};
use std::process::{Command, Output, Stdio};

use desk::draw::picture;
use riftkettle::Road;
use second::generate;
use second::model;
use second::random::Rng;
use second::texts::{self, Job, Writing};

/// The most bytes of a picture.
const LARGEST: usize = 1 << 20;

fn jobs() -> Vec<PathBuf> {
    let folder = Path::new(env!("CARGO_MANIFEST_DIR")).join("../../examples/jobs");
    let files = fs::read_dir(folder).unwrap().map(|entry| entry.unwrap().path());
    let mut jobs: Vec<PathBuf> = files.filter(|path| path.extension().is_some_and(|e| e == "job")).collect();
    jobs.sort();
    assert!(!jobs.is_empty());
    jobs
}

fn sample(name: &str) -> Vec<u8> {
    fs::read(jobs().into_iter().find(|path| path.ends_with(name)).unwrap()).unwrap()
}

// ---- a small reader of elements

/// The texts of all elements of that name, if tags are balanced and attributes quoted.
fn texts<'a>(svg: &'a str, name: &str) -> Vec<&'a str> {
    let (mut open, mut found) = (Vec::new(), Vec::new());
    for part in svg.split('<').skip(1) {
        let (tag, text) = part.split_once('>').expect("a tag ends");
        assert_eq!(tag.matches('"').count() % 2, 0, "{tag}");
        assert!(!text.contains(['&', '<', '>']) || text.contains(';'), "{text}");
        match (tag.strip_prefix('/'), tag.strip_suffix('/')) {
            (Some(closed), _) => assert_eq!(open.pop(), Some(closed), "{svg}"),
            (None, Some(_)) => assert_eq!(text.trim(), ""),
            (None, None) => {
                open.push(tag.split(' ').next().unwrap());
                found.extend((open.last() == Some(&name)).then_some(text));
            }
        }
    }
    assert!(open.is_empty(), "{open:?}");
    found
}

/// The checks that every picture stands.
fn well_formed(svg: &str) -> Vec<&str> {
    assert!(svg.starts_with("<svg ") && svg.ends_with("</svg>\n"));
    assert!(svg.len() < LARGEST, "{} bytes", svg.len());
    assert!(!svg.contains("=\"NaN") && !svg.contains(",NaN") && !svg.contains("inf,") && !svg.contains(",inf"));
    texts(svg, "text")
}

#[test]
fn the_reader_of_elements_finds_faults() {
    assert_eq!(texts("<svg><text x=\"1\">a</text><b/></svg>", "text"), ["a"]);
    for fault in ["<svg><g></svg>", "<svg></g></svg>", "<svg x=\"1></svg>", "<svg>"] {
        assert!(std::panic::catch_unwind(|| texts(fault, "text").len()).is_err(), "{fault}");
    }
}

// ---- what is drawn

#[test]
fn every_sample_job_is_drawn_whole() {
    for path in jobs() {
        let (job, name) = (fs::read(&path).unwrap(), path.file_name().unwrap().to_str().unwrap());
        let svg = picture(path.to_str().unwrap(), &job, None).unwrap();
        let words = well_formed(&svg);
        let mut road = Box::new(Road::new());
        road.read(&job).unwrap();
        let model = model::Road::read(road.lent().words, road.lent().numbers);
        assert!(words.contains(&name), "{name}");
        assert!(words.iter().any(|w| w.starts_with(&format!("length {} m, ", road.length()))), "{name}");
        for want in 0..road.wants().len() {
            assert!(words.contains(&format!("w{want}").as_str()), "{name}: w{want}");
        }
        let (left, right) = (model.sections[0].left.len() as i32, model.sections[0].right.len() as i32);
        for id in (-right..=left).filter(|id| *id != 0) {
            assert!(words.contains(&id.to_string().as_str()), "{name}: lane {id}");
        }
        for heading in ["Plan", "Elevation", "Bank", "Legend"] {
            assert!(words.contains(&heading), "{name}: {heading}");
        }
        assert!(words.iter().any(|w| w.starts_with("Cross section at s ")), "{name}");
    }
}

/// The README's picture is what it says: desk draw examples/jobs/country_road.job --at 250 > docs/pictures/sample-country_road.svg
#[test]
fn the_picture_of_the_readme_is_drawn_so() {
    let shown = concat!(env!("CARGO_MANIFEST_DIR"), "/../../docs/pictures/sample-country_road.svg");
    let svg = picture("country_road.job", &sample("country_road.job"), Some(250.0)).unwrap();
    assert!(svg == std::fs::read_to_string(shown).unwrap(), "{shown} is to be drawn anew");
}

/// The strokes of a class on a picture.
fn strokes(svg: &str, class: &str) -> Vec<String> {
    let start = format!("<path class=\"{class}\" d=\"");
    let paths = svg.split(&start).skip(1);
    paths.map(|path| path.split('"').next().unwrap().to_string()).collect()
}

/// Ends of a level stroke: from its first x to its last, and its y.
fn level_stroke(stroke: &str) -> (f64, f64, f64) {
    let points: Vec<(f64, f64)> = stroke
        .trim_start_matches('M')
        .split(' ')
        .map(|p| p.split_once(',').unwrap())
        .map(|(x, y)| (x.parse().unwrap(), y.parse().unwrap()))
        .collect();
    assert!(points.iter().all(|p| p.1 == points[0].1), "{stroke}");
    (points[0].0, points[points.len() - 1].0, points[0].1)
}

#[test]
fn marks_are_strokes_along_their_lanes_borders() {
    let svg = picture("marks.job", &sample("marks.job"), None).unwrap();
    let words = well_formed(&svg);
    for kind in [1, 2, 3] {
        assert!(words.contains(&format!("paint of kind {kind}").as_str()), "{kind}");
    }
    let [one, two, three] = ["paint p0", "paint p1", "paint p2"].map(|class| strokes(&svg, class));
    // the plan's, then the legend's; at 30 the marks on lanes 2 and -1 cover them, that of kind 1 does not
    assert_eq!((one.len(), two.len(), three.len()), (3 + 1, 2 + 1 + 1, 2 + 1 + 1));
    // The reference line runs from 0 to 100 m: from there s, and t up the paper, to the nearest centimetre.
    let (x0, x100, y0) = level_stroke(&strokes(&svg, "ref line")[0]);
    let metre = (x100 - x0) / 100.0;
    let placed = |stroke: &String| {
        let (from, to, y) = level_stroke(stroke);
        [(from - x0) / metre, (to - x0) / metre, (y0 - y) / metre].map(|m| (m * 100.0).round() / 100.0)
    };
    let plan = |strokes: &[String]| strokes.iter().map(placed).collect::<Vec<_>>();
    // lanes 1, -1 and 2, which are 3.5, 3.5 and 2 wide, in the next section lane 2 is 3.25
    assert_eq!(plan(&one[..3]), [[0.0, 20.0, 3.5], [40.0, 60.0, 3.5], [60.0, 100.0, 3.5]]);
    assert_eq!(plan(&two[..2]), [[0.0, 60.0, -3.5], [60.0, 100.0, -3.5]]);
    assert_eq!(plan(&three[..2]), [[15.0, 45.0, 5.5], [70.0, 90.0, 6.75]]);
    // at s 50 kind 1 covers lane 1 too
    assert_eq!(strokes(&picture("j", &sample("marks.job"), Some(50.0)).unwrap(), "paint p0").len(), 5);
}

#[test]
fn a_road_without_marks_has_no_paint() {
    assert!(!picture("j", &sample("two_sections.job"), None).unwrap().contains("\"paint "));
}

#[test]
fn the_cross_section_is_at_the_first_want_or_where_it_is_asked_for() {
    let job = sample("two_sections.job");
    let heading = |at| picture("j", &job, at).unwrap();
    assert!(heading(None).contains(">Cross section at s 30 m<"));
    assert!(heading(Some(99.5)).contains(">Cross section at s 99.5 m<"));
    assert!(
        heading(Some(0.0)).contains(">Cross section at s 0 m<") && heading(Some(100.0)).contains(">Cross section at s 100 m<")
    );
    let job = String::from_utf8(job).unwrap();
    let bare = &job[..job.find("want").unwrap()];
    let svg = picture("j", bare.as_bytes(), None).unwrap();
    assert!(svg.contains(">Cross section at s 50 m<") && svg.contains(">No wants<"));
}

#[test]
fn a_name_is_text_and_nothing_else() {
    let svg = picture("x/<b>&\"'\u{7}.job", &sample("m1.job"), None).unwrap();
    assert!(well_formed(&svg).contains(&"&lt;b&gt;&amp;&quot;&#39;\u{fffd}.job"));
}

fn hex(x: f64) -> String {
    format!("{:016x}", x.to_bits())
}

/// A job of geometries (s, x, y, heading, length, kind, k0), sections (start, widths left, widths right) and wants.
struct Text<'a> {
    length: f64,
    geoms: &'a [(f64, f64, f64, f64, f64, &'a str, f64)],
    sections: &'a [(f64, &'a [f64], &'a [f64])],
    wants: &'a [(f64, f64)],
}

impl Text<'_> {
    fn written(&self) -> Vec<u8> {
        let mut tables = vec![vec!["road length".to_string(), hex(self.length)]];
        let mut geoms = vec!["geom s x y hdg length kind k0 k1".to_string()];
        let geom = |(s, x, y, h, l, kind, k): &(f64, f64, f64, f64, f64, &str, f64)| {
            format!("{} {} {} {} {} {kind} {} {}", hex(*s), hex(*x), hex(*y), hex(*h), hex(*l), hex(*k), hex(0.0))
        };
        geoms.extend(self.geoms.iter().map(geom));
        let mut sections = vec!["section start".to_string()];
        let (mut lanes, mut extents) =
            (vec!["lane section id extent level".to_string()], vec!["extent section id start a b c d".to_string()]);
        for (number, (start, left, right)) in self.sections.iter().enumerate() {
            sections.push(hex(*start));
            let ids = (1..).zip(left.iter()).chain((1..).map(|n: i32| -n).zip(right.iter()));
            for (id, width) in ids {
                lanes.push(format!("{number} {id} width 0"));
                extents.push(format!("{number} {id} {0} {1} {0} {0} {0}", hex(0.0), hex(*width)));
            }
        }
        let mut wants = vec!["want s t".to_string()];
        wants.extend(self.wants.iter().map(|(s, t)| format!("{} {}", hex(*s), hex(*t))));
        tables.extend([geoms, sections, lanes, extents, wants]);
        let full = tables.into_iter().filter(|table| table.len() > 1);
        full.map(|table| table.join("\n") + "\n\n").collect::<String>().into_bytes()
    }

    fn drawn(&self) -> String {
        picture("hard.job", &self.written(), None).unwrap()
    }
}

const LINE: (f64, f64, f64, f64, f64, &str, f64) = (0.0, 0.0, 0.0, 0.0, 100.0, "line", 0.0);

#[test]
fn refused_wants_are_listed_with_their_numbers() {
    let text =
        Text { length: 100.0, geoms: &[LINE], sections: &[(0.0, &[3.5], &[])], wants: &[(200.0, 0.0), (1.0, 90.0), (5.0, 1.0)] };
    let svg = text.drawn();
    let words = well_formed(&svg);
    assert!(words.iter().any(|w| w.starts_with("refused 7")) && words.iter().any(|w| w.starts_with("refused 8")));
    assert!(words.contains(&"Cross section at s 5 m"));
}

#[test]
fn jumps_are_told_and_not_bridged() {
    let second = (40.0, 40.0, 1.5, 0.0, 60.0, "line", 0.0);
    let text = Text { length: 100.0, geoms: &[LINE, second], sections: &[(0.0, &[3.5], &[3.5])], wants: &[] };
    let svg = text.drawn();
    let words = well_formed(&svg);
    assert!(words.contains(&"Reference line, worth a look: 2"));
    assert!(words.contains(&"s 40: 1.500 m away") && words.contains(&"s 40: the line before is cut 60 m short"));
    // The lanes' outlines are split in two, and no line of the road rises.
    assert_eq!(svg.matches("<path class=\"left-a\"").count(), 2);
    let level = |d: &str| d.split(' ').map(|p| p.rsplit(',').next().unwrap().to_string()).collect::<Vec<_>>();
    for path in svg.split("<path class=\"ref line\" d=\"M").skip(1) {
        let heights = level(path.split('"').next().unwrap());
        assert!(heights.windows(2).all(|h| h[0] == h[1]), "{heights:?}");
    }
}

#[test]
fn kinks_and_overruns_are_told() {
    let (spiral, turned) = ((0.0, 0.0, 0.0, 0.0, 30.0, "spiral", 0.0), 0.44_f64.to_radians());
    let geoms = &[spiral, (40.0, 30.0, 0.0, turned, 50.0, "arc", 0.01)];
    let job = Text { length: 100.0, geoms, sections: &[(0.0, &[], &[])], wants: &[] };
    let svg = job.drawn();
    let words = well_formed(&svg);
    for row in ["turns 0.44°", "the spiral before stays at its end for 10 m"] {
        assert!(words.contains(&format!("s 40: {row}").as_str()), "{row}");
    }
    assert!(words.contains(&"s 100: the arc before runs on for 10 m") && words.contains(&"Reference line, worth a look: 3"));
    // One ring at each end of the kink, none where s runs on, and the one of the legend.
    assert_eq!(svg.matches("<circle class=\"jump\"").count(), 3);
}

/// A job with marks on lane 1 of section 0: start, end, kind.
fn painted(text: &Text, marks: &[(f64, f64, u16)]) -> String {
    let job = String::from_utf8(text.written()).unwrap();
    let lines: String = marks.iter().map(|(start, end, kind)| format!("0 1 {} {} {kind}\n", hex(*start), hex(*end))).collect();
    let (before, wants) = job.split_at(job.find("want").unwrap_or(job.len()));
    let job = format!("{before}mark section id start end kind\n{lines}\n{wants}");
    picture("marks.job", job.as_bytes(), None).unwrap()
}

#[test]
fn jumps_are_told_beside_many_kinds_and_wants() {
    let second = (40.0, 40.0, 1.5, 0.0, 60.0, "line", 0.0);
    let first = (0.0, 0.0, 0.0, 0.0, 40.0, "line", 0.0);
    let lanes: &[(f64, &[f64], &[f64])] = &[(0.0, &[3.5], &[3.5])];
    let text = Text { length: 100.0, geoms: &[first, second], sections: lanes, wants: &[(1.0, 2.0); 16] };
    let kinds: Vec<(f64, f64, u16)> = (1..=8).map(|kind| (f64::from(kind), f64::from(kind) + 1.0, kind)).collect();
    let svg = painted(&text, &kinds);
    let words = well_formed(&svg);
    assert!(words.contains(&"paint of kind 8") && words.contains(&"w15"));
    assert!(words.contains(&"Reference line, worth a look: 1"));
    // with fewer kinds there is room to say what it is
    assert!(well_formed(&painted(&text, &kinds[..2])).contains(&"s 40: 1.500 m away"));
}

#[test]
fn a_shorter_mark_lies_narrower_on_a_longer_one() {
    let text = Text { length: 100.0, geoms: &[LINE], sections: &[(0.0, &[3.5], &[])], wants: &[] };
    let svg = painted(&text, &[(20.0, 80.0, 2), (20.0, 100.0, 1), (30.0, 30.0, 9)]);
    let words = well_formed(&svg);
    assert!(words.contains(&"paint of kind 2") && !words.contains(&"paint of kind 9"));
    // on the plan and across at 50; the legend's is not narrower
    assert_eq!((strokes(&svg, "paint p0").len(), strokes(&svg, "paint p1 over").len()), (3, 2));
    assert_eq!(strokes(&svg, "paint p1").len(), 1);
    for panel in [&svg[..svg.find(">Legend<").unwrap()], &svg[svg.find(">Cross section").unwrap()..]] {
        assert!(panel.find("\"paint p0\"") < panel.find("\"paint p1 over\""));
    }
}

#[test]
fn paint_lies_below_wants_and_above_its_border() {
    let lanes: &[(f64, &[f64], &[f64])] = &[(0.0, &[3.5], &[3.5])];
    let text = Text { length: 100.0, geoms: &[LINE], sections: lanes, wants: &[(50.0, 3.5)] };
    let svg = painted(&text, &[(0.0, 100.0, 1)]);
    let across = &svg[svg.find(">Cross section").unwrap()..];
    let [border, paint, want] = ["\"border\"", "\"paint p0\"", "\"want\""].map(|class| across.find(class).unwrap());
    assert!(border < paint && paint < want);
    // the base twice and the two borders, each once
    assert_eq!(strokes(across, "border").len(), 4);
}

#[test]
fn a_plan_without_lanes_says_that_it_has_no_paint() {
    let wound = (0.0, 0.0, 0.0, 0.0, 10_000.0, "arc", 1.0);
    let text = Text { length: 10_000.0, geoms: &[wound], sections: &[(0.0, &[3.5], &[])], wants: &[] };
    let said = |svg: &str, end: &str| well_formed(svg).iter().any(|w| w.starts_with("Curves too tight") && w.ends_with(end));
    assert!(said(&text.drawn(), " m, no lanes.") && said(&painted(&text, &[(0.0, 1.0, 1)]), " m, no lanes, no paint."));
}

#[test]
fn small_far_and_long_roads_are_drawn() {
    let up = std::f64::consts::FRAC_PI_2;
    let lanes: &[(f64, &[f64], &[f64])] = &[(0.0, &[3.5, 3.0], &[3.5])];
    let bare: &[(f64, &[f64], &[f64])] = &[(0.0, &[], &[])];
    let tiny = Text { length: 0.01, geoms: &[(0.0, 1e6, -1e6, 1.0, 0.01, "line", 0.0)], sections: bare, wants: &[(0.005, 0.0)] };
    let svg = tiny.drawn();
    assert!(well_formed(&svg).contains(&"1000000.000"));
    let vertical =
        Text { length: 500.0, geoms: &[(0.0, 0.0, 0.0, up, 500.0, "line", 0.0)], sections: lanes, wants: &[(1.0, 2.0); 16] };
    let svg = vertical.drawn();
    let words = well_formed(&svg);
    assert!(words.contains(&"Detail") && words.contains(&"w0, w1, w2 and 13 more"));
    let wound = Text { length: 10_000.0, geoms: &[(0.0, 0.0, 0.0, 0.0, 10_000.0, "arc", 1.0)], sections: lanes, wants: &[] };
    let svg = wound.drawn();
    assert!(well_formed(&svg).iter().any(|w| w.starts_with("Curves too tight")));
    let sections: Vec<(f64, &[f64], &[f64])> = (0..16).map(|i| (f64::from(i) * 600.0, &[3.0; 6][..], &[3.0; 6][..])).collect();
    let bend = (0.0, 0.0, 0.0, 0.0, 10_000.0, "arc", 0.05);
    well_formed(&Text { length: 10_000.0, geoms: &[bend], sections: &sections, wants: &[] }.drawn());
}

/// DESK_DRAW_ROADS asks for more of them.
#[test]
fn roads_of_all_kinds_are_drawn() {
    let count = std::env::var("DESK_DRAW_ROADS").map_or(24, |n| n.parse().unwrap());
    let mut rng = Rng::new(7, "draw");
    for i in 0..count {
        let kinds = [generate::admitted, generate::across, generate::surfaced];
        let (road, _) = kinds[i % kinds.len()](&mut rng);
        let wants = texts::wants(&mut rng, road.length);
        let writing = Writing::random(&mut rng);
        let job = Job::of(&mut rng, &road, &wants, writing).text;
        match picture("random.job", &job, None) {
            Ok(svg) => drop(well_formed(&svg)),
            // Some roads are too long a text.
            Err(failure) => assert!(failure.message.contains("refusal 2"), "{}", failure.message),
        }
    }
}

#[test]
fn a_road_far_away_looks_like_one_at_the_origin() {
    let drawn = |x: f64, y: f64| {
        let geoms = &[(0.0, x, y, 0.3, 50.0, "line", 0.0), (50.0, x + 48.0, y + 15.0, 0.5, 50.0, "line", 0.0)];
        let svg = Text { length: 100.0, geoms, sections: &[(0.0, &[3.5, 2.0], &[3.5])], wants: &[] }.drawn();
        svg.lines()
            .filter(|l| l.contains("left-") || l.contains("right-") || l.contains("\"ref "))
            .map(String::from)
            .collect::<Vec<_>>()
    };
    assert_eq!(drawn(0.0, 0.0), drawn(999_900.0, -999_000.0));
}

// ---- the program

fn desk(arguments: &[&str], input: &[u8]) -> Output {
    let mut command = Command::new(env!("CARGO_BIN_EXE_desk"));
    command.arg("draw").args(arguments).stdin(Stdio::piped()).stdout(Stdio::piped()).stderr(Stdio::piped());
    let mut child = command.spawn().unwrap();
    // A program that fails early does not read.
    let _ = child.stdin.take().unwrap().write_all(input);
    child.wait_with_output().unwrap()
}

/// Status and standard error of a run that must draw nothing.
fn failed(arguments: &[&str], input: &[u8]) -> (i32, String) {
    let output = desk(arguments, input);
    assert!(output.stdout.is_empty(), "{arguments:?}");
    (output.status.code().unwrap(), String::from_utf8(output.stderr).unwrap())
}

#[test]
fn dots_are_spots_where_they_are_asked_for() {
    let drawn = |dots: &str| {
        let output = desk(&["-", "--dots", dots], &sample("marks.job"));
        assert_eq!((output.status.code(), output.stderr.as_slice()), (Some(0), &b""[..]));
        let svg = String::from_utf8(output.stdout).unwrap();
        well_formed(&svg);
        svg
    };
    // lane 1 is marked by kind 1 from 0 to 20 and from 40 to 60; its border lies at 3.5
    let svg = drawn("0,1,5");
    assert!(svg.contains(">8 dots every 5 m: section 0, lane 1<"));
    let (x0, x100, y0) = level_stroke(&strokes(&svg, "ref line")[0]);
    let metre = (x100 - x0) / 100.0;
    let spots = strokes(&svg, "spot");
    let placed = |spot: &str| {
        let (x, y) = spot.split_once(',').unwrap();
        [x.parse::<f64>().unwrap() - x0, y0 - y.parse::<f64>().unwrap()].map(|m| (m / metre * 10.0).round() / 10.0)
    };
    // the plan's, then the legend's
    assert_eq!(spots.len(), 2);
    let places: Vec<[f64; 2]> = spots[0].trim_end_matches("h0").split("h0").map(|spot| placed(&spot[1..])).collect();
    assert_eq!(places, [0.0, 5.0, 10.0, 15.0, 40.0, 45.0, 50.0, 55.0].map(|s| [s, 3.5]));
    // kind 2 is not dotted
    assert!(drawn("1,-1,0.5").contains(">0 dots every 0.5 m: section 1, lane -1<"));
    assert_eq!(strokes(&drawn("1,-1,0.5"), "spot").len(), 1);
    // spots that would cover each other are one
    assert!(drawn("1,1,0.1").contains(">400 dots every 0.1 m: section 1, lane 1<"));
    assert!(strokes(&drawn("1,1,0.1"), "spot")[0].matches('M').count() < 250);
    assert!(!picture("j", &sample("marks.job"), None).unwrap().contains("spot"));
}

#[test]
fn standard_input_is_drawn_quietly() {
    let output = desk(&["-"], &sample("m1.job"));
    assert_eq!((output.status.code(), output.stderr.as_slice()), (Some(0), &b""[..]));
    assert!(well_formed(&String::from_utf8(output.stdout).unwrap()).contains(&"standard input"));
}

#[test]
fn a_refused_job_draws_nothing_and_says_where_to_ask() {
    let (status, why) = failed(&["-"], b"no road\n");
    assert_eq!(status, 1);
    assert!(why.contains("refusal 1") && why.contains("`desk check -`"), "{why}");
    let (status, why) = failed(&["-"], b"road  length\n      10\n");
    assert_eq!(status, 1);
    assert!(why.ends_with("`desk check -` explains it, `desk hex -` makes a job of it\n"), "{why}");
    let (status, why) = failed(&["-"], &Text { length: 0.0, geoms: &[LINE], sections: &[(0.0, &[], &[])], wants: &[] }.written());
    assert_eq!(status, 1);
    assert!(why.contains("refusal 4"), "{why}");
}

#[test]
fn bad_arguments_have_status_2() {
    let job = sample("m1.job");
    for (arguments, word) in [
        (&["-", "--big"][..], "--big"),
        (&["-", "--at", "x"], "`x`"),
        (&["-", "--at", "NaN"], "NaN"),
        (&["-", "--at", "10.5"], "10.5"),
        (&["-", "--at=-1"], "-1"),
        (&["-", "--at"], "--at"),
        (&["-", "--dots", "0,1"], "SECTION,LANE,SPACING"),
        (&["-", "--dots", "0,1,1,1"], "SECTION,LANE,SPACING"),
        (&["-", "--dots", "0,x,1"], "`x`"),
        (&["-", "--dots=1,1,1"], "no section 1: 0 is the only one (refusal 10)"),
        (&["-", "--dots=0,1,1"], "no lane 1"),
        (&["no/such.job"], "no/such.job"),
        (&[], "FILE"),
        (&["-", "--out", "no/such/folder.svg"], "no/such/folder.svg"),
    ] {
        let (status, why) = failed(arguments, &job);
        assert_eq!(status, 2, "{arguments:?}: {why}");
        assert!(why.contains(word), "{arguments:?}: {why}");
    }
}

#[test]
fn out_is_written_and_never_over_the_job() {
    let folder = std::env::temp_dir().join(format!("desk-draw-{}", std::process::id()));
    fs::create_dir_all(&folder).unwrap();
    let [job, out] = ["a.job", "a.svg"].map(|name| folder.join(name).to_str().unwrap().to_string());
    fs::write(&job, sample("m1.job")).unwrap();
    let output = desk(&[&job, "--out", &out], b"");
    assert_eq!((output.status.code(), output.stdout.len()), (Some(0), 0));
    well_formed(&fs::read_to_string(&out).unwrap());
    assert_eq!(failed(&[&job, "--out", &job], b"").0, 2);
    assert_eq!(fs::read(&job).unwrap(), sample("m1.job"));
    fs::remove_dir_all(&folder).unwrap();
}
