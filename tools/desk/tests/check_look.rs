//! What `desk check` finds worth a look on roads that are admitted: joints of the reference line, and sites far from the origin.
use desk::check::answer;
use desk::decimal::to_hex;
use riftkettle::Road;

/// A road by its length, its geometries and its wants, in decimals. The first geometry is on line 5 of the job.
fn job(length: &str, geoms: &[&str], wants: &str) -> Vec<u8> {
    let geoms = geoms.join("\n");
    let text =
        format!("road length\n{length}\n\ngeom s x y hdg length kind k0 k1\n{geoms}\n\nsection start\n0\n\nwant s t\n{wants}\n");
    to_hex(text.as_bytes()).unwrap().into_bytes()
}

/// What is worth a look on an admitted road.
fn looked_at(job: &[u8]) -> Vec<String> {
    let answer = answer(job);
    assert_eq!(answer.number, 0, "{}", answer.text);
    let Some((_, part)) = answer.text.split_once("worth a look:\n") else { return Vec::new() };
    let lines: Vec<String> = part.lines().map(|line| line.strip_prefix("  ").unwrap().into()).collect();
    assert!(!lines.is_empty());
    lines
}

fn on_site(length: &str, geoms: &[&str]) -> Vec<String> {
    looked_at(&job(length, geoms, ""))
}

const LINE: &str = "0 0 0 0 50 line 0 0";
const SPIRAL: &str = "50 50 0 0 30 spiral 0 0.0125";

/// The library's pose of a geometry at its end as the beginning of the next line.
fn after(geoms: &[&str], s: f64) -> String {
    let mut road = Box::new(Road::new());
    road.read(&job("200", geoms, "")).unwrap();
    let end = road.pose(geoms.len() - 1, s).unwrap();
    format!("{s:?} {:?} {:?} {:?}", end.x, end.y, end.heading)
}

#[test]
fn no_sample_job_is_odd() {
    let folder = concat!(env!("CARGO_MANIFEST_DIR"), "/../../examples/jobs");
    let files = std::fs::read_dir(folder).unwrap().map(|entry| entry.unwrap().path());
    let jobs: Vec<_> = files.filter(|path| path.extension().is_some_and(|e| e == "job")).collect();
    assert!(jobs.len() > 10);
    for path in jobs {
        assert_eq!(looked_at(&std::fs::read(&path).unwrap()), [""; 0], "{}", path.display());
    }
}

#[test]
fn a_spiral_of_the_wrong_sign() {
    let arc = after(&[LINE, SPIRAL], 80.0) + " 120 arc 0.0125 0";
    assert_eq!(on_site("200", &[LINE, SPIRAL, &arc]), [""; 0]);
    let wrong = SPIRAL.replace("0.0125", "-0.0125");
    // The heading changes by 0.0125 * 30 / 2 either way: 21.486 degrees between the two.
    let said = "geometry 1, line 6, at s = 80: the next begins 3.741 m away from it; the next turns 21.486 degrees to the left";
    assert_eq!(on_site("200", &[LINE, &wrong, &arc]), [said]);
}

#[test]
fn a_heading_in_degrees() {
    let said = "geometry 0, line 5, at s = 50: the next turns 116.62 degrees to the left";
    assert_eq!(on_site("100", &[LINE, "50 50 0 90 50 line 0 0"]), [said]);
}

#[test]
fn a_small_kink() {
    let turned = |degrees: f64| on_site("100", &[LINE, &format!("50 50 0 {:?} 50 line 0 0", degrees.to_radians())]);
    assert_eq!(turned(-0.44), ["geometry 0, line 5, at s = 50: the next turns 0.44 degrees to the right"]);
    assert_eq!(turned(0.051), ["geometry 0, line 5, at s = 50: the next turns 0.051 degrees to the left"]);
    assert_eq!(turned(0.049), [""; 0]);
}

#[test]
fn whole_turns_are_not_odd() {
    for turns in [-3.0, -1.0, 1.0, 150.0] {
        let heading = turns * std::f64::consts::TAU;
        assert_eq!(on_site("100", &[LINE, &format!("50 50 0 {heading:?} 50 line 0 0")]), [""; 0]);
    }
}

#[test]
fn a_gap() {
    assert_eq!(on_site("100", &[LINE, "50 50 0.0009 0 50 line 0 0"]), [""; 0]);
    let said = on_site("100", &[LINE, "50 50 0.0012 0 50 line 0 0"]);
    assert_eq!(said, ["geometry 0, line 5, at s = 50: the next begins 0.0012 m away from it"]);
}

#[test]
fn lengths_that_are_not_kept() {
    let late = after(&[LINE, SPIRAL], 80.0).replacen("80.0", "90", 1) + " 110 arc 0.0125 0";
    let said = "geometry 1, line 6, at s = 90: s runs on past its end by 10 m: a spiral stays at its last point there";
    assert_eq!(on_site("200", &[LINE, SPIRAL, &late]), [said]);
    let end = |kind: &str| on_site("60", &[&format!("0 0 0 0 50 {kind}")]);
    let past = "geometry 0, line 5, at s = 60, the road's end: s runs on past its end by 10 m: ";
    assert_eq!(end("line 0 0"), [format!("{past}it runs on straight past its length")]);
    assert_eq!(end("arc 1e-9 0"), [format!("{past}it runs on straight past its length")]);
    assert_eq!(end("arc 0.01 0"), [format!("{past}it runs on round past its length")]);
    assert_eq!(end("spiral 0.01 0"), [format!("{past}a spiral stays at its last point there")]);
    assert_eq!(on_site("40", &[LINE]), ["geometry 0, line 5, at s = 40, the road's end: the road ends 10 m before its end"]);
    let early = on_site("90", &[LINE, "40 40 0 0 50 line 0 0"]);
    assert_eq!(early, ["geometry 0, line 5, at s = 40: the next begins 10 m before its end"]);
    assert_eq!(on_site("50.0009", &[LINE]), [""; 0]);
}

#[test]
fn the_line_is_the_geometry_s() {
    let said = on_site("100", &[LINE, "50 50 0 0 20 line 0 0", "70 70 1 0 30 line 0 0"]);
    assert_eq!(said, ["geometry 1, line 6, at s = 70: the next begins 1 m away from it"]);
}

#[test]
fn far_from_the_origin() {
    let far = |x: &str, y: &str, want: &str| looked_at(&job("50", &[&format!("0 {x} {y} 0 50 line 0 0")], want));
    let grid = |at: &str, grid: &str| {
        [format!("points are f32: at {at} they lie on a grid of {grid} m; an origin near the site makes it finer")]
    };
    assert_eq!(far("500000", "-20", ""), grid("x = 500000", "0.03125"));
    assert_eq!(far("500000", "-1000000", "1 2"), grid("y = -1000000", "0.0625"));
    assert_eq!(far("8191", "0", ""), [""; 0]);
    assert_eq!(far("8191", "0", "0.5 0"), [""; 0]);
    assert_eq!(far("8191", "0", "40 0\n60 0"), grid("x = 8231", "0.0009765625"));
    assert_eq!(far("0", "-8192", ""), grid("y = -8192", "0.0009765625"));
}

/// What a reader of f64 numbers reads is the point: 899996.1 is the shortest decimal of that f32 alone.
#[test]
fn wanted_points_are_exact() {
    let said = answer(&job("50", &["0 899996.1 0.1 0 50 line 0 0"], "0 0")).text;
    assert!(said.contains("s = 0, t = 0: x = 899996.125, y = 0.10000000149011612, z = 0, heading 0\n"), "{said}");
}
