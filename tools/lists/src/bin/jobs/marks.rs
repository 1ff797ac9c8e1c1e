// Document 02, point 2: the table of marks. Its sections are 50 long and have lanes 1, 2, -1 and 1, -1.
use crate::List;
use Name::*;
use lists::draft::Draft;
use second::reader::Name;
use second::texts::digits;

pub fn all(list: &mut List, d: &Draft) {
    kinds(list, d);
    places(list, d);
    parents(list, d);
    starts(list, d);
    spans(list, d);
    order_of_rows(list, d);
    counts(list, d);
}

/// A line: section and id, start, end, kind.
fn line(lane: &str, start: f64, end: f64, kind: &str) -> String {
    format!("{lane} {} {} {kind}", digits(start), digits(end))
}

fn marked(d: &Draft, lines: &[(&str, f64, f64)]) -> Draft {
    d.with(Mark, &lines.iter().map(|&(lane, start, end)| line(lane, start, end, "1")).collect::<Vec<_>>())
}

/// "kind a whole number 1..255"; outside is 4, no whole number 1. The other forms are those of every whole number.
fn kinds(list: &mut List, d: &Draft) {
    for (kind, answer) in [
        ("1", 0),
        ("2", 0),
        ("254", 0),
        ("255", 0),
        ("0", 4),
        ("256", 4),
        ("257", 4),
        ("512", 4),
        ("9999", 4),
        ("-1", 4),
        ("-255", 4),
        ("-9999", 4),
        ("white", 1),
    ] {
        for at in [0, 3] {
            list.case("kind a whole number 1..255", d.cell(Mark, at, "kind", kind).text(), answer);
        }
    }
    list.case("a kind outside and a lane that is not there", d.cell(Mark, 0, "kind", "-1").cell(Mark, 3, "id", "2").text(), 3);
}

/// "after strip and cubic", and before want.
fn places(list: &mut List, d: &Draft) {
    let moved = |to: Name, after: usize| {
        let mut moved = d.clone();
        moved.tables.retain(|&t| t != Mark);
        let at = moved.tables.iter().position(|&t| t == to).expect("written") + after;
        moved.tables.insert(at, Mark);
        moved.text()
    };
    list.case("mark, after strip and cubic", moved(Cubic, 1), 0);
    for (to, after) in [(Cubic, 0), (Strip, 0), (Lane, 1), (Road, 0), (Want, 1)] {
        list.case("mark, after strip and cubic: elsewhere", moved(to, after), 1);
    }
    let mut alone = d.clone();
    alone.tables.retain(|&t| !matches!(t, Strip | Cubic));
    list.case("mark without strip and cubic", alone.text(), 0);
}

/// "lines follow the sections' order, a section's ids in any order"; what is not there is 3.
fn parents(list: &mut List, d: &Draft) {
    for (lanes, answer) in [
        (&["0 1"][..], 0),
        (&["0 2"], 0),
        (&["0 -1"], 0),
        (&["1 1"], 0),
        (&["1 -1"], 0),
        (&["0 -1", "0 2", "0 1", "1 -1", "1 1"], 0),
        (&["0 1", "0 2", "0 1", "0 -1", "0 1"], 0),
        (&["1 1", "0 1"], 3),
        (&["0 1", "1 1", "0 1"], 3),
        (&["0 0"], 3),
        (&["0 3"], 3),
        (&["0 -2"], 3),
        (&["1 2"], 3),
        (&["1 -2"], 3),
        (&["2 1"], 3),
        (&["-1 1"], 3),
        (&["0 1", "0 0"], 3),
    ] {
        let lines: Vec<(&str, f64, f64)> = lanes.iter().map(|&lane| (lane, 0.0, 1.0)).collect();
        list.case("marks follow the sections' order; a section or lane that is not there is 3", marked(d, &lines).text(), answer);
    }
}

/// "starts never falling per id".
fn starts(list: &mut List, d: &Draft) {
    let (one, nan) = (1f64, f64::NAN);
    for (lines, answer) in [
        (&[("0 1", one, 2.0), ("0 1", one, 1.0)][..], 0),
        (&[("0 1", 0.0, 2.0), ("0 1", -0.0, 1.0)], 0),
        (&[("0 1", one, 2.0), ("0 1", one.next_down(), 2.0)], 3),
        (&[("0 1", one, 2.0), ("0 -1", 0.0, 2.0), ("0 1", 0.5, 2.0)], 3),
        (&[("0 1", one, 2.0), ("0 -1", 0.0, 2.0), ("0 1", one, 2.0)], 0),
        (&[("0 1", 0.0, 2.0), ("0 -1", 0.0, 2.0), ("0 2", 5.0, 6.0), ("0 -1", 1.0, 2.0), ("0 1", 1.0, 2.0)], 0),
        (&[("0 2", 5.0, 6.0), ("0 1", 0.0, 2.0), ("0 -1", 0.0, 2.0), ("0 2", 4.0, 6.0)], 3),
        (&[("0 1", 50.0, 50.0), ("1 1", 0.0, 1.0)], 0),
        (&[("0 1", 0.0, 50.0), ("0 1", 10.0, 20.0)], 0),
        (&[("0 1", nan, 1.0)], 4),
        (&[("0 1", nan, 1.0), ("0 -1", nan, 1.0), ("1 1", nan, 1.0)], 4),
        (&[("0 1", nan, 1.0), ("0 -1", 0.0, 1.0), ("0 1", 0.0, 1.0)], 3),
        (&[("0 1", 0.0, 1.0), ("0 1", nan, 1.0)], 3),
        (&[("0 1", f64::INFINITY, 1.0), ("0 1", f64::INFINITY, 1.0)], 4),
    ] {
        list.case("starts never falling per id", marked(d, lines).text(), answer);
    }
}

/// "0 ≤ start ≤ end ≤ the section's extent".
fn spans(list: &mut List, d: &Draft) {
    let inf = f64::INFINITY;
    for lane in ["0 1", "1 -1"] {
        for (start, end, answer) in [
            (0.0, 0.0, 0),
            (-0.0, -0.0, 0),
            (50.0, 50.0, 0),
            (0.0, 50f64.next_up(), 4),
            (50f64.next_up(), 50f64.next_up(), 4),
            (-5e-324, 1.0, 4),
            (2.0, 1.0, 4),
            (1f64.next_up(), 1.0, 4),
            (0.0, f64::NAN, 4),
            (0.0, inf, 4),
            (inf, inf, 4),
            (-inf, 0.0, 4),
        ] {
            list.case("0 ≤ start ≤ end ≤ the section's extent", marked(d, &[(lane, start, end)]).text(), answer);
        }
    }
    // The second section from 49 on: the first is 49 long, the second 51.
    let other = d.number(Section, 1, "start", 49.0);
    for (lane, end, answer) in [("0 1", 49.0, 0), ("0 1", 49f64.next_up(), 4), ("1 1", 51.0, 0), ("1 1", 51f64.next_up(), 4)] {
        list.case("the section's extent", marked(&other, &[(lane, 0.0, end)]).text(), answer);
    }
}

/// "at most 16 a section", whichever lanes they are on.
fn counts(list: &mut List, d: &Draft) {
    let over = marked(d, &vec![("0 1", 0.0, 1.0); 257]);
    list.base(over.text().as_bytes());
    for (n, answer) in [(15, 0), (16, 0), (17, 3), (33, 3)] {
        list.case("at most 16 a section", marked(d, &vec![("0 1", 0.0, 1.0); n]).text(), answer);
        let several =
            [vec![("0 -1", 0.0, 1.0), ("0 2", 0.0, 1.0)], vec![("0 1", 0.0, 1.0); n - 2], vec![("1 1", 0.0, 1.0)]].concat();
        list.case("at most 16 a section, on several lanes", marked(d, &several).text(), answer);
    }
    for (n, answer) in [(256, 3), (257, 2)] {
        list.case("256 in all", marked(d, &vec![("0 1", 0.0, 1.0); n]).text(), answer);
    }
    list.case("over 256 lines is 2, whatever the line says", over.cell(Mark, 256, "section", "9").text(), 2);
    list.case("a line is tested for 1 before 2", over.cell(Mark, 256, "kind", "01").text(), 1);
    list.case("the first line that fails decides", over.cell(Want, 0, "s", "x").text(), 2);
    list.case("the first line that fails decides", over.cell(Road, 0, "length", "x").text(), 1);
    list.base(d.text().as_bytes());
}

/// "in the places those have".
fn order_of_rows(list: &mut List, d: &Draft) {
    let three = d.cell(Mark, 0, "id", "0");
    let four = d.cell(Mark, 0, "kind", "0");
    for (name, answer, text) in [
        ("3 of a mark before 4", 3, three.number(Road, 0, "length", f64::NAN).text()),
        ("3 of a mark before 5", 3, three.number(Geom, 2, "length", 500.0).text()),
        ("4 of a mark before 5", 4, four.number(Geom, 2, "length", 500.0).text()),
        ("3 before 4 of a mark", 3, four.number(Geom, 0, "s", 1.0).text()),
        ("3 of a mark before its 4", 3, four.cell(Mark, 0, "id", "0").text()),
        ("1 before 3 of a mark", 1, three.cell(Want, 0, "t", "4059").text()),
    ] {
        list.case(name, text, answer);
    }
}
