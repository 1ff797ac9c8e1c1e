//! What `desk check` says of chosen jobs, word for word: each kind of refusal, and an admitted road with its wants.
use desk::check::{answer, explain_memory};
use second::model::{NUMBERS, WORDS};

/// A straight road of 100 m: tables are put between its parts.
const ROAD: &str = "road length\n4059000000000000\n\n";
const GEOM: &str = "geom s x y hdg length kind k0 k1\n\
    0000000000000000 0000000000000000 0000000000000000 0000000000000000 4059000000000000 line \
    0000000000000000 0000000000000000\n\n";
const SECTION: &str = "section start\n0000000000000000\n\n";

/// A line of cells: a decimal with a point becomes digits, any other word stays.
fn cells(line: &str) -> String {
    let cell = |word: &str| match word.parse::<f64>() {
        Ok(x) if word.contains('.') => format!("{:016x}", x.to_bits()),
        _ => word.to_string(),
    };
    line.split(' ').map(cell).collect::<Vec<_>>().join(" ") + "\n"
}

fn table(names: &str, lines: &[&str]) -> String {
    let lines: String = lines.iter().map(|line| cells(line)).collect();
    format!("{names}\n{lines}\n")
}

/// What is said of a job, where the library and the second text agree.
fn said(job: &str) -> String {
    let answer = answer(job.as_bytes());
    assert!(answer.differ.is_none(), "{}", answer.text);
    answer.text
}

/// What is said of the road with a table after its geometry, and with tables after its section.
fn along(table: &str) -> String {
    said(&format!("{ROAD}{GEOM}{table}{SECTION}"))
}

fn across(tables: &[String]) -> String {
    said(&format!("{ROAD}{GEOM}{SECTION}{}", tables.concat()))
}

#[test]
fn admitted_with_wants() {
    let wants = table("want s t", &["50.0 2.5", "120.5 0.0", "1.0 -80.5"]);
    assert_eq!(
        across(&[wants]),
        "admitted: a road of 100 m
  geometries: 1 line
  the reference line ends at x = 100, y = 0, heading 0
  1 section, 0 lanes
  lines of tables: road 1, geom 1, section 1, want 3
  samples needed: 0 of 2,000
wants:
  s = 50, t = 2.5: x = 50, y = 2.5, z = 0, heading 0
  s = 120.5, t = 0: refused 7: s = 120.5 is past the road's length 100
  s = 1, t = -80.5: refused 8: t = -80.5 is outside -80 to 80
"
    );
}

#[test]
fn names_that_are_none() {
    assert_eq!(
        along("bank start a b c c\n\n"),
        "refused 1: a line breaks the job form
  line 7, byte 18:
    bank start a b c c
                     ^
  found `c`
  expected a column of table bank that the line does not have yet: d
"
    );
    assert_eq!(
        said(&format!("{GEOM}{ROAD}{SECTION}")),
        "refused 1: a line breaks the job form
  line 4, byte 1:
    road length
    ^
  found `road`
  expected the names of a table that may come after geom: elev, bank, offset, tshift, section, lane, extent, height, profile, \
         shape, strip, cubic, mark, want
  tables come in a fixed order, each at most once
"
    );
}

#[test]
fn digits_that_are_none() {
    assert_eq!(
        said("road length\n4059A00000000000\n\n"),
        "refused 1: a line breaks the job form
  line 2, byte 5:
    4059A00000000000
        ^
  found `A` in `4059A00000000000`
  expected 16 lowercase hexadecimal digits for column length of table road
  digits are lowercase
"
    );
    assert_eq!(
        said("road length\n100.5\n\n"),
        "refused 1: a line breaks the job form
  line 2, byte 4:
    100.5
       ^
  found `.` in `100.5`
  expected 16 lowercase hexadecimal digits for column length of table road
  decimals, comments and aligned columns are not read; `desk hex` makes a job of such a text
"
    );
}

#[test]
fn the_decimal_form_is_told() {
    let job = format!("{ROAD}{GEOM}{SECTION}");
    let decimal = desk::decimal::to_decimal(job.as_bytes()).unwrap();
    assert_eq!(
        said(&decimal),
        "refused 1: a line breaks the job form
  line 1, byte 6:
    road  length
         ^
  found a space
  expected a column of table road that the line does not have yet: length
  decimals, comments and aligned columns are not read; `desk hex` makes a job of such a text
"
    );
    for text in [format!("# a road\n{job}"), format!(" {job}"), job.replace("road length\n", "road length\n # metres\n")] {
        assert!(said(&text).ends_with("`desk hex` makes a job of such a text\n"), "{}", said(&text));
    }
}

#[test]
fn words_and_whole_numbers_that_are_none() {
    assert_eq!(
        across(&[table("lane section id extent level", &["0 1 broad 0"])]),
        "refused 1: a line breaks the job form
  line 11, byte 5:
    0 1 broad 0
        ^
  found `broad`
  expected one of the words width, border for column extent of table lane
"
    );
    assert_eq!(
        across(&[table("lane section id extent level", &["0 -0 width 0"])]),
        "refused 1: a line breaks the job form
  line 11, byte 3:
    0 -0 width 0
      ^
  found `-0`
  expected a whole number (up to 4 digits, no leading zeros, `-` if negative) for column id of table lane
"
    );
}

#[test]
fn line_ends() {
    assert_eq!(
        said("road length\n4059000000000000\r\n\r\n"),
        "refused 1: a line breaks the job form
  line 2, byte 17:
    4059000000000000\u{fffd}
                    ^
  found the byte 0d after `4059000000000000`, which no line may have
  expected the end of the line after column length, the last that table road names
  lines end in LF alone, not in CR LF
"
    );
    assert_eq!(
        said("road length\n4059000000000000\n"),
        "refused 1: a line breaks the job form
  line 3, byte 1
  found the end of the text
  expected an empty line to end table road; every table has one, the last too
"
    );
}

#[test]
fn too_long() {
    assert_eq!(
        said(&format!("road length\n{}\n", "4059000000000000\n".repeat(2))),
        "refused 2: the text or a table of it is too long, or a lent slice too short
  line 3, table road, line 2 of its table
  it is one too many: the table may have at most 1 line
"
    );
    assert_eq!(
        said(&" ".repeat(65_537)),
        "refused 2: the text or a table of it is too long, or a lent slice too short
  the text has 65,537 bytes, at most 65,536 are read
"
    );
}

#[test]
fn parents() {
    let lanes = table("lane section id extent level", &["0 1 width 0", "0 -1 width 0"]);
    let extents = |lines: &[&str]| table("extent section id start a b c d", lines);
    assert_eq!(
        across(&[lanes.clone(), extents(&["0 2 0.0 3.0 0.0 0.0 0.0"])]),
        "refused 3: counts, references or order are wrong
  line 15, table extent, line 1 of its table
  there is no lane 2 in section 0, which has 1 left lane and 1 right lane
"
    );
    assert_eq!(
        across(&[lanes, extents(&["0 -1 0.0 3.0 0.0 0.0 0.0", "0 1 0.0 3.0 0.0 0.0 0.0"])]),
        "refused 3: counts, references or order are wrong
  line 16, table extent, line 2 of its table
  its lane (section 0, id 1) comes before that of line 15 (section 0, id -1): lines follow the order of their parents
"
    );
}

#[test]
fn order() {
    assert_eq!(
        along(&table("elev start a b c d", &["20.0 0.0 0.0 0.0 0.0", "19.5 0.0 0.0 0.0 0.0"])),
        "refused 3: counts, references or order are wrong
  line 9, table elev, line 2 of its table, column start: 19.5 (4033800000000000)
  it is below 20 (4034000000000000) of line 8: starts never fall
"
    );
    assert_eq!(
        said(&format!("{ROAD}{GEOM}section start\n3ff0000000000000\n\n")),
        "refused 3: counts, references or order are wrong
  line 8, table section, line 1 of its table, column start: 1 (3ff0000000000000)
  the first start must be 0
"
    );
}

/// What is said of marks on a road of two sections, 60 and 40 long: lanes 1, 2 and -1, and lane 1.
fn marks(lines: &[&str]) -> String {
    let sections = table("section start", &["0.0", "60.0"]);
    let lanes = table("lane section id extent level", &["0 1 width 0", "0 2 width 0", "0 -1 width 0", "1 1 width 0"]);
    said(&format!("{ROAD}{GEOM}{sections}{lanes}{}", table("mark section id start end kind", lines)))
}

#[test]
fn marks_admitted() {
    let text = marks(&["0 1 0.0 60.0 1", "0 -1 5.0 10.0 255", "1 1 0.0 40.0 2"]);
    assert!(text.contains("\n  lines of tables: road 1, geom 1, section 2, lane 4, mark 3\n"), "{text}");
}

#[test]
fn marks_of_wrong_form() {
    assert_eq!(
        marks(&["0 1 0.0 1.0 01"]),
        "refused 1: a line breaks the job form
  line 18, byte 39:
    0 1 0000000000000000 3ff0000000000000 01
                                          ^
  found `01`
  expected a whole number (up to 4 digits, no leading zeros, `-` if negative) for column kind of table mark
"
    );
    assert_eq!(
        across(&[table("want s t", &[]), table("mark section id start end kind", &[])]),
        "refused 1: a line breaks the job form
  line 12, byte 1:
    mark section id start end kind
    ^
  found `mark`
  expected the end of the text: no table comes after want
  tables come in a fixed order, each at most once
"
    );
}

#[test]
fn marks_that_are_too_many() {
    assert_eq!(
        marks(&["0 1 0.0 1.0 1"; 257]),
        "refused 2: the text or a table of it is too long, or a lent slice too short
  line 274, table mark, line 257 of its table
  it is one too many: the table may have at most 256 lines
"
    );
    assert_eq!(
        marks(&["0 1 0.0 1.0 1"; 17]),
        "refused 3: counts, references or order are wrong
  line 34, table mark, line 17 of its table
  section 0 has 17 marks, 0 to 16 are allowed
"
    );
}

#[test]
fn marks_of_lanes_and_sections_that_are_not_there() {
    for (line, reason) in [
        ("0 0 0.0 1.0 1", "there is no lane 0 in section 0, which has 2 left lanes and 1 right lane"),
        ("0 3 0.0 1.0 1", "there is no lane 3 in section 0, which has 2 left lanes and 1 right lane"),
        ("1 -1 0.0 1.0 1", "there is no lane -1 in section 1, which has 1 left lane and 0 right lanes"),
        ("2 1 0.0 1.0 1", "there is no section 2: there are 0 to 1"),
    ] {
        let said = marks(&["0 1 0.0 1.0 1", line]);
        let place = "line 19, table mark, line 2 of its table";
        assert_eq!(said, format!("refused 3: counts, references or order are wrong\n  {place}\n  {reason}\n"));
    }
    assert_eq!(
        marks(&["1 1 0.0 1.0 1", "0 1 0.0 1.0 1"]),
        "refused 3: counts, references or order are wrong
  line 19, table mark, line 2 of its table
  its section (section 0) comes before that of line 18 (section 1): lines follow the order of their parents
"
    );
}

#[test]
fn marks_out_of_order() {
    assert_eq!(
        marks(&["0 1 1.0 2.0 1", "0 -1 0.0 2.0 1", "0 1 0.5 2.0 1"]),
        "refused 3: counts, references or order are wrong
  line 20, table mark, line 3 of its table (section 0), column start: 0.5 (3fe0000000000000)
  it is below 1 (3ff0000000000000) of line 18, on the same lane: a lane's starts never fall
"
    );
    let no_number = "0 1 7ff8000000000001 2.0 1";
    assert_eq!(
        marks(&["0 1 1.0 2.0 1", no_number]),
        "refused 3: counts, references or order are wrong
  line 19, table mark, line 2 of its table (section 0), column start: not a number (7ff8000000000001)
  it is compared with 1 (3ff0000000000000) of line 18, on the same lane, and one of the two is not a number
"
    );
}

#[test]
fn marks_outside_their_limits() {
    for (line, place, reason) in [
        ("1 1 0.0 1.0 0", "column kind", "kind 0: it is outside 1 to 255"),
        ("1 1 0.0 1.0 256", "column kind", "kind 256: it is outside 1 to 255"),
        ("1 1 0.0 1.0 -1", "column kind", "kind -1: it is outside 1 to 255"),
        ("1 1 -1.0 1.0 1", "column start: -1 (bff0000000000000)", "it is not 0 or above"),
        ("1 1 7ff8000000000000 1.0 1", "column start: not a number (7ff8000000000000)", "it is not 0 or above"),
        ("1 1 2.0 1.0 1", "column end: 1 (3ff0000000000000)", "it is not at or past the mark's start, 2"),
        ("1 1 2.0 7ff8000000000000 1", "column end: not a number (7ff8000000000000)", "it is not at or past the mark's start, 2"),
        ("1 1 2.0 40.5 1", "column end: 40.5 (4044400000000000)", "it is past the section's end, 40 from its start"),
        ("1 1 40.5 41.0 1", "column start: 40.5 (4044400000000000)", "it is past the section's end, 40 from its start"),
        (
            "1 1 7ff0000000000000 1.0 1",
            "column start: infinity (7ff0000000000000)",
            "it is past the section's end, 40 from its start",
        ),
    ] {
        let place = format!("line 19, table mark, line 2 of its table (section 1), {place}");
        let expected = format!("refused 4: a number is not finite or outside its limit\n  {place}\n  {reason}\n");
        assert_eq!(marks(&["0 1 0.0 1.0 1", line]), expected);
    }
}

#[test]
fn bounds() {
    assert_eq!(
        along(&table("bank start a b c d", &["0.0 0.1 0.0 0.0 0.0", "20.0 0.76 0.0 0.0 0.0", "60.0 0.0 0.0 0.0 0.0"])),
        "refused 4: a number is not finite or outside its limit
  line 9, table bank, line 2 of its table, column a: 0.76 (3fe851eb851eb852)
  bound B = 0.76 over reach D = 40.001 m (to the next start, s = 60) is above 0.75
"
    );
    assert_eq!(
        along(&table("elev start a b c d", &["0.0 1.0 0.02 0.01 0.0"])),
        "refused 4: a number is not finite or outside its limit
  line 8, table elev, line 1 of its table:
    column b: 0.02 (3f947ae147ae147b)
    column c: 0.01 (3f847ae147ae147b)
  the greatest slope = 2.02002 over reach D = 100.001 m (to the road's end, s = 100) is above 1
"
    );
    let strip = table("strip side place relative", &["left 0 0"]);
    let cubics = ["left 0 0 0.0 20.0 0.0 0.0 0.0", "left 0 1 0.0 0.1 0.0 0.0 0.0", "left 0 1 50.0 0.3 0.0 0.0 0.0"];
    assert_eq!(
        across(&[strip, table("cubic side place term start a b c d", &cubics)]),
        "refused 4: a number is not finite or outside its limit
  line 16, table cubic, line 3 of its table
  the terms of strip left 0 by Horner at 88 m are 46.4, above 40:
    term 0: greatest bound B = 20 (line 14)
    term 1: greatest bound B = 0.3 (line 16)
    term 2: greatest bound B = 0 (no line)
    term 3: greatest bound B = 0 (no line)
"
    );
}

#[test]
fn ranges() {
    assert_eq!(
        said(&format!("{}{GEOM}{SECTION}", ROAD.replace("4059000000000000", "7ff8000000000001"))),
        "refused 4: a number is not finite or outside its limit
  line 2, table road, line 1 of its table, column length: not a number (7ff8000000000001)
  it is outside 0.01 to 10000
"
    );
    assert_eq!(
        along(&table("elev start a b c d", &["100.5 0.0 0.0 0.0 0.0"])),
        "refused 4: a number is not finite or outside its limit
  line 8, table elev, line 1 of its table, column start: 100.5 (4059200000000000)
  it is outside 0 to 100, the road's length
"
    );
}

#[test]
fn samples() {
    let spirals = ["0.0 0.0 0.0 0.0 250.0 spiral 0.0 0.01", "50.0 0.0 0.0 0.0 1000.0 spiral 0.0 0.01"];
    let geoms = table("geom s x y hdg length kind k0 k1", &spirals);
    assert_eq!(
        said(&format!("{ROAD}{geoms}{SECTION}")),
        "refused 5: the spirals need over 2,000 samples
  the spirals need 5,002 samples, at most 2,000 are allowed:
    line 5, table geom, line 1 of its table: 250 m, 1,001 samples
    line 6, table geom, line 2 of its table: 1000 m, 4,001 samples
"
    );
}

#[test]
fn lent_memory() {
    let (mut words, mut numbers) = (vec![0; WORDS], vec![0.0; NUMBERS]);
    let mut said = |change: fn(&mut [u16], &mut [f64])| {
        (words[0], words[5], numbers[0], numbers[5]) = (1, 1, 100.0, 100.0);
        change(&mut words, &mut numbers);
        explain_memory(&words, &numbers).map_or(String::new(), |explanation| explanation.to_string())
    };
    assert_eq!(said(|_, _| {}), "");
    assert_eq!(
        said(|_, numbers| numbers[2] = 1e7),
        "refused 4: a number is not finite or outside its limit
  table geom, line 0 from 0, column x, numbers[2]: 10000000 (416312d000000000)
  it is outside -1000000 to 1000000
"
    );
    assert_eq!(
        said(|words, _| words[72..74].copy_from_slice(&[1, 7])),
        "refused 3: counts, references or order are wrong
  words[73] = 7: the right lanes of section 0
  section 0 has 7 lanes on the right, at most 6 are allowed
"
    );
    assert_eq!(
        said(|words, _| (words[73], words[121], words[122]) = (1, 510, 3)),
        "refused 3: counts, references or order are wrong
  words[121] = 510: the first extent of lane 0 from 0
  lane 1 of section 0 has 3 extents from line 510 on: past the 512 lines of table extent
"
    );
    numbers[2] = 0.0;
    let marked = |words: &mut [u16], [first, count, lane, kind]: [u16; 4]| {
        words[71..74].copy_from_slice(&[0, 1, 0]);
        words[119..125].fill(0);
        words[1347..1349].copy_from_slice(&[first, count]);
        words[1379..1381].copy_from_slice(&[lane, kind]);
    };
    for (change, place, reason) in [
        ([0, 17, 0, 1], "words[1348] = 17: the marks of section 0", "section 0 has 17 marks, 0 to 16 are allowed"),
        (
            [256, 1, 0, 1],
            "words[1347] = 256: the first mark of section 0",
            "section 0 has 1 mark from line 256 on: past the 256 lines of table mark",
        ),
        ([0, 1, 1, 1], "words[1379] = 1: the lane's place of mark 0 from 0", "section 0 has 1 lane: places 0 to 0"),
    ] {
        marked(&mut words, change);
        let explained = explain_memory(&words, &numbers).unwrap();
        assert_eq!((explained.number, explained.place.as_str(), explained.reason.as_str()), (3, place, reason));
    }
    marked(&mut words, [0, 1, 0, 1]);
    words[72] = 0;
    assert_eq!(explain_memory(&words, &numbers).unwrap().reason, "section 0 has no lanes");
    marked(&mut words, [0, 1, 0, 256]);
    let explained = explain_memory(&words, &numbers).unwrap();
    let kind = (4, "words[1380] = 256: the kind of mark 0 from 0", "it is outside 1 to 255");
    assert_eq!((explained.number, explained.place.as_str(), explained.reason.as_str()), kind);
    assert_eq!(
        explain_memory(&words[1..], &numbers).map_or(String::new(), |explanation| explanation.to_string()),
        "refused 3: counts, references or order are wrong
  the lent slice `words` has 1,890 elements, 1,891 are needed
"
    );
}
