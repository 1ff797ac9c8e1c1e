// The cases, by the sentences of document 01 that they stand for; those of document 02's marks are in marks.rs.
use crate::{LENT, List, MEMORY, marks};
use Name::*;
use lists::draft::{self, Draft};
use second::reader::{Cell, Name, TABLES};
use second::texts;

pub fn all(list: &mut List) {
    let m1 = draft::m1();
    list.base(m1.text().as_bytes());
    list.case("M1", m1.text(), 0);
    small_texts(list);
    runs(list, &m1);
    let mixed = draft::mixed();
    list.base(mixed.text().as_bytes());
    list.case("a job with lines in every table", mixed.text(), 0);
    lines(list, &mixed);
    spaces(list, &mixed);
    bytes(list, &mixed);
    cuts(list, &mixed);
    names(list, &mixed);
    columns(list, &mixed);
    tables(list, &mixed);
    numbers(list, &mixed);
    whole_numbers(list, &mixed);
    listed_words(list, &mixed);
    cells(list, &mixed);
    lane_ids(list, &mixed);
    lane_lists(list, &mixed);
    shapes(list, &mixed);
    strips(list, &mixed);
    strip_cubics(list, &mixed);
    marks::all(list, &mixed);
    wants(list, &mixed);
    slices(list, &mixed);
    order_of_rows(list, &mixed);
    limits_by_one_line(list, &mixed);
    per_parent(list, &mixed);
    full_tables(list, &mixed);
    greatest_length(list, &mixed);
}

fn every_table() -> impl Iterator<Item = Name> {
    TABLES.iter().map(|form| form.table)
}

// ---- lines and words

fn small_texts(list: &mut List) {
    list.case("empty text: road has too few lines", "", 3);
    for text in ["\n", "\n\n", " ", "\0", "road", "road\n", "road length", "\r\n", "x\n"] {
        list.case("a line breaks the job form", text, 1);
    }
    list.case("a table ends in one empty line, the last too", "road length\n", 1);
    list.case("a table without lines may be written; too few lines is 3", "road length\n\n", 3);
}

/// "Lines end in one LF"; "one empty line".
fn lines(list: &mut List, d: &Draft) {
    for table in every_table() {
        list.case("lines end in one LF: CR before it", d.with_names(table, |n| n.replace('\n', "\r\n")), 1);
        list.case("lines end in one LF: CR before it", d.with_line(table, 0, |l| l.replace('\n', "\r\n")), 1);
        list.case("lines end in one LF: two after the names", d.with_names(table, |n| format!("{n}\n")), 1);
        list.case("lines end in one LF: none after the values", d.with_line(table, 0, |l| l.replace('\n', "")), 1);
        let two = d.text().replacen(&format!("{}\n", d.table(table)), &format!("{}\n\n", d.table(table)), 1);
        list.case("one empty line: two after a table", two, 1);
        let none = d.text().replacen(&format!("{}\n", d.table(table)), &d.table(table), 1);
        list.case("one empty line: none after a table", none, 1);
    }
    list.case("a line of names is due: an empty line first", format!("\n{}", d.text()), 1);
}

/// "one space parts words".
fn spaces(list: &mut List, d: &Draft) {
    for table in every_table() {
        list.case("one space parts words: two in the names", d.with_names(table, |n| n.replacen(' ', "  ", 1)), 1);
        list.case("one space parts words: a tab in the names", d.with_names(table, |n| n.replacen(' ', "\t", 1)), 1);
        let beside: [fn(&str) -> String; 2] = [|line| format!(" {line}"), |line| line.replace('\n', " \n")];
        for change in beside {
            list.case("one space parts words: one beside none", d.with_names(table, change), 1);
            list.case("one space parts words: one beside none", d.with_line(table, 0, change), 1);
        }
        if TABLES[table as usize].columns.len() > 1 {
            list.case("one space parts words: two in the values", d.with_line(table, 0, |l| l.replacen(' ', "  ", 1)), 1);
            list.case("one space parts words: a comma in the values", d.with_line(table, 0, |l| l.replacen(' ', ",", 1)), 1);
        }
    }
}

/// Bytes that are in no word of the form.
fn bytes(list: &mut List, d: &Draft) {
    let text = d.text().into_bytes();
    let geom = d.text().find("geom").expect("written");
    for byte in [0, 9, 11, 12, 13, 27, 31, 127, 128, 160, 194, 239, 255] {
        for at in [0, 3, geom, geom + 40, text.len()] {
            let mut text = text.clone();
            text.insert(at, byte);
            list.case("a byte of no word", text, 1);
        }
    }
    list.case("a mark of byte order first", format!("\u{feff}{}", d.text()), 1);
}

/// A text cut after each line, and in it: a table that no empty line ends is 1; else what is there decides.
fn cuts(list: &mut List, d: &Draft) {
    let text = d.text();
    let mut done = Vec::new();
    let mut at = 0;
    for line in text.split_inclusive('\n') {
        if line == "\n" {
            done.push(d.tables[done.len()]);
        } else {
            list.case("a text cut in a line", &text[..at + line.len() - 1], 1);
        }
        at += line.len();
        // Too few geom or section lines, or a profile without shapes.
        let few = !done.contains(&Section) || done.last() == Some(&Profile);
        list.case("a text cut after a line", &text[..at], if line != "\n" { 1 } else { 3 * u32::from(few) });
    }
}

// ---- lines of names

fn names(list: &mut List, d: &Draft) {
    for table in every_table() {
        let form = &TABLES[table as usize];
        let (first, last) = (form.columns[0].0, form.columns[form.columns.len() - 1].0);
        let capital = form.name.to_uppercase();
        list.case("a line of names: the table's name", d.with_names(table, |n| n.replacen(form.name, &capital, 1)), 1);
        list.case("a line of names: the table's name", d.with_names(table, |n| n.replacen(form.name, "table", 1)), 1);
        list.case("a line of names: the table's name", d.with_names(table, |n| n.replacen(form.name, &form.name[1..], 1)), 1);
        list.case("then columns: none", d.with_names(table, |_| format!("{}\n", form.name)), 1);
        list.case("then columns: a space and none", d.with_names(table, |_| format!("{} \n", form.name)), 1);
        list.case("columns, each once: one missing", d.with_names(table, |n| n.replace(&format!(" {last}\n"), "\n")), 1);
        list.case("columns, each once: one twice", d.with_names(table, |n| n.replace('\n', &format!(" {first}\n"))), 1);
        list.case("columns, each once: one unknown", d.with_names(table, |n| n.replace('\n', " e\n")), 1);
        list.case("columns, each once: in capitals", d.with_names(table, |n| n.replace(last, &last.to_uppercase())), 1);
        if form.columns.len() > 1 {
            let twice = d.with_names(table, |n| n.replace(&format!(" {last}\n"), &format!(" {first}\n")));
            list.case("columns, each once: one in another's place", twice, 1);
        }
        let bare = d.with_names(table, |n| n[form.name.len() + 1..].into());
        list.case("a line of names: the table's name is missing", bare, 1);
        list.case("a line of names: it is missing", d.with_names(table, |_| String::new()), 1);
    }
}

/// "columns in any order": the values follow it.
fn columns(list: &mut List, d: &Draft) {
    let mut reversed = d.clone();
    for table in every_table() {
        let n = TABLES[table as usize].columns.len();
        for turn in 1..n {
            let mut turned = d.clone();
            turned.columns[table as usize].rotate_left(turn);
            list.case("columns in any order: turned", turned.text(), 0);
        }
        if n > 1 {
            let mut swapped = d.clone();
            swapped.columns[table as usize].swap(0, n - 1);
            list.case("columns in any order: two swapped", swapped.text(), 0);
        }
        reversed.columns[table as usize].reverse();
    }
    list.case("columns in any order: all tables reversed", reversed.text(), 0);
    let mut misled = d.clone();
    misled.columns[Geom as usize].swap(4, 5);
    let names = misled.names(Geom);
    list.case("values in the order of the names", d.text().replacen(&d.names(Geom), &names, 1), 1);
    let mut misled = d.clone();
    misled.columns[Elev as usize].swap(0, 1);
    let names = misled.names(Elev);
    list.case("values in the order of the names: a start of 12", d.text().replacen(&d.names(Elev), &names, 1), 0);
}

// ---- tables

fn tables(list: &mut List, d: &Draft) {
    for table in every_table() {
        // Too few of these lines, or their children are without parents.
        let needed = [Road, Geom, Section, Lane, Profile, Shape, Strip].contains(&table);
        let mut missing = d.clone();
        missing.tables.retain(|&t| t != table);
        list.case("a table without lines may be missing", missing.text(), 3 * u32::from(needed));
        let empty = d.change(table, Vec::clear);
        list.case("a table without lines", empty.text(), 3 * u32::from(needed));
        let mut twice = d.clone();
        twice.tables.insert(table as usize, table);
        list.case("tables come in the order below: one twice", twice.text(), 1);
        let again = format!("{}{}\n", d.text(), d.table(table));
        list.case("tables come in the order below: one again at the end", again, 1);
    }
    for i in 1..TABLES.len() {
        let mut swapped = d.clone();
        swapped.tables.swap(i - 1, i);
        list.case("tables come in the order below: two swapped", swapped.text(), 1);
    }
    let mut none = d.clone();
    for table in [Elev, Bank, Offset, Tshift, Lane, Extent, Height, Profile, Shape, Strip, Cubic, Mark, Want] {
        none = none.change(table, Vec::clear);
    }
    list.case("tables without lines", none.text(), 0);
    none.tables.retain(|&t| !none.lines[t as usize].is_empty());
    list.case("tables without lines may be missing", none.text(), 0);
}

// ---- cells

const NO_NUMBERS: [&str; 12] = [
    "3ff000000000000",
    "3ff00000000000000",
    "3FF0000000000000",
    "3ff000000000000g",
    "3ff00000_0000000",
    "-3ff000000000000",
    "+3ff000000000000",
    "3ff0000000000 00",
    "0x3ff00000000000",
    "0",
    "1.0",
    "",
];

/// "An f64 is its 16 lowercase hexadecimal digits": in every column of numbers, all forms in one of them.
fn numbers(list: &mut List, d: &Draft) {
    let mut forms = NO_NUMBERS.iter().cycle();
    for form in &TABLES {
        for (column, _) in form.columns.iter().filter(|c| matches!(c.1, Cell::Number)) {
            for cell in forms.by_ref().take(2) {
                list.case("an f64 is its 16 lowercase hexadecimal digits", d.cell(form.table, 0, column, cell).text(), 1);
            }
        }
    }
    for cell in NO_NUMBERS {
        list.case("an f64 is its 16 lowercase hexadecimal digits", d.cell(Want, 1, "t", cell).text(), 1);
    }
    for (column, x) in [("x", -0.0), ("y", -1.5e5), ("hdg", 5e-324), ("x", f64::from_bits(0x000f_edcb_a987_6543))] {
        list.case("every digit counts", d.number(Geom, 1, column, x).text(), 0);
    }
    for (x, answer) in [(f64::NAN, 4), (f64::INFINITY, 4), (f64::from_bits(0xfff0_0000_0000_0001), 4), (1e300, 4)] {
        list.case("a number not finite or outside its limit", d.number(Elev, 0, "a", x).text(), answer);
    }
}

/// "a whole number is decimal, up to 4 digits, no leading zeros, `-` if negative"; "a parent that does not exist is 3".
fn whole_numbers(list: &mut List, d: &Draft) {
    for form in &TABLES {
        for (column, _) in form.columns.iter().filter(|c| matches!(c.1, Cell::Whole)) {
            for cell in ["-0", "+1", "01", "00", "-01", "10000", "-10000", "00000", "-", "--1", "", "1.0", "1e1", "a", "0x1", "z"]
            {
                list.case("a whole number", d.cell(form.table, 0, column, cell).text(), 1);
            }
            for cell in ["9999", "-9999", "1000", "100", "10", "7", "-7", "2"] {
                let there = cell == "2" && *column == "id" && [Extent, Mark].contains(&form.table);
                if !there && *column != "kind" {
                    list.case(
                        "a parent that does not exist, or an id out of turn",
                        d.cell(form.table, 0, column, cell).text(),
                        3,
                    );
                }
            }
        }
    }
}

/// "A word outside a column's listed ones is 1."
fn listed_words(list: &mut List, d: &Draft) {
    for form in &TABLES {
        for (column, cell) in form.columns {
            let Cell::Listed(words) = cell else { continue };
            for word in *words {
                let (longer, shorter) = (format!("{word}{word}"), &word[1..]);
                list.case("a word outside the listed ones", d.cell(form.table, 0, column, &longer).text(), 1);
                list.case("a word outside the listed ones", d.cell(form.table, 0, column, shorter).text(), 1);
                if word.to_uppercase() != *word {
                    list.case("a word outside the listed ones", d.cell(form.table, 0, column, &word.to_uppercase()).text(), 1);
                }
            }
            for word in ["-1", "01", "4", "9", "-", "none", "inner", "true", "0000000000000000"] {
                list.case("a word outside the listed ones", d.cell(form.table, 0, column, word).text(), 1);
            }
        }
    }
    for (table, line, column, word, answer) in [
        (Geom, 0, "kind", "arc", 0),
        (Geom, 0, "kind", "spiral", 0),
        (Geom, 1, "kind", "line", 4),
        (Geom, 2, "kind", "arc", 0),
        (Lane, 0, "extent", "border", 0),
        (Lane, 2, "extent", "width", 0),
        (Lane, 0, "level", "1", 0),
        (Lane, 1, "level", "0", 0),
        (Strip, 0, "relative", "1", 0),
        (Strip, 2, "relative", "0", 0),
        (Cubic, 1, "term", "3", 4),
        (Cubic, 1, "term", "width", 0),
        (Cubic, 3, "term", "0", 0),
        (Cubic, 3, "term", "1", 0),
    ] {
        list.case("a listed word", d.cell(table, line, column, word).text(), answer);
    }
}

/// "lines of values in that order": a cell too many or too few.
fn cells(list: &mut List, d: &Draft) {
    for table in every_table() {
        let line = d.line(table, 0);
        let (first, rest) = line.split_once(' ').unwrap_or((&line, ""));
        list.case("lines of values: one cell more", d.with_line(table, 0, |l| l.replace('\n', &format!(" {first}\n"))), 1);
        list.case("lines of values: one cell less", d.with_line(table, 0, |_| format!("{rest}\n")), 1);
        list.case("lines of values: the names again", d.with_line(table, 0, |l| format!("{}\n{l}", d.names(table))), 1);
    }
}

// ---- parents and children

const PARENTS: &str = "lines of a child table follow their parents' order; a parent that does not exist is 3";

/// Without lines that stand on lanes, so that those can be others.
fn without_lanes_lines(d: &Draft) -> Draft {
    [Extent, Height, Mark].into_iter().fold(d.clone(), |d, table| d.change(table, Vec::clear))
}

fn lane_ids(list: &mut List, d: &Draft) {
    let bare = without_lanes_lines(d);
    let lanes = |lines: &[&str]| bare.with(Lane, lines).text();
    let rule = "per section ids 1,2.. left then -1,-2.. right";
    for (lines, answer) in [
        (&["0 1 width 0", "0 -1 width 0"][..], 0),
        (&["0 -1 width 0", "0 -2 width 0"], 0),
        (&["1 1 width 0", "1 2 width 0", "1 -1 border 1"], 0),
        (&["0 -1 width 0", "0 1 width 0"], 3),
        (&["0 2 width 0"], 3),
        (&["0 -2 width 0"], 3),
        (&["0 0 width 0"], 3),
        (&["0 1 width 0", "0 1 width 0"], 3),
        (&["0 1 width 0", "0 3 width 0"], 3),
        (&["0 2 width 0", "0 1 width 0"], 3),
        (&["0 1 width 0", "0 -1 width 0", "0 2 width 0"], 3),
        (&["1 1 width 0", "0 1 width 0"], 3),
        (&["0 1 width 0", "1 1 width 0", "0 2 width 0"], 3),
        (&["0 1 width 0", "1 2 width 0"], 3),
        (&["2 1 width 0"], 3),
        (&["-1 1 width 0"], 3),
    ] {
        list.case(rule, lanes(lines), answer);
    }
}

fn lane_lists(list: &mut List, d: &Draft) {
    for (lines, answer) in [
        (&["0 -1 z z z z z"][..], 0),
        (&["1 -1 z z z z z"], 0),
        (&["0 1 z z z z z", "0 1 z z z z z", "1 1 z z z z z"], 0),
        (&["0 2 z z z z z", "0 -1 z z z z z", "1 -1 z z z z z"], 0),
        (&["0 2 z z z z z", "0 1 z z z z z"], 3),
        (&["0 -1 z z z z z", "0 2 z z z z z"], 3),
        (&["1 1 z z z z z", "0 -1 z z z z z"], 3),
        (&["0 1 z z z z z", "0 2 z z z z z", "0 1 z z z z z"], 3),
        (&["0 3 z z z z z"], 3),
        (&["0 -2 z z z z z"], 3),
        (&["0 0 z z z z z"], 3),
        (&["2 1 z z z z z"], 3),
        (&["-1 1 z z z z z"], 3),
    ] {
        list.case(PARENTS, d.with(Extent, lines).text(), answer);
        let heights: Vec<String> = lines.iter().map(|line| line.replacen(" z z", "", 1)).collect();
        // Two heights of one lane are 0.001 apart.
        let twice = answer == 0 && lines.windows(2).any(|w| w[0] == w[1]);
        list.case(PARENTS, d.with(Height, &heights).text(), if twice { 3 } else { answer });
    }
}

fn shapes(list: &mut List, d: &Draft) {
    for (lines, answer) in [
        (&["0 z z z z z", "1 z z z z z"][..], 0),
        (&["0 z z z z z", "0 z z z z z", "1 z z z z z"], 0),
        (&["1 z z z z z", "0 z z z z z"], 3),
        (&["0 z z z z z", "1 z z z z z", "0 z z z z z"], 3),
        (&["0 z z z z z"], 3),
        (&["1 z z z z z"], 3),
        (&["0 z z z z z", "2 z z z z z"], 3),
        (&["-1 z z z z z", "0 z z z z z", "1 z z z z z"], 3),
    ] {
        list.case(PARENTS, d.with(Shape, lines).text(), answer);
    }
}

/// "left/right, 0 inner/1 outer, 0/1; each pair once".
fn strips(list: &mut List, d: &Draft) {
    let of = |strips: &[&str]| d.change(Cubic, Vec::clear).with(Strip, strips).text();
    let all = ["left 0 0", "left 1 1", "right 0 1", "right 1 0"];
    list.case("strips: all four", of(&all), 0);
    for first in 0..4 {
        for second in (0..4).filter(|&i| i != first) {
            let rest: Vec<usize> = (0..4).filter(|&i| i != first && i != second).collect();
            let order = [first, second, rest[0], rest[1]].map(|i| all[i]);
            list.case("strips: the order of pairs is free", of(&order), 0);
        }
        list.case("strips: one alone", of(&all[first..=first]), 0);
        list.case("each pair once", of(&[all[first], all[first]]), 3);
        let other = all[first].replace(" 0", " 2").replace(" 1", " 0").replace(" 2", " 1");
        list.case("each pair once: one of another place", of(&[all[first], &other]), 0);
    }
}

/// "term width or 0..3, a strip's in that order".
fn strip_cubics(list: &mut List, d: &Draft) {
    let of = |strips: &[&str], cubics: &[&str]| d.with(Strip, strips).with(Cubic, cubics).text();
    let two = ["right 0 0", "left 1 0"];
    let rule = "cubics follow their strips' order, a strip's terms in theirs";
    for (cubics, answer) in [
        (&["right 0 width z z z z z", "left 1 width z z z z z"][..], 0),
        (&["right 0 0 z z z z z", "left 1 width z z z z z"], 0),
        (&["right 0 3 z z z z z", "left 1 0 z z z z z"], 0),
        (
            &[
                "right 0 width z z z z z",
                "right 0 0 z z z z z",
                "right 0 1 z z z z z",
                "right 0 2 z z z z z",
                "right 0 3 z z z z z",
            ],
            0,
        ),
        (&["left 1 width z z z z z"], 0),
        (&["left 1 width z z z z z", "right 0 width z z z z z"], 3),
        (&["right 0 width z z z z z", "left 1 width z z z z z", "right 0 0 z z z z z"], 3),
        (&["right 0 0 z z z z z", "right 0 width z z z z z"], 3),
        (&["right 0 1 z z z z z", "right 0 0 z z z z z"], 3),
        (&["right 0 3 z z z z z", "right 0 2 z z z z z"], 3),
        (&["right 0 width z z z z z", "right 0 1 z z z z z", "right 0 width z z z z z"], 3),
        (&["left 0 width z z z z z"], 3),
        (&["right 1 0 z z z z z"], 3),
    ] {
        list.case(rule, of(&two, cubics), answer);
    }
    list.case("cubics without a strip", of(&[], &["left 0 0 z z z z z"]), 3);
}

/// "want: s t (0..16), used by the program only": any numbers.
fn wants(list: &mut List, d: &Draft) {
    for s in
        ["7ff8000000000000", "7ff0000000000001", "ffffffffffffffff", "fff0000000000000", "8000000000000000", "0123456789abcdef"]
    {
        list.case("want: any s", d.cell(Want, 0, "s", s).text(), 0);
        list.case("want: any t", d.cell(Want, 1, "t", s).text(), 0);
    }
}

/// 01's runs of admission, as texts, and numbers of each row.
fn runs(list: &mut List, m1: &Draft) {
    let geom = |kind: &str, length: f64, k0: f64| {
        m1.cell(Geom, 0, "kind", kind).number(Geom, 0, "length", length).number(Geom, 0, "k0", k0)
    };
    for (k, answer) in [(1e-9, 0), (0.000002, 4), (0.00001, 0), (1.0, 0), (1.0f64.next_up(), 4)] {
        list.case("run: curvature of an arc", geom("arc", 10.0, k).text(), answer);
    }
    for (length, answer) in [(499.75, 0), (500.0, 5), (10_000.0, 5)] {
        list.case("run: 2,000 samples admitted, one more 5", geom("spiral", length, 0.01).text(), answer);
    }
    for (length, answer) in [(0.01, 0), (10_000.0, 0), (0.0, 4), (-0.0, 4), (f64::NAN, 4), (0.01f64.next_down(), 4)] {
        list.case("length 0.01..10,000", m1.number(Road, 0, "length", length).text(), answer);
    }
    for (s, answer) in [(-0.0, 0), (1.0, 3), (f64::NAN, 3), (f64::INFINITY, 3)] {
        list.case("first geom starts at 0", m1.number(Geom, 0, "s", s).text(), answer);
        list.case("first section starts at 0", m1.number(Section, 0, "start", s).text(), answer);
    }
    list.case("unused k0 is zero", geom("line", 10.0, -0.0).text(), 0);
    list.case("unused k0 is zero", geom("line", 10.0, 5e-324).text(), 4);
}

// ---- slices

fn slices(list: &mut List, d: &Draft) {
    let broken = d.cell(Road, 0, "length", "x").text();
    let wrong = d.cell(Lane, 0, "id", "9").text();
    // A slice of a road without marks is too short.
    for (slice, shorter) in [(0, 1347), (1, 7937), (2, 4)] {
        for length in [0, 1, shorter, LENT[slice] - 1, LENT[slice] + 1, MEMORY[slice]] {
            let mut lent = LENT;
            lent[slice] = length;
            let short = length < LENT[slice];
            list.lent_case("row 2: a lent road slice is shorter than the limits need", d.text(), lent, 2 * u32::from(short));
            list.lent_case("row 2's slice test precedes all lines", &broken, lent, 1 + u32::from(short));
            list.lent_case("row 2's slice test precedes row 3", &wrong, lent, 3 - u32::from(short));
        }
    }
    list.lent_case("all slices longer: zeros past the last line", d.text(), MEMORY, 0);
    list.lent_case("all slices longer, refused: zeros in all", &broken, MEMORY, 1);
    list.lent_case("all slices empty", d.text(), [0, 0, 0], 2);
    list.lent_case("all slices empty, and the text", "", [0, 0, 0], 2);
}

// ---- the order of rows

/// A text that a row refuses, by a line near its start (false) or near its end (true).
fn fault(d: &Draft, row: u32, late: bool) -> Draft {
    let doubled = |table: Name, n: usize| d.change(table, |lines| lines.resize(n, lines[0].clone()));
    match (row, late) {
        (1, false) => d.cell(Road, 0, "length", "4059"),
        (1, true) => d.cell(Want, 0, "t", "4059"),
        (2, false) => doubled(Road, 2),
        (2, true) => doubled(Want, 17),
        (3, false) => d.number(Geom, 0, "s", 1.0),
        (3, true) => d.cell(Cubic, 0, "place", "1"),
        (4, false) => d.number(Road, 0, "length", f64::NAN),
        (4, true) => d.number(Cubic, 0, "a", f64::INFINITY),
        (5, _) => d.number(Geom, 2, "length", 500.0),
        _ => unreachable!(),
    }
}

fn order_of_rows(list: &mut List, d: &Draft) {
    for row in 1..=5 {
        for late in [false, true] {
            list.case("one row by itself", fault(d, row, late).text(), row);
        }
        for later in row + 1..=5 {
            for late in [false, true] {
                // Rows 1 and 2 are tested line by line: the first line that fails either decides.
                let answer = if (row, later, late) == (1, 2, true) { 2 } else { row };
                list.case("rows in the order of checking", fault(&fault(d, row, late), later, !late).text(), answer);
            }
        }
    }
    let all = (1..=5).fold(d.clone(), |d, row| fault(&d, row, row > 1));
    list.case("all rows at once", all.text(), 1);
    let (line, second) = (d.line(Road, 0), "4059\n");
    list.case("a line is tested for 1 before 2", d.with_line(Road, 0, |l| format!("{l}{second}")), 1);
    list.case("a line is tested for 1 before 2: a tail that no LF ends", format!("road length\n{line}\n{line}"), 1);
    list.case("the line after one of row 2 is not reached", format!("road length\n{line}\n{line}\n\0"), 2);
    list.case("the first line decides: 1, then 2", format!("road length\n{line}\nx\n{line}\n"), 1);
}

// ---- limits

/// Tables whose lines may be alike: at the limit and one over, and the line over it broken.
fn limits_by_one_line(list: &mut List, d: &Draft) {
    for table in [Geom, Elev, Bank, Offset, Tshift, Want] {
        let limit = TABLES[table as usize].limit;
        let full = d.change(table, |lines| {
            lines.truncate(1);
            lines.resize(limit, lines[0].clone());
        });
        list.base(full.text().as_bytes());
        list.case("line limits for 2 are the counts given: met", full.text(), 0);
        over(list, &full, table);
    }
}

/// One line more than a full table has: 2, but 1 where that line or an earlier one is broken.
fn over(list: &mut List, full: &Draft, table: Name) {
    let more = full.change(table, |lines| lines.push(lines[lines.len() - 1].clone()));
    let last = more.lines[table as usize].len() - 1;
    list.case("line limits for 2: one line over", more.text(), 2);
    list.case("a line is tested for 1 before 2", more.with_line(table, last, |l| l.replace('\n', " \n")), 1);
    list.case("an earlier line breaks the form", more.with_line(table, last - 1, |l| l.replace('\n', " \n")), 1);
    let text = more.text();
    let at = text.find(&more.table(table)).expect("written") + more.table(table).len();
    list.case("the text ends after the line over the limit", &text[..at], 2);
    list.case("the text ends in the line over the limit", &text[..at - 1], 1);
    let damaged = more.with_line(table, last, |l| format!("{l}x\n"));
    list.case("a later line breaks the form", damaged, 2);
}

/// "Too few, or too many under one parent, is 3."
fn per_parent(list: &mut List, d: &Draft) {
    list.base(d.text().as_bytes());
    let bare = without_lanes_lines(d);
    for (n, answer) in [(5, 0), (6, 0), (7, 3), (8, 3)] {
        for sign in ["", "-"] {
            let lanes: Vec<String> = (1..=n).map(|id| format!("0 {sign}{id} width 0")).collect();
            list.case("at most 6 a side", bare.with(Lane, &lanes).text(), answer);
        }
    }
    for (n, answer) in [(15, 0), (16, 0), (17, 3), (33, 3)] {
        list.case("extents 0..16 a lane", d.with(Extent, &vec!["0 1 z z z z z"; n]).text(), answer);
        list.case("extents 0..16 a lane", d.with(Extent, &vec!["1 -1 z z z z z"; n]).text(), answer);
        let shapes = [vec!["0 z z z z z"; n], vec!["1 z z z z z"]].concat();
        list.case("shapes 1..16 a profile", d.with(Shape, &shapes).text(), answer);
        let shapes = [vec!["0 z z z z z"], vec!["1 z z z z z"; n]].concat();
        list.case("shapes 1..16 a profile", d.with(Shape, &shapes).text(), answer);
    }
    for (n, answer) in [(7, 0), (8, 0), (9, 3), (17, 3)] {
        let heights: Vec<String> = (0..n).map(|i| format!("0 2 {} z z", texts::digits(i as f64))).collect();
        list.case("heights 0..8 a lane", d.with(Height, &heights).text(), answer);
        for term in ["width", "0", "1", "2", "3"] {
            let line = format!("right 0 {term} z z z z z");
            list.case("cubics 0..8 a term", d.with(Cubic, &vec![line.as_str(); n]).text(), answer);
        }
    }
}

/// Tables that are full only with many parents: read where they are full, 2 with a line more.
fn full_tables(list: &mut List, d: &Draft) {
    let z = "0".repeat(16);
    let sections: Vec<Vec<String>> = (0..16).map(|i| vec![texts::digits(4.0 * i as f64)]).collect();
    let ids = [1, 2, 3, 4, 5, 6, -1, -2, -3, -4, -5, -6];
    let every_lane = || (0..16).flat_map(|section| ids.map(|id| [section.to_string(), id.to_string()]));
    let lanes = every_lane().map(|[s, id]| vec![s, id, "width".into(), "0".into()]).collect();
    let laned = without_lanes_lines(d).change(Section, |lines| *lines = sections).change(Lane, |lines| *lines = lanes);
    full(list, &laned, Section);
    full(list, &laned, Lane);
    let extents = every_lane().take(32).flat_map(|[s, id]| vec![[s, id].into_iter().chain(vec![z.clone(); 5]).collect(); 16]);
    full(list, &laned.change(Extent, |lines| *lines = extents.collect()), Extent);
    let height = |[s, id]: [String; 2]| {
        (0..8).map(move |i| vec![s.clone(), id.clone(), texts::digits(i as f64), "0".repeat(16), "0".repeat(16)])
    };
    let heights = every_lane().take(64).flat_map(height);
    full(list, &laned.change(Height, |lines| *lines = heights.collect()), Height);
    let marks = (0..16).flat_map(|i| vec![vec![i.to_string(), "-6".into(), z.clone(), z.clone(), "255".into()]; 16]).collect();
    full(list, &laned.change(Mark, |lines| *lines = marks), Mark);
    let profiles = (0..16).map(|i| vec![texts::digits(4.0 * i as f64)]).collect();
    let shapes = (0..16).flat_map(|i| vec![[i.to_string()].into_iter().chain(vec![z.clone(); 5]).collect(); 16]).collect();
    let shaped = d.change(Profile, |lines| *lines = profiles).change(Shape, |lines| *lines = shapes);
    full(list, &shaped, Profile);
    full(list, &shaped, Shape);
    let strips: Vec<Vec<String>> =
        ["left 0 0", "left 1 0", "right 0 0", "right 1 1"].map(|s| s.split(' ').map(String::from).collect()).into();
    let terms = ["width", "0", "1", "2", "3"];
    let cubic = |strip: &Vec<String>| {
        let pair = strip[..2].to_vec();
        terms.into_iter().flat_map(move |t| vec![[&pair[..], &[t.to_string()], &vec!["0".repeat(16); 5]].concat(); 8])
    };
    let cubics = strips.iter().flat_map(cubic).collect();
    let stripped = d.change(Strip, |lines| *lines = strips).change(Cubic, |lines| *lines = cubics);
    full(list, &stripped, Strip);
    full(list, &stripped, Cubic);
}

fn full(list: &mut List, full: &Draft, table: Name) {
    assert_eq!(full.lines[table as usize].len(), TABLES[table as usize].limit);
    list.base(full.text().as_bytes());
    list.case("line limits for 2 are the counts given: met", full.text(), 0);
    over(list, full, table);
}

/// "the text is over 65,536 bytes".
fn greatest_length(list: &mut List, d: &Draft) {
    for (bytes, byte) in [(65_536, "\n"), (65_537, "\n"), (65_536, "0"), (65_537, "\0")] {
        list.base(byte.repeat(16).as_bytes());
        while list.base.len() < 32_768 {
            let longer = list.base.repeat(2);
            list.base(&longer);
        }
        list.case("the text is over 65,536 bytes", byte.repeat(bytes), if bytes > 65_536 { 2 } else { 1 });
    }
    let long = long(d);
    list.base(long.text().as_bytes());
    list.case("a text of 65,536 bytes is read", long.text(), 0);
    let more = long.cell(Lane, 0, "extent", "border").text();
    assert_eq!([long.text().len(), more.len()], [65_536, 65_537]);
    list.case("the text is over 65,536 bytes", format!("{}\n", long.text()), 2);
    list.case("the text is over 65,536 bytes, its form right", &more, 2);
    list.case("row 2's length test precedes all lines", format!("\0{}", long.text()), 2);
    list.case("65,536 bytes, the last one wrong", format!("{} ", &long.text()[..65_535]), 1);
    list.case("65,535 bytes", &long.text()[..65_535], 1);
    list.case("65,536 bytes, row 3", long.number(Geom, 0, "s", 1.0).text(), 3);
    list.case("65,536 bytes, row 4", long.number(Cubic, 0, "a", f64::NAN).text(), 4);
    list.lent_case("65,536 bytes and a short slice", long.text(), [LENT[0], LENT[1] - 1, LENT[2]], 2);
}

/// A job of 65,536 bytes: runs of lines that are alike, the last bytes by the length of geometries' kinds.
fn long(d: &Draft) -> Draft {
    let filled = |d: Draft, table: Name| d.change(table, |lines| lines.resize(64, lines[0].clone()));
    let mut long = d.number(Geom, 0, "length", 1.0).change(Geom, |lines| lines.truncate(1));
    long = [Geom, Elev, Bank, Offset, Tshift].into_iter().fold(long, filled);
    let every_lane = || (0..2).flat_map(|section| [1, 2, 3, 4, 5, 6, -1, -2, -3, -4, -5, -6].map(|id| format!("{section} {id}")));
    let lanes: Vec<String> = every_lane().map(|lane| lane + " width 0").collect();
    let extents: Vec<String> = every_lane().flat_map(|lane| vec![lane + " z z z z z"; 16]).collect();
    long = long.with(Lane, &lanes).with(Extent, &extents);
    while long.text().len() > 65_536 {
        long = long.change(Tshift, |lines| lines.truncate(lines.len() - 1));
    }
    let more = 65_536 - long.text().len();
    for i in 0..more.div_ceil(2) {
        long = long.cell(Geom, i, "kind", "spiral");
    }
    if more % 2 == 1 { long.cell(Geom, 63, "kind", "arc") } else { long }
}
