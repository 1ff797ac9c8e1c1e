// A second text of document 01's "The job text", with document 02's table of marks, and of rows 1 to 5 for reading: a job's bytes
// into lent memory, laid as docs/MEMORY.md says. It is written from 01 and 02 and plain, in one pass over the bytes, and shares
// nothing with the library. What of row 3 lent memory cannot show is tested here; admission.rs tests the rest of rows 3 to 5 over
// what was read. The first fault found is told with its place.
use crate::admission;
pub use crate::fault::Name;
use crate::fault::{Expected, Fault, Parent, Place, Reason, Tables, Tested, Wrong, check};
use crate::model::*;

/// What a column's cells hold.
#[derive(Clone, Copy)]
pub enum Cell {
    /// An f64: its 16 lowercase hexadecimal digits.
    Number,
    /// A whole number: decimal, up to 4 digits, no leading zeros, `-` if negative.
    Whole,
    /// One of the column's listed words.
    Listed(&'static [&'static str]),
}

use Cell::{Listed, Number, Whole};

pub struct Form {
    pub table: Name,
    pub name: &'static str,
    pub columns: &'static [(&'static str, Cell)],
    /// The most lines.
    pub limit: usize,
}

const CUBIC_COLUMNS: &[(&str, Cell)] = &[("start", Number), ("a", Number), ("b", Number), ("c", Number), ("d", Number)];
const BIT: Cell = Listed(&["0", "1"]);
const SIDE: Cell = Listed(&["left", "right"]);

const fn form(table: Name, name: &'static str, limit: usize, columns: &'static [(&'static str, Cell)]) -> Form {
    Form { table, name, columns, limit }
}

/// The most cells of a line.
pub const CELLS: usize = 8;

pub const TABLES: [Form; 16] = [
    form(Name::Road, "road", 1, &[("length", Number)]),
    form(
        Name::Geom,
        "geom",
        64,
        &[
            ("s", Number),
            ("x", Number),
            ("y", Number),
            ("hdg", Number),
            ("length", Number),
            ("kind", Listed(&["line", "arc", "spiral"])),
            ("k0", Number),
            ("k1", Number),
        ],
    ),
    form(Name::Elev, "elev", 64, CUBIC_COLUMNS),
    form(Name::Bank, "bank", 64, CUBIC_COLUMNS),
    form(Name::Offset, "offset", 64, CUBIC_COLUMNS),
    form(Name::Tshift, "tshift", 64, CUBIC_COLUMNS),
    form(Name::Section, "section", 16, &[("start", Number)]),
    form(Name::Lane, "lane", 192, &[("section", Whole), ("id", Whole), ("extent", Listed(&["width", "border"])), ("level", BIT)]),
    form(
        Name::Extent,
        "extent",
        512,
        &[("section", Whole), ("id", Whole), ("start", Number), ("a", Number), ("b", Number), ("c", Number), ("d", Number)],
    ),
    form(
        Name::Height,
        "height",
        512,
        &[("section", Whole), ("id", Whole), ("start", Number), ("inner", Number), ("outer", Number)],
    ),
    form(Name::Profile, "profile", 16, &[("s", Number)]),
    form(
        Name::Shape,
        "shape",
        256,
        &[("profile", Whole), ("t", Number), ("a", Number), ("b", Number), ("c", Number), ("d", Number)],
    ),
    form(Name::Strip, "strip", 4, &[("side", SIDE), ("place", BIT), ("relative", BIT)]),
    form(
        Name::Cubic,
        "cubic",
        160,
        &[
            ("side", SIDE),
            ("place", BIT),
            ("term", Listed(&["width", "0", "1", "2", "3"])),
            ("start", Number),
            ("a", Number),
            ("b", Number),
            ("c", Number),
            ("d", Number),
        ],
    ),
    form(Name::Mark, "mark", 256, &[("section", Whole), ("id", Whole), ("start", Number), ("end", Number), ("kind", Whole)]),
    form(Name::Want, "want", 16, &[("s", Number), ("t", Number)]),
];

const LF: u8 = b'\n';

/// The longest text that is read.
pub const TEXT: usize = 65_536;
/// Two places for each want: the bits of s and of t.
pub const WANTS: usize = 32;

/// Reads a job: the number of wants, or the number of the refusal. A refused reading leaves zeros in all three slices, an
/// accepted one zeros past the last line of each table.
pub fn read(text: &[u8], words: &mut [u16], numbers: &mut [f64], wants: &mut [u64]) -> Result<usize, u32> {
    judge(text, words, numbers, wants).map_err(|fault| fault.row)
}

/// Reads a job: the number of wants, or the first fault.
pub fn judge(text: &[u8], words: &mut [u16], numbers: &mut [f64], wants: &mut [u64]) -> Result<usize, Fault> {
    clear(words, numbers, wants);
    let answer = accept(text, words, numbers, wants);
    if answer.is_err() {
        clear(words, numbers, wants);
    }
    answer
}

fn clear(words: &mut [u16], numbers: &mut [f64], wants: &mut [u64]) {
    words.fill(0);
    numbers.fill(0.0);
    wants.fill(0);
}

/// The rows in the order of checking, over cleared slices.
fn accept(text: &[u8], words: &mut [u16], numbers: &mut [f64], wants: &mut [u64]) -> Result<usize, Fault> {
    lengths(text, words, numbers, wants).map_err(Fault::of_row(2))?;
    let mut store = Store { words, numbers, wants, sound: Ok(()), parent: 0, strips: [0; 4], tables: Tables::default() };
    let lines = read_lines(text, &mut store)?;
    let Store { sound, tables, .. } = store;
    let sound = sound.and_then(|()| check(lines[Name::Road as usize] > 0, || Wrong::new(Place::Whole, Reason::NoRoad)));
    let road = sound.map_err(Fault::of_row(3)).and_then(|()| admission::judge(words, numbers));
    road.map(|()| lines[Name::Want as usize]).map_err(|fault| fault.in_text(tables))
}

/// Row 2 before all lines.
fn lengths(text: &[u8], words: &[u16], numbers: &[f64], wants: &[u64]) -> Tested {
    let short = |slice, length, needed| Wrong::new(Place::Whole, Reason::Short { slice, length, needed });
    check(words.len() >= WORDS, || short("words", words.len(), WORDS))?;
    check(numbers.len() >= NUMBERS, || short("numbers", numbers.len(), NUMBERS))?;
    check(wants.len() >= WANTS, || short("wants", wants.len(), WANTS))?;
    check(text.len() <= TEXT, || Wrong::new(Place::Whole, Reason::LongText { length: text.len(), most: TEXT }))
}

/// Rows 1 and 2 line by line, the first line that fails either deciding, 1 before 2. Answers the lines of each table.
fn read_lines(text: &[u8], store: &mut Store) -> Result<[usize; TABLES.len()], Fault> {
    let mut lines = [0; TABLES.len()];
    // The table that no empty line has ended yet, the tables that may still come, and how many lines of the text are taken.
    let mut open: Option<Columns> = None;
    let mut to_come = &TABLES[..];
    let mut taken = 0;
    let mut rest = Text(text);
    while !rest.0.is_empty() {
        taken += 1;
        match &open {
            None => {
                let (columns, later) = rest.names(to_come).map_err(|expected| broken(text, &rest, expected))?;
                store.parent = 0;
                store.tables.0[columns.form.table as usize] = taken;
                (open, to_come) = (Some(columns), later);
            }
            Some(_) if rest.take(LF) => open = None,
            Some(columns) => {
                let values = rest.values(columns).map_err(|expected| broken(text, &rest, expected))?;
                let line = &mut lines[columns.form.table as usize];
                if *line == columns.form.limit {
                    return Err(too_many(columns.form, store));
                }
                if store.sound.is_ok() {
                    store.sound = store.line(columns.form.table, *line, &values);
                }
                *line += 1;
            }
        }
    }
    match open {
        Some(columns) => Err(broken(text, &rest, Expected::EmptyLine { table: columns.form.table })),
        None => Ok(lines),
    }
}

/// The form is broken at the first byte of the rest.
fn broken(text: &[u8], rest: &Text, expected: Expected) -> Fault {
    let before = &text[..text.len() - rest.0.len()];
    let line = before.iter().filter(|&&byte| byte == LF).count();
    let column = before.iter().rev().take_while(|&&byte| byte != LF).count();
    Fault::of_row(1)(Wrong::new(Place::Byte { line: line + 1, column: column + 1 }, Reason::Form(expected)))
}

/// A line of right form, where its table has as many as it may have.
fn too_many(form: &Form, store: &Store) -> Fault {
    let place = Place::Line { table: form.table, line: form.limit };
    Fault::of_row(2)(Wrong::new(place, Reason::TooMany { most: form.limit })).in_text(store.tables)
}

// ---- the form

/// A table's columns in the order of its line of names.
struct Columns {
    form: &'static Form,
    order: [usize; CELLS],
}

/// A line's values by the columns' order in 01 and 02: the bits of a number, a whole number in two's complement, the place of a
/// word in its list.
type Values = [u64; CELLS];

/// What is left of the text. Each method takes what it names from the front. Where they cannot, `names` and `values` leave the rest
/// at the byte that breaks the form.
struct Text<'a>(&'a [u8]);

impl<'a> Text<'a> {
    fn take(&mut self, byte: u8) -> bool {
        let found = self.0.first() == Some(&byte);
        self.0 = &self.0[usize::from(found)..];
        found
    }

    /// One space after a word, LF after the last.
    fn end(&mut self, last: bool) -> Option<()> {
        self.take(if last { LF } else { b' ' }).then_some(())
    }

    /// A line of names: a table that may still come, then its columns in any order, each once. Answers the tables after it too.
    fn names(&mut self, to_come: &'static [Form]) -> Result<(Columns, &'static [Form]), Expected> {
        let name = self.word();
        let after = || TABLES[..TABLES.len() - to_come.len()].last().map(|form| form.table);
        let at =
            to_come.iter().position(|form| form.name.as_bytes() == name).ok_or_else(|| Expected::Table { after: after() })?;
        self.0 = &self.0[name.len()..];
        let form = &to_come[at];
        let table = form.table;
        let mut order = [CELLS; CELLS];
        for i in 0..form.columns.len() {
            self.end(false).ok_or(Expected::MoreColumns { table })?;
            let name = self.word();
            let column = form.columns.iter().position(|(column, _)| column.as_bytes() == name);
            let column = column.ok_or(Expected::Column { table })?;
            if order.contains(&column) {
                return Err(Expected::Column { table });
            }
            self.0 = &self.0[name.len()..];
            order[i] = column;
        }
        self.end(true).ok_or(Expected::NamesEnd { table })?;
        Ok((Columns { form, order }, &to_come[at + 1..]))
    }

    /// What stands before the next space or LF.
    fn word(&self) -> &'a [u8] {
        let length = self.0.iter().take_while(|&&b| b != b' ' && b != LF).count();
        &self.0[..length]
    }

    /// A line of values.
    fn values(&mut self, columns: &Columns) -> Result<Values, Expected> {
        let (mut values, cells, table) = ([0; CELLS], columns.form.columns.len(), columns.form.table);
        for (i, &column) in columns.order[..cells].iter().enumerate() {
            let cell = columns.form.columns[column].1;
            let before = self.0;
            values[column] = match cell {
                Number => self.number(),
                Whole => self.whole().map(|n| n as u64),
                Listed(list) => self.listed(list).map(|at| at as u64),
            }
            .ok_or_else(|| {
                self.0 = &before[digits_of(cell, before)..];
                Expected::Cell { table, column }
            })?;
            let (last, place) = (i + 1 == cells, (table, column));
            self.end(last).ok_or_else(|| after_cell(last, place))?;
        }
        Ok(values)
    }

    fn number(&mut self) -> Option<u64> {
        let (digits, rest) = self.0.split_first_chunk::<16>()?;
        self.0 = rest;
        let values = digits.map(|d| DIGITS[usize::from(d)]);
        let all_digits = values.iter().fold(0, |all, v| all | v) < 16;
        all_digits.then(|| values.iter().fold(0, |bits, &v| bits << 4 | u64::from(v)))
    }

    fn whole(&mut self) -> Option<i64> {
        let negative = self.take(b'-');
        let length = self.0.iter().take_while(|b| b.is_ascii_digit()).count();
        let (digits, rest) = self.0.split_at(length);
        self.0 = rest;
        let size = digits.iter().take(4).fold(0, |n, d| 10 * n + i64::from(d - b'0'));
        match digits {
            [b'0'] if !negative => Some(0),
            [b'1'..=b'9', ..] if length <= 4 => Some(if negative { -size } else { size }),
            _ => None,
        }
    }

    /// No word of a list begins another one of it, so the first that stands here is the only one.
    fn listed(&mut self, list: &[&str]) -> Option<usize> {
        let at = list.iter().position(|word| self.0.starts_with(word.as_bytes()))?;
        self.0 = &self.0[list[at].len()..];
        Some(at)
    }
}

/// How many digits of a broken number stand before the byte that breaks it. Any other cell is broken from its first byte on.
fn digits_of(cell: Cell, text: &[u8]) -> usize {
    let digits = || text.iter().take(16).take_while(|&&byte| DIGITS[usize::from(byte)] < 16).count();
    if matches!(cell, Number) { digits() } else { 0 }
}

fn after_cell(last: bool, (table, column): (Name, usize)) -> Expected {
    if last { Expected::LineEnd { table, column } } else { Expected::Space { table, column } }
}

/// The value of each lowercase hexadecimal digit, 255 for any other byte.
const DIGITS: [u8; 256] = {
    let (mut values, mut i) = ([255; 256], 0);
    while i < 16 {
        values[b"0123456789abcdef"[i] as usize] = i as u8;
        i += 1;
    }
    values
};

// ---- the memory

struct Store<'a> {
    words: &'a mut [u16],
    numbers: &'a mut [f64],
    wants: &'a mut [u64],
    /// Whether a line so far is row 3 by itself or by its place. Once one is, nothing more is stored.
    sound: Tested,
    /// The parent of the table's last line, by its place among the parents.
    parent: usize,
    /// Of each strip, how many lines the strip table had with it: its place among the parents of cubics, counted from 1.
    strips: [usize; 4],
    tables: Tables,
}

impl Store<'_> {
    /// Stores a line of values, the table's lines counted from 0, or tells why it is row 3.
    fn line(&mut self, table: Name, line: usize, v: &Values) -> Tested {
        match table {
            Name::Road => self.put(0, &v[..1]),
            Name::Geom => {
                self.words[KIND_WORDS.line(line)] = v[5] as u16;
                self.put_counted(0, GEOM.line(line), &[v[0], v[1], v[2], v[3], v[4], v[6], v[7]]);
            }
            Name::Elev => self.put_counted(1, ELEV.line(line), &v[..5]),
            Name::Bank => self.put_counted(2, BANK.line(line), &v[..5]),
            Name::Offset => self.put_counted(3, OFFSET.line(line), &v[..5]),
            Name::Tshift => self.put_counted(4, TSHIFT.line(line), &v[..5]),
            Name::Section => self.put_counted(5, SECTION.line(line), &v[..1]),
            Name::Lane => self.lane(line, v)?,
            Name::Extent => {
                self.lane_child(table, line, v, 2)?;
                self.put(EXTENT.line(line), &v[2..7]);
            }
            Name::Height => {
                self.lane_child(table, line, v, 4)?;
                self.put(HEIGHT.line(line), &v[2..5]);
            }
            Name::Profile => self.put_counted(6, PROFILE.line(line), &v[..1]),
            Name::Shape => self.shape(line, v)?,
            Name::Strip => self.strip(line, v)?,
            Name::Cubic => self.cubic(line, v)?,
            Name::Mark => self.mark(line, v)?,
            Name::Want => self.wants[2 * line..][..2].copy_from_slice(&v[..2]),
        }
        Ok(())
    }

    fn put(&mut self, at: usize, bits: &[u64]) {
        for (to, &bits) in self.numbers[at..].iter_mut().zip(bits) {
            *to = f64::from_bits(bits);
        }
    }

    /// A line of a table with a count of its own.
    fn put_counted(&mut self, word: usize, at: usize, bits: &[u64]) {
        self.put(at, bits);
        self.words[word] += 1;
    }

    fn word(&self, at: usize) -> usize {
        usize::from(self.words[at])
    }

    /// Lines of a child table follow their parents' order.
    fn follows(&mut self, table: Name, line: usize, parent: usize) -> Tested {
        let in_order = self.parent <= parent;
        self.parent = parent;
        check(in_order, || Wrong::new(Place::Line { table, line }, Reason::ParentBehind))
    }

    /// One more line of a child table, for the range that stands at a place of the words. A range without lines stays 0, 0.
    fn extend(&mut self, at: usize, line: usize) {
        if self.words[at + 1] == 0 {
            self.words[at] = line as u16;
        }
        self.words[at + 1] += 1;
    }

    /// The section of that number, counted from 0, if there is one.
    fn section(&self, number: u64) -> Result<usize, Parent> {
        let exists = (number < u64::from(self.words[5])).then_some(number as usize);
        exists.ok_or_else(|| Parent::Section { section: number as i64, sections: self.word(5) })
    }

    /// Per section ids 1,2.. left then -1,-2.. right. (At most 6 a side is admission's.)
    fn lane(&mut self, line: usize, v: &Values) -> Tested {
        let section = self.section(v[0]).map_err(|parent| no_parent(Name::Lane, line, parent))?;
        let at = SECTION_WORDS.line(section);
        let (id, left, right) = (v[1] as i64, i64::from(self.words[at + 1]), i64::from(self.words[at + 2]));
        let next_left = id == left + 1 && right == 0;
        self.follows(Name::Lane, line, section)?;
        check(next_left || id == -(right + 1), || {
            let lanes = Reason::Id { section, id, left: left as usize, right: right as usize };
            Wrong::new(Place::Line { table: Name::Lane, line }, lanes)
        })?;
        if left + right == 0 {
            self.words[at] = line as u16;
        }
        self.words[at + if next_left { 1 } else { 2 }] += 1;
        self.words[LANE_WORDS.line(line)] = v[2] as u16;
        self.words[LANE_WORDS.line(line) + 1] = v[3] as u16;
        Ok(())
    }

    /// The lane of a section and an id, by its line in the lane table.
    fn lane_of(&self, section: u64, id: i64) -> Result<usize, Parent> {
        let section = self.section(section)?;
        Ok(self.word(SECTION_WORDS.line(section)) + self.place_of(section, id)?)
    }

    /// The place of an id among the lanes of its section, the left ones outward, then the right ones.
    fn place_of(&self, section: usize, id: i64) -> Result<usize, Parent> {
        let [left, right] = [1, 2].map(|k| self.word(SECTION_WORDS.line(section) + k));
        let outward = (id.unsigned_abs() as usize).checked_sub(1);
        match (id, outward) {
            (1.., Some(outward)) if outward < left => Ok(outward),
            (..=0, Some(outward)) if outward < right => Ok(left + outward),
            _ => Err(Parent::Lane { section, id, left, right }),
        }
    }

    /// A line of extent or height: its lane exists, and its range, in the lane's words from `range` on, gets the line.
    fn lane_child(&mut self, table: Name, line: usize, v: &Values, range: usize) -> Tested {
        let lane = self.lane_of(v[0], v[1] as i64).map_err(|parent| no_parent(table, line, parent))?;
        self.follows(table, line, lane)?;
        self.extend(LANE_WORDS.line(lane) + range, line);
        Ok(())
    }

    fn shape(&mut self, line: usize, v: &Values) -> Tested {
        let exists = v[0] < u64::from(self.words[6]);
        let missing = Parent::Profile { profile: v[0] as i64, profiles: self.word(6) };
        check(exists, || no_parent(Name::Shape, line, missing))?;
        self.follows(Name::Shape, line, v[0] as usize)?;
        self.extend(PROFILE_WORDS.line(v[0] as usize), line);
        self.put(SHAPE.line(line), &v[1..6]);
        Ok(())
    }

    /// Side and place: each pair once, in any order.
    fn strip(&mut self, line: usize, v: &Values) -> Tested {
        let strip = 2 * v[0] as usize + v[1] as usize;
        let lines = self.strips[strip];
        let first = self.strips[strip] == 0;
        self.strips[strip] = line + 1;
        self.words[STRIP_WORDS.line(strip)] = 1 + v[2] as u16;
        check(first, || Wrong::new(Place::Line { table: Name::Strip, line }, Reason::PairAgain { first: lines - 1 }))
    }

    /// A strip's cubics follow the strip table's order, and in a strip the terms come width, 0, 1, 2, 3.
    fn cubic(&mut self, line: usize, v: &Values) -> Tested {
        let (strip, term) = (2 * v[0] as usize + v[1] as usize, v[2] as usize);
        let exists = self.strips[strip] > 0;
        check(exists, || no_parent(Name::Cubic, line, Parent::Strip { strip }))?;
        self.follows(Name::Cubic, line, 5 * self.strips[strip] + term)?;
        self.extend(STRIP_WORDS.line(strip) + 1 + 2 * term, line);
        self.put(CUBIC.line(line), &v[3..8]);
        Ok(())
    }

    /// A mark's parent is its section, which has its lane; a section's ids come in any order. A kind below 0 is none, as 65,535 is.
    fn mark(&mut self, line: usize, v: &Values) -> Tested {
        let missing = |parent| no_parent(Name::Mark, line, parent);
        let section = self.section(v[0]).map_err(missing)?;
        let place = self.place_of(section, v[1] as i64).map_err(missing)?;
        self.follows(Name::Mark, line, section)?;
        self.extend(SECTION_MARK_WORDS.line(section), line);
        let kind = u16::try_from(v[4]).unwrap_or(u16::MAX);
        self.words[MARK_WORDS.line(line)..][..2].copy_from_slice(&[place as u16, kind]);
        self.put(MARK.line(line), &v[2..4]);
        Ok(())
    }
}

fn no_parent(table: Name, line: usize, parent: Parent) -> Box<Wrong> {
    Wrong::new(Place::Line { table, line }, Reason::NoParent(parent))
}
