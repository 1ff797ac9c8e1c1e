//! A job with decimals for people (`desk decimal`) and back (`desk hex`), exactly. Both read a text into tables by
//! `second::reader::TABLES` and write these anew. They know the form alone: a job whose road is refused is turned like any other.
use crate::arguments::{self, Arguments, Failure};
use second::reader::{Cell, Form, TABLES};
use std::fmt;
use std::process::ExitCode;
use std::str;

pub const DECIMAL_HELP: &str = "\
desk decimal JOB > FILE

Writes a job text (`-`: standard input) with decimals in place of the 16 hexadecimal digits, the
columns aligned. `desk hex` turns it back into the same job, byte for byte. `desk hex --help` says
what the decimal form is.

Only the form of the job is looked at: `desk check` says whether the road is accepted. Where the
form is broken nothing is written but the line and column, and the status is 1.
";

pub const HEX_HELP: &str = "\
desk hex FILE > JOB

Turns a job in its decimal form (`-`: standard input), written by `desk decimal` or by hand, into a
job text. The decimal form is the job text (docs/JOB-TEXT.md) with these freedoms:

- A number is a decimal: 1, -0.25, .5, 1e-3. It becomes the nearest f64. One beyond the greatest
  f64 is an error; infinity is `inf` or `-inf`. A NaN is `nan:` and its digits: nan:7ff8000000000000.
- A number may also be its 16 hexadecimal digits. A word of exactly 16 lowercase hexadecimal digits
  is always that: 4024000000000000 is 10. Write 1e15, not 1000000000000000.
- Words are parted by any number of spaces and tabs; a line may begin and end with some.
- What follows a # is a comment, to the end of its line. A line that is only a comment counts as none.
- There may be more empty lines than one between tables, and some before the first. The one at a
  table's end may be missing.
- Lines may end in CR LF, the last one in nothing.

Whole numbers, words and names, the order of tables, and what a line holds are as in the job text:

    # a straight road of 10 m, and a point 2 m to the left of its reference line
    road  length
          10

    geom  s  x  y  hdg  length  kind  k0  k1
          0  0  0  0    10      line  0   0

    section start
    0

    want s t
    1 2

Only the form is looked at: `desk check` says whether the road is accepted. Where the form is
broken nothing is written but the line, the column and what was expected, and the status is 1.
";

pub fn run_decimal(arguments: &[String]) -> ExitCode {
    arguments::run("decimal", DECIMAL_HELP, arguments, |arguments| turn(arguments, to_decimal))
}

pub fn run_hex(arguments: &[String]) -> ExitCode {
    arguments::run("hex", HEX_HELP, arguments, |arguments| turn(arguments, to_hex))
}

fn turn(arguments: &[String], by: fn(&[u8]) -> Result<String, Fault>) -> Result<(), Failure> {
    let arguments = Arguments::of(arguments, &[])?;
    let turned = by(&arguments.read()?);
    arguments::write(&turned.map_err(|fault| Failure::of_content(format!("{}, {fault}", arguments.file_name())))?)
}

/// Where a text breaks its form. Lines and columns count from 1, columns in bytes.
#[derive(Debug, Clone, PartialEq, Eq)]
pub struct Fault {
    pub line: usize,
    pub column: usize,
    pub message: String,
}

impl fmt::Display for Fault {
    fn fmt(&self, f: &mut fmt::Formatter) -> fmt::Result {
        write!(f, "line {}, column {}: {}", self.line, self.column, self.message)
    }
}

/// A job text in its decimal form, columns aligned. `to_hex` gives the same bytes again.
pub fn to_decimal(job: &[u8]) -> Result<String, Fault> {
    let tables: Vec<String> = read(job, Spelling::Job)?.iter().map(Table::aligned).collect();
    Ok(tables.join("\n"))
}

/// The job text of a decimal form.
pub fn to_hex(text: &[u8]) -> Result<String, Fault> {
    let text = text.strip_prefix(b"\xef\xbb\xbf").unwrap_or(text);
    Ok(read(text, Spelling::Decimal)?.iter().map(Table::job).collect())
}

// ---- tables

/// What a text is written in: the job text, to the byte, or its decimal form.
#[derive(Clone, Copy, PartialEq, Eq)]
enum Spelling {
    Job,
    Decimal,
}

/// A cell: an f64 by its bits, or a whole number or listed word as it stands in the text.
enum Value<'a> {
    Number(u64),
    Word(&'a str),
}

/// A table with its columns and values in the order of its line of names.
struct Table<'a> {
    form: &'static Form,
    order: Vec<usize>,
    lines: Vec<Vec<Value<'a>>>,
}

impl Table<'_> {
    /// The line of names and the lines of values, word by word.
    fn rows(&self, number: fn(u64) -> String) -> Vec<Vec<String>> {
        let names = self.order.iter().map(|&column| self.form.columns[column].0.to_string());
        let cell = |value: &Value| match value {
            Value::Number(bits) => number(*bits),
            Value::Word(word) => word.to_string(),
        };
        let mut rows = vec![[self.form.name.to_string()].into_iter().chain(names).collect()];
        rows.extend(self.lines.iter().map(|line| line.iter().map(cell).collect::<Vec<_>>()));
        rows
    }

    /// As a part of a job text.
    fn job(&self) -> String {
        let rows = self.rows(|bits| format!("{bits:016x}"));
        rows.iter().map(|row| row.join(" ") + "\n").collect::<String>() + "\n"
    }

    /// As a part of a decimal form: the values under their columns' names, the table's name at their left.
    fn aligned(&self) -> String {
        let mut rows = self.rows(decimal);
        rows[1..].iter_mut().for_each(|row| row.insert(0, String::new()));
        let width = |i: usize| rows.iter().map(|row| row[i].len()).max().unwrap_or(0);
        let widths: Vec<usize> = (0..=self.order.len()).map(width).collect();
        let padded = |row: &Vec<String>| {
            let cells: Vec<String> = row.iter().zip(&widths).map(|(cell, width)| format!("{cell:width$}")).collect();
            cells.join("  ").trim_end().to_string() + "\n"
        };
        rows.iter().map(padded).collect()
    }
}

// ---- lines

struct Word<'a> {
    column: usize,
    bytes: &'a [u8],
}

/// A line's words with their places. In a job text an empty word stands for a space too many.
struct Line<'a> {
    number: usize,
    words: Vec<Word<'a>>,
    bytes: usize,
}

impl<'a> Line<'a> {
    /// Parts a line, without its LF, into words.
    fn of(number: usize, line: &'a [u8], spelling: Spelling) -> Self {
        let (mut words, mut column) = (Vec::new(), 1);
        for bytes in line.split(|&byte| byte == b' ' || (byte == b'\t' && spelling == Spelling::Decimal)) {
            words.push(Word { column: column.min(line.len()), bytes });
            column += bytes.len() + 1;
        }
        if spelling == Spelling::Decimal || line.is_empty() {
            words.retain(|word| !word.bytes.is_empty());
        }
        Self { number, words, bytes: line.len() }
    }

    /// A fault at a word, or at the line's end where it has no such word.
    fn fault(&self, word: usize, expected: &str) -> Fault {
        let (column, found) = match self.words.get(word) {
            Some(Word { column, bytes: b"" }) => (*column, "a space too many".into()),
            Some(Word { column, bytes }) => (*column, shown(bytes)),
            None if self.bytes == 0 => (1, "an empty line".into()),
            None => (self.bytes + 1, "the end of the line".into()),
        };
        Fault { line: self.number, column, message: format!("expected {expected}, found {found}") }
    }
}

/// A word for a message: what is not printable escaped, what is long cut.
fn shown(bytes: &[u8]) -> String {
    let text: String = String::from_utf8_lossy(bytes).escape_debug().collect();
    match text.char_indices().nth(40) {
        Some((at, _)) => format!("`{}..`", &text[..at]),
        None => format!("`{text}`"),
    }
}

// ---- reading

/// The tables of a text, or the first place where it breaks its form.
fn read(text: &[u8], spelling: Spelling) -> Result<Vec<Table<'_>>, Fault> {
    let mut reading = Reading { spelling, tables: Vec::new(), open: false, to_come: &TABLES };
    let mut lines = 0;
    for line in text.split_inclusive(|&byte| byte == b'\n') {
        lines += 1;
        match spelling {
            Spelling::Job => reading.job_line(lines, line)?,
            Spelling::Decimal => reading.decimal_line(lines, line)?,
        }
    }
    if reading.open && spelling == Spelling::Job {
        let message = "expected an empty line after the last table, found the end of the text".into();
        return Err(Fault { line: lines + 1, column: 1, message });
    }
    Ok(reading.tables)
}

struct Reading<'a> {
    spelling: Spelling,
    tables: Vec<Table<'a>>,
    /// The last table may get more lines.
    open: bool,
    to_come: &'static [Form],
}

impl<'a> Reading<'a> {
    /// A line with its LF, which a job text's last line has too.
    fn job_line(&mut self, number: usize, line: &'a [u8]) -> Result<(), Fault> {
        let content = line.strip_suffix(b"\n");
        let parted = Line::of(number, content.unwrap_or(line), self.spelling);
        self.line(&parted)?;
        match content {
            Some(_) => Ok(()),
            None => Err(Fault {
                line: number,
                column: line.len() + 1,
                message: "expected a line feed, found the end of the text".into(),
            }),
        }
    }

    fn decimal_line(&mut self, number: usize, line: &'a [u8]) -> Result<(), Fault> {
        let content = line.strip_suffix(b"\n").unwrap_or(line);
        let content = content.strip_suffix(b"\r").unwrap_or(content);
        let before = content.split(|&byte| byte == b'#').next().unwrap_or(content);
        let parted = Line::of(number, before, self.spelling);
        let only_comment = before.len() < content.len() && parted.words.is_empty();
        if only_comment { Ok(()) } else { self.line(&parted) }
    }

    fn line(&mut self, line: &Line<'a>) -> Result<(), Fault> {
        let lenient = self.spelling == Spelling::Decimal;
        match line.words.first() {
            None if self.open || lenient => self.open = false,
            // No value is a table's name, so a line of names shows itself where the empty line before it is missing.
            Some(word) if self.open && !(lenient && table_named(word.bytes).is_some()) => self.values(line)?,
            _ => self.names(line)?,
        }
        Ok(())
    }

    fn names(&mut self, line: &Line<'a>) -> Result<(), Fault> {
        let name = line.words.first().map_or(&b""[..], |word| word.bytes);
        let Some(at) = self.to_come.iter().position(|form| form.name.as_bytes() == name) else {
            return Err(line.fault(0, &self.table_expected()));
        };
        let form = &self.to_come[at];
        let mut order = Vec::new();
        for i in 1..=form.columns.len() {
            let name = line.words.get(i).map(|word| word.bytes);
            let column = form.columns.iter().position(|(column, _)| name == Some(column.as_bytes()));
            match column.filter(|column| !order.contains(column)) {
                Some(column) => order.push(column),
                None => return Err(line.fault(i, &column_expected(form, &order))),
            }
        }
        self.to_come = &self.to_come[at + 1..];
        self.tables.push(Table { form, order, lines: Vec::new() });
        self.open = true;
        ended(line, form.columns.len() + 1)
    }

    fn table_expected(&self) -> String {
        let names: Vec<&str> = self.to_come.iter().map(|form| form.name).collect();
        match names[..] {
            [] => "the end of the text, as no table comes after want".into(),
            _ => format!("the name of a table that may still come ({})", names.join(", ")),
        }
    }

    fn values(&mut self, line: &Line<'a>) -> Result<(), Fault> {
        let Some(table) = self.tables.last_mut() else { return Ok(()) };
        let mut values = Vec::new();
        for (i, &column) in table.order.iter().enumerate() {
            let cell = table.form.columns[column].1;
            match line.words.get(i).and_then(|word| value(word.bytes, cell, self.spelling)) {
                Some(value) => values.push(value),
                None => return Err(cell_fault(line, i, table.form, column, self.spelling)),
            }
        }
        table.lines.push(values);
        ended(line, table.order.len())
    }
}

/// The line has no more than these words.
fn ended(line: &Line, words: usize) -> Result<(), Fault> {
    if line.words.len() > words { Err(line.fault(words, "the end of the line")) } else { Ok(()) }
}

fn table_named(name: &[u8]) -> Option<&'static Form> {
    TABLES.iter().find(|form| form.name.as_bytes() == name)
}

fn column_expected(form: &Form, named: &[usize]) -> String {
    let left = form.columns.iter().enumerate().filter(|(i, _)| !named.contains(i));
    let left: Vec<&str> = left.map(|(_, (name, _))| *name).collect();
    format!("a column of {} ({}{})", form.name, if named.is_empty() { "" } else { "still to be named: " }, left.join(", "))
}

/// A word that is no cell of its column.
fn cell_fault(line: &Line, word: usize, form: &Form, column: usize, spelling: Spelling) -> Fault {
    let (name, cell) = form.columns[column];
    let what = match (cell, spelling) {
        (Cell::Number, Spelling::Job) => "a number (16 lowercase hexadecimal digits)".into(),
        (Cell::Number, Spelling::Decimal) => "a number (decimal, or 16 lowercase hexadecimal digits)".into(),
        (Cell::Whole, _) => "a whole number (up to four digits, no leading zeros, - if negative)".into(),
        (Cell::Listed(list), _) => format!("one of the words {}", list.join(", ")),
    };
    let end = if word == 0 { " or the table's end" } else { "" };
    let mut fault = line.fault(word, &format!("{what} for {name} of {}{end}", form.name));
    if let (Some(word), Cell::Number, Spelling::Decimal) = (line.words.get(word), cell, spelling) {
        fault.message += hint(word.bytes);
    }
    fault
}

// ---- cells

fn value(word: &[u8], cell: Cell, spelling: Spelling) -> Option<Value<'_>> {
    let text = str::from_utf8(word).ok()?;
    match (cell, spelling) {
        (Cell::Number, Spelling::Job) => hexadecimal(word).map(Value::Number),
        (Cell::Number, Spelling::Decimal) => number(text).map(Value::Number),
        (Cell::Whole, _) => is_whole(text).then_some(Value::Word(text)),
        (Cell::Listed(list), _) => list.contains(&text).then_some(Value::Word(text)),
    }
}

/// The bits that exactly 16 lowercase hexadecimal digits say.
fn hexadecimal(word: &[u8]) -> Option<u64> {
    let digits = word.len() == 16 && word.iter().all(|byte| matches!(byte, b'0'..=b'9' | b'a'..=b'f'));
    str::from_utf8(word).ok().filter(|_| digits).and_then(|text| u64::from_str_radix(text, 16).ok())
}

fn is_whole(text: &str) -> bool {
    let digits = text.strip_prefix('-').unwrap_or(text);
    let sized = (1..=4).contains(&digits.len()) && digits.bytes().all(|byte| byte.is_ascii_digit());
    text == "0" || (sized && !digits.starts_with('0'))
}

/// The shortest decimal that is read as the same f64. It is never taken for 16 hexadecimal digits: it has a point, a minus sign or
/// at most six characters.
fn decimal(bits: u64) -> String {
    let x = f64::from_bits(bits);
    if x.is_nan() { format!("nan:{bits:016x}") } else { format!("{x:?}") }
}

/// The bits of a number of the decimal form.
fn number(text: &str) -> Option<u64> {
    if let Some(digits) = text.strip_prefix("nan:") {
        return hexadecimal(digits.as_bytes()).filter(|&bits| f64::from_bits(bits).is_nan());
    }
    match text {
        "inf" => Some(f64::INFINITY.to_bits()),
        "-inf" => Some(f64::NEG_INFINITY.to_bits()),
        _ => hexadecimal(text.as_bytes()).or_else(|| nearest(text)),
    }
}

/// The f64 nearest a decimal. 16 hexadecimal digits in capitals may be one, but are not meant so.
fn nearest(text: &str) -> Option<u64> {
    let meant = is_decimal(text.as_bytes()) && hexadecimal(text.to_ascii_lowercase().as_bytes()).is_none();
    let x: f64 = text.parse().ok().filter(|_| meant)?;
    x.is_finite().then_some(x.to_bits())
}

/// Only digits, signs, points and exponents: none of the words that are numbers to Rust.
fn is_decimal(word: &[u8]) -> bool {
    word.iter().all(|byte| byte.is_ascii_digit() || b"+-.eE".contains(byte))
}

/// What may be wrong with a word that is nearly a number.
fn hint(word: &[u8]) -> &'static str {
    let text = String::from_utf8_lossy(word).to_ascii_lowercase();
    let plain = text.replace(',', ".").replace('\u{2212}', "-");
    match plain.parse::<f64>() {
        Ok(x) if x.is_nan() => " (a NaN is nan: and its 16 digits)",
        Ok(_) if text.contains(',') => " (the decimal sign is a point)",
        Ok(_) if text != plain => " (the sign is -)",
        _ if hexadecimal(text.as_bytes()).is_some() => " (hexadecimal digits are lowercase)",
        Ok(x) if x.is_infinite() && is_decimal(word) => " (beyond the greatest f64)",
        _ => "",
    }
}
