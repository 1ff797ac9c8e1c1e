//! Row 1 in words: the line of the text, what stands there and what the form asks for.
use super::wording::table;
use second::fault::{Expected, Name};
use second::reader::{Cell, TABLES};

/// The place and the reason, for a byte of the text by its line and its place in it, both from 1.
pub fn explain(text: &[u8], line: usize, column: usize, expected: Expected) -> (String, String) {
    let whole = text.split(|&byte| byte == b'\n').nth(line - 1).unwrap_or_default();
    let ended = text.iter().filter(|&&byte| byte == b'\n').count() >= line;
    let there = There { line: whole, at: column - 1, ended };
    let place = format!("line {line}, byte {column}{}", there.shown());
    let hint = there.hint(expected).map_or(String::new(), |hint| format!("\n{hint}"));
    (place, format!("found {}\nexpected {}{hint}", there.found(), there.wanted(expected)))
}

/// A byte of a line.
struct There<'a> {
    line: &'a [u8],
    at: usize,
    /// An LF ends the line.
    ended: bool,
}

/// How much of a long line is shown on either side of the byte.
const AROUND: usize = 70;

const DECIMAL: &str = "decimals, comments and aligned columns are not read; `desk hex` makes a job of such a text";

fn readable(bytes: &[u8]) -> String {
    bytes.iter().map(|&byte| if (b' '..=b'~').contains(&byte) { char::from(byte) } else { '\u{fffd}' }).collect()
}

impl There<'_> {
    /// The line with a caret under the byte; nothing of an empty line.
    fn shown(&self) -> String {
        if self.line.is_empty() {
            return String::new();
        }
        let (from, to) = (self.at.saturating_sub(AROUND), self.line.len().min(self.at + AROUND));
        let before = if from > 0 { ".." } else { "" };
        let after = if to < self.line.len() { ".." } else { "" };
        let space = " ".repeat(before.len() + self.at - from);
        format!(":\n  {before}{}{after}\n  {space}^", readable(&self.line[from..to]))
    }

    /// The word that the byte is in or ends, with its place in it.
    fn word(&self) -> (&[u8], usize) {
        let start = self.line[..self.at].iter().rposition(|&byte| byte == b' ').map_or(0, |at| at + 1);
        let length = self.line[start..].iter().position(|&byte| byte == b' ').unwrap_or(self.line.len() - start);
        (&self.line[start..start + length], self.at - start)
    }

    fn found(&self) -> String {
        let (word, within) = self.word();
        let quoted = |bytes: &[u8]| {
            let shown = bytes[..bytes.len().min(AROUND)].escape_ascii();
            format!("`{shown}`{}", if bytes.len() > AROUND { " .." } else { "" })
        };
        let after = if within > 0 { format!(" after {}", quoted(&word[..within])) } else { String::new() };
        match self.line.get(self.at) {
            None if !self.ended => format!("the end of the text{after}"),
            None if self.line.is_empty() => "an empty line".into(),
            None => format!("the end of the line{after}"),
            Some(b' ') => format!("a space{after}"),
            Some(b' '..=b'~') if within == 0 => quoted(word),
            Some(byte @ b' '..=b'~') => format!("`{}` in {}", char::from(*byte), quoted(word)),
            Some(byte) => format!("the byte {byte:02x}{after}, which no line may have"),
        }
    }

    fn wanted(&self, expected: Expected) -> String {
        match expected {
            Expected::Table { after } => tables(after),
            Expected::Column { table: name } => {
                format!("a column of table {} that the line does not have yet: {}", table(name), self.columns_left(name))
            }
            Expected::MoreColumns { table: name } => {
                format!("one space and another column of table {}: {}", table(name), self.columns_left(name))
            }
            Expected::NamesEnd { table: name } => format!("the end of the line: it names all columns of table {}", table(name)),
            Expected::Cell { table: name, column } => {
                let (word, cell) = TABLES[name as usize].columns[column];
                format!("{} for column {word} of table {}", holds(cell), table(name))
            }
            Expected::Space { table: name, column } => {
                format!("one space after column {} of table {}", TABLES[name as usize].columns[column].0, table(name))
            }
            Expected::LineEnd { table: name, column } => {
                format!(
                    "the end of the line after column {}, the last that table {} names",
                    TABLES[name as usize].columns[column].0,
                    table(name)
                )
            }
            Expected::EmptyLine { table: name } => {
                format!("an empty line to end table {}; every table has one, the last too", table(name))
            }
        }
    }

    /// The columns of a table that the line of names does not have before the byte.
    fn columns_left(&self, name: Name) -> String {
        let named: Vec<&[u8]> = self.line[..self.at].split(|&byte| byte == b' ').skip(1).collect();
        let left =
            TABLES[name as usize].columns.iter().map(|(column, _)| *column).filter(|column| !named.contains(&column.as_bytes()));
        left.collect::<Vec<_>>().join(", ")
    }

    /// What people often mean.
    fn hint(&self, expected: Expected) -> Option<&'static str> {
        let (word, within) = self.word();
        let cell = match expected {
            Expected::Cell { table, column } => Some(TABLES[table as usize].columns[column].1),
            _ => None,
        };
        let first_word = self.at == within;
        match expected {
            _ if word.ends_with(b"\r") => Some("lines end in LF alone, not in CR LF"),
            _ if word.contains(&b'\t') => Some("words are parted by one space, not by a tab"),
            _ if word.starts_with(b"#") || self.line.get(self.at) == Some(&b' ') && word.is_empty() => Some(DECIMAL),
            _ if word.starts_with(b"\xef\xbb\xbf") => Some("the text begins with a byte order mark; it must have none"),
            Expected::Cell { .. } if first_word && is_table(word) => {
                Some("an empty line has to end the table before the next one's names")
            }
            Expected::Cell { .. } if matches!(cell, Some(Cell::Number)) => self.number_hint(word),
            Expected::Table { .. } if is_table(word) => Some("tables come in a fixed order, each at most once"),
            Expected::Table { .. } if word.len() == 16 && word.iter().all(u8::is_ascii_hexdigit) => {
                Some("values stand below their table's names, and an empty line ends the table")
            }
            Expected::EmptyLine { .. } => None,
            _ if self.at == self.line.len() && !self.ended => Some("every line ends in LF, the last too"),
            _ => None,
        }
    }

    fn number_hint(&self, word: &[u8]) -> Option<&'static str> {
        let decimal = || str::from_utf8(word).is_ok_and(|word| word.parse::<f64>().is_ok());
        match self.line.get(self.at) {
            Some(b'A'..=b'F') if word.iter().all(u8::is_ascii_hexdigit) => Some("digits are lowercase"),
            _ if (word.contains(&b'.') || word.len() < 8) && decimal() => Some(DECIMAL),
            _ => None,
        }
    }
}

fn is_table(word: &[u8]) -> bool {
    TABLES.iter().any(|form| form.name.as_bytes() == word)
}

/// The tables that may come after one.
fn tables(after: Option<Name>) -> String {
    let later = &TABLES[after.map_or(0, |name| name as usize + 1)..];
    let names: Vec<&str> = later.iter().map(|form| form.name).collect();
    match (after, &names[..]) {
        (Some(name), []) => format!("the end of the text: no table comes after {}", table(name)),
        (Some(name), [one]) => format!("the names of table {one}, which alone may come after {}", table(name)),
        (Some(name), _) => format!("the names of a table that may come after {}: {}", table(name), names.join(", ")),
        (None, _) => format!("the names of a table: {}", names.join(", ")),
    }
}

fn holds(cell: Cell) -> String {
    match cell {
        Cell::Number => "16 lowercase hexadecimal digits".into(),
        Cell::Whole => "a whole number (up to 4 digits, no leading zeros, `-` if negative)".into(),
        Cell::Listed(words) => format!("one of the words {}", words.join(", ")),
    }
}
