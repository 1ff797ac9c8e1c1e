//! Numbers and names as they are written for people.
use second::fault::{Name, Of};
use second::reader::{Cell, TABLES};

/// The shortest decimal that is read as the same number; in words where it is none.
pub fn decimal(x: f64) -> String {
    let plain = x == 0.0 || (1e-5..1e16).contains(&x.abs());
    match x {
        _ if x.is_nan() => "not a number".into(),
        f64::INFINITY => "infinity".into(),
        f64::NEG_INFINITY => "minus infinity".into(),
        _ if plain => format!("{x}"),
        _ => format!("{x:?}"),
    }
}

/// A number in decimal and as it stands in a job text.
pub fn with_digits(x: f64) -> String {
    format!("{} ({:016x})", decimal(x), x.to_bits())
}

/// A whole number with its thousands parted: 65,536.
pub fn thousands(n: usize) -> String {
    let digits = n.to_string();
    let parts: Vec<&str> = digits.as_bytes().rchunks(3).rev().map(|part| str::from_utf8(part).expect("digits")).collect();
    parts.join(",")
}

/// A count with its noun.
pub fn counted(n: usize, one: &str, more: &str) -> String {
    format!("{} {}", thousands(n), if n == 1 { one } else { more })
}

pub fn table(name: Name) -> &'static str {
    TABLES[name as usize].name
}

/// A column of a table in memory, which holds the table's numbers alone.
pub fn column(name: Name, column: usize) -> &'static str {
    let numbers = TABLES[name as usize].columns.iter().filter(|(_, cell)| matches!(cell, Cell::Number));
    numbers.map(|(name, _)| *name).nth(column).expect("a column of the table")
}

/// A strip by the words of the text.
pub fn strip(strip: usize) -> String {
    format!("{} {}", ["left", "right"][strip / 2], strip % 2)
}

pub fn term(term: usize) -> &'static str {
    ["width", "term 0", "term 1", "term 2", "term 3"][term]
}

/// Whose lines they are; nothing for those of the road.
pub fn owner(of: Of) -> Option<String> {
    match of {
        Of::Road => None,
        Of::Section(section) => Some(format!("section {section}")),
        Of::Lane { section, id } => Some(format!("lane {id} of section {section}")),
        Of::Profile(profile) => Some(format!("profile {profile}")),
        Of::Strip { strip: of, term: list } => Some(format!("{} of strip {}", term(list), strip(of))),
    }
}

/// The meaning of a refusal's number, in document 01's words.
pub fn meaning(number: u32) -> &'static str {
    match number {
        1 => "a line breaks the job form",
        2 => "the text or a table of it is too long, or a lent slice too short",
        3 => "counts, references or order are wrong",
        4 => "a number is not finite or outside its limit",
        5 => "the spirals need over 2,000 samples",
        6 => "the lent slice holds fewer samples than the road needs",
        7 => "s is outside 0 to the road's length",
        8 => "t is outside -80 to 80",
        _ => "not a refusal of reading",
    }
}
