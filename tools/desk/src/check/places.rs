//! Where a fault stands: by the line of the text for a job, by table and index for lent memory.
use super::wording::{column, owner, strip, table, term, with_digits};
use second::fault::{Fault, List, Measure, Measured, Name, Of, Place, Reason, Tables};
use second::model::{KIND_WORDS, LANE_WORDS, MARK_WORDS, PROFILE_WORDS, SECTION_MARK_WORDS, SECTION_WORDS, STRIP_WORDS, Table};

/// The line of a table as it is named: `line 31, table bank, line 2 of its table`, or for lent memory `table bank, line 1 from 0`.
pub fn line(tables: Option<&Tables>, name: Name, line: usize) -> String {
    match tables {
        Some(tables) => format!("line {}, table {}, line {} of its table", tables.line(name, line), table(name), line + 1),
        None => format!("table {}, line {line} from 0", table(name)),
    }
}

/// The same in short, for a second line that a message names.
pub fn other_line(tables: Option<&Tables>, name: Name, line: usize) -> String {
    match tables {
        Some(tables) => format!("line {}", tables.line(name, line)),
        None => format!("line {line}"),
    }
}

pub fn of(fault: &Fault) -> String {
    let tables = fault.tables.as_deref();
    match (fault.place(), fault.reason()) {
        (Place::Line { line, .. }, Reason::Measure(measured)) => cubic(tables, line, measured),
        (_, Reason::Side { line: lane, .. }) if tables.is_some() => line(tables, Name::Lane, *lane),
        (_, Reason::Lines { list, most, .. }) if tables.is_some() => list_line(tables, *list, *most),
        (_, Reason::Kind { list, line: mark, .. }) if tables.is_some() => {
            format!("{}{}, column kind", line(tables, Name::Mark, *mark), owned(*list))
        }
        (Place::Line { table, line: i }, _) => line(tables, table, i),
        (Place::Number { list, line, column, value }, _) => number(tables, list, line, column, value),
        (Place::Word { at, value }, _) => format!("words[{at}] = {value}: {}", word(at)),
        (Place::Whole | Place::Byte { .. }, _) => String::new(),
    }
}

/// Whose list the line belongs to, in brackets; nothing for the road's own.
fn owned(list: List) -> String {
    owner(list.of).map_or(String::new(), |owner| format!(" ({owner})"))
}

fn number(tables: Option<&Tables>, list: List, i: usize, k: usize, value: f64) -> String {
    let index = if tables.is_some() { String::new() } else { format!(", numbers[{}]", list.table.line(i) + k) };
    format!("{}{}, column {}{index}: {}", line(tables, list.name, i), owned(list), column(list.name, k), with_digits(value))
}

/// The line of a cubic with those of its numbers that count.
fn cubic(tables: Option<&Tables>, i: usize, measured: &Measured) -> String {
    let (list, c) = (measured.list, measured.cubic);
    let unused = if measured.measure == Measure::Slope { 1 } else { 0 };
    let cells: Vec<String> = [(1, c.a), (2, c.b), (3, c.c), (4, c.d)]
        .into_iter()
        .skip(unused)
        .filter(|(_, x)| *x != 0.0)
        .map(|(k, x)| format!("column {}: {}", column(list.name, k), with_digits(x)))
        .collect();
    let index = if tables.is_some() { String::new() } else { format!(", from numbers[{}]", list.table.line(i)) };
    let place = format!("{}{}{index}", line(tables, list.name, i), owned(list));
    match &cells[..] {
        [] => place,
        [one] => format!("{place}, {one}"),
        _ => format!("{place}:\n  {}", cells.join("\n  ")),
    }
}

/// The first line of a list that is too many. One with too few lines has none: then the line of its profile, or the table alone.
fn list_line(tables: Option<&Tables>, list: List, most: usize) -> String {
    match list.of {
        _ if list.count > most => line(tables, list.name, list.first + most),
        Of::Profile(profile) => line(tables, Name::Profile, profile),
        _ => format!("table {}", table(list.name)),
    }
}

/// What the words of a table say, by line and place in the line.
type Says = fn(usize, usize) -> String;

/// What a word of lent memory says.
fn word(at: usize) -> String {
    let counts = [Name::Geom, Name::Elev, Name::Bank, Name::Offset, Name::Tshift, Name::Section, Name::Profile];
    let tables: [(Table, Says); 7] = [
        (KIND_WORDS, |i, _| format!("the kind of geometry {i} from 0")),
        (SECTION_WORDS, |i, k| format!("{} of section {i}", ["the first lane", "the left lanes", "the right lanes"][k])),
        (LANE_WORDS, |i, k| format!("{} of lane {i} from 0", LANE_COLUMNS[k])),
        (PROFILE_WORDS, |i, k| format!("{} of profile {i}", ["the first shape", "the shapes"][k])),
        (STRIP_WORDS, strip_word),
        (SECTION_MARK_WORDS, |i, k| format!("{} of section {i}", ["the first mark", "the marks"][k])),
        (MARK_WORDS, |i, k| format!("{} of mark {i} from 0", ["the lane's place", "the kind"][k])),
    ];
    let within = |t: &Table| (t.at..t.line(t.lines)).contains(&at);
    match (counts.get(at), tables.iter().find(|(t, _)| within(t))) {
        (Some(name), _) => format!("the lines of table {}", table(*name)),
        (_, Some((t, says))) => says((at - t.at) / t.columns, (at - t.at) % t.columns),
        (None, None) => "past the layout".into(),
    }
}

const LANE_COLUMNS: [&str; 6] =
    ["the extent code", "the level", "the first extent", "the extents", "the first height", "the heights"];

fn strip_word(i: usize, k: usize) -> String {
    let what = match k {
        0 => "the presence".into(),
        _ => format!("{} of {}", ["the first cubic", "the cubics"][(k - 1) % 2], term((k - 1) / 2)),
    };
    format!("{what} of strip {}", strip(i))
}
