//! What is wrong, in words: rows 2 to 5.
use super::places::{line, other_line};
use super::wording::{counted, decimal, owner, strip, table, term, thousands, with_digits};
use second::admission::spiral_samples_up_to;
use second::fault::{Fault, Limit, List, Measure, Measured, Name, Of, Order, Parent, Place, Reason, Spiral, Tables};

pub fn of(fault: &Fault, text: &[u8]) -> String {
    let tables = fault.tables.as_deref();
    match fault.reason() {
        Reason::Form(_) => "the line breaks the form".into(),
        Reason::Short { slice, length, needed } => {
            format!("the lent slice `{slice}` has {}, {} are needed", counted(*length, "element", "elements"), thousands(*needed))
        }
        Reason::LongText { length, most } => {
            format!("the text has {} bytes, at most {} are read", thousands(*length), thousands(*most))
        }
        Reason::TooMany { most } => format!("it is one too many: the table may have at most {}", counted(*most, "line", "lines")),
        Reason::NoRoad => "table road is missing or has no line: the road's length is needed".into(),
        Reason::NoParent(parent) => no_parent(*parent),
        Reason::ParentBehind => parent_behind(fault, text),
        Reason::Id { section, id, left, right } => wrong_id(*section, *id, *left, *right),
        Reason::PairAgain { first } => {
            format!("{} has the same side and place; each pair stands once", other_line(tables, Name::Strip, *first))
        }
        Reason::Code { most } => format!("the code stands for nothing, codes are 0 to {most}"),
        Reason::Side { section, left, lanes, most, .. } => {
            let side = if *left { "left" } else { "right" };
            format!("section {section} has {} on the {side}, at most {most} are allowed", counted(*lanes, "lane", "lanes"))
        }
        Reason::LanesPast { section, first, lanes } => {
            format!(
                "section {section} has {} from line {first} on: past the 192 lines of the table",
                counted(*lanes, "lane", "lanes")
            )
        }
        Reason::NoLane { section, lanes: 0 } => format!("section {section} has no lanes"),
        Reason::NoLane { section, lanes } => {
            format!("section {section} has {}: places 0 to {}", counted(*lanes, "lane", "lanes"), lanes - 1)
        }
        Reason::Lines { list, least, most } => lines(*list, *least, *most),
        Reason::FirstStart => "the first start must be 0".into(),
        Reason::Order { order, before } => out_of_order(fault, *order, *before),
        Reason::MarkOrder { earlier, before } => mark_order(fault, *earlier, *before),
        Reason::Limit(limit) => outside(fault, *limit),
        Reason::Kind { line, least, most, .. } => mark_kind(fault, text, *line, *least, *most),
        Reason::Measure(measured) => measure(measured),
        Reason::Terms { of, terms, sum, most } => strip_terms(tables, *of, terms, *sum, *most),
        Reason::Samples { spirals, most, .. } => samples(tables, spirals, *most),
    }
}

// ---- row 3

/// The numbers from 0 to one below a count.
fn up_to(n: usize) -> String {
    match n {
        0 => "there is none".into(),
        1 => "there is only 0".into(),
        _ => format!("there are 0 to {}", n - 1),
    }
}

fn no_parent(parent: Parent) -> String {
    match parent {
        Parent::Section { section, sections } => format!("there is no section {section}: {}", up_to(sections)),
        Parent::Profile { profile, profiles } => format!("there is no profile {profile}: {}", up_to(profiles)),
        Parent::Strip { strip: missing } => format!("there is no strip {}: table strip has no such line", strip(missing)),
        Parent::Lane { section, id, left, right } => {
            let (left, right) = (counted(left, "left lane", "left lanes"), counted(right, "right lane", "right lanes"));
            format!("there is no lane {id} in section {section}, which has {left} and {right}")
        }
    }
}

/// The line and the one above it, each with the columns that name its parent.
fn parent_behind(fault: &Fault, text: &[u8]) -> String {
    let (Place::Line { table, line }, Some(tables)) = (fault.place(), fault.tables.as_deref()) else { return String::new() };
    let (parent, columns): (&str, &[&str]) = match table {
        Name::Lane | Name::Mark => ("section", &["section"]),
        Name::Shape => ("profile", &["profile"]),
        Name::Cubic => ("strip and term", &["side", "place", "term"]),
        _ => ("lane", &["section", "id"]),
    };
    let at = tables.line(table, line);
    let named = |at: usize| cells(text, tables.line(table, 0) - 1, at, columns);
    format!(
        "its {parent} ({}) comes before that of line {} ({}): lines follow the order of their parents",
        named(at),
        at - 1,
        named(at - 1)
    )
}

/// Some columns of a line of the text, whose table has its names on another.
fn cells(text: &[u8], names: usize, line: usize, columns: &[&str]) -> String {
    let words = |line: usize| {
        let line = text.split(|&byte| byte == b'\n').nth(line - 1).unwrap_or_default();
        String::from_utf8_lossy(line).split(' ').map(String::from).collect::<Vec<_>>()
    };
    let (names, values) = (words(names), words(line));
    let place = |column: &str| names[1..].iter().position(|name| name == column);
    let cell = |column: &&str| place(column).and_then(|i| values.get(i)).map(|value| format!("{column} {value}"));
    columns.iter().filter_map(cell).collect::<Vec<_>>().join(", ")
}

fn wrong_id(section: usize, id: i64, left: usize, right: usize) -> String {
    let next = match (left, right) {
        (_, 1..) => format!("-{}, as its right lanes have begun", right + 1),
        _ => format!("{} on the left or -1 on the right", left + 1),
    };
    format!("id {id} is out of turn in section {section}: the next is {next}")
}

fn lines(list: List, least: usize, most: usize) -> String {
    let (whose, what) = match list.of {
        Of::Road => (format!("table {}", table(list.name)), "line"),
        of => (owner(of).unwrap_or_default(), if list.name == Name::Cubic { "cubic" } else { table(list.name) }),
    };
    let has = format!("{whose} has {}", counted(list.count, what, &format!("{what}s")));
    if !(least..=most).contains(&list.count) {
        return format!("{has}, {least} to {most} are allowed");
    }
    format!("{has} from line {} on: past the {} lines of table {}", list.first, list.table.lines, table(list.name))
}

fn out_of_order(fault: &Fault, order: Order, before: f64) -> String {
    let Place::Number { list, line, value, .. } = fault.place() else { return String::new() };
    let previous = format!("{} of {}", with_digits(before), other_line(fault.tables.as_deref(), list.name, line - 1));
    match order {
        _ if before.is_nan() || value.is_nan() => no_number(&previous),
        Order::Rises => format!("it is not above {previous}: sections rise strictly"),
        Order::NeverFalls => format!("it is below {previous}: starts never fall"),
        Order::Apart => format!("it is {} past {previous}: at least 0.001 is needed", decimal(value - before)),
    }
}

/// A mark's start and that of an earlier one on its lane, which need not be the line above.
fn mark_order(fault: &Fault, earlier: usize, before: f64) -> String {
    let Place::Number { list, value, .. } = fault.place() else { return String::new() };
    let previous =
        format!("{} of {}, on the same lane", with_digits(before), other_line(fault.tables.as_deref(), list.name, earlier));
    if before.is_nan() || value.is_nan() {
        return no_number(&previous);
    }
    format!("it is below {previous}: a lane's starts never fall")
}

/// A start against another, where one of them is a NaN.
fn no_number(previous: &str) -> String {
    format!("it is compared with {previous}, and one of the two is not a number")
}

// ---- row 4

/// A kind as it stands in the text: memory has none below 0.
fn mark_kind(fault: &Fault, text: &[u8], line: usize, least: usize, most: usize) -> String {
    let outside = format!("it is outside {least} to {most}");
    let Some(tables) = fault.tables.as_deref() else { return outside };
    let cell = cells(text, tables.line(Name::Mark, 0) - 1, tables.line(Name::Mark, line), &["kind"]);
    format!("{cell}: {outside}")
}

fn outside(fault: &Fault, limit: Limit) -> String {
    let Place::Number { list, column, .. } = fault.place() else { return String::new() };
    match limit {
        Limit::Range { low, high } => {
            let length = column == 0 && !matches!(list.name, Name::Road | Name::Shape);
            let what = if length { ", the road's length" } else { "" };
            format!("it is outside {} to {}{what}", decimal(low), decimal(high))
        }
        Limit::Size { most } => format!("it is outside -{most} to {most}", most = decimal(most)),
        Limit::Arc { line, low, high } => format!(
            "an arc's curvature has a size of {} to {}, or of at most {}, which makes it a line",
            decimal(low),
            decimal(high),
            decimal(line)
        ),
        Limit::Unused => "the geometry's kind does not use it, so it must be zero".into(),
        Limit::Finite => "it is not finite".into(),
        Limit::SpanStart => "it is not 0 or above".into(),
        Limit::SpanEnd { start } => format!("it is not at or past the mark's start, {}", decimal(start)),
        Limit::SpanPast { extent } => format!("it is past the section's end, {} from its start", decimal(extent)),
    }
}

fn measure(m: &Measured) -> String {
    let what = if m.measure == Measure::Bound { "bound B" } else { "the greatest slope" };
    let over = format!("{what} = {} over reach D = {} m ({})", decimal(m.value), decimal(m.reach), reach_end(m));
    let limit = format!("{}{}", decimal(m.most), kind_of_limit(m));
    match m.most {
        f64::MAX => format!("{over} is not finite"),
        _ if m.value.is_nan() && m.reach.is_infinite() => {
            format!("{over} is not at most {limit}: 0 times infinity is not a number")
        }
        _ if m.value.is_nan() => format!("{over} is not at most {limit}"),
        _ => format!("{over} is above {limit}"),
    }
}

/// Where the reach ends. Starts of lanes' lists count from their section's start.
fn reach_end(m: &Measured) -> String {
    let end = decimal(m.end);
    match (m.last, m.list.of) {
        (false, Of::Profile(_)) => format!("to the next start, t = {end}"),
        (false, Of::Lane { .. }) => format!("to the next start, {end} from the section's"),
        (false, _) => format!("to the next start, s = {end}"),
        (true, Of::Profile(_)) => format!("to the end of shapes, t = {end}"),
        (true, Of::Lane { .. }) => format!("to the section's end, {end} from its start"),
        (true, _) => format!("to the road's end, s = {end}"),
    }
}

fn kind_of_limit(m: &Measured) -> &'static str {
    match (m.list.of, m.most) {
        (Of::Lane { .. }, most) if most > 8.0 => ", the limit of a border lane",
        (Of::Lane { .. }, _) => ", the limit of a width lane",
        (Of::Strip { .. }, _) => ", the limit of a strip's width",
        _ => "",
    }
}

fn strip_terms(tables: Option<&Tables>, of: Of, terms: &[(f64, Option<usize>); 4], sum: f64, most: f64) -> String {
    let Of::Strip { strip: i, .. } = of else { return String::new() };
    let greatest = |(k, (bound, at)): (usize, &(f64, Option<usize>))| {
        let at = at.map_or("no line".into(), |at| other_line(tables, Name::Cubic, at));
        format!("\n  {}: greatest bound B = {} ({at})", term(k + 1), decimal(*bound))
    };
    let parts: String = terms.iter().enumerate().map(greatest).collect();
    format!("the terms of strip {} by Horner at 88 m are {}, above {}:{parts}", strip(i), decimal(sum), decimal(most))
}

// ---- row 5

/// No geometry is longer than 10,000 m.
const MOST_SAMPLES: usize = 40_001;

fn samples(tables: Option<&Tables>, spirals: &[Spiral], most: usize) -> String {
    let needed: Vec<usize> = spirals.iter().map(|spiral| spiral_samples_up_to(spiral.length, MOST_SAMPLES)).collect();
    let each = |(spiral, n): (&Spiral, &usize)| {
        format!(
            "\n  {}: {} m, {}",
            line(tables, Name::Geom, spiral.line),
            decimal(spiral.length),
            counted(*n, "sample", "samples")
        )
    };
    let list: String = spirals.iter().zip(&needed).map(each).collect();
    format!("the spirals need {} samples, at most {} are allowed:{list}", thousands(needed.iter().sum()), thousands(most))
}
