// A job as cells that a case can change one by one.
use second::model::{Cubic, Geom, Height, Lane, Mark, Profile, Road, Section, Shape, Strip};
use second::reader::{Name, TABLES};
use second::texts;

#[derive(Clone)]
pub struct Draft {
    /// The tables that are written, in this order.
    pub tables: Vec<Name>,
    /// Of each table, by its place in 01: the columns in the order in which they are written, and the lines by 01's order.
    pub columns: Vec<Vec<usize>>,
    pub lines: Vec<Vec<Vec<String>>>,
}

impl Draft {
    pub fn of(road: &Road, wants: &[[f64; 2]]) -> Self {
        Self {
            tables: TABLES.iter().map(|form| form.table).collect(),
            columns: TABLES.iter().map(|form| (0..form.columns.len()).collect()).collect(),
            lines: texts::tables(road, wants, [0, 1, 2, 3]).into(),
        }
    }

    pub fn names(&self, table: Name) -> String {
        let form = &TABLES[table as usize];
        let columns = self.columns[table as usize].iter().map(|&i| form.columns[i].0);
        [form.name].into_iter().chain(columns).collect::<Vec<_>>().join(" ")
    }

    pub fn line(&self, table: Name, line: usize) -> String {
        let cells = &self.lines[table as usize][line];
        self.columns[table as usize].iter().map(|&i| cells[i].as_str()).collect::<Vec<_>>().join(" ")
    }

    /// The table without its empty line.
    pub fn table(&self, table: Name) -> String {
        let lines = (0..self.lines[table as usize].len()).map(|i| self.line(table, i));
        [self.names(table)].into_iter().chain(lines).map(|line| line + "\n").collect()
    }

    pub fn text(&self) -> String {
        self.tables.iter().map(|&table| self.table(table) + "\n").collect()
    }

    /// The text with a line of names in another form.
    pub fn with_names(&self, table: Name, change: impl Fn(&str) -> String) -> String {
        let old = self.names(table) + "\n";
        self.text().replacen(&old, &change(&old), 1)
    }

    /// The text with a line of values in another form.
    pub fn with_line(&self, table: Name, line: usize, change: impl Fn(&str) -> String) -> String {
        let (before, old) = (self.before(table, line), self.line(table, line) + "\n");
        let text = self.text();
        format!("{}{}{}", &text[..before], change(&old), &text[before + old.len()..])
    }

    /// How many bytes stand before a line of values.
    fn before(&self, table: Name, line: usize) -> usize {
        let tables = self.tables.iter().take_while(|&&t| t != table);
        let tables: usize = tables.map(|&t| self.table(t).len() + 1).sum();
        let lines: usize = (0..line).map(|i| self.line(table, i).len() + 1).sum();
        tables + self.names(table).len() + 1 + lines
    }

    /// With another cell.
    pub fn cell(&self, table: Name, line: usize, column: &str, cell: &str) -> Self {
        let at = TABLES[table as usize].columns.iter().position(|c| c.0 == column).expect("a column of the table");
        let mut new = self.clone();
        new.lines[table as usize][line][at] = cell.into();
        new
    }

    pub fn number(&self, table: Name, line: usize, column: &str, x: f64) -> Self {
        self.cell(table, line, column, &texts::digits(x))
    }

    /// With a table's lines changed.
    pub fn change(&self, table: Name, change: impl FnOnce(&mut Vec<Vec<String>>)) -> Self {
        let mut new = self.clone();
        change(&mut new.lines[table as usize]);
        new
    }

    /// With lines of values given as text, in 01's order of the columns.
    pub fn with(&self, table: Name, lines: &[impl AsRef<str>]) -> Self {
        let cells = |line: &_| AsRef::<str>::as_ref(line).split(' ').map(expand).collect();
        self.change(table, |all| *all = lines.iter().map(cells).collect())
    }
}

/// `z` stands for the 16 digits of 0.
fn expand(cell: &str) -> String {
    if cell == "z" { "0".repeat(16) } else { cell.into() }
}

/// A road of 100 with lines in every table.
pub fn mixed() -> Draft {
    let list = |start: f64, a: f64| vec![Cubic { start, a, b: 0.0, c: 0.0, d: 0.0 }];
    let geom = |s, length, shape| Geom { s, x: s, y: 0.0, hdg: 0.0, length, shape };
    let height = |start| Height { start, inner: 0.125, outer: 0.25 };
    let lane = |border, level, extents, heights| Lane { border, level, extents, heights };
    let width = |level, a, heights| lane(false, level, list(0.0, a), heights);
    let mark = |lane, kind, start, end| Mark { lane, kind, start, end };
    let first = Section {
        start: 0.0,
        left: vec![width(false, 3.0, vec![height(0.0), height(10.0)]), width(true, 1.0, Vec::new())],
        right: vec![lane(true, false, list(0.0, -4.0), Vec::new())],
        marks: vec![mark(2, 1, 0.0, 50.0), mark(0, 255, 10.0, 20.0), mark(2, 2, 5.0, 5.0)],
    };
    let second = Section {
        start: 50.0,
        left: vec![width(false, 3.5, Vec::new())],
        right: vec![lane(false, false, Vec::new(), vec![height(0.0)])],
        marks: vec![mark(1, 7, 0.0, 25.0)],
    };
    let strip = |relative, width, zero, two| Some(Strip { relative, lists: [width, zero, Vec::new(), two, Vec::new()] });
    let road = Road {
        length: 100.0,
        geoms: vec![geom(0.0, 40.0, Shape::Line), geom(40.0, 30.0, Shape::Arc(0.01)), geom(70.0, 30.0, Shape::Spiral(0.01, 0.0))],
        elev: list(0.0, 12.0),
        bank: list(2.0, 0.0625),
        offset: list(0.0, 0.5),
        tshift: list(5.0, 0.25),
        sections: vec![first, second],
        profiles: vec![Profile { s: 0.0, shapes: list(-10.0, 0.5) }, Profile { s: 60.0, shapes: list(0.0, 0.25) }],
        strips: [
            strip(false, list(0.0, 3.0), list(0.0, 0.5), Vec::new()),
            None,
            strip(false, list(10.0, 2.0), Vec::new(), Vec::new()),
            strip(true, Vec::new(), Vec::new(), list(0.0, 0.001)),
        ],
    };
    Draft::of(&road, &[[1.0, 2.0], [99.0, -3.5]])
}

/// M1's job: a line of 10, a section and a want.
pub fn m1() -> Draft {
    let geom = Geom { s: 0.0, x: 0.0, y: 0.0, hdg: 0.0, length: 10.0, shape: Shape::Line };
    let road = Road { length: 10.0, geoms: vec![geom], sections: vec![Section::default()], ..Road::default() };
    let mut m1 = Draft::of(&road, &[[1.0, 2.0]]);
    m1.tables.retain(|&table| !m1.lines[table as usize].is_empty());
    m1
}
