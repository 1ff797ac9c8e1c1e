// The first fault of a job text or of a road: the row that refuses it, where it stands and what is wrong there. A fault is put
// together only where there is one, so that a sound road costs no more than its tests.
use crate::model::{Cubic, Table};

/// The tables, in the order in which they come.
#[derive(Debug, Clone, Copy, PartialEq, Eq, PartialOrd, Ord)]
pub enum Name {
    Road,
    Geom,
    Elev,
    Bank,
    Offset,
    Tshift,
    Section,
    Lane,
    Extent,
    Height,
    Profile,
    Shape,
    Strip,
    Cubic,
    Mark,
    Want,
}

/// How many tables there are.
pub const NAMES: usize = 16;

#[derive(Debug, Clone)]
pub struct Fault {
    /// The row of document 01's table of refusals.
    pub row: u32,
    pub wrong: Box<Wrong>,
    /// Where the tables stand, if the road was read from a text.
    pub tables: Option<Box<Tables>>,
}

#[derive(Debug, Clone)]
pub struct Wrong {
    pub place: Place,
    pub reason: Reason,
}

/// What a test answers that belongs to one row.
pub type Tested = Result<(), Box<Wrong>>;

/// The line of the text, from 1, that has each table's names; 0 for a table that the text does not have.
#[derive(Debug, Clone, Copy, PartialEq, Default)]
pub struct Tables(pub [usize; NAMES]);

impl Tables {
    /// The line of the text, from 1, of a table's line, from 0.
    pub fn line(&self, table: Name, line: usize) -> usize {
        self.0[table as usize] + 1 + line
    }
}

#[derive(Debug, Clone, Copy)]
pub enum Place {
    /// The text or the road as a whole.
    Whole,
    /// A byte of the text, by its line and its place in that line, both from 1.
    Byte { line: usize, column: usize },
    /// A line of a table, from 0.
    Line { table: Name, line: usize },
    /// A number of a table in memory: its line and column there, from 0, and the list that was tested.
    Number { list: List, line: usize, column: usize, value: f64 },
    /// A word of lent memory.
    Word { at: usize, value: u16 },
}

/// Lines of a table that a count or a range names.
#[derive(Debug, Clone, Copy)]
pub struct List {
    pub name: Name,
    pub table: Table,
    pub first: usize,
    pub count: usize,
    pub of: Of,
    /// Where the words say so: the count, or the first line of the range.
    pub at: usize,
}

/// Whose lines they are. Sections and profiles count from 0; strips stand left inner, left outer, right inner, right outer; terms
/// are the width, then 0 to 3.
#[derive(Debug, Clone, Copy, PartialEq)]
pub enum Of {
    Road,
    Section(usize),
    Lane { section: usize, id: i32 },
    Profile(usize),
    Strip { strip: usize, term: usize },
}

#[derive(Debug, Clone)]
pub enum Reason {
    // ---- the text and what is lent
    Form(Expected),
    Short {
        slice: &'static str,
        length: usize,
        needed: usize,
    },
    LongText {
        length: usize,
        most: usize,
    },
    /// A line more than its table may have.
    TooMany {
        most: usize,
    },
    // ---- counts, references and order
    NoRoad,
    NoParent(Parent),
    /// The parent stands before that of the line above.
    ParentBehind,
    /// A lane's id is not the next of its section, which has that many lanes so far.
    Id {
        section: usize,
        id: i64,
        left: usize,
        right: usize,
    },
    /// The pair of side and place stands on an earlier line of the table, from 0.
    PairAgain {
        first: usize,
    },
    /// A code that stands for no listed word.
    Code {
        most: usize,
    },
    /// More lanes on a side of a section than there may be; the line of the first that is too many.
    Side {
        section: usize,
        left: bool,
        lanes: usize,
        most: usize,
        line: usize,
    },
    /// A section's lanes run past the end of the lane table.
    LanesPast {
        section: usize,
        first: usize,
        lanes: usize,
    },
    /// The place of a mark's lane is past the lanes of its section.
    NoLane {
        section: usize,
        lanes: usize,
    },
    /// A list with too few or too many lines, or one that runs past its table's end.
    Lines {
        list: List,
        least: usize,
        most: usize,
    },
    /// The first start is not 0.
    FirstStart,
    /// A start against the one before it.
    Order {
        order: Order,
        before: f64,
    },
    /// A mark's start against that of an earlier one on its lane, which stands on that line of the table, from 0.
    MarkOrder {
        earlier: usize,
        before: f64,
    },
    // ---- numbers
    Limit(Limit),
    /// The kind of a mark of a list, by its line of the table, from 0, is outside a range.
    Kind {
        list: List,
        line: usize,
        least: usize,
        most: usize,
    },
    Measure(Measured),
    /// A strip's four terms, each at its greatest bound B, with the line of the cubic table that has it.
    Terms {
        of: Of,
        terms: [(f64, Option<usize>); 4],
        sum: f64,
        most: f64,
    },
    // ---- samples
    Samples {
        spirals: Vec<Spiral>,
        sum: usize,
        most: usize,
    },
}

/// What the form asks for where a text breaks it. Columns go by their place in document 01.
#[derive(Debug, Clone, Copy, PartialEq)]
pub enum Expected {
    /// A table that may still come: one after this.
    Table { after: Option<Name> },
    /// A column that the line of names does not have yet.
    Column { table: Name },
    /// One space, and then another column.
    MoreColumns { table: Name },
    /// The end of a line of names.
    NamesEnd { table: Name },
    /// What the column holds.
    Cell { table: Name, column: usize },
    /// One space after a column's cell, and then the next cell.
    Space { table: Name, column: usize },
    /// The end of a line of values, after the cell of its last column.
    LineEnd { table: Name, column: usize },
    /// The empty line that ends a table, where the text ends without it.
    EmptyLine { table: Name },
}

/// A parent that is not there, and how many there are.
#[derive(Debug, Clone, Copy, PartialEq)]
pub enum Parent {
    Section { section: i64, sections: usize },
    Lane { section: usize, id: i64, left: usize, right: usize },
    Profile { profile: i64, profiles: usize },
    Strip { strip: usize },
}

#[derive(Debug, Clone, Copy, PartialEq)]
pub enum Order {
    Rises,
    NeverFalls,
    /// Each start is at least 0.001 past the one before.
    Apart,
}

#[derive(Debug, Clone, Copy, PartialEq)]
pub enum Limit {
    Range {
        low: f64,
        high: f64,
    },
    /// The size, whatever the sign.
    Size {
        most: f64,
    },
    /// An arc's curvature by its size: at most `line`, which makes it a line, or in a range.
    Arc {
        line: f64,
        low: f64,
        high: f64,
    },
    /// A curvature that the kind does not use is not zero.
    Unused,
    Finite,
    /// A mark's start is not 0 or above.
    SpanStart,
    /// A mark's end is not at or past its start.
    SpanEnd {
        start: f64,
    },
    /// A mark's start or end is past its section's extent.
    SpanPast {
        extent: f64,
    },
}

#[derive(Debug, Clone, Copy, PartialEq)]
pub enum Measure {
    /// Bound B.
    Bound,
    /// The greatest slope of an elevation.
    Slope,
}

/// A measure of a cubic over its reach D, which ends at the next start, or at the list's end after the last cubic.
#[derive(Debug, Clone, Copy)]
pub struct Measured {
    pub measure: Measure,
    pub list: List,
    pub cubic: Cubic,
    pub value: f64,
    pub reach: f64,
    pub end: f64,
    pub last: bool,
    pub most: f64,
}

/// A spiral by its line of the geometry table.
#[derive(Debug, Clone, Copy, PartialEq)]
pub struct Spiral {
    pub line: usize,
    pub length: f64,
    /// How many samples it needs; one that alone needs too many is counted no further.
    pub samples: usize,
}

/// Passes where the condition holds; else puts the fault together.
#[inline]
pub fn check<F>(holds: bool, fault: impl FnOnce() -> F) -> Result<(), F> {
    if holds { Ok(()) } else { Err(fault()) }
}

impl Wrong {
    pub fn new(place: Place, reason: Reason) -> Box<Self> {
        Box::new(Self { place, reason })
    }
}

impl Fault {
    /// Makes a fault of that row of what is wrong.
    pub fn of_row(row: u32) -> impl Fn(Box<Wrong>) -> Self {
        move |wrong| Self { row, wrong, tables: None }
    }

    /// The fault of a road that was read from a text with its tables there.
    pub fn in_text(self, tables: Tables) -> Self {
        Self { tables: Some(Box::new(tables)), ..self }
    }

    pub fn place(&self) -> Place {
        self.wrong.place
    }

    pub fn reason(&self) -> &Reason {
        &self.wrong.reason
    }
}
