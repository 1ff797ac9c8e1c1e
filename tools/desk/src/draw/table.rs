//! The column beside the plan: legend, wants, and what else is worth knowing.
use super::dotted::Dotted;
use super::jumps::Jump;
use super::paint::Paint;
use super::plane::{Point, Rect};
use super::scale::{column, short};
use super::style::{self, KINDS};
use super::subject::Want;
use super::svg::{Anchor, Svg};

const ROW: f64 = 15.0;
const HEADING: f64 = 20.0;
/// A sample of a line in the legend, and where its words begin.
const SAMPLE: f64 = 30.0;
const WORDS: f64 = 38.0;

/// Where the columns of the wants end, from the left: s, t, x, y, z.
const ENDS: [f64; 5] = [80.0, 130.0, 207.0, 284.0, 340.0];
const NAMES: [&str; 5] = ["s", "t", "x", "y", "z"];

/// Writes from top to bottom.
pub struct Column<'a> {
    pub svg: &'a mut Svg,
    pub panel: Rect,
    /// How far down it is written.
    pub down: f64,
}

impl Column<'_> {
    fn heading(&mut self, words: &str) {
        self.svg.words("heading", Anchor::Start, Point::new(self.panel.left, self.panel.top + self.down + style::HEADING), words);
        self.down += HEADING;
    }

    /// The next row's left end, on the line that its letters stand on.
    fn row(&mut self) -> Point {
        self.down += ROW;
        Point::new(self.panel.left, self.panel.top + self.down - 3.0)
    }

    fn rows_left(&self) -> usize {
        ((self.panel.height - self.down) / ROW).max(0.0) as usize
    }

    pub fn legend(&mut self) {
        const LINES: [(&str, &str); 7] = [
            (KINDS[0], "reference line: line"),
            (KINDS[1], "arc"),
            (KINDS[2], "spiral"),
            ("base", "base"),
            ("section", "section start, number"),
            ("at", "cross section"),
            ("mark", "mark of s"),
        ];
        const SPOTS: [(&str, &str); 3] = [("geometry", "geometry start"), ("want", "want"), ("jump", "jump or turn")];
        self.heading("Legend");
        let top = self.down;
        for (i, (class, words)) in LINES.iter().enumerate() {
            let at = self.entry(top, i);
            let (from, to) = if *class == "mark" {
                (at.moved(15.0, -8.0), at.moved(15.0, 0.0))
            } else {
                (at.moved(0.0, -4.0), at.moved(SAMPLE, -4.0))
            };
            self.svg.line(class, from, to);
            self.svg.words("label", Anchor::Start, at.moved(WORDS, 0.0), words);
        }
        for (i, (class, words)) in SPOTS.iter().enumerate() {
            let at = self.entry(top, LINES.len() + i);
            self.svg.circle(class, at.moved(SAMPLE / 2.0, -4.0), if *class == "jump" { 5.0 } else { 3.0 });
            self.svg.words("label", Anchor::Start, at.moved(WORDS, 0.0), words);
        }
        self.areas(top);
        self.down = top + 6.0 * ROW + 8.0;
    }

    /// The colours of paint, two a row, below the rest of the legend.
    pub fn paint(&mut self, paint: &Paint) {
        for pair in paint.legend().chunks(2) {
            let at = self.row();
            for ((class, words), left) in pair.iter().zip([0.0, self.panel.width / 2.0]) {
                self.svg.line(class, at.moved(left, -4.0), at.moved(left + SAMPLE, -4.0));
                self.svg.words("label", Anchor::Start, at.moved(left + WORDS, 0.0), words);
            }
        }
        self.down += if paint.is_none() { 0.0 } else { 8.0 };
    }

    /// The dots that were asked for, below the colours of paint.
    pub fn dots(&mut self, dotted: &Dotted) {
        let at = self.row();
        self.svg.dots("spot", &[0.0, 0.5, 1.0].map(|part| at.moved(SAMPLE * part, -4.0)));
        self.svg.words("label", Anchor::Start, at.moved(WORDS, 0.0), &dotted.words());
        self.down += 8.0;
    }

    /// The place of an entry of the legend: two columns of six.
    fn entry(&self, top: f64, i: usize) -> Point {
        let (across, down) = (i / 6, i % 6);
        let left = self.panel.left + self.panel.width / 2.0 * across as f64;
        Point::new(left, self.panel.top + top + (down as f64 + 1.0) * ROW - 3.0)
    }

    fn areas(&mut self, top: f64) {
        for (i, (classes, words)) in
            [(["left-a", "left-b"], "left lanes"), (["right-a", "right-b"], "right lanes")].into_iter().enumerate()
        {
            let at = self.entry(top, 10 + i);
            for (k, class) in classes.into_iter().enumerate() {
                let half = SAMPLE / 2.0;
                self.svg.rect(class, Rect::new(at.x + half * k as f64, at.y - 9.0, half, 10.0));
            }
            self.svg.words("label", Anchor::Start, at.moved(WORDS, 0.0), words);
        }
    }

    pub fn wants(&mut self, wants: &[Want], decimals: usize) {
        self.heading(if wants.is_empty() { "No wants" } else { "Wants, m" });
        if wants.is_empty() {
            return;
        }
        let at = self.row();
        for (end, name) in ENDS.iter().zip(NAMES) {
            self.svg.words("quiet", Anchor::End, at.moved(*end, 0.0), name);
        }
        for (number, want) in wants.iter().enumerate() {
            let at = self.row();
            self.svg.words("small want-name", Anchor::Start, at, &format!("w{number}"));
            self.want(at, want, decimals);
        }
        self.down += 8.0;
    }

    fn want(&mut self, at: Point, want: &Want, decimals: usize) {
        let mut cells = vec![column(want.s, decimals), column(want.t, 3)];
        match &want.answer {
            // Narrowed numbers over a thousand have no more decimals than three.
            Ok(p) => cells.extend([p.x, p.y, p.z].map(|v| column(v.into(), if v.abs() < 1000.0 { decimals } else { 3 }))),
            Err(refusal) => {
                let words = refused(refusal.number(), want, &cells);
                self.svg.words("small bad", Anchor::Start, at.moved(ENDS[1] + 12.0, 0.0), &words);
            }
        }
        for (end, cell) in ENDS.iter().zip(cells) {
            self.svg.words("small", Anchor::End, at.moved(*end, 0.0), &cell);
        }
    }

    /// As many jumps as there is room for, and what else was found.
    pub fn notes(&mut self, jumps: &[Jump], coarse: Option<f64>, paint: &Paint) {
        if let Some(step) = coarse {
            let at = self.row();
            let without = if paint.is_none() { "no lanes" } else { "no lanes, no paint" };
            self.svg.words(
                "small bad",
                Anchor::Start,
                at,
                &format!("Curves too tight for this plan: dots every {} m, {without}.", short(step)),
            );
            self.down += if self.rows_left() < 3 { 0.0 } else { 6.0 };
        }
        if jumps.is_empty() {
            return;
        }
        let found = format!("Reference line, worth a look: {}", jumps.len());
        if self.rows_left() < 3 {
            let at = self.row();
            self.svg.words("small", Anchor::Start, at, &found);
            return;
        }
        self.heading(&found);
        let room = self.rows_left();
        let shown = if jumps.len() > room { room.saturating_sub(1) } else { jumps.len() };
        for jump in &jumps[..shown] {
            let at = self.row();
            self.svg.words("small", Anchor::Start, at, &format!("s {}: {}", short(jump.s), jump.text));
        }
        if shown < jumps.len() {
            let at = self.row();
            self.svg.words("small", Anchor::Start, at, &format!("and {} more", jumps.len() - shown));
        }
    }
}

/// Why a want is refused, with the number at fault in full where its cell rounds it.
fn refused(number: u32, want: &Want, cells: &[String]) -> String {
    let (name, value, cell, words) = match number {
        7 => ("s", want.s, &cells[0], "s is off the road"),
        8 => ("t", want.t, &cells[1], "t is outside -80..80"),
        _ => return format!("refused {number}"),
    };
    let rounded = value.is_finite() && cell.parse() != Ok(value);
    if rounded { format!("refused {number}: {name} is {value:e}") } else { format!("refused {number}: {words}") }
}

#[cfg(test)]
mod tests {
    use super::*;
    use crate::draw::labels;
    use riftkettle::Refusal;
    use second::model::{Mark, Road, Section};

    #[test]
    fn two_entries_of_paint_fit_in_a_row() {
        for kinds in [200..=207, 200..=255] {
            let marks = kinds.map(|kind| Mark { lane: 0, kind, start: 0.0, end: 1.0 }).collect();
            let road = Road { sections: vec![Section { marks, ..Section::default() }], ..Road::default() };
            for (_, words) in Paint::of(&road).legend() {
                assert!(labels::width(&words, style::LABEL) <= ENDS[4] / 2.0 - WORDS, "{words}");
            }
        }
    }

    #[test]
    fn a_refused_number_is_not_hidden_by_rounding() {
        let want = |s, t| Want { s, t, answer: Err(Refusal::Station) };
        let words = |number, s, t| refused(number, &want(s, t), &[column(s, 3), column(t, 3)]);
        assert_eq!(words(7, 200.0, 0.0), "refused 7: s is off the road");
        assert_eq!(words(7, -1e-12, 0.0), "refused 7: s is -1e-12");
        assert_eq!(words(7, f64::NAN, 0.0), "refused 7: s is off the road");
        assert_eq!(words(8, 1.0, 80.0000001), "refused 8: t is 8.00000001e1");
    }
}
