//! A writer of SVG elements. Text is escaped, numbers are rounded to hundredths of a unit.
use std::fmt::Write;

use super::plane::{Point, Rect};

pub struct Svg {
    text: String,
    open: Vec<&'static str>,
    clips: usize,
}

/// Where a text stands to its point.
#[derive(Debug, Clone, Copy, PartialEq)]
pub enum Anchor {
    Start,
    Middle,
    End,
}

/// Text as it may stand in an element or an attribute. What no XML document may hold becomes a replacement character.
pub fn escaped(words: &str) -> String {
    let mut out = String::with_capacity(words.len());
    for c in words.chars() {
        match c {
            '&' => out.push_str("&amp;"),
            '<' => out.push_str("&lt;"),
            '>' => out.push_str("&gt;"),
            '"' => out.push_str("&quot;"),
            '\'' => out.push_str("&#39;"),
            c if c.is_control() || matches!(c, '\u{fffe}' | '\u{ffff}') => out.push('\u{fffd}'),
            c => out.push(c),
        }
    }
    out
}

/// A coordinate: at most two decimals, none that say nothing.
pub fn number(x: f64) -> String {
    let text = format!("{x:.2}");
    let text = text.trim_end_matches('0').trim_end_matches('.');
    if text == "-0" { "0".into() } else { text.into() }
}

fn outline(points: &[Point]) -> String {
    let mut data = String::new();
    for (i, p) in points.iter().enumerate() {
        let command = if i == 0 { "M" } else { " " };
        let _ = write!(data, "{command}{},{}", number(p.x), number(p.y));
    }
    data
}

impl Svg {
    pub fn new(width: f64, height: f64, title: &str, style: &str) -> Self {
        let mut svg = Self { text: String::new(), open: vec!["svg"], clips: 0 };
        let (w, h) = (number(width), number(height));
        svg.put(&format!("<svg xmlns=\"http://www.w3.org/2000/svg\" viewBox=\"0 0 {w} {h}\">"));
        svg.put(&format!("<title>{}</title>", escaped(title)));
        svg.put(&format!("<style>{style}</style>"));
        svg.put(&format!("<rect width=\"{w}\" height=\"{h}\" fill=\"#fff\"/>"));
        svg
    }

    fn put(&mut self, line: &str) {
        self.text.push_str(line);
        self.text.push('\n');
    }

    /// A group that is seen only within the rectangle, until `close`.
    pub fn clipped(&mut self, to: Rect) {
        self.clips += 1;
        let id = self.clips;
        self.put(&format!("<clipPath id=\"clip{id}\"><rect {}/></clipPath>", sides(to)));
        self.put(&format!("<g clip-path=\"url(#clip{id})\">"));
        self.open.push("g");
    }

    pub fn close(&mut self) {
        if let Some(name) = self.open.pop() {
            self.put(&format!("</{name}>"));
        }
    }

    pub fn line(&mut self, class: &str, from: Point, to: Point) {
        self.path(class, &outline(&[from, to]));
    }

    pub fn lines(&mut self, class: &str, lines: &[Vec<Point>]) {
        let data: String = lines.iter().filter(|l| l.len() > 1).map(|l| outline(l)).collect();
        if !data.is_empty() {
            self.path(class, &data);
        }
    }

    /// Lines of no length: their round ends are dots. Many short paths, since one of thousands is slow to draw.
    pub fn dots(&mut self, class: &str, points: &[Point]) {
        const PART: usize = 100;
        for part in points.chunks(PART) {
            let data: String = part.iter().map(|p| format!("M{},{}h0", number(p.x), number(p.y))).collect();
            self.path(class, &data);
        }
    }

    pub fn area(&mut self, class: &str, points: &[Point]) {
        if points.len() > 2 {
            self.path(class, &(outline(points) + "Z"));
        }
    }

    fn path(&mut self, class: &str, data: &str) {
        self.put(&format!("<path class=\"{}\" d=\"{data}\"/>", escaped(class)));
    }

    pub fn circle(&mut self, class: &str, at: Point, radius: f64) {
        let (x, y, r) = (number(at.x), number(at.y), number(radius));
        self.put(&format!("<circle class=\"{}\" cx=\"{x}\" cy=\"{y}\" r=\"{r}\"/>", escaped(class)));
    }

    pub fn rect(&mut self, class: &str, r: Rect) {
        self.put(&format!("<rect class=\"{}\" {}/>", escaped(class), sides(r)));
    }

    /// One line of text; its point is on the line that the letters stand on.
    pub fn words(&mut self, class: &str, anchor: Anchor, at: Point, words: &str) {
        let anchor = match anchor {
            Anchor::Start => "",
            Anchor::Middle => " text-anchor=\"middle\"",
            Anchor::End => " text-anchor=\"end\"",
        };
        let (x, y) = (number(at.x), number(at.y));
        self.put(&format!("<text class=\"{}\" x=\"{x}\" y=\"{y}\"{anchor}>{}</text>", escaped(class), escaped(words)));
    }

    pub fn finish(mut self) -> String {
        while !self.open.is_empty() {
            self.close();
        }
        self.text
    }
}

fn sides(r: Rect) -> String {
    let [x, y, w, h] = [r.left, r.top, r.width.max(0.0), r.height.max(0.0)].map(number);
    format!("x=\"{x}\" y=\"{y}\" width=\"{w}\" height=\"{h}\"")
}

#[cfg(test)]
mod tests {
    use super::*;

    #[test]
    fn what_xml_reserves_is_escaped() {
        assert_eq!(escaped("a<b>&\"c'"), "a&lt;b&gt;&amp;&quot;c&#39;");
        assert_eq!(escaped("a\u{1}b\nc"), "a\u{fffd}b\u{fffd}c");
        assert_eq!(escaped("Straße.job"), "Straße.job");
    }

    #[test]
    fn numbers_are_short() {
        assert_eq!(number(1.0), "1");
        assert_eq!(number(-0.001), "0");
        assert_eq!(number(-12.345), "-12.35");
        assert_eq!(number(100.10), "100.1");
    }

    #[test]
    fn what_was_opened_is_closed() {
        let mut svg = Svg::new(10.0, 20.0, "t", "");
        svg.clipped(Rect::new(0.0, 0.0, 1.0, 1.0));
        let text = svg.finish();
        assert_eq!(text.matches("<g").count(), text.matches("</g>").count());
        assert!(text.trim_end().ends_with("</svg>"));
    }
}
