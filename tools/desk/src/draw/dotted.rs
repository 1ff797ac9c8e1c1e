//! Dots, where they are asked for: spots on the outer border of their lane.
use std::collections::HashSet;

use super::ground::Ground;
use super::paint;
use super::plane::Point;
use super::scale::short;
use super::style::SPOT;
use super::subject::Subject;
use super::svg::Svg;
use crate::arguments::Failure;
use crate::dots::Dotting;

/// The dots of a lane: the station of each, and its place from the picture's origin.
pub struct Dotted {
    asked: Dotting,
    dots: Vec<(f64, Point)>,
}

impl Dotted {
    pub fn of(subject: &Subject, asked: Dotting) -> Result<Self, Failure> {
        let (stations, extent) = subject.dots(asked)?;
        let section = &subject.model.sections[asked.section];
        let lane = asked.place(section.left.len());
        let place = |s: f64| Some(subject.place(s, paint::outer_at(subject, section, lane, s)?));
        let dots = stations.into_iter().filter_map(|s| Some((s, place(extent.held(s)?)?))).collect();
        Ok(Self { asked, dots })
    }

    /// How many, and of what.
    pub fn words(&self) -> String {
        let Dotting { section, lane, spacing } = self.asked;
        let dots = if self.dots.len() == 1 { "dot" } else { "dots" };
        format!("{} {dots} every {} m: section {section}, lane {lane}", self.dots.len(), short(spacing.into()))
    }
}

impl Ground<'_> {
    /// Spots that would cover each other are one.
    pub fn dots(&self, svg: &mut Svg, dotted: &Dotted) {
        let mut taken = HashSet::new();
        let cell = |p: &Point| [p.x, p.y].map(|x| (2.0 * x / SPOT).floor() as i32);
        let places = dotted.dots.iter().filter(|(s, _)| self.has(*s)).map(|(_, place)| self.view.paper(*place));
        let spots: Vec<Point> = places.filter(|p| self.view.frame.has(*p) && taken.insert(cell(p))).collect();
        svg.dots("spot", &spots);
    }
}
