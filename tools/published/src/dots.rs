// Dots at equal spacing: `along` and `station_at` of the published road.rs over its own points of a lane's outer border. Both measure by
// coords.rs, so the f32 root of document 02 is in them (patch.rs). The Rust has no spans: they are those of package `second`.
use super::coords::Point;
use super::oracle::Oracle;
use super::road;
use second::model;

/// 02: "more than 65,536 multiples".
const MOST: usize = 65_536;

/// A lane's outer border as a line of points, each at a road station.
pub struct DottedLine<'a> {
    points: Vec<Point>,
    stations: &'a [f64],
}

impl<'a> DottedLine<'a> {
    /// Of a lane of the section that is named: at the last of its stations the Rust itself would take the next section. Two stations at
    /// least.
    pub fn new(oracle: &Oracle, section: usize, id: i32, stations: &'a [f64]) -> Self {
        let point = |&s: &f64| {
            let t = oracle.outer(section, id, s).expect("a lane of the section");
            Point::from_array(oracle.lane_surface(section, id, s, t).0)
        };
        Self { points: stations.iter().map(point).collect(), stations }
    }

    /// Three f32 a point.
    pub fn numbers(&self) -> Vec<f32> {
        self.points.iter().flat_map(|p| p.to_array()).collect()
    }

    pub fn along(&self, s: f64) -> f32 {
        road::along(&self.points, self.stations, s)
    }

    pub fn station_at(&self, arc: f32) -> f64 {
        road::station_at(&self.points, self.stations, arc)
    }

    pub fn length(&self) -> f32 {
        self.along(self.stations[self.stations.len() - 1])
    }

    /// How many multiples of a spacing there are, counted to one more than there may be.
    pub fn multiples(&self, spacing: f32) -> usize {
        let length = self.length();
        (0..=MOST).take_while(|&k| k as f32 * spacing <= length).count()
    }

    /// The stations of the multiples that a span of kind 1 covers; none where the multiples are too many. The lane is known to the
    /// spans by its place in its section.
    pub fn dots(&self, section: &model::Section, place: usize, spacing: f32) -> Option<Vec<f64>> {
        let multiples = self.multiples(spacing);
        let dotted = |s: &f64| {
            let d = s - section.start;
            section.marks.iter().any(|m| m.lane == place && m.kind == 1 && d >= m.start && d < m.end)
        };
        let stations = (0..multiples).map(|k| self.station_at(k as f32 * spacing));
        (multiples <= MOST).then(|| stations.filter(dotted).collect())
    }
}
