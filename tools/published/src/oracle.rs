// The published Rust, asked through plain types. Document 01's stand-ins are in it (patch.rs); nothing else is changed.
use super::road;
use super::stand_ins::{self, Given};
use second::model::{self, Shape};

pub struct Oracle(road::Road);

fn cubics(list: &[model::Cubic]) -> Vec<road::Cubic> {
    list.iter().map(|c| road::Cubic { start: c.start, a: c.a, b: c.b, c: c.c, d: c.d }).collect()
}

fn geom(g: &model::Geom) -> road::GeomRec {
    let shape = match g.shape {
        Shape::Line => road::GeomShape::Line,
        Shape::Arc(curvature) => road::GeomShape::Arc { curvature },
        Shape::Spiral(curv_start, curv_end) => road::GeomShape::Spiral { curv_start, curv_end },
    };
    road::GeomRec::new(g.s, g.x, g.y, g.hdg, g.length, shape)
}

fn lane(id: i32, l: &model::Lane) -> road::LaneGeom {
    let heights = l.heights.iter().map(|h| road::HeightDef { s_offset: h.start, inner: h.inner, outer: h.outer });
    let extent = if l.border { road::LaneExtent::Border } else { road::LaneExtent::Width };
    road::LaneGeom { id, extent: extent(cubics(&l.extents)), heights: heights.collect(), level: l.level }
}

fn strip(s: &model::Strip) -> road::Strip {
    let [width, terms @ ..] = s.lists.each_ref().map(|l| cubics(l));
    road::Strip { width, terms, relative: s.relative }
}

fn sections(r: &model::Road) -> Vec<road::RoadSection> {
    let ends = r.sections.iter().skip(1).map(|s| s.start).chain([r.length]);
    let side = |lanes: &[model::Lane], sign: i32| (1..).zip(lanes).map(|(i, l)| lane(sign * i, l)).collect();
    let section = |(index, (s, end)): (usize, (&model::Section, f64))| road::RoadSection {
        index,
        start: s.start,
        end,
        stations: Vec::new(),
        left: side(&s.left, 1),
        right: side(&s.right, -1),
        lanes: Vec::new(),
        // Points, borders and their sizes are unaffected by spans.
        marks: Vec::new(),
    };
    r.sections.iter().zip(ends).enumerate().map(section).collect()
}

impl Oracle {
    pub fn new(r: &model::Road) -> Self {
        let [li, lo, ri, ro] = r.strips.each_ref().map(|s| s.as_ref().map(strip));
        let crossed = !r.tshift.is_empty() || r.strips.iter().any(Option::is_some);
        let surface = road::CrossSection { t_offset: cubics(&r.tshift), left: [li, lo], right: [ri, ro] };
        let profiles = r.profiles.iter().map(|p| road::ShapeProfile { s: p.s, shapes: cubics(&p.shapes) });
        Self(road::Road {
            id: road::RoadId(0),
            od_id: String::new(),
            junction: None,
            length: r.length,
            rule: road::TrafficRule::RightHand,
            geoms: r.geoms.iter().map(geom).collect(),
            elevations: cubics(&r.elev),
            superelevations: cubics(&r.bank),
            lateral: road::Lateral { profiles: profiles.collect(), surface: crossed.then_some(surface) },
            lane_offsets: cubics(&r.offset),
            sections: sections(r),
        })
    }

    /// The road with samples that somebody lent. Where they were not made from it, ask it within `stand_ins::by_count`.
    pub fn with_samples(r: &model::Road, lent: &[f64]) -> Self {
        let (mut oracle, mut lent) = (Self::new(r), lent.chunks_exact(4));
        for to in oracle.0.geoms.iter_mut().flat_map(|g| &mut g.samples) {
            let p = lent.next().expect("as many samples as the road needs");
            *to = (p[0], p[1], p[2], p[3]);
        }
        oracle
    }

    /// The samples of all geometries in order, four numbers each.
    pub fn samples(&self) -> Vec<f64> {
        self.0.geoms.iter().flat_map(|g| &g.samples).flat_map(|&(u, x, y, h)| [u, x, y, h]).collect()
    }

    pub fn pose(&self, geometry: usize, s: f64) -> [f64; 3] {
        let (x, y, heading) = self.0.geoms[geometry].pose(s);
        [x, y, heading]
    }

    // ---- across the road

    /// The number of the section at s.
    pub fn section_at(&self, s: f64) -> usize {
        self.0.section_at(s).expect("a road has a section").index
    }

    /// The t of the center lane at s.
    pub fn base(&self, s: f64) -> f64 {
        self.0.base(s)
    }

    /// The lateral shape at (s, t).
    pub fn shape_at(&self, s: f64, t: f64) -> f64 {
        road::shape_at(&self.0.lateral.profiles, s, t)
    }

    /// The height of the cross section at (s, t); 0 on a road without.
    pub fn cross_section(&self, s: f64, t: f64, toward: f64) -> f64 {
        self.0.lateral.surface.as_ref().map_or(0.0, |c| c.height(s, t, toward))
    }

    pub fn height_toward(&self, s: f64, t: f64, toward: f64) -> f64 {
        self.0.lateral.height_toward(s, t, toward)
    }

    pub fn height(&self, s: f64, t: f64) -> f64 {
        self.0.lateral.height(s, t)
    }

    /// Whether the road is flat across.
    pub fn is_flat(&self) -> bool {
        self.0.lateral.is_empty()
    }

    // ---- lanes of a section, left outward, then right

    /// Whether a lane of the section has heights or is level.
    pub fn raised(&self, section: usize) -> bool {
        self.0.sections[section].raised()
    }

    /// Inner, outer and width of each lane.
    pub fn borders(&self, section: usize, s: f64) -> Vec<[f64; 3]> {
        let (section, base) = (&self.0.sections[section], self.0.base(s));
        let side = |(lanes, sign)| road::side_borders(lanes, sign, base, s - section.start);
        sides(section).into_iter().flat_map(side).map(|b| [b.inner, b.outer, b.width]).collect()
    }

    /// The outer border at s of a lane of the section that is named, which need not be the one at s; none where it has no such lane.
    pub fn outer(&self, section: usize, id: i32, s: f64) -> Option<f64> {
        let (section, base) = (self.0.sections.get(section)?, self.0.base(s));
        let [left, right] = sides(section);
        let (lanes, sign) = if id > 0 { left } else { right };
        let mut borders = road::side_borders(lanes, sign, base, s - section.start);
        borders.nth((id.unsigned_abs() as usize).checked_sub(1)?).map(|b| b.outer)
    }

    /// Writes the borders at s, three numbers a lane, and answers how many lanes there are. For the benchmark: no memory is made.
    pub fn list_borders(&self, s: f64, list: &mut [f64]) -> usize {
        let (section, base) = (self.0.section_at(s).expect("a road has a section"), self.0.base(s));
        let side = |(lanes, sign)| road::side_borders(lanes, sign, base, s - section.start);
        let mut lanes = 0;
        for (b, to) in sides(section).into_iter().flat_map(side).zip(list.chunks_exact_mut(3)) {
            to.copy_from_slice(&[b.inner, b.outer, b.width]);
            lanes += 1;
        }
        lanes
    }

    /// The lane of that id across the road, as `lane_surface` finds it.
    pub fn lane(&self, section: usize, id: i32, s: f64) -> Option<[f64; 4]> {
        self.0.across(&self.0.sections[section], s).find(|a| a.od_id == id).map(|a| Across(a).numbers())
    }

    /// The heights of each lane at its inner and outer border, with a tangent that is given in place of the bank's.
    pub fn heights(&self, section: usize, s: f64, tangent: f64) -> Vec<[f64; 2]> {
        let (section, base, lateral) = (&self.0.sections[section], self.0.base(s), &self.0.lateral);
        let into = s - section.start;
        let mut all = Vec::new();
        for (lanes, sign) in sides(section) {
            let borders = road::side_borders(lanes, sign, base, into);
            let heights = road::side_heights(lanes, sign, lateral, (s, into), base, Given(tangent), borders);
            all.extend(heights.map(|(inner, outer)| [inner, outer]));
        }
        all
    }

    /// Each lane across the road, with a tangent that is given in place of the bank's.
    pub fn across_by(&self, section: usize, s: f64, tangent: f64) -> Vec<Across> {
        let ids = sides(&self.0.sections[section]).into_iter().flat_map(|(lanes, _)| lanes).map(|l| l.id);
        let (borders, heights) = (self.borders(section, s), self.heights(section, s, tangent));
        let lane = |((od_id, b), h): ((i32, [f64; 3]), [f64; 2])| {
            Across(road::Across { od_id, inner_t: b[0], outer_t: b[1], inner_height: h[0], outer_height: h[1] })
        };
        ids.zip(borders).zip(heights).map(lane).collect()
    }

    /// Each lane across the road as the Rust itself puts it together, with the bank's tangent.
    pub fn across(&self, section: usize, s: f64) -> Vec<Across> {
        self.0.across(&self.0.sections[section], s).map(Across).collect()
    }

    /// The id of the lane at (s, t), as `surface` finds it.
    pub fn lane_at(&self, section: usize, s: f64, t: f64) -> Option<i32> {
        self.0.lane_at(&self.0.sections[section], s, t).map(|a| a.od_id)
    }

    // ---- points

    /// The point in f32 and the reference line's heading.
    pub fn surface(&self, s: f64, t: f64) -> ([f32; 3], f64) {
        let (point, heading) = self.0.surface(s, t);
        (point.to_array(), heading)
    }

    /// s, x, y, heading, z, grade, bank and the bank's rate.
    pub fn station(&self, s: f64) -> [f64; 8] {
        let p = self.0.station(s);
        [p.s, p.x, p.y, p.heading, p.z, p.grade, p.bank, p.bank_rate]
    }

    /// Along, across and up.
    pub fn axes(&self, s: f64) -> [f64; 9] {
        let a = self.0.axes(s);
        std::array::from_fn(|i| a[i / 3][i % 3])
    }

    /// The point before it narrows, and the heading.
    pub fn xyz(&self, s: f64, t: f64) -> [f64; 4] {
        let (p, h) = self.0.surface_xyz(s, t);
        [p[0], p[1], p[2], h]
    }

    pub fn lane_surface(&self, section: usize, id: i32, s: f64, t: f64) -> ([f32; 3], f64) {
        let (point, heading) = self.0.lane_surface(&self.0.sections[section], id, s, t);
        (point.to_array(), heading)
    }

    /// The pair, and how many moves were made.
    pub fn locate(&self, x: f64, y: f64, guess: f64) -> ([f64; 2], u32) {
        stand_ins::take_moves();
        let (s, t) = self.0.locate(x, y, guess);
        ([s, t], stand_ins::take_moves())
    }
}

/// The lanes of a section from the center outward, with the sign of their side.
fn sides(section: &road::RoadSection) -> [(&[road::LaneGeom], f64); 2] {
    [(&section.left, 1.0), (&section.right, -1.0)]
}

/// One lane across the road at a station.
pub struct Across(road::Across);

impl Across {
    pub fn id(&self) -> i32 {
        self.0.od_id
    }

    /// Inner and outer border, then the heights there.
    pub fn numbers(&self) -> [f64; 4] {
        [self.0.inner_t, self.0.outer_t, self.0.inner_height, self.0.outer_height]
    }

    /// The height at t, straight across the lane and on past its borders.
    pub fn height(&self, t: f64) -> f64 {
        self.0.height(t)
    }

    /// The height at t with the fraction across the lane kept to 0..1.
    pub fn kept_height(&self, t: f64) -> f64 {
        stand_ins::kept_height(&self.0, t)
    }
}

/// A list of cubic records by itself.
pub struct Records(Vec<road::Cubic>);

impl Records {
    pub fn new(list: &[model::Cubic]) -> Self {
        Self(cubics(list))
    }

    pub fn eval(&self, i: usize, s: f64) -> f64 {
        self.0[i].eval(s)
    }

    pub fn slope(&self, i: usize, s: f64) -> f64 {
        self.0[i].slope(s)
    }

    /// The number of the active record.
    pub fn active(&self, s: f64) -> Option<usize> {
        let place = |found| std::ptr::from_ref::<road::Cubic>(found).addr() - self.0.as_ptr().addr();
        road::active(&self.0, s).map(|found| place(found) / size_of::<road::Cubic>())
    }
}

/// One geometry by itself, for the benchmark.
pub struct Line(road::GeomRec);

impl Line {
    pub fn new(g: &model::Geom) -> Self {
        Self(geom(g))
    }

    pub fn pose(&self, s: f64) -> (f64, f64, f64) {
        self.0.pose(s)
    }

    pub fn samples(&self) -> usize {
        self.0.samples.len()
    }
}
