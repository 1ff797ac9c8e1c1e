// The published line of points, asked through plain numbers: three f32 a point. The f32 root of document 02 is in it (patch.rs).
use super::coords::Point;
use super::geometry::Polyline;

pub struct Track(Polyline);

impl Track {
    /// Three f32 a point, at least two points.
    pub fn new(points: &[f32]) -> Track {
        let point = |p: &[f32]| Point::new(p[0], p[1], p[2]);
        Track(Polyline::try_new(points.chunks_exact(3).map(point).collect()).expect("two points at least"))
    }

    /// Three numbers a point.
    pub fn tangents(&self) -> Vec<f32> {
        self.0.tangents().iter().flat_map(|t| t.to_array()).collect()
    }

    /// The tangents without a list of their own, for the benchmark: no memory is made.
    pub fn list_tangents(&self, list: &mut [f32]) {
        for (t, to) in self.0.tangents().iter().zip(list.chunks_exact_mut(3)) {
            to.copy_from_slice(&t.to_array());
        }
    }

    /// Position and heading.
    pub fn pose_at(&self, s: f32) -> [f32; 6] {
        let pose = self.0.pose_at(s);
        let ([x, y, z], [hx, hy, hz]) = (pose.position.to_array(), pose.heading.to_array());
        [x, y, z, hx, hy, hz]
    }

    /// s, the foot's x, y and z, and the offset.
    pub fn project(&self, at: [f32; 3]) -> [f32; 5] {
        let found = self.0.project(Point::from_array(at));
        [found.s, found.point.x, found.point.y, found.point.z, found.offset]
    }

    pub fn length(&self) -> f32 {
        self.0.length()
    }
}
