// Puts the stand-ins of documents 01 and 02 into copies of the published road.rs, coords.rs and geometry.rs. Part of build.rs.
//
// Each entry below is a whole line of the published file, how often it must stand there, and what takes its place. A line that
// is not found that often is an error, and so is a call of a library function that is left over.
struct Change {
    line: &'static str,
    times: usize,
    by: &'static str,
}

const fn change(line: &'static str, times: usize, by: &'static str) -> Change {
    Change { line, times, by }
}

const ROAD: &[Change] = &[
    // 01, "Stand-ins": sine, cosine, tangent, root and hypot.
    change(
        "                let x = self.x + (h.sin() - self.hdg.sin()) / curvature;",
        1,
        "                let x = self.x + (crate::stand_ins::sin(h) - crate::stand_ins::sin(self.hdg)) / curvature;",
    ),
    change(
        "                let y = self.y - (h.cos() - self.hdg.cos()) / curvature;",
        1,
        "                let y = self.y - (crate::stand_ins::cos(h) - crate::stand_ins::cos(self.hdg)) / curvature;",
    ),
    change("                self.x + ds * self.hdg.cos(),", 1, "                self.x + ds * crate::stand_ins::cos(self.hdg),"),
    change("                self.y + ds * self.hdg.sin(),", 1, "                self.y + ds * crate::stand_ins::sin(self.hdg),"),
    change("        x += theta_mid.cos() * step;", 1, "        x += crate::stand_ins::cos(theta_mid) * step;"),
    change("        y += theta_mid.sin() * step;", 1, "        y += crate::stand_ins::sin(theta_mid) * step;"),
    change("    let (sin, cos) = hdg0.sin_cos();", 1, "    let (sin, cos) = crate::stand_ins::sin_cos(hdg0);"),
    change(
        "        ds += ((x - px).powi(2) + (y - py).powi(2)).sqrt();",
        1,
        "        ds += crate::stand_ins::root((x - px).powi(2) + (y - py).powi(2));",
    ),
    change(
        "                    *outer - sign * b.width * phi.tan() + own_outer,",
        1,
        "                    *outer - sign * b.width * phi.tangent() + own_outer,",
    ),
    change(
        "        let (sin_phi, cos_phi) = phi.sin_cos();",
        1,
        "        let (sin_phi, cos_phi) = crate::stand_ins::sin_cos(phi);",
    ),
    change(
        "        let point = [x - t_h * hdg.sin(), y + t_h * hdg.cos(), elev + t * sin_phi];",
        1,
        "        let point = [x - t_h * crate::stand_ins::sin(hdg), y + t_h * crate::stand_ins::cos(hdg), elev + t * sin_phi];",
    ),
    change(
        "        let mut t = ((y - ry) * hdg.cos() - (x - rx) * hdg.sin()) / phi.cos();",
        1,
        "        let mut t = ((y - ry) * crate::stand_ins::cos(hdg) - (x - rx) * crate::stand_ins::sin(hdg)) / crate::stand_ins::cos(phi);",
    ),
    change(
        "            if r[0].hypot(r[1]) < LOCATE_TOLERANCE {",
        1,
        "            if crate::stand_ins::hypot(r[0], r[1]) < LOCATE_TOLERANCE {",
    ),
    change("        let (sin_h, cos_h) = hdg.sin_cos();", 1, "        let (sin_h, cos_h) = crate::stand_ins::sin_cos(hdg);"),
    change("        let (sin_p, cos_p) = phi.sin_cos();", 1, "        let (sin_p, cos_p) = crate::stand_ins::sin_cos(phi);"),
    change(
        "    let length = v.iter().map(|c| c * c).sum::<f64>().sqrt();",
        1,
        "    let length = crate::stand_ins::root(v.iter().map(|c| c * c).sum::<f64>());",
    ),
    // 01, "Values": in `surface` the fraction across the lane is kept to 0..1, "on the Rust side too".
    change(
        "                |a| a.height(t.clamp(a.inner_t.min(a.outer_t), a.inner_t.max(a.outer_t))),",
        1,
        "                |a| crate::stand_ins::kept_height(&a, t),",
    ),
    // 01, "Values": on a spiral the distance is raised to 0, then lowered to the last sample's, and the segment starts by the count
    // of leading samples. The published `clamp` and search do the same where the samples were made from the road.
    change("                let ds = ds.clamp(0.0, max);", 1, "                let ds = crate::stand_ins::held(ds, max);"),
    change("                let i = samples", 1, "                let i = crate::stand_ins::leading(samples, ds)"),
    change("                    .partition_point(|p| p.0 <= ds)", 1, ""),
    // No change of behaviour: `side_heights` also takes a tangent in place of the angle, the samples and the point before it narrows
    // are read from outside the file, and `locate` counts its moves.
    change("    phi: f64,", 1, "    phi: impl crate::stand_ins::Tangent + 'a,"),
    change("    samples: Vec<(f64, f64, f64, f64)>,", 1, "    pub(crate) samples: Vec<(f64, f64, f64, f64)>,"),
    change(
        "    fn surface_xyz(&self, s: f64, t: f64) -> ([f64; 3], f64) {",
        1,
        "    pub(crate) fn surface_xyz(&self, s: f64, t: f64) -> ([f64; 3], f64) {",
    ),
    change("            (s, t) = (next, t + dt);", 1, "            (s, t) = (next, t + dt); crate::stand_ins::count_move();"),
];

// 02, Point 1: the f32 root is the f32 nearest the exact root, and "the Rust side uses it too". Of road.rs only `along` and
// `station_at` take a root here, which Point 4 asks for with that one, so one copy serves both files.
const COORDS: &[Change] =
    &[change("        self.length_squared().sqrt()", 1, "        crate::stand_ins::root32(self.length_squared())")];

// No change of behaviour: how an error is shown comes from a package that is not built here.
const GEOMETRY: &[Change] = &[
    change("#[derive(Debug, Clone, Copy, PartialEq, Eq, thiserror::Error)]", 1, "#[derive(Debug, Clone, Copy, PartialEq, Eq)]"),
    change("#[error(\"a polyline needs at least two points\")]", 1, ""),
];

// What 01 and 02 replace and may not be left. atan2 is called by ParamPoly3 alone, which is no part of the base.
const LEFT_OUT: [&str; 6] = [".sin()", ".cos()", ".sin_cos()", ".tan()", ".sqrt()", ".hypot("];

// Only `rotate_about` of coords.rs takes a sine pair, and no function that is asked here calls it.
const ROTATION: &str = "        let (sin, cos) = radians.sin_cos();";

/// The published road.rs, coords.rs or geometry.rs with the stand-ins in it, or why they could not be put in.
pub fn road(source: &str) -> Result<String, String> {
    patched(source, ROAD)
}

pub fn coords(source: &str) -> Result<String, String> {
    patched(source, COORDS)
}

pub fn geometry(source: &str) -> Result<String, String> {
    patched(source, GEOMETRY)
}

fn patched(source: &str, changes: &[Change]) -> Result<String, String> {
    for c in changes {
        let found = source.lines().filter(|line| *line == c.line).count();
        if found != c.times {
            return Err(format!("{} of this line expected, {found} found:\n{}", c.times, c.line));
        }
    }
    let by = |line| changes.iter().find(|c| c.line == line).map_or(line, |c| c.by);
    let patched: Vec<&str> = source.lines().map(by).collect();
    let is_read = |line: &str| !line.trim_start().starts_with("//") && line != ROTATION;
    for (i, line) in patched.iter().enumerate().filter(|(_, line)| is_read(line)) {
        if let Some(call) = LEFT_OUT.iter().find(|call| line.contains(**call)) {
            return Err(format!("line {}: `{call}` is left over: {}", i + 1, line.trim()));
        }
    }
    Ok(patched.join("\n"))
}
