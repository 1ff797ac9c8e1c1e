//! What it costs that points are f32: far from the origin they lie on a coarse grid.
use crate::draw::scale::short;

/// Metres. Here the grid is 0.98 mm; it doubles with the distance.
const FAR: f64 = 8192.0;

/// The coordinate that is farthest from the origin.
#[derive(Debug, Default)]
pub struct Farthest {
    name: &'static str,
    value: f64,
}

impl Farthest {
    pub fn add(&mut self, x: f64, y: f64) {
        for (name, value) in [("x", x), ("y", y)] {
            if value.abs() > self.value.abs() {
                *self = Self { name, value };
            }
        }
    }

    /// What is said of it, if it is far.
    pub fn note(&self) -> Option<String> {
        let Self { name, value } = *self;
        let (at, grid) = (short(value), spacing(value));
        let note =
            format!("points are f32: at {name} = {at} they lie on a grid of {grid} m; an origin near the site makes it finer");
        (value.abs() >= FAR).then_some(note)
    }
}

/// From the f32 nearest to a number to the next outward.
fn spacing(x: f64) -> f64 {
    let near = x.abs() as f32;
    f64::from(near.next_up()) - f64::from(near)
}

#[cfg(test)]
mod tests {
    use super::*;

    #[test]
    fn the_grid_is_that_of_f32() {
        assert_eq!([8192.0, -500_000.0, 1e6].map(spacing), [0.0009765625, 0.03125, 0.0625]);
    }

    #[test]
    fn the_farthest_is_told_if_it_is_far() {
        let mut farthest = Farthest::default();
        farthest.add(-8191.5, 3.0);
        assert_eq!(farthest.note(), None);
        farthest.add(10.0, -500_000.0);
        farthest.add(400_000.0, 0.0);
        let said = "points are f32: at y = -500000 they lie on a grid of 0.03125 m; an origin near the site makes it finer";
        assert_eq!(farthest.note().as_deref(), Some(said));
    }
}
