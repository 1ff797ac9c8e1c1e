//! The wants in a panel: those that fall on one place share a label.
use super::plane::Point;
use super::subject::Want;

/// Wants nearer than this on the paper are at one place.
const NEAR: f64 = 2.0;

/// The most that are named at one place.
const MOST: usize = 4;

/// Where wants are drawn, and their names: `w0`, or `w0, w1`.
pub fn places(wants: &[Want], place: impl Fn(&Want) -> Option<Point>) -> Vec<(String, Point)> {
    let answered = wants.iter().enumerate().filter(|(_, w)| w.answer.is_ok());
    named(answered.filter_map(|(number, w)| Some((number, place(w)?))))
}

fn named(points: impl Iterator<Item = (usize, Point)>) -> Vec<(String, Point)> {
    let mut groups: Vec<(Vec<usize>, Point)> = Vec::new();
    for (number, at) in points {
        match groups.iter_mut().find(|(_, other)| other.distance(at) < NEAR) {
            Some((numbers, _)) => numbers.push(number),
            None => groups.push((vec![number], at)),
        }
    }
    groups.into_iter().map(|(numbers, at)| (names(&numbers), at)).collect()
}

fn names(numbers: &[usize]) -> String {
    let shown = if numbers.len() > MOST { MOST - 1 } else { numbers.len() };
    let list = numbers[..shown].iter().map(|n| format!("w{n}")).collect::<Vec<_>>().join(", ");
    if shown < numbers.len() { format!("{list} and {} more", numbers.len() - shown) } else { list }
}

#[cfg(test)]
mod tests {
    use super::*;

    #[test]
    fn one_place_has_one_label() {
        let at = |x: f64| Point::new(x, 0.0);
        let found = named([at(0.0), at(50.0), at(0.5)].into_iter().enumerate());
        assert_eq!(found, [("w0, w2".to_string(), at(0.0)), ("w1".to_string(), at(50.0))]);
        assert_eq!(names(&[0, 1, 2, 3]), "w0, w1, w2, w3");
        assert_eq!(names(&[0, 1, 2, 3, 4, 9]), "w0, w1, w2 and 3 more");
    }
}
