//! The road cut at every start of a record, so that what jumps does so between two pieces.
use second::model::{Road, Section};

/// A record is in use from 1e-9 before its start; this much before it, the one before it still is.
const BEFORE: f64 = 2e-9;

/// Starts that are nearer to each other count as one.
const APART: f64 = 2.0 * BEFORE;

/// From a start to just before the next: nothing jumps in between.
#[derive(Debug, Clone, Copy, PartialEq)]
pub struct Span {
    pub from: f64,
    pub to: f64,
}

fn of_lanes(section: &Section, end: f64) -> Vec<f64> {
    let lanes = section.left.iter().chain(&section.right);
    let starts = lanes.flat_map(|l| l.extents.iter().map(|e| e.start).chain(l.heights.iter().map(|h| h.start)));
    starts.map(|start| section.start + start).filter(|s| (section.start..end).contains(s)).collect()
}

/// Every s at which a record starts.
fn starts(road: &Road) -> Vec<f64> {
    let cubics = [&road.elev, &road.bank, &road.offset, &road.tshift].into_iter().flatten();
    let strips = road.strips.iter().flatten().flat_map(|s| s.lists.iter().flatten());
    let mut all: Vec<f64> = cubics.chain(strips).map(|c| c.start).collect();
    all.extend(road.geoms.iter().map(|g| g.s));
    all.extend(road.profiles.iter().map(|p| p.s));
    let ends = road.sections.iter().skip(1).map(|s| s.start).chain([road.length]);
    for (section, end) in road.sections.iter().zip(ends) {
        all.push(section.start);
        all.extend(of_lanes(section, end));
    }
    all.retain(|s| (0.0..=road.length).contains(s));
    all
}

/// Cuts that are too near to part, as the first and the last of them.
fn clusters(mut cuts: Vec<f64>) -> Vec<Span> {
    cuts.sort_by(f64::total_cmp);
    let near = cuts.chunk_by(|a, b| b - a <= APART);
    near.map(|c| Span { from: c[0], to: c[c.len() - 1] }).collect()
}

/// The spans between cuts, from one s of the road to another. Among cuts too near to part nothing is drawn.
fn spans(mut cuts: Vec<f64>, from: f64, to: f64) -> Vec<Span> {
    // A record that starts just past the end is in use at the end already.
    let early = cuts.iter().any(|s| to < *s && *s <= to + BEFORE);
    let end = if early { (to - BEFORE).max(from) } else { to };
    cuts.retain(|s| from < *s && *s <= end);
    cuts.push(from);
    let clusters = clusters(cuts);
    let ends = clusters.iter().skip(1).map(|c| c.from - BEFORE).chain([end]);
    clusters.iter().zip(ends).map(|(c, to)| Span { from: c.to, to }).collect()
}

pub fn of(road: &Road, from: f64, to: f64) -> Vec<Span> {
    spans(starts(road), from, to)
}

#[cfg(test)]
mod tests {
    use super::*;

    #[test]
    fn a_span_ends_just_before_the_next_start() {
        let found = spans(vec![0.0, 40.0, 40.0, 70.0], 0.0, 100.0);
        assert_eq!(found.iter().map(|s| s.from).collect::<Vec<_>>(), [0.0, 40.0, 70.0]);
        assert_eq!(found.iter().map(|s| s.to).collect::<Vec<_>>(), [40.0 - BEFORE, 70.0 - BEFORE, 100.0]);
    }

    #[test]
    fn a_start_at_the_end_has_a_span_of_its_own() {
        let found = spans(vec![0.0, 10.0], 0.0, 10.0);
        assert_eq!(found.last(), Some(&Span { from: 10.0, to: 10.0 }));
    }

    #[test]
    fn starts_too_near_to_part_count_as_the_last() {
        let found = spans(vec![0.0, 5.0, 5.0 + 3e-9], 0.0, 10.0);
        assert_eq!(found, [Span { from: 0.0, to: 5.0 - BEFORE }, Span { from: 5.0 + 3e-9, to: 10.0 }]);
    }

    #[test]
    fn what_starts_just_past_the_end_is_left_out() {
        assert_eq!(spans(vec![60.0 + 5e-10], 0.0, 60.0), [Span { from: 0.0, to: 60.0 - BEFORE }]);
    }

    #[test]
    fn a_window_has_only_its_own_starts() {
        let found = spans(vec![0.0, 40.0, 70.0], 45.0, 60.0);
        assert_eq!(found, [Span { from: 45.0, to: 60.0 }]);
    }
}
