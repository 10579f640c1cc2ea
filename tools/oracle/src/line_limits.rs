//! Which limits a question about a line meets.
use crate::inputs::lines::Point;
use crate::met::Met;
use crate::rust::taken::{geo, line as rust_line, polyline};

/// A vertex near a stop, searched from `from` on.
pub fn vertex(met: &mut Met, line: &[Point], from: usize, stop: Point, found: usize) {
    let start = from.min(line.len().saturating_sub(1));
    let ds: Vec<f64> = line[start..].iter().map(|v| geo::haversine_m(stop.0, stop.1, v.0, v.1)).collect();
    let least = ds.iter().copied().fold(f64::INFINITY, f64::min);
    met.note(!line.is_empty() && line.len() <= from, "from past the end");
    met.note(!ds.is_empty() && ds.iter().all(|d| d.is_nan()), "every distance NaN");
    met.note(ds.iter().any(|d| d.is_nan()) && least < f64::INFINITY, "some distances NaN");
    met.note(ds.get(found.wrapping_sub(start)) == Some(&(least + 25.0)), "at a distance of the least plus 25");
    met.note(ds.iter().any(|&d| d > least + 25.0 && d < least + 25.0 + 1e-12), "one just past that");
    met.note(ds.get(found.wrapping_sub(start)).is_some_and(|&d| d > least), "not the nearest vertex");
}

/// A length along a line where something is looked for: beside those to the vertices between the first and the last, with a tolerance.
fn target(met: &mut Met, sums: &[f64], tolerance: f64, x: f64) {
    let inner = if sums.len() < 3 { &[] } else { &sums[1..sums.len() - 1] };
    let some = |holds: &dyn Fn(f64) -> bool| inner.iter().any(|&s| s > 0.0 && holds(s));
    let short = |w: &[f64]| w[0] < x && x < w[1] && w[1] - w[0] < 1e-6;
    met.note(sums.windows(2).any(short), "a target on a stretch under 1e-6 metres");
    met.note(some(&|s| x == s), "a target at a running length");
    met.note(some(&|s| x == s.next_down()), "a target just before one");
    met.note(some(&|s| x == s.next_up()), "a target just past one");
    met.note(some(&|s| x == s + tolerance), "a target a tolerance past one");
    met.note(some(&|s| x == (s + tolerance).next_up()), "a target just past a tolerance");
    met.note(sums.iter().any(|s| s.is_nan()), "a NaN length");
    met.note(x.is_nan(), "a target that is NaN");
}

/// The place between two distances.
pub fn between(met: &mut Met, sums: &[f64], d0: f32, d1: f32, frac: f64) {
    let f = frac.clamp(0.0, 1.0);
    let (lo, hi, f) = if d0 <= d1 { (d0 as f64, d1 as f64, f) } else { (d1 as f64, d0 as f64, 1.0 - f) };
    let (x, span) = (lo + (hi - lo) * f, (hi - lo).abs());
    target(met, sums, 1e-6, x);
    met.note(x < 0.0, "a target before the start");
    met.note(sums.last().is_some_and(|&s| x > s + 1e-6), "a target past the end");
    met.note(span == 0.5, "a span of 0.5");
    met.note(span < 0.5 && span > 0.499, "a span just under 0.5");
    met.note(span > 0.5 && span < 0.501, "a span just over 0.5");
    met.note(d0 > d1, "against the vertices");
    met.note(frac.is_nan(), "a fraction that is NaN");
}

/// The place at a fraction of a line's own length. With two vertices alone the Rust goes straight from one to the other whatever the total.
pub fn along(met: &mut Met, sums: &[f64], frac: f64) {
    let inside = sums.len() > 2 && frac > 0.0 && frac < 1.0;
    totals(met, sums, inside);
    fraction(met, sums, frac);
}

/// A total at the limit of 1, where it shows.
fn totals(met: &mut Met, sums: &[f64], shows: bool) {
    let total = sums.last().copied().unwrap_or(0.0);
    met.note(shows && total == 1.0, "a total of 1");
    met.note(shows && total < 1.0 && total > 0.999, "a total just under 1");
}

fn fraction(met: &mut Met, sums: &[f64], frac: f64) {
    met.note(frac <= 0.0, "a fraction at 0 or below");
    met.note(frac >= 1.0, "a fraction at 1 or above");
    met.note(frac.is_nan(), "a fraction that is NaN");
    let total = sums.last().copied().unwrap_or(0.0);
    if total >= 1.0 || total.is_nan() {
        target(met, sums, 1e-9, total * frac.clamp(0.0, 1.0));
    }
}

/// The place on the part of a line between two stops, whose running lengths are `sums`.
pub fn between_stops(met: &mut Met, line: &[Point], sums: &[f64], prev: Point, next: Point, frac: f64) {
    let (i, j) = (polyline::nearest_idx(line, prev.0, prev.1), polyline::nearest_idx(line, next.0, next.1));
    let total = sums.last().copied().unwrap_or(0.0);
    let chords = geo::haversine_m(prev.0, prev.1, next.0, next.1).max(1.0) * 4.0;
    met.note(i == j, "one vertex for both stops");
    met.note(i > j, "against the vertices");
    met.note(i.min(j) > 0 && i != j, "a part that begins past the first vertex");
    met.note(total > chords && total == 500.0, "over 4 chords and 500 long");
    met.note(total > chords && total > 500.0 && total < 500.0 + 1e-9, "over 4 chords and just over 500 long");
    met.note(total > 500.0 && total == chords, "over 500 and 4 chords long");
    met.note(total > 500.0 && total > chords && total < chords + 1e-9, "over 500 and just over 4 chords long");
    totals(met, sums, i != j);
    if i != j {
        fraction(met, sums, if i < j { frac } else { 1.0 - frac });
    }
}

/// The lengths along the part of a line between the vertices nearest to two stops.
pub fn part_sums(line: &[Point], prev: Point, next: Point) -> Vec<f64> {
    let (i, j) = (polyline::nearest_idx(line, prev.0, prev.1), polyline::nearest_idx(line, next.0, next.1));
    rust_line::shape_cumulative_distances(line.get(i.min(j)..=i.max(j)).unwrap_or(&[]))
}

/// The nearest vertex in degrees.
pub fn nearest(met: &mut Met, line: &[Point], stop: Point) {
    let ds: Vec<f64> = line.iter().map(|p| (p.0 - stop.0).hypot(p.1 - stop.1)).collect();
    let least = ds.iter().copied().fold(f64::INFINITY, f64::min);
    met.note(ds.iter().filter(|&&d| d == least).count() > 1, "two vertices equally near");
    met.note(ds.first().is_some_and(|d| d.is_nan()) && least < f64::INFINITY, "the first distance NaN");
    met.note(!ds.is_empty() && ds.iter().all(|d| d.is_nan()), "every distance NaN");
}

/// The unit that a ratio is near.
pub fn scale(met: &mut Met, ratio: f64) {
    const SNAPS: [(f64, &str); 4] =
        [(1.0, "to metres"), (1000.0, "to kilometres"), (0.3048, "to feet"), (1609.344, "to miles")];
    let near = |x: f64, unit: f64| (x / unit - 1.0).abs() <= 0.25;
    for (unit, name) in SNAPS {
        met.note(rust_line::snap_unit_scale(ratio) == unit && ratio != unit, name);
    }
    let some = |holds: &dyn Fn(f64) -> bool| ratio > 0.0 && SNAPS.iter().any(|&(unit, _)| holds(unit));
    met.note(some(&|u| (ratio / u - 1.0).abs() == 0.25), "a quarter off a unit");
    met.note(
        some(&|u| !near(ratio, u) && (near(ratio.next_down(), u) || near(ratio.next_up(), u))),
        "just over a quarter off",
    );
    met.note(ratio < 0.0, "below zero");
    met.note(ratio.is_nan(), "NaN");
}

/// The metres that two samples stand for: their distances, and how far apart they lie.
pub fn affine(met: &mut Met, d0: f64, d1: f64, metres: f64, answer: Option<(f64, f64)>) {
    let span = (d1 - d0).abs();
    met.note(span == 1e-9 && answer.is_some(), "distances 1e-9 apart");
    met.note(span == 1e-9f64.next_down(), "distances just under 1e-9 apart");
    met.note(metres.abs() == 1.0 && answer.is_some(), "a metre apart");
    met.note(metres.abs() < 1.0 && metres.abs() > 0.999, "just under a metre apart");
    met.note(metres.is_nan(), "NaN metres apart");
    met.note(answer.is_none(), "no answer");
    met.note(answer.is_some_and(|(_, b)| [1.0, 1000.0, 0.3048, 1609.344].contains(&b)), "by a unit");
    met.note(answer.is_some_and(|(_, b)| ![1.0, 1000.0, 0.3048, 1609.344].contains(&b)), "by a ratio");
}
