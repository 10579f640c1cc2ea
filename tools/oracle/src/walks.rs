//! Places along lines: the port beside the Rust.
use crate::inputs::draw::Draw;
use crate::inputs::lines::{self, Point};
use crate::inputs::walks;
use crate::line_port::{Columns, Drawn};
use crate::rust::taken::{by_distance, line as rust_line, polyline};
use crate::tally::{same, Tally};

fn alike(a: Drawn, b: Drawn) -> bool {
    match (a, b) {
        (Some(a), Some(b)) => same(a.0, b.0) && same(a.1, b.1) && same(a.2, b.2),
        (None, None) => true,
        _ => false,
    }
}

/// One comparison of positions, with how many are none.
struct Positions {
    tally: Tally,
    none: u64,
}

impl Positions {
    fn new(name: &str) -> Positions {
        Positions { tally: Tally::new(name), none: 0 }
    }

    fn note(&mut self, got: Drawn, want: Drawn, told: impl FnOnce() -> String) {
        self.none += want.is_none() as u64;
        let nan = want.is_some_and(|p| p.0.is_nan() || p.1.is_nan());
        self.tally.note(alike(got, want), nan, || format!("{}: port: {got:?}, Rust: {want:?}", told()));
    }

    fn close(self) -> u64 {
        let none = self.none;
        let differ = self.tally.close();
        println!("    {none} of them none");
        differ
    }
}

pub struct Walks {
    by_dist: Positions,
    by_feed: Positions,
    vertices: Positions,
    polylines: Positions,
    nearest: Tally,
}

impl Walks {
    pub fn new() -> Walks {
        Walks {
            by_dist: Positions::new("interpolate_shape_by_dist"),
            by_feed: Positions::new("interpolate_shape_by_feed_dist"),
            vertices: Positions::new("interpolate_along_vertices"),
            polylines: Positions::new("interpolate_polyline"),
            nearest: Tally::new("nearest_idx"),
        }
    }

    fn polyline(&mut self, line: &[Point], prev: Point, next: Point, frac: f64) {
        let got = Columns::of(line).interpolate_polyline(prev, next, frac);
        let want = polyline::interpolate_polyline(line, prev.0, prev.1, next.0, next.1, frac);
        self.polylines.note(got, want, || format!("{line:?} {prev:?} {next:?} {frac:e}"));
    }

    /// Walks along one line.
    pub fn along(&mut self, d: &mut Draw, line: &[Point], sums: &[f64]) {
        let columns = Columns::of(line);
        let (d0, d1, frac) = walks::marks(d, sums);
        let want = by_distance::interpolate_shape_by_dist(line, d0, d1, frac);
        self.by_dist
            .note(columns.interpolate_shape_by_dist(d0, d1, frac), want, || format!("{line:?} {d0} {d1} {frac:e}"));
        let affine = walks::affine(d);
        let want = by_distance::interpolate_shape_by_feed_dist(line, d0, d1, frac, affine);
        let got = columns.interpolate_shape_by_feed_dist(d0, d1, frac, affine);
        self.by_feed.note(got, want, || format!("{line:?} {d0} {d1} {frac:e} {affine:?}"));
        let frac = walks::share(d, sums);
        let want = polyline::interpolate_along_vertices(line, frac);
        self.vertices.note(columns.interpolate_along_vertices(frac), want, || format!("{line:?} {frac:e}"));
        let stop = |d: &mut Draw| lines::stop(d, line).unwrap_or((0.5, f64::INFINITY));
        let (prev, next) = (stop(d), stop(d));
        let (got, want) = (columns.nearest_idx(prev), polyline::nearest_idx(line, prev.0, prev.1));
        self.nearest.note(got == want, false, || format!("{line:?} {prev:?}: port: {got}, Rust: {want}"));
        let frac = walks::fraction(d);
        self.polyline(line, prev, next, frac);
        let part = part_sums(line, prev, next);
        let frac = walks::share(d, &part);
        self.polyline(line, prev, next, frac);
        let (line, prev, next) = walks::limits(d);
        self.polyline(&line, prev, next, frac);
    }

    pub fn close(self) -> u64 {
        self.by_dist.close()
            + self.by_feed.close()
            + self.vertices.close()
            + self.nearest.close()
            + self.polylines.close()
    }
}

/// The lengths along the part of a line between the vertices nearest to two stops.
fn part_sums(line: &[Point], prev: Point, next: Point) -> Vec<f64> {
    let (i, j) = (polyline::nearest_idx(line, prev.0, prev.1), polyline::nearest_idx(line, next.0, next.1));
    rust_line::shape_cumulative_distances(line.get(i.min(j)..=i.max(j)).unwrap_or(&[]))
}
