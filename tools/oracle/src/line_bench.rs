//! Nanoseconds a vertex of the line, port and Rust, on the same lines in one run.
//!
//! A line goes onward, its vertices some 60 metres apart. A trip has
//! twenty stops, each some metres from a vertex, in order; a single stop is beside any vertex. The Rust lists every length to answer for one. Walks are
//! at twenty fractions from 0 to 1: over the whole line, by distance and by its own length, and over its middle half, between two stops. Calibration is from samples at both ends,
//! with the lengths that it takes.
mod inputs;
mod line_port;
mod rust;
mod standin;
mod timing;

use inputs::draw::Draw;
use inputs::lines::Point;
use line_port::{Columns, Drawn};
use rust::taken::{by_distance, line as rust_line, polyline};
use std::hint::black_box;
use timing::{head, least};

const STOPS: usize = 20;

fn line(d: &mut Draw, n: usize) -> Vec<Point> {
    let mut p = (43.0, 5.0);
    (0..n)
        .map(|_| {
            p = (p.0 + d.between(0.0, 1e-3), p.1 + d.between(-2e-4, 4e-4));
            p
        })
        .collect()
}

fn beside(d: &mut Draw, p: Point) -> Point {
    (p.0 + d.between(-1e-4, 1e-4), p.1 + d.between(-1e-4, 1e-4))
}

/// Prints a line of the table; says whether the two sides' checksums agree. A pass goes over so many vertices.
fn row(name: &str, vertices: usize, port: &dyn Fn() -> u64, rust: &dyn Fn() -> u64) -> bool {
    let mut port_pass = || {
        black_box(port());
    };
    let mut rust_pass = || {
        black_box(rust());
    };
    timing::row(name, least([&mut port_pass, &mut rust_pass]).map(|time| time * 1e3 / vertices as f64));
    let agree = port() == rust();
    if !agree {
        println!("    the checksums differ");
    }
    agree
}

fn fold(sum: u64, n: usize) -> u64 {
    sum.rotate_left(1) ^ n as u64
}

fn fold_drawn(sum: u64, drawn: Drawn) -> u64 {
    let (lat, lon, bearing) = drawn.unwrap_or((1.0, 2.0, 3.0));
    [lat, lon, bearing].iter().fold(sum, |sum, x| fold(sum, x.to_bits() as usize))
}

fn fold_affine(affine: Option<(f64, f64)>) -> u64 {
    let (start, scale) = affine.expect("a calibration");
    fold(fold(0, start.to_bits() as usize), scale.to_bits() as usize)
}

/// The operations on a line of n vertices.
fn rows(n: usize) -> bool {
    let mut d = Draw::new(34);
    let line = black_box(line(&mut d, n));
    let columns = black_box(Columns::of(&line));
    let singles: Vec<Point> = (0..STOPS).map(|_| d.below(n as u64) as usize).map(|k| line[k]).collect();
    let singles: Vec<Point> = singles.into_iter().map(|p| beside(&mut d, p)).collect();
    let trip: Vec<Option<Point>> = (0..STOPS).map(|k| Some(beside(&mut d, line[k * (n - 1) / (STOPS - 1)]))).collect();
    let over = STOPS * n;
    let each = |f: &dyn Fn(Point) -> usize| singles.iter().fold(0, |sum, &p| fold(sum, f(p)));
    let list = |vs: Vec<Option<usize>>| vs.into_iter().flatten().fold(0, fold);
    let fractions: Vec<f64> = (0..STOPS).map(|k| k as f64 / STOPS as f64 + 0.01).collect();
    let walk = |f: &dyn Fn(f64) -> Drawn| fractions.iter().fold(0, |sum, &x| fold_drawn(sum, f(x)));
    let end = columns.length_to(n - 1) as f32;
    let (first, last) = ((0.0, beside(&mut d, line[0])), (end as f64, beside(&mut d, line[n - 1])));
    let (prev, next) = (beside(&mut d, line[n / 4]), beside(&mut d, line[3 * n / 4]));
    let all = [
        row(&format!("by_dist {n}"), over, &|| walk(&|f| columns.interpolate_shape_by_dist(0.0, end, f)), &|| {
            walk(&|f| by_distance::interpolate_shape_by_dist(&line, 0.0, end, f))
        }),
        row(&format!("along_vertices {n}"), over, &|| walk(&|f| columns.interpolate_along_vertices(f)), &|| {
            walk(&|f| polyline::interpolate_along_vertices(&line, f))
        }),
        row(&format!("nearest_idx {n}"), over, &|| each(&|p| columns.nearest_idx(p)), &|| {
            each(&|p| polyline::nearest_idx(&line, p.0, p.1))
        }),
        row(&format!("polyline {n}"), over, &|| walk(&|f| columns.interpolate_polyline(prev, next, f)), &|| {
            walk(&|f| polyline::interpolate_polyline(&line, prev.0, prev.1, next.0, next.1, f))
        }),
        row(&format!("forward_shape_index {n}"), over, &|| each(&|p| columns.forward_shape_index(0, p)), &|| {
            each(&|p| rust_line::forward_shape_index(&line, 0, p.0, p.1))
        }),
        row(&format!("forward_last_index {n}"), over, &|| each(&|p| columns.forward_last_index(0, p)), &|| {
            each(&|p| rust_line::forward_last_index(&line, 0, p.0, p.1))
        }),
        row(&format!("a trip's projection, {n} vertices"), over, &|| list(columns.project(&trip)), &|| {
            list(rust_line::project_stops_monotonic(&line, &trip))
        }),
        row(&format!("calibration, {n} vertices"), n, &|| fold_affine(columns.shape_dist_affine(first, last)), &|| {
            let lengths = rust_line::shape_cumulative_distances(&line);
            fold_affine(rust_line::shape_dist_affine(&line, &lengths, &[first, last]))
        }),
        row(&format!("length_to {n}"), n, &|| columns.length_to(n - 1).to_bits(), &|| {
            rust_line::shape_cumulative_distances(&line)[n - 1].to_bits()
        }),
    ];
    !all.contains(&false)
}

fn main() {
    head("nanoseconds a vertex");
    let agree = [2, 100, 1000, 8192].map(rows);
    std::process::exit(agree.contains(&false) as i32);
}
