//! Small worlds for backfill: trips whose rows have no distance, some or all, with rows that trips share. Most are accepted; a few have a position
//! off the globe or a distance that is not finite.
use super::draw::Draw;
use super::lines::{self, Point, Stop};
use super::samples;
use super::trips::{Row, Trip, World};
use super::values;

fn on_globe(p: &Point) -> bool {
    (-90.0..=90.0).contains(&p.0) && (-180.0..=180.0).contains(&p.1)
}

/// A line of any kind; one that leaves the globe is kept once in sixteen times.
fn shape(d: &mut Draw, i: u64) -> Vec<Point> {
    let line = if d.below(6) == 0 { samples::metre(d) } else { lines::line(d, i) };
    if line.iter().all(on_globe) || d.below(16) == 0 {
        return line;
    }
    let n = 1 + d.below(9) as usize;
    lines::onward(d, n)
}

fn stop(d: &mut Draw, line: &[Point]) -> Stop {
    lines::stop(d, line).filter(|p| on_globe(p) || d.below(64) == 0)
}

/// A distance that grows by row in some unit, a zero of either sign, a number so large that others overflow, or anything.
fn distance(d: &mut Draw, row: usize, unit: f64) -> f32 {
    let x = match d.below(10) {
        0 => (values::any_bits(d) % 1e30) as f32,
        1 => d.one_of(&[0.0, -0.0]),
        2 => row as f32 * 3e37,
        _ => (row as f64 * 100.0 / unit * d.between(0.9, 1.1)) as f32,
    };
    if x.is_finite() || d.below(64) == 0 {
        x
    } else {
        row as f32
    }
}

/// Rows of which none, a quarter, half, three quarters or all lack their distance.
fn rows(d: &mut Draw, count: usize, stop: impl Fn(&mut Draw, usize) -> u32, unit: f64) -> Vec<Row> {
    let missing = d.below(5);
    (0..count)
        .map(|row| {
            let (at, here) = (stop(d, row), distance(d, row, unit));
            (at, (d.below(4) >= missing).then_some(here))
        })
        .collect()
}

/// Up to four trips, some of the same rows; most take many of them.
fn trips(d: &mut Draw, shapes: usize, rows: usize) -> Vec<Trip> {
    (0..d.below(5))
        .map(|_| {
            let first = d.below(rows as u64 + 1) / (1 + d.below(3));
            let shape = (d.below(8) != 0).then(|| d.below(shapes as u64) as u32);
            let left = rows as u64 - first;
            let count = if d.coin() { left } else { d.below(left + 1) };
            (shape, first as u32, count as u32)
        })
        .collect()
}

/// Shapes of all kinds; stops at their vertices and elsewhere, some without a position; rows in any order.
fn mixed(d: &mut Draw, i: u64) -> World {
    let shapes: Vec<Vec<Point>> = (0..1 + d.below(3)).map(|k| shape(d, i + k)).collect();
    let mut stops = Vec::new();
    for _ in 0..1 + d.below(8) {
        let k = d.below(shapes.len() as u64) as usize;
        stops.push(stop(d, &shapes[k]));
    }
    let (count, of, unit) = (d.below(12) as usize, stops.len() as u64, samples::ratio(d, i));
    let rows = rows(d, count, |d, _| d.below(of) as u32, unit);
    let trips = trips(d, shapes.len(), rows.len());
    World { shapes, stops, rows, trips }
}

/// One line onward; a stop at each vertex, and a row for each stop.
fn sailed(d: &mut Draw, i: u64) -> World {
    let n = 2 + d.below(9) as usize;
    let line = lines::onward(d, n);
    let stops: Vec<Stop> = line.iter().map(|&p| (d.below(6) != 0).then_some(p)).collect();
    let unit = samples::ratio(d, i % 3);
    let rows = rows(d, n, |_, row| row as u32, unit);
    let trips = trips(d, 1, rows.len());
    World { shapes: vec![line], stops, rows, trips }
}

/// The i-th world.
pub fn world(d: &mut Draw, i: u64) -> World {
    if d.coin() {
        sailed(d, i)
    } else {
        mixed(d, i)
    }
}
