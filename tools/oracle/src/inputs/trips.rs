//! Small worlds: shapes, stops, stop times and trips, with flags that are clear and set.
use super::draw::Draw;
use super::lines::{self, Point, Stop};
use super::{samples, values};

/// A row of the stop times: its stop and its distance.
pub type Row = (u32, Option<f32>);

/// Its shape, its first row and how many it has.
pub type Trip = (Option<u32>, u32, u32);

pub struct World {
    pub shapes: Vec<Vec<Point>>,
    pub stops: Vec<Stop>,
    pub rows: Vec<Row>,
    pub trips: Vec<Trip>,
}

/// Missing, growing by row in some unit, or anything.
fn distance(d: &mut Draw, row: usize, unit: f64) -> Option<f32> {
    match d.below(8) {
        0 | 1 => None,
        2 => Some(values::any_bits(d) as f32),
        3 => Some(0.0),
        _ => Some((row as f64 * 100.0 / unit * d.between(0.9, 1.1)) as f32),
    }
}

/// Up to three trips of rows that are so many.
fn trips(d: &mut Draw, shapes: usize, rows: usize) -> Vec<Trip> {
    (0..3)
        .map(|_| {
            let first = d.below(rows as u64 + 1);
            let shape = (d.below(5) != 0).then(|| d.below(shapes as u64) as u32);
            (shape, first as u32, d.below(rows as u64 - first + 1) as u32)
        })
        .collect()
}

/// Shapes of all kinds; stops at their vertices and elsewhere, some without a position; rows in any order.
fn mixed(d: &mut Draw, i: u64) -> World {
    let shapes: Vec<Vec<Point>> =
        (0..1 + d.below(3)).map(|k| if d.below(6) == 0 { samples::metre(d) } else { lines::line(d, i + k) }).collect();
    let mut stops = Vec::new();
    for _ in 0..1 + d.below(8) {
        let k = d.below(shapes.len() as u64) as usize;
        stops.push(lines::stop(d, &shapes[k]));
    }
    let unit = samples::ratio(d, i);
    let rows: Vec<Row> =
        (0..d.below(12) as usize).map(|row| (d.below(stops.len() as u64) as u32, distance(d, row, unit))).collect();
    let trips = trips(d, shapes.len(), rows.len());
    World { shapes, stops, rows, trips }
}

/// One line onward; a stop at each vertex, and a row for each stop.
fn sailed(d: &mut Draw, i: u64) -> World {
    let n = 2 + d.below(9) as usize;
    let line = lines::onward(d, n);
    let stops: Vec<Stop> = line.iter().map(|&p| (d.below(6) != 0).then_some(p)).collect();
    let unit = samples::ratio(d, i % 3);
    let rows: Vec<Row> = (0..line.len()).map(|row| (row as u32, distance(d, row, unit))).collect();
    let trips = trips(d, 1, rows.len());
    World { shapes: vec![line], stops, rows, trips }
}

/// The i-th world.
pub fn world(d: &mut Draw, i: u64) -> World {
    if d.coin() {
        sailed(d, i)
    } else {
        mixed(d, i)
    }
}
