//! Microseconds a call of backfill, port and Rust, on the same worlds in one run.
//!
//! A world has one trip of 100 stops, each some metres from a vertex, in order, on a line that goes onward. Its distances are all missing, or every second one is
//! present in kilometres. Either side makes its rows anew each time. The port checks all that is lent each time, as the Rust does not.
mod backfill_port;
mod inputs;
mod rust;
mod standin;
mod timing;

use backfill_port::{Filled, Lent};
use inputs::draw::Draw;
use inputs::lines::Point;
use inputs::trips::World;
use rust::records::{PackedStopTime, StopRecord, TripRecord};
use rust::taken::backfill::backfill_shape_dist_traveled;
use rust::taken::line::shape_cumulative_distances;
use std::collections::HashMap;
use std::hint::black_box;
use timing::{head, least};

const STOPS: usize = 100;

fn line(d: &mut Draw, n: usize) -> Vec<Point> {
    let mut p = (43.0, 5.0);
    (0..n)
        .map(|_| {
            p = (p.0 + d.between(0.0, 1e-3), p.1 + d.between(-2e-4, 4e-4));
            p
        })
        .collect()
}

/// The vertex that a stop is beside, on a shape of so many points.
fn vertex(stop: usize, n: usize) -> usize {
    stop * (n - 1) / (STOPS - 1)
}

/// A shape of so many points, and a trip whose distances are all missing.
fn missing(d: &mut Draw, n: usize) -> World {
    let line = line(d, n);
    let stops = (0..STOPS)
        .map(|k| {
            let p = line[vertex(k, n)];
            Some((p.0 + d.between(-1e-4, 1e-4), p.1 + d.between(-1e-4, 1e-4)))
        })
        .collect();
    let rows = (0..STOPS as u32).map(|k| (k, None)).collect();
    World { shapes: vec![line], stops, rows, trips: vec![(Some(0), 0, STOPS as u32)] }
}

/// Puts every second distance, in kilometres.
fn put(w: &mut World) {
    let metres = shape_cumulative_distances(&w.shapes[0]);
    for k in (0..STOPS).step_by(2) {
        w.rows[k].1 = Some((metres[vertex(k, metres.len())] / 1000.0) as f32);
    }
}

/// A world as the Rust is handed it.
struct Records {
    shapes: HashMap<String, Vec<Point>>,
    stops: Vec<StopRecord>,
    trips: Vec<TripRecord>,
    rows: Vec<PackedStopTime>,
}

impl Records {
    fn of(w: &World) -> Records {
        let row = |r: &(u32, Option<f32>)| PackedStopTime { stop_idx: r.0, shape_dist_traveled: r.1 };
        Records {
            shapes: HashMap::from([("0".to_string(), w.shapes[0].clone())]),
            stops: w.stops.iter().map(|s| StopRecord { lat: s.map(|p| p.0), lon: s.map(|p| p.1) }).collect(),
            trips: vec![TripRecord {
                shape_id: Some("0".to_string()),
                stop_time_start: 0,
                stop_time_len: STOPS as u32,
            }],
            rows: w.rows.iter().map(row).collect(),
        }
    }

    fn backfill(&self) -> Vec<PackedStopTime> {
        let mut rows = self.rows.clone();
        backfill_shape_dist_traveled(&self.trips, &mut rows, &self.stops, &self.shapes);
        rows
    }
}

/// Whether every row is filled on both sides, with the same bits.
fn agree(got: &Filled, want: &[PackedStopTime]) -> bool {
    got.refusal == 0
        && want.iter().enumerate().all(|(k, row)| {
            let filled = row.shape_dist_traveled.map(f32::to_bits);
            got.marks[k] != 0 && filled == Some(got.dists[k].to_bits())
        })
}

fn row(name: &str, w: &World) {
    let (lent, records) = (Lent::of(w), Records::of(w));
    assert!(agree(&lent.backfill(None, STOPS, STOPS), &records.backfill()), "the two differ");
    let mut port = || {
        black_box(lent.backfill(None, STOPS, STOPS).refusal);
    };
    let mut rust = || {
        black_box(records.backfill().len());
    };
    timing::row(name, least([&mut port, &mut rust]));
}

fn main() {
    let mut d = Draw::new(75);
    head("microseconds a call");
    for n in [100, 1000, 8192] {
        let mut world = missing(&mut d, n);
        row(&format!("shape of {n} points, all missing"), &world);
        put(&mut world);
        row(&format!("shape of {n} points, every second in km"), &world);
    }
}
