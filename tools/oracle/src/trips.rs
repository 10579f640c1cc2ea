//! Compares the calibration of trips in small tables with the Rust. Ends with status 1 where any answer differs.
//!
//!     trips DIVISOR     takes a DIVISOR-th of the tables
mod inputs;
mod rust;
mod standin;
mod tables_port;
mod tally;

use inputs::draw::Draw;
use inputs::trips::{self, World};
use rust::records::{GlobalTrip, PackedStopTime, StaticEpoch, StopRecord};
use rust::taken::trip as rust_trip;
use std::time::Instant;
use tables_port::Pools;
use tally::{agree, Tally};

const WORLDS: u64 = 1_000_000;

/// A world as the Rust is handed it.
fn epoch(w: &World) -> StaticEpoch {
    StaticEpoch {
        shapes: w.shapes.iter().enumerate().map(|(k, s)| (k.to_string(), s.clone())).collect(),
        stop_times: w.rows.iter().map(|r| PackedStopTime { stop_idx: r.0, shape_dist_traveled: r.1 }).collect(),
        stops: w.stops.iter().map(|s| StopRecord { lat: s.map(|p| p.0), lon: s.map(|p| p.1) }).collect(),
    }
}

fn compare_trips(d: &mut Draw, count: u64) -> u64 {
    let mut tally = Tally::new("trip_shape_dist_affine");
    for i in 0..count {
        let world = trips::world(d, i);
        let (epoch, pools) = (epoch(&world), Pools::of(&world));
        for (k, &(shape, first, rows)) in world.trips.iter().enumerate() {
            let trip =
                GlobalTrip { shape_id: shape.map(|s| s.to_string()), stop_time_start: first, stop_time_len: rows };
            let want = rust_trip::trip_shape_dist_affine(&epoch, &trip);
            let got = pools.trip_shape_dist_affine(k);
            tally.note(agree(got, want), want.is_none(), || {
                format!("world {i}, trip {k}: port: {got:?}, Rust: {want:?}")
            });
        }
    }
    tally.close()
}

fn main() {
    let divisor = std::env::args().nth(1).and_then(|word| word.parse().ok()).filter(|&n: &u64| n > 0);
    let Some(divisor) = divisor else {
        eprintln!("trips: the divisor is a whole number from 1");
        std::process::exit(2);
    };
    let start = Instant::now();
    let differ = compare_trips(&mut Draw::new(35), WORLDS / divisor);
    println!("{differ} differ in all; {:.1} s", start.elapsed().as_secs_f64());
    std::process::exit((differ != 0) as i32);
}
