//! Compares backfill with the Rust on small worlds: all trips in table order, and one trip alone. Ends with status 1 where any answer differs.
//!
//!     backfill DIVISOR     takes a DIVISOR-th of the worlds
mod backfill_port;
mod inputs;
mod rust;
mod standin;
mod tally;

use backfill_port::{Filled, Lent, UNWRITTEN};
use inputs::backfills;
use inputs::draw::Draw;
use inputs::trips::{Trip, World};
use rust::records::{PackedStopTime, StopRecord, TripRecord};
use rust::taken::backfill::backfill_shape_dist_traveled;
use rust::taken::line::{shape_cumulative_distances, shape_dist_affine};
use std::collections::HashMap;
use std::time::Instant;
use tally::{same_f32, Tally};

const WORLDS: u64 = 230_000;

/// A world as the Rust is handed it.
struct Records {
    shapes: HashMap<String, Vec<(f64, f64)>>,
    stops: Vec<StopRecord>,
}

impl Records {
    fn of(w: &World) -> Records {
        Records {
            shapes: w.shapes.iter().enumerate().map(|(k, s)| (k.to_string(), s.clone())).collect(),
            stops: w.stops.iter().map(|s| StopRecord { lat: s.map(|p| p.0), lon: s.map(|p| p.1) }).collect(),
        }
    }

    fn backfill(&self, trips: &[Trip], rows: &mut [PackedStopTime]) {
        let records: Vec<TripRecord> = trips
            .iter()
            .map(|t| TripRecord { shape_id: t.0.map(|s| s.to_string()), stop_time_start: t.1, stop_time_len: t.2 })
            .collect();
        backfill_shape_dist_traveled(&records, rows, &self.stops, &self.shapes);
    }
}

fn rows(w: &World) -> Vec<PackedStopTime> {
    w.rows.iter().map(|r| PackedStopTime { stop_idx: r.0, shape_dist_traveled: r.1 }).collect()
}

/// The refusal that such a world gets: a stop or a point off the globe, or a distance that is not finite.
fn refusal(w: &World) -> u32 {
    let on = |p: &(f64, f64)| (-90.0..=90.0).contains(&p.0) && (-180.0..=180.0).contains(&p.1);
    if !w.stops.iter().flatten().all(on) || !w.shapes.iter().flatten().all(on) {
        return 3;
    }
    if !w.rows.iter().filter_map(|r| r.1).all(f32::is_finite) {
        return 8;
    }
    0
}

/// Whether the outputs are the Rust's rows, and untouched past them.
fn agree(got: &Filled, want: &[PackedStopTime], w: &World) -> bool {
    want.iter().enumerate().all(|(k, row)| match row.shape_dist_traveled {
        Some(d) => got.marks[k] != 0 && same_f32(got.dists[k], d) && (w.rows[k].1.is_some() || got.marks[k] == 1),
        None => got.marks[k] == 0 && got.dists[k].is_nan(),
    }) && untouched(got, want.len())
}

fn untouched(got: &Filled, from: usize) -> bool {
    got.dists[from.min(got.dists.len())..].iter().all(|&d| d == UNWRITTEN.0)
        && got.marks[from.min(got.marks.len())..].iter().all(|&m| m == UNWRITTEN.1)
}

/// How often each way is met, over trips that have rows.
#[derive(Default)]
struct Ways {
    no_line: u64,
    full: u64,
    metres: u64,
    calibrated: u64,
    unknown: u64,
    shared: u64,
    unplaced: u64,
    nan: u64,
    infinite: u64,
    negative_zero: u64,
}

impl Ways {
    /// A trip, by its rows before it and after; `first` has the rows before all trips.
    fn note(
        &mut self,
        w: &World,
        trip: &Trip,
        first: &[PackedStopTime],
        before: &[PackedStopTime],
        after: &[PackedStopTime],
    ) {
        let range = trip.1 as usize..(trip.1 + trip.2) as usize;
        if range.is_empty() {
            return;
        }
        let line = trip.0.map_or(&[][..], |s| &w.shapes[s as usize]);
        if line.len() < 2 {
            self.no_line += 1;
            return;
        }
        let own = &before[range.clone()];
        let missing = own.iter().filter(|r| r.shape_dist_traveled.is_none()).count();
        let samples: Vec<(f64, (f64, f64))> =
            own.iter().filter_map(|r| Some((r.shape_dist_traveled? as f64, w.stops[r.stop_idx as usize]?))).collect();
        match missing {
            0 => self.full += 1,
            n if n == own.len() => self.metres += 1,
            _ if shape_dist_affine(line, &shape_cumulative_distances(line), &samples).is_some() => self.calibrated += 1,
            _ => self.unknown += 1,
        }
        self.shared +=
            range.clone().any(|k| first[k].shape_dist_traveled.is_none() && before[k].shape_dist_traveled.is_some())
                as u64;
        self.unplaced += range
            .clone()
            .any(|k| before[k].shape_dist_traveled.is_none() && w.stops[before[k].stop_idx as usize].is_none())
            as u64;
        for k in range.filter(|&k| before[k].shape_dist_traveled.is_none()) {
            if let Some(d) = after[k].shape_dist_traveled {
                self.nan += d.is_nan() as u64;
                self.infinite += d.is_infinite() as u64;
            }
        }
        self.negative_zero +=
            own.iter().filter(|r| r.shape_dist_traveled.is_some_and(|d| d == 0.0 && d.is_sign_negative())).count()
                as u64;
    }

    fn print(&self) {
        println!("trips: {} without a line of two points, {} with nothing missing, {} all missing, {} some missing with an answer, {} without",
            self.no_line, self.full, self.metres, self.calibrated, self.unknown);
        println!(
            "trips with a row that an earlier trip filled: {}; with a missing row whose stop has no position: {}",
            self.shared, self.unplaced
        );
        println!(
            "distances written: {} NaN, {} infinite; present: {} are -0.0",
            self.nan, self.infinite, self.negative_zero
        );
    }
}

/// What differs, told by the world.
fn told(i: u64, w: &World, got: &Filled, want: &[PackedStopTime]) -> String {
    let want: Vec<Option<f32>> = want.iter().map(|r| r.shape_dist_traveled).collect();
    format!(
        "world {i}: shapes {:?}, stops {:?}, rows {:?}, trips {:?}; port: {} {:?} {:?}, Rust: {want:?}",
        w.shapes, w.stops, w.rows, w.trips, got.refusal, got.dists, got.marks
    )
}

fn compare(d: &mut Draw, count: u64) -> u64 {
    let (mut all, mut alone, mut refused) =
        (Tally::new("backfill, all trips"), Tally::new("backfill, one trip"), Tally::new("backfill, refused"));
    let mut ways = Ways::default();
    for i in 0..count {
        let world = backfills::world(d, i);
        let (records, lent, first) = (Records::of(&world), Lent::of(&world), rows(&world));
        let room = first.len() + d.below(3) as usize;
        let got = lent.backfill(None, room, room);
        let number = refusal(&world);
        if number != 0 {
            refused.note(got.refusal == number && untouched(&got, 0), false, || {
                format!("world {i}: {} for {number}", got.refusal)
            });
            continue;
        }
        if !first.is_empty() {
            let short = if d.coin() { (first.len() - 1, room) } else { (room, d.below(first.len() as u64) as usize) };
            let got = lent.backfill(None, short.0, short.1);
            refused.note(got.refusal == 9 && untouched(&got, 0), false, || format!("world {i}: {} for 9", got.refusal));
        }
        let mut want = first.clone();
        records.backfill(&world.trips, &mut want);
        let nan = want.iter().any(|r| r.shape_dist_traveled.is_some_and(f32::is_nan));
        all.note(got.refusal == 0 && agree(&got, &want, &world), nan, || told(i, &world, &got, &want));
        let mut now = first.clone();
        for trip in &world.trips {
            let before = now.clone();
            records.backfill(std::slice::from_ref(trip), &mut now);
            ways.note(&world, trip, &first, &before, &now);
        }
        let asked = d.below(world.trips.len() as u64 + 1) as usize;
        let mut want = first.clone();
        records.backfill(world.trips.get(asked).map_or(&[], std::slice::from_ref), &mut want);
        let got = lent.backfill(Some(asked), room, room);
        let nan = want.iter().any(|r| r.shape_dist_traveled.is_some_and(f32::is_nan));
        alone.note(got.refusal == 0 && agree(&got, &want, &world), nan, || told(i, &world, &got, &want));
    }
    let differ = all.close() + alone.close() + refused.close();
    ways.print();
    differ
}

fn main() {
    let divisor = std::env::args().nth(1).and_then(|word| word.parse().ok()).filter(|&n: &u64| n > 0);
    let Some(divisor) = divisor else {
        eprintln!("backfill: the divisor is a whole number from 1");
        std::process::exit(2);
    };
    let start = Instant::now();
    let differ = compare(&mut Draw::new(61), WORLDS / divisor);
    println!("{differ} differ in all; {:.1} s", start.elapsed().as_secs_f64());
    std::process::exit((differ != 0) as i32);
}
