//! Compares backfill of a trip's records with the Rust, trip by trip on small worlds. Ends with status 1 where any answer differs.
//!
//!     records DIVISOR     takes a DIVISOR-th of the worlds
#[allow(dead_code)]
mod backfill_port;
mod inputs;
mod rust;
mod standin;
mod tally;

use backfill_port::{Lent, Span};
use inputs::backfills;
use inputs::draw::Draw;
use inputs::trips::{Trip, World};
use rust::records::{PackedStopTime, StopRecord, TripRecord};
use rust::taken::backfill::backfill_shape_dist_traveled;
use std::time::Instant;
use tally::{same_f32, Tally};

const WORLDS: u64 = 230_000;

/// The structs of crates/stop_record and crates/record_refusals.
#[repr(C)]
#[derive(Clone, Copy, Debug)]
struct StopTime {
    stop: u32,
    arrival: u32,
    departure: u32,
    sequence: u32,
    measured: bool,
    dist: f32,
}

#[repr(C)]
struct Beside {
    stops: [Span; 7],
    line: [Span; 2],
}

extern "C" {
    fn zebumorn_backfill_records(
        r: *mut StopTime,
        record_count: usize,
        bytes: *const u8,
        byte_count: usize,
        words: *const u32,
        word_count: usize,
        reals: *const f64,
        real_count: usize,
        l: Beside,
        at: *mut u32,
        at_count: usize,
        dists: *mut f32,
        dist_count: usize,
        known: *mut u8,
        known_count: usize,
    ) -> u32;
}

/// What the columns to work in hold before.
const BEFORE: (u32, f32, u8) = (99, -7.5, 77);

/// A trip's records, whose other fields are told apart.
fn records(w: &World, t: &Trip) -> Vec<StopTime> {
    (t.1..t.1 + t.2)
        .map(|k| {
            let (stop, dist) = w.rows[k as usize];
            StopTime {
                stop,
                arrival: 3 * k,
                departure: 3 * k + 1,
                sequence: 5 * k,
                measured: dist.is_some(),
                dist: dist.unwrap_or(k as f32),
            }
        })
        .collect()
}

fn rust(w: &World, t: &Trip) -> Vec<PackedStopTime> {
    let shapes = w.shapes.iter().enumerate().map(|(k, s)| (k.to_string(), s.clone())).collect();
    let stops: Vec<StopRecord> =
        w.stops.iter().map(|s| StopRecord { lat: s.map(|p| p.0), lon: s.map(|p| p.1) }).collect();
    let trip = TripRecord { shape_id: t.0.map(|s| s.to_string()), stop_time_start: t.1, stop_time_len: t.2 };
    let mut rows: Vec<PackedStopTime> =
        w.rows.iter().map(|r| PackedStopTime { stop_idx: r.0, shape_dist_traveled: r.1 }).collect();
    backfill_shape_dist_traveled(&[trip], &mut rows, &stops, &shapes);
    rows[t.1 as usize..(t.1 + t.2) as usize].to_vec()
}

/// The records and the columns afterwards, and the refusal.
struct Done {
    refusal: u32,
    records: Vec<StopTime>,
    columns: (Vec<u32>, Vec<f32>, Vec<u8>),
}

fn port(w: &World, lent: &Lent, t: &Trip, stops: u32, rows: [usize; 3]) -> Done {
    let mut records = records(w, t);
    let mut columns = (vec![BEFORE.0; rows[0]], vec![BEFORE.1; rows[1]], vec![BEFORE.2; rows[2]]);
    let c = &lent.columns.0;
    let mut beside = Beside { stops: c[..7].try_into().unwrap(), line: [Span::default(); 2] };
    beside.stops.iter_mut().for_each(|s| s.n = stops);
    if let Some(shape) = t.0 {
        let first = w.shapes[..shape as usize].iter().map(Vec::len).sum::<usize>() as u32;
        let n = w.shapes[shape as usize].len() as u32;
        beside.line = [c[32], c[33]].map(|s| Span { at: s.at + first, n });
    }
    let refusal = unsafe {
        zebumorn_backfill_records(
            records.as_mut_ptr(),
            records.len(),
            lent.bytes.as_ptr(),
            lent.bytes.len(),
            lent.words.as_ptr(),
            lent.words.len(),
            lent.reals.as_ptr(),
            lent.reals.len(),
            beside,
            columns.0.as_mut_ptr(),
            rows[0],
            columns.1.as_mut_ptr(),
            rows[1],
            columns.2.as_mut_ptr(),
            rows[2],
        )
    };
    Done { refusal, records, columns }
}

/// Whether only missing distances with an answer were written, and those as the Rust has them.
fn agree(got: &[StopTime], before: &[StopTime], want: &[PackedStopTime]) -> bool {
    got.iter().zip(before).zip(want).all(|((g, b), w)| {
        let others = (g.stop, g.arrival, g.departure, g.sequence) == (b.stop, b.arrival, b.departure, b.sequence);
        others
            && match w.shape_dist_traveled {
                Some(d) => g.measured && same_f32(g.dist, d),
                None => !g.measured && g.dist.to_bits() == b.dist.to_bits(),
            }
    })
}

/// Whether nothing was written at all.
fn untouched(done: &Done, before: &[StopTime]) -> bool {
    let same = |(g, b): (&StopTime, &StopTime)| {
        (g.stop, g.arrival, g.departure, g.sequence, g.measured, g.dist.to_bits())
            == (b.stop, b.arrival, b.departure, b.sequence, b.measured, b.dist.to_bits())
    };
    done.records.iter().zip(before).all(same)
        && done.columns.0.iter().all(|&x| x == BEFORE.0)
        && done.columns.1.iter().all(|&x| x == BEFORE.1)
        && done.columns.2.iter().all(|&x| x == BEFORE.2)
}

fn compare(d: &mut Draw, count: u64) -> u64 {
    let (mut told, mut refused) = (Tally::new("backfill of records"), Tally::new("backfill of records, refused"));
    for i in 0..count {
        let w = backfills::world(d, i);
        let lent = Lent::of(&w);
        let on = |p: &(f64, f64)| (-90.0..=90.0).contains(&p.0) && (-180.0..=180.0).contains(&p.1);
        for t in &w.trips {
            let (before, n, all) = (records(&w, t), t.2 as usize, w.stops.len() as u32);
            let line = t.0.map_or(&[][..], |s| &w.shapes[s as usize]);
            let finite = before.iter().all(|r| !r.measured || r.dist.is_finite());
            let number = if !w.stops.iter().flatten().all(on) || !line.iter().all(on) { 3 } else { 8 * !finite as u32 };
            let room = [n + d.below(3) as usize, n + d.below(3) as usize, n];
            let done = port(&w, &lent, t, all, room);
            if number != 0 {
                refused.note(done.refusal == number && untouched(&done, &before), false, || {
                    format!("world {i}: {} for {number}", done.refusal)
                });
                continue;
            }
            let want = rust(&w, t);
            let nan = want.iter().any(|r| r.shape_dist_traveled.is_some_and(f32::is_nan));
            let past = done.columns.0[n..].iter().all(|&x| x == BEFORE.0)
                && done.columns.1[n..].iter().all(|&x| x == BEFORE.1);
            told.note(done.refusal == 0 && past && agree(&done.records, &before, &want), nan, || {
                format!(
                    "world {i}, trip {t:?}: {} {:?} for {:?}",
                    done.refusal,
                    done.records,
                    want.iter().map(|r| r.shape_dist_traveled).collect::<Vec<_>>()
                )
            });
            if n > 0 {
                let short = [[n - 1, n, n], [n, n - 1, n], [n, n, n - 1]][d.below(3) as usize];
                let done = port(&w, &lent, t, all, short);
                refused.note(done.refusal == 9 && untouched(&done, &before), false, || {
                    format!("world {i}: {} for 9", done.refusal)
                });
                let most = before.iter().map(|r| r.stop).max().unwrap_or(0);
                let done = port(&w, &lent, t, most, room);
                refused.note(done.refusal == 5 && untouched(&done, &before), false, || {
                    format!("world {i}: {} for 5", done.refusal)
                });
            }
        }
    }
    told.close() + refused.close()
}

fn main() {
    let divisor = std::env::args().nth(1).and_then(|word| word.parse().ok()).filter(|&n: &u64| n > 0);
    let Some(divisor) = divisor else {
        eprintln!("records: the divisor is a whole number from 1");
        std::process::exit(2);
    };
    let start = Instant::now();
    let differ = compare(&mut Draw::new(67), WORLDS / divisor);
    println!("{differ} differ in all; {:.1} s", start.elapsed().as_secs_f64());
    std::process::exit((differ != 0) as i32);
}
