//! Writes a fixed sample of worlds, and the Rust's distances after backfill of each, for a program that replays them.
//!
//!     sample_backfill FOLDER     writes FOLDER/questions and FOLDER/answers
#[allow(dead_code)]
mod backfill_port;
mod inputs;
mod rust;
#[allow(dead_code)]
mod standin;

use backfill_port::Lent;
use inputs::backfills;
use inputs::draw::Draw;
use inputs::trips::{Trip, World};
use rust::records::{PackedStopTime, StopRecord, TripRecord};
use rust::taken::backfill::backfill_shape_dist_traveled;
use std::fmt::Write;
use std::fs;
use std::path::Path;

/// How many worlds of each kind are kept: by how many trips changed rows, whether a NaN or an infinity was written, whether one is refused.
const KEPT: usize = 5;
const LOOKED_THROUGH: u64 = 20_000;
/// Words before the columns: seven bounds, the lengths of five pools, and where each of 78 columns lies.
const HEAD: usize = 12 + 2 * 78;

fn backfill(w: &World, trips: &[Trip], rows: &mut [PackedStopTime]) {
    let shapes = w.shapes.iter().enumerate().map(|(k, s)| (k.to_string(), s.clone())).collect();
    let stops: Vec<StopRecord> =
        w.stops.iter().map(|s| StopRecord { lat: s.map(|p| p.0), lon: s.map(|p| p.1) }).collect();
    let records: Vec<TripRecord> = trips
        .iter()
        .map(|t| TripRecord { shape_id: t.0.map(|s| s.to_string()), stop_time_start: t.1, stop_time_len: t.2 })
        .collect();
    backfill_shape_dist_traveled(&records, rows, &stops, &shapes);
}

fn rows(w: &World) -> Vec<PackedStopTime> {
    w.rows.iter().map(|r| PackedStopTime { stop_idx: r.0, shape_dist_traveled: r.1 }).collect()
}

/// The refusal that such a world gets.
fn refusal(w: &World) -> u32 {
    let on = |p: &(f64, f64)| (-90.0..=90.0).contains(&p.0) && (-180.0..=180.0).contains(&p.1);
    if !w.stops.iter().flatten().all(on) || !w.shapes.iter().flatten().all(on) {
        return 3;
    }
    8 * !w.rows.iter().filter_map(|r| r.1).all(f32::is_finite) as u32
}

/// The script that lays a world out.
fn script(w: &World) -> String {
    let lent = Lent::of(w);
    let mut words: Vec<u32> = vec![0; 7];
    words.extend([lent.bytes.len(), HEAD + lent.words.len(), 0, lent.reals.len(), lent.dists.len()].map(|n| n as u32));
    let of_words = [0, 1, 2, 3, 10, 11, 12, 13, 14, 17, 18, 22, 23, 24, 25, 28, 29, 30, 31];
    for (k, span) in lent.columns.0.iter().enumerate() {
        let head = if of_words.contains(&k) { HEAD as u32 } else { 0 };
        words.extend([span.at + head, span.n]);
    }
    words.extend(&lent.words);
    let mut text = String::from("b0");
    lent.bytes.iter().for_each(|b| write!(text, " ={b}").unwrap());
    text.push_str(" w0");
    words.iter().for_each(|w| write!(text, " ={w}").unwrap());
    text.push_str(" r0");
    lent.reals.iter().for_each(|r| write!(text, " x{:016x}", r.to_bits()).unwrap());
    text.push_str(" d0");
    lent.dists.iter().for_each(|d| write!(text, " x{:08x}", d.to_bits()).unwrap());
    text
}

/// Bits in decimal, `-` for a distance that is missing.
fn told(rows: &[PackedStopTime]) -> String {
    let bits = |d: f32| if d.is_nan() { 0x7fc0_0000 } else { d.to_bits() };
    rows.iter().map(|r| r.shape_dist_traveled.map_or("- ".to_string(), |d| format!("{} ", bits(d)))).collect()
}

fn main() -> std::io::Result<()> {
    let folder = std::env::args().nth(1).expect("usage: sample_backfill FOLDER");
    let folder = Path::new(&folder);
    let (mut questions, mut answers) = (String::new(), String::new());
    let mut met = std::collections::BTreeMap::new();
    let mut d = Draw::new(66);
    for i in 0..LOOKED_THROUGH {
        let w = backfills::world(&mut d, i);
        if w.shapes.iter().map(Vec::len).sum::<usize>() > 40 {
            continue;
        }
        let number = refusal(&w);
        let (mut all, first) = (rows(&w), rows(&w));
        backfill(&w, &w.trips, &mut all);
        let written: Vec<f32> = (0..all.len())
            .filter(|&k| first[k].shape_dist_traveled.is_none())
            .filter_map(|k| all[k].shape_dist_traveled)
            .collect();
        let some = w.rows.iter().any(|r| r.1.is_some());
        let kind = (
            number,
            written.len().min(3),
            some,
            written.iter().any(|d| d.is_nan()),
            written.iter().any(|d| d.is_infinite()),
        );
        let count: &mut usize = met.entry(kind).or_default();
        if *count == KEPT {
            continue;
        }
        *count += 1;
        let asked = d.below(w.trips.len() as u64 + 1) as usize;
        let mut alone = rows(&w);
        backfill(&w, w.trips.get(asked).map_or(&[], std::slice::from_ref), &mut alone);
        writeln!(questions, "{} ?0 ?{}", script(&w), asked + 1).unwrap();
        for answer in [&all, &alone] {
            match number {
                0 => writeln!(answers, "{}", told(answer)).unwrap(),
                _ => writeln!(answers, "refused {number}").unwrap(),
            }
        }
    }
    for ((number, written, some, nan, infinite), count) in &met {
        println!("refusal {number}, {written} written or more, distances there: {some}, NaN written: {nan}, infinity written: {infinite}: {count}");
    }
    fs::write(folder.join("questions"), &questions)?;
    fs::write(folder.join("answers"), &answers)?;
    println!("{} answers in {}, {} bytes of questions", answers.lines().count(), folder.display(), questions.len());
    Ok(())
}
