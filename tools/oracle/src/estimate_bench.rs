//! Microseconds an estimate, port and Rust, on the same cases in one run.
//!
//! A case has one trip of 100 stops in order along a line that goes onward, and an update at each, or at one alone. It has no shape, or one of so many points; its rows
//! have distances in metres, or none, so that legs go by vertices. Clocks are on 16 legs, a third of the way; with one update she approaches it. The port
//! checks all that is lent each time, as the Rust does not; either side's line is compared before it is timed.
#![allow(dead_code, unused_imports)]
mod cases;
#[path = "inputs/draw.rs"]
#[allow(dead_code)]
mod draw;
mod estimate_port;
mod lent;
mod met;
mod standin;
mod timing;

include!(env!("ORACLE_TAKEN"));

use cases::lay::Laid;
use cases::plan::lengths;
use cases::{asked, Call, Case, Shape, Stop, Trip, Update};
use draw::Draw;
use gtfs::pack::StaticEpoch;
use rt::estimate::estimate_vehicle_pos;
use rt::overlay::TripRt;
use std::hint::black_box;
use timing::{head, least};

const STOPS: usize = 100;
const LEGS: usize = 16;
/// Seconds at a stop, and from a stop to the next.
const DWELL: i64 = 30;
const RUN: i64 = 300;

fn onward(d: &mut Draw, n: usize) -> Vec<(f64, f64)> {
    let step = 8192.0 / n as f64;
    let mut p = (43.0, 5.0);
    (0..n)
        .map(|_| {
            p = (p.0 + step * d.between(0.0, 1e-3), p.1 + step * d.between(-2e-4, 4e-4));
            p
        })
        .collect()
}

/// The vertex that a stop is beside, on a line of so many.
fn vertex(stop: usize, n: usize) -> usize {
    stop * (n - 1) / (STOPS - 1)
}

fn arrival(stop: usize) -> i64 {
    1_700_000_000 + stop as i64 * (DWELL + RUN)
}

/// A case whose shape has so many points, or none; with distances or without; with all updates or one.
fn case(d: &mut Draw, points: Option<usize>, measured: bool, updates: &[usize]) -> Case {
    let line = onward(d, points.unwrap_or(STOPS));
    let sums = lengths(&line);
    let at = |k: usize| line[vertex(k, line.len())];
    let mut case = Case { feed: "f".into(), trip: "t".into(), ..Case::default() };
    for k in 0..STOPS {
        let (lat, lon) = at(k);
        let off = (d.between(-1e-5, 1e-5), d.between(-1e-5, 1e-5));
        case.stops.push(Stop { id: format!("f:{k:03}"), raw: format!("{k:03}"), at: Some((lat + off.0, lon + off.1)) });
    }
    let calls = (0..STOPS).map(|k| {
        let second = 36_000 + k as u32 * (DWELL + RUN) as u32;
        let dist = measured.then(|| sums[vertex(k, line.len())] as f32);
        Call { sequence: k as u32 + 1, stop: k as u32, arrival: second, departure: second + DWELL as u32, dist }
    });
    let (id, feed, service) = ("t".into(), "f".into(), "s".into());
    case.trips.push(Trip { id, feed, service, shape: points.map(|_| 0), frequency: false, calls: calls.collect() });
    case.updates = updates
        .iter()
        .map(|&k| Update {
            sequence: k as u32 + 1,
            stop: Some(format!("f:{k:03}")),
            arrival: Some(arrival(k)),
            departure: Some(arrival(k) + DWELL),
            ..Update::default()
        })
        .collect();
    if points.is_some() {
        case.shapes.push(Shape { id: "s".into(), points: line });
    }
    case
}

/// Both sides: for each clock the least of the repetitions, on the mean over the clocks.
fn row(name: &str, case: &mut Case, clocks: &[i64]) {
    let epoch = asked::epoch(case);
    let sailing = asked::sailing(case);
    let mut laid = Laid::of(case);
    let (mut port, mut rust) = (0.0, 0.0);
    for &now in clocks {
        case.now = now;
        laid.at(now);
        let line = estimate_port::estimate(&laid).line(case);
        assert_eq!(line, asked::board(case, &epoch), "the two differ");
        let now = lent::moment(now).expect("a moment");
        let mut ours = || {
            black_box(estimate_port::estimate(&laid).lat);
        };
        let mut theirs = || {
            black_box(estimate_vehicle_pos(&case.feed, &case.trip, &sailing, &epoch, now).expect("an estimate").lat);
        };
        let [ours, theirs] = least([&mut ours, &mut theirs]);
        port += ours / clocks.len() as f64;
        rust += theirs / clocks.len() as f64;
    }
    timing::row(name, [port, rust]);
}

fn main() {
    let mut d = Draw::new(76);
    let every: Vec<usize> = (0..STOPS).collect();
    let legs: Vec<usize> = (0..LEGS).map(|k| k * (STOPS - 2) / (LEGS - 1)).collect();
    let between: Vec<i64> = legs.iter().map(|&k| arrival(k) + DWELL + RUN / 3).collect();
    let one = [STOPS / 2];
    let before: Vec<i64> = (0..LEGS as i64).map(|k| arrival(one[0]) - 60 - 10 * k).collect();
    head("microseconds an estimate");
    for points in [None, Some(100), Some(1000), Some(8192)] {
        let shape = points.map_or("no shape".to_string(), |n| format!("shape of {n} points"));
        for measured in [true, false] {
            if points.is_none() && measured {
                continue;
            }
            let by = match points {
                None => "by the chain",
                Some(_) if measured => "by distance",
                Some(_) => "by vertices",
            };
            row(&format!("{shape}, {by}, {STOPS} updates"), &mut case(&mut d, points, measured, &every), &between);
            row(&format!("{shape}, {by}, one update"), &mut case(&mut d, points, measured, &one), &before);
        }
    }
}
