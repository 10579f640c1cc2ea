//! Compares leg_geometry and journey_geometry with the Rust, on small worlds. Ends with status 1 where any answer differs, and where a way was not met.
//!
//!     drawing DIVISOR     takes a DIVISOR-th of the worlds
mod drawing_port;
mod drawn;
mod inputs;
mod rust;
mod standin;
mod tally;

use drawn::lay::Laid;
use drawn::way::{self, Met};
use drawn::{journeys, legs};
use inputs::draw::Draw;
use rust::taken::drawing as rust_drawing;
use std::time::Instant;
use tally::Tally;

const WORLDS: u64 = 200_000;

/// The rows of both columns: as many as the points, more, fewer, or not the same.
fn room(d: &mut Draw, points: usize) -> (usize, usize) {
    match d.below(8) {
        0 => (points, points + 1),
        1 => (points + 1 + d.below(3) as usize, points),
        2 => (points.saturating_sub(1), points.saturating_sub(1)),
        3 => (0, 0),
        4 | 5 => (points, points),
        _ => (points + 3, points + 3),
    }
}

fn compare_legs(d: &mut Draw, count: u64) -> u64 {
    let (mut tally, mut met) = (Tally::new("leg_geometry"), Met::default());
    for i in 0..count {
        let world = legs::world(d, i);
        let (epoch, mut laid) = (world.epoch(), Laid::of_world(&world));
        for _ in 0..4 {
            let asked = legs::asked(d, &world);
            laid.ask(&asked);
            let want = rust_drawing::leg_geometry(&epoch, &asked.trip, asked.from, asked.to);
            let (lats, lons) = room(d, want.len());
            let got = laid.leg_geometry(asked.from, asked.to, lats, lons);
            way::of_leg(&mut met, &world, &asked);
            tally.note(got.is(&want), false, || {
                format!("world {i}, {} {} {}: port: {}, Rust: {want:?}", asked.trip, asked.from, asked.to, got.told())
            });
        }
    }
    let differ = tally.close() + lacking(&met, &way::OF_LEGS);
    met.print();
    differ
}

fn compare_journeys(d: &mut Draw, count: u64) -> u64 {
    let (mut tally, mut met) = (Tally::new("journey_geometry"), Met::default());
    for i in 0..count {
        let ways = journeys::journey(d);
        let want = rust_drawing::journey_geometry(&journeys::legs(&ways));
        let (lats, lons) = room(d, want.len());
        let got = Laid::of_journey(&ways).journey_geometry(lats, lons);
        way::of_journey(&mut met, &ways, &want);
        tally.note(got.is(&want), false, || format!("journey {i}: port: {}, Rust: {want:?}", got.told()));
    }
    let differ = tally.close() + lacking(&met, &way::OF_JOURNEYS);
    met.print();
    differ
}

/// How many of these were not met.
fn lacking(met: &Met, all: &[&'static str]) -> u64 {
    let lacks: Vec<_> = all.iter().filter(|what| !met.0.contains_key(*what)).collect();
    if !lacks.is_empty() {
        println!("    not met: {lacks:?}");
    }
    lacks.len() as u64
}

/// What a journey is refused for, one fault at a time, and which fault comes first.
fn refusals() -> u64 {
    let mut tally = Tally::new("journey_geometry: refusals");
    let walk = || journeys::Way { walk: true, points: vec![(1.0, 2.0)], start: Some((3.0, 4.0)), end: Some((5.0, 6.0)) };
    type Fault = fn(&mut Laid);
    let faults: [(u32, Fault); 12] = [
        (0, |_| ()),
        (1, |l| l.columns[0].n = 1),
        (1, |l| l.columns[1].at = 99),
        (1, |l| l.columns[2].n = 3),
        (1, |l| l.columns[5].n = 1),
        (1, |l| l.columns[10].n = 1),
        (2, |l| l.words[l.columns[2].at as usize] = 8193),
        (3, |l| l.reals[l.columns[3].at as usize] = 90.1),
        (3, |l| l.reals[l.columns[7].at as usize] = f64::NAN),
        (3, |l| l.reals[l.columns[9].at as usize] = f64::INFINITY),
        (5, |l| l.words[l.columns[1].at as usize] = 2),
        (2, |l| {
            l.words[l.columns[1].at as usize] = 2;
            l.words[l.columns[2].at as usize] = 8193;
            l.reals[l.columns[9].at as usize] = -91.0;
        }),
    ];
    for (k, (number, fault)) in faults.into_iter().enumerate() {
        let mut laid = Laid::of_journey(&[walk(), walk()]);
        fault(&mut laid);
        let got = laid.journey_geometry(4, 4);
        let same = if number == 0 { got.is(&[[3.0, 4.0], [5.0, 6.0], [3.0, 4.0], [5.0, 6.0]]) } else { got.is_refusal(number) };
        tally.note(same, false, || format!("fault {k}: {}, expected {number}", got.told()));
    }
    let many: Vec<_> = (0..65536).map(|_| walk()).collect();
    let got = Laid::of_journey(&many).journey_geometry(4, 4);
    tally.note(got.is_refusal(2), false, || format!("65,536 legs: {}", got.told()));
    let most: Vec<_> = (0..8192).map(|k| (k as f64 * 1e-3, 0.0)).collect();
    let line = [journeys::Way { walk: false, points: most, start: None, end: None }];
    let want = rust_drawing::journey_geometry(&journeys::legs(&line));
    let got = Laid::of_journey(&line).journey_geometry(8192, 8192);
    tally.note(got.is(&want), false, || "8,192 points".to_string());
    tally.close()
}

fn main() {
    let divisor = std::env::args().nth(1).and_then(|word| word.parse().ok()).filter(|&n: &u64| n > 0);
    let Some(divisor) = divisor else {
        eprintln!("drawing: the divisor is a whole number from 1");
        std::process::exit(2);
    };
    let start = Instant::now();
    let differ = compare_legs(&mut Draw::new(71), WORLDS / divisor)
        + compare_journeys(&mut Draw::new(72), WORLDS / divisor)
        + refusals();
    println!("{differ} differ in all; {:.1} s", start.elapsed().as_secs_f64());
    std::process::exit((differ != 0) as i32);
}
