//! Compares calibration with the Rust: the unit that a ratio is near, and the metres that samples' distances stand for. Ends with status 1
//! where any answer differs.
//!
//!     calibration DIVISOR     takes a DIVISOR-th of the inputs
mod inputs;
mod line_port;
mod rust;
mod standin;
mod tally;

use inputs::draw::Draw;
use inputs::lines::{self, Point};
use inputs::samples::{self, Sample};
use line_port::Columns;
use rust::taken::line as rust_line;
use std::time::Instant;
use tally::{agree, hex, same, Tally};

const RATIOS: u64 = 10_000_000;
const LINES: u64 = 1_000_000;

fn compare_ratios(d: &mut Draw, count: u64) -> u64 {
    let mut tally = Tally::new("snap_unit_scale");
    let mut snapped = 0;
    for i in 0..count {
        let ratio = samples::ratio(d, i);
        let (got, want) = (line_port::snap_unit_scale(ratio), rust_line::snap_unit_scale(ratio));
        snapped += !same(want, ratio) as u64;
        tally.note(same(got, want), want.is_nan(), || hex(&[ratio, got, want]));
    }
    let differ = tally.close();
    println!("    {snapped} changed to a unit");
    differ
}

/// What the answers of one comparison were, and how many inputs were at a bound.
#[derive(Default)]
struct Seen {
    answered: u64,
    snapped: u64,
    nan_metres: u64,
    distances_at_bound: u64,
    metres_at_bound: u64,
}

impl Seen {
    fn note(&mut self, metres: f64, span: f64, want: Option<(f64, f64)>) {
        self.answered += want.is_some() as u64;
        self.snapped += want.is_some_and(|(_, b)| [1.0, 1000.0, 0.3048, 1609.344].contains(&b)) as u64;
        self.nan_metres += metres.is_nan() as u64;
        self.distances_at_bound += ((span.abs() - 1e-9).abs() < 1e-24) as u64;
        self.metres_at_bound += ((metres.abs() - 1.0).abs() < 1e-14) as u64;
    }

    fn tell(&self) {
        println!(
            "    {} answered, {} of them by a unit; {} with NaN between the samples",
            self.answered, self.snapped, self.nan_metres
        );
        println!(
            "    {} with distances about 1e-9 apart, {} with metres about 1 apart",
            self.distances_at_bound, self.metres_at_bound
        );
    }
}

/// How far apart two positions lie along a line, as the Rust reads them.
fn metres_between(line: &[Point], lengths: &[f64], first: Point, last: Point) -> f64 {
    if line.is_empty() {
        return 1.0;
    }
    let from = rust_line::forward_shape_index(line, 0, first.0, first.1);
    lengths[rust_line::forward_last_index(line, from, last.0, last.1)] - lengths[from]
}

fn compare_samples(d: &mut Draw, count: u64) -> u64 {
    let mut tally = Tally::new("shape_dist_affine");
    let mut seen = Seen::default();
    for i in 0..count {
        let line = if i % 8 == 0 { samples::metre(d) } else { lines::line(d, i) };
        let lengths = rust_line::shape_cumulative_distances(&line);
        let metres = |a, b| metres_between(&line, &lengths, a, b);
        let taken: Vec<Sample> = samples::samples(d, &line, metres);
        let (first, last) = (taken[0], taken[taken.len() - 1]);
        let want = rust_line::shape_dist_affine(&line, &lengths, &taken);
        let got = Columns::of(&line).shape_dist_affine(first, last);
        seen.note(metres(first.1, last.1), last.0 - first.0, want);
        tally.note(agree(got, want), want.is_none(), || {
            format!("{line:?} {first:?} {last:?}: port: {got:?}, Rust: {want:?}")
        });
    }
    let differ = tally.close();
    seen.tell();
    differ
}

fn main() {
    let divisor = std::env::args().nth(1).and_then(|word| word.parse().ok()).filter(|&n: &u64| n > 0);
    let Some(divisor) = divisor else {
        eprintln!("calibration: the divisor is a whole number from 1");
        std::process::exit(2);
    };
    let start = Instant::now();
    let mut d = Draw::new(34);
    let differ = compare_ratios(&mut d, RATIOS / divisor) + compare_samples(&mut d, LINES / divisor);
    println!("{differ} differ in all; {:.1} s", start.elapsed().as_secs_f64());
    std::process::exit((differ != 0) as i32);
}
