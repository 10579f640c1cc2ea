//! Compares lengths along lines, the projection of stops and places along lines with the Rust. Ends with status 1 where any answer differs.
//!
//!     line DIVISOR     takes a DIVISOR-th of the lines
mod inputs;
mod line_port;
mod rust;
mod standin;
mod tally;
mod walks;

use inputs::draw::Draw;
use inputs::lines::{self, Point, Stop};
use line_port::Columns;
use rust::taken::{geo, line as rust_line};
use std::time::Instant;
use tally::{same, Tally};
use walks::Walks;

const LINES: u64 = 1_000_000;

/// The distances from a stop to the vertices from `from` on.
fn distances(line: &[Point], from: usize, stop: Point) -> Vec<f64> {
    line.iter().skip(from).map(|v| geo::haversine_m(stop.0, stop.1, v.0, v.1)).collect()
}

/// One comparison of vertices, with how often every distance was NaN and how often one was the bound itself.
struct Vertices {
    tally: Tally,
    at_bound: u64,
}

impl Vertices {
    fn new(name: &str) -> Vertices {
        Vertices { tally: Tally::new(name), at_bound: 0 }
    }

    fn note(&mut self, line: &[Point], from: usize, stop: Point, got: usize, want: usize) {
        let ds = distances(line, from.min(line.len().saturating_sub(1)), stop);
        let bound = ds.iter().copied().fold(f64::INFINITY, f64::min) + 25.0;
        self.at_bound += ds.contains(&bound) as u64;
        let none = ds.iter().all(|d| d.is_nan());
        self.tally.note(got == want, none, || format!("{line:?} {from} {stop:?}: port: {got}, Rust: {want}"));
    }

    fn close(self) -> u64 {
        let at_bound = self.at_bound;
        let differ = self.tally.close();
        println!("    {at_bound} with a distance of exactly the least plus 25");
        differ
    }
}

fn told(line: &[Point], stops: &[Stop], got: &[Option<usize>], want: &[Option<usize>]) -> String {
    format!("{line:?} {stops:?}: port: {got:?}, Rust: {want:?}")
}

fn compare_all(divisor: u64) -> u64 {
    let mut d = Draw::new(33);
    let mut lengths = Tally::new("length_to");
    let mut trips = Tally::new("trips");
    let mut first = Vertices::new("forward_shape_index");
    let mut last = Vertices::new("forward_last_index");
    let mut walks = Walks::new();
    for i in 0..LINES / divisor {
        let line = lines::line(&mut d, i);
        let columns = Columns::of(&line);
        let stops = lines::stops(&mut d, &line);
        let (got, want) = (columns.project(&stops), rust_line::project_stops_monotonic(&line, &stops));
        trips.note(got == want, want.iter().all(Option::is_none), || told(&line, &stops, &got, &want));
        for stop in stops.into_iter().flatten() {
            let from = d.below(line.len() as u64 + 3) as usize;
            let want = rust_line::forward_shape_index(&line, from, stop.0, stop.1);
            first.note(&line, from, stop, columns.forward_shape_index(from, stop), want);
            let want = rust_line::forward_last_index(&line, from, stop.0, stop.1);
            last.note(&line, from, stop, columns.forward_last_index(from, stop), want);
        }
        let sums = rust_line::shape_cumulative_distances(&line);
        for _ in 0..line.len().min(4) {
            let k = d.below(line.len() as u64) as usize;
            let got = columns.length_to(k);
            lengths
                .note(same(got, sums[k]), sums[k].is_nan(), || format!("{line:?} {k}: port: {got}, Rust: {}", sums[k]));
        }
        walks.along(&mut d, &line, &sums);
    }
    lengths.close() + first.close() + last.close() + trips.close() + walks.close()
}

fn main() {
    let divisor = std::env::args().nth(1).and_then(|word| word.parse().ok()).filter(|&n: &u64| n > 0);
    let Some(divisor) = divisor else {
        eprintln!("line: the divisor is a whole number from 1");
        std::process::exit(2);
    };
    let start = Instant::now();
    let differ = compare_all(divisor);
    println!("{differ} differ in all; {:.1} s", start.elapsed().as_secs_f64());
    std::process::exit((differ != 0) as i32);
}
