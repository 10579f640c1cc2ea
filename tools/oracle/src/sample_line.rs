//! Writes a fixed sample of lines with what is asked of them, and the Rust's answers, for a program that replays them.
//!
//!     sample_line FOLDER     writes FOLDER/questions and FOLDER/answers
mod inputs;
mod line_limits;
mod met;
mod replayed;
mod rust;
mod standin;

use inputs::draw::{stepped, Draw};
use inputs::lines::{self, Point};
use inputs::{samples, walks};
use met::Met;
use replayed::{asked, digits, Sample};
use rust::taken::{by_distance, line as rust_line, polyline};
use std::collections::BTreeMap;

/// How often an operation meets each kind of line and each limit, and how many lines are looked through for that.
const TIMES: u64 = 3;
const LOOKED_THROUGH: u64 = 400_000;

/// A question, or a trip with its stops: which operation it is of, the Rust's answer, and what it meets.
struct Asked {
    of: &'static str,
    question: String,
    answer: String,
    meets: Met,
}

impl Asked {
    fn new(of: &'static str, question: String, answer: String) -> Asked {
        Asked { of, question, answer, meets: Met::default() }
    }
}

fn single(x: f32) -> String {
    format!("{:08x}", x.to_bits())
}

fn position(answer: Option<(f64, f64, f64)>) -> String {
    answer.map_or("none".to_string(), |(y, x, bearing)| format!("{} {} {}", digits(y), digits(x), digits(bearing)))
}

fn length(d: &mut Draw, line: &[Point], sums: &[f64]) -> Option<Asked> {
    let k = if line.is_empty() { None } else { Some(d.below(line.len() as u64) as usize) }?;
    let mut a = Asked::new("length", format!("length {k:08x}"), digits(sums[k]));
    a.meets.note(k == 0, "to the first vertex");
    a.meets.note(k > 0 && k == line.len() - 1, "to the last vertex");
    a.meets.note(sums[k].is_nan(), "NaN");
    Some(a)
}

fn point(d: &mut Draw, line: &[Point]) -> Point {
    lines::stop(d, line).unwrap_or((0.5, f64::INFINITY))
}

/// The first vertex near a stop, or the last.
fn vertex(d: &mut Draw, line: &[Point], of: &'static str, rust: fn(&[Point], usize, f64, f64) -> usize) -> Asked {
    let (from, stop) = (d.below(line.len() as u64 + 3) as usize, point(d, line));
    let found = rust(line, from, stop.0, stop.1);
    let mut a = Asked::new(of, asked(&format!("{of} {from:08x}"), &[stop.0, stop.1]), found.to_string());
    line_limits::vertex(&mut a.meets, line, from, stop, found);
    a
}

fn trip(d: &mut Draw, line: &[Point]) -> Option<Asked> {
    let stops = lines::stops(d, line);
    let vertices = rust_line::project_stops_monotonic(line, &stops);
    let mut question = "trip".to_string();
    let mut answers = Vec::new();
    let mut a = Asked::new("trip", String::new(), String::new());
    let (mut at, mut moves, mut held) = (0, false, false);
    for (stop, vertex) in stops.iter().zip(&vertices) {
        let words = stop.map_or("stop".to_string(), |p| asked("stop", &[p.0, p.1]));
        question.push_str(&format!("\n{words}"));
        answers.push(vertex.map_or("none".to_string(), |k| k.to_string()));
        if let (Some(p), Some(k)) = (stop, vertex) {
            held |= rust_line::forward_shape_index(line, 0, p.0, p.1) < *k;
            moves |= at > 0 && at < *k;
            at = *k;
        }
    }
    a.meets.note(vertices.contains(&None), "a stop without a position");
    a.meets.note(moves, "the cursor moves on");
    a.meets.note(held, "a stop that alone would be at an earlier vertex");
    (a.question, a.answer) = (question, answers.join("\n"));
    (!stops.is_empty()).then_some(a)
}

fn affine(d: &mut Draw, line: &[Point], sums: &[f64]) -> Asked {
    let metres = |a: Point, b: Point| {
        let from = rust_line::forward_shape_index(line, 0, a.0, a.1);
        let to = rust_line::forward_last_index(line, from, b.0, b.1);
        if line.is_empty() {
            1.0
        } else {
            sums[to] - sums[from]
        }
    };
    let taken = samples::samples(d, line, metres);
    let ((d0, p), (d1, q)) = (taken[0], taken[taken.len() - 1]);
    let answer = rust_line::shape_dist_affine(line, sums, &taken);
    let told = answer.map_or("none".to_string(), |(a, b)| format!("{} {}", digits(a), digits(b)));
    let mut a = Asked::new("affine", asked("affine", &[p.0, p.1, d0, q.0, q.1, d1]), told);
    line_limits::affine(&mut a.meets, d0, d1, metres(p, q), answer);
    a
}

/// The place between two distances, in metres and in a feed's unit.
fn between(d: &mut Draw, line: &[Point], sums: &[f64]) -> [Asked; 2] {
    let (d0, d1, frac) = walks::marks(d, sums);
    let answer = by_distance::interpolate_shape_by_dist(line, d0, d1, frac);
    let marks = format!("{} {}", single(d0), single(d1));
    let mut dist = Asked::new("dist", asked(&format!("dist {marks}"), &[frac]), position(answer));
    line_limits::between(&mut dist.meets, sums, d0, d1, frac);
    let (a, b) = walks::affine(d);
    let answer = by_distance::interpolate_shape_by_feed_dist(line, d0, d1, frac, (a, b));
    let mut feed = Asked::new("feed", asked(&format!("feed {marks}"), &[frac, a, b]), position(answer));
    let metres = |x: f32| (a + b * x as f64) as f32;
    feed.meets.note(metres(d0).is_infinite() || metres(d1).is_infinite(), "infinite metres");
    feed.meets
        .note((metres(d0) - metres(d1)).abs() < 0.5 && (d0 - d1).abs() > 0.5, "a span under 0.5 by the calibration");
    feed.meets.note(metres(d0) > metres(d1) && d0 < d1, "turned by the calibration");
    [dist, feed]
}

fn along(d: &mut Draw, line: &[Point], sums: &[f64]) -> Asked {
    let frac = walks::share(d, sums);
    let answer = polyline::interpolate_along_vertices(line, frac);
    let mut a = Asked::new("along", asked("along", &[frac]), position(answer));
    line_limits::along(&mut a.meets, sums, frac);
    a
}

fn between_stops(d: &mut Draw, line: &[Point], prev: Point, next: Point) -> Asked {
    let sums = line_limits::part_sums(line, prev, next);
    let frac = if d.coin() { walks::fraction(d) } else { walks::share(d, &sums) };
    let answer = polyline::interpolate_polyline(line, prev.0, prev.1, next.0, next.1, frac);
    let question = asked("polyline", &[prev.0, prev.1, next.0, next.1, frac]);
    let mut a = Asked::new("polyline", question, position(answer));
    line_limits::between_stops(&mut a.meets, line, &sums, prev, next, frac);
    a
}

fn nearest(d: &mut Draw, line: &[Point]) -> Asked {
    let stop = point(d, line);
    let found = polyline::nearest_idx(line, stop.0, stop.1);
    let mut a = Asked::new("nearest", asked("nearest", &[stop.0, stop.1]), found.to_string());
    line_limits::nearest(&mut a.meets, line, stop);
    a
}

fn scale(d: &mut Draw, i: u64) -> Asked {
    let ratio = samples::ratio(d, i);
    let mut a = Asked::new("scale", asked("scale", &[ratio]), digits(rust_line::snap_unit_scale(ratio)));
    line_limits::scale(&mut a.meets, ratio);
    a
}

/// A question of each operation.
fn all(d: &mut Draw, line: &[Point]) -> Vec<Asked> {
    let sums = rust_line::shape_cumulative_distances(line);
    let mut asked = vec![
        vertex(d, line, "first", rust_line::forward_shape_index),
        vertex(d, line, "last", rust_line::forward_last_index),
        affine(d, line, &sums),
        along(d, line, &sums),
        nearest(d, line),
    ];
    asked.extend(between(d, line, &sums));
    asked.extend(length(d, line, &sums));
    asked.extend(trip(d, line));
    let (prev, next) = (point(d, line), point(d, line));
    asked.push(between_stops(d, line, prev, next));
    asked
}

/// Out to the north and back beside it, 500 metres to a few floats, between stops some 20 metres apart. One stretch alone is never of exactly 500.
fn at_500(d: &mut Draw) -> (Vec<Point>, Point, Point) {
    let (lat, lon) = (d.between(0.0, 1e-3), d.between(1e-4, 2e-4));
    let line = |north: f64| vec![(lat, 0.0), (lat + north, 0.0), (lat, lon)];
    let mut north = 2e-3;
    for _ in 0..8 {
        north *= 500.0 / rust_line::shape_cumulative_distances(&line(north))[2];
    }
    (line(stepped(north, d.whole(-4, 4))), (lat, 0.0), (lat, lon))
}

/// The i-th line and what is asked of it: one of each kind in turn, then those whose lengths are at a limit.
fn drawn(d: &mut Draw, i: u64) -> (&'static str, Vec<Point>, Vec<Asked>) {
    let (kind, line) = match i % 14 {
        10 => ("a metre", samples::metre(d)),
        11 => ("half a metre and back", lines::half_and_back(d)),
        12 => ("a short stretch", lines::short_stretch(d)),
        13 => {
            let (line, prev, next) = if d.coin() { walks::limits(d) } else { at_500(d) };
            let mut asked = all(d, &line);
            asked.push(between_stops(d, &line, prev, next));
            return ("about the limits of a polyline", line, asked);
        }
        kind => lines::short(d, kind),
    };
    let asked = all(d, &line);
    (kind, line, asked)
}

/// What is kept, and what each operation's questions meet.
#[derive(Default)]
struct Kept {
    sample: Sample,
    met: BTreeMap<&'static str, Met>,
}

impl Kept {
    /// Whether the question meets something that too few before it met.
    fn wants(&mut self, a: &Asked) -> bool {
        let so_far = self.met.entry(a.of).or_default();
        so_far.heed(&a.meets);
        so_far.wants(&a.meets, TIMES)
    }

    fn add(&mut self, a: &Asked) {
        self.sample.add(&a.question, &a.answer);
        self.met.entry(a.of).or_default().add(&a.meets);
    }

    /// Those questions of a line that are wanted, after the line; each meets the line's kind and size.
    fn add_line(&mut self, kind: &'static str, line: &[Point], asked: Vec<Asked>) {
        let mut told = false;
        for mut a in asked {
            a.meets.note(true, kind);
            a.meets.note(true, size(line));
            if self.wants(&a) {
                if !told {
                    self.sample.questions.push_str(&vertices(line));
                    told = true;
                }
                self.add(&a);
            }
        }
    }
}

fn size(line: &[Point]) -> &'static str {
    match line.len() {
        0 => "no vertex",
        1 => "one vertex",
        2 => "two vertices",
        3..=12 => "a few vertices",
        _ => "many vertices",
    }
}

fn vertices(line: &[Point]) -> String {
    let vertices: String = line.iter().map(|p| asked("vertex", &[p.0, p.1]) + "\n").collect();
    format!("line\n{vertices}")
}

fn main() -> std::io::Result<()> {
    let folder = std::env::args().nth(1).expect("usage: sample_line FOLDER");
    let (mut d, mut kept) = (Draw::new(35), Kept::default());
    for i in 0..LOOKED_THROUGH {
        let ratio = scale(&mut d, i);
        if kept.wants(&ratio) {
            kept.add(&ratio);
        }
        let (kind, line, asked) = drawn(&mut d, i);
        kept.add_line(kind, &line, asked);
    }
    for (of, met) in &kept.met {
        println!("{of}");
        met.print();
        assert!(!met.lacks(TIMES), "{of}: too few lines were looked through");
    }
    kept.sample.write(&folder)
}
