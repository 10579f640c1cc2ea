//! Lines, and trips along them. A vertex and a stop are a latitude and a longitude; a stop may lack its position.
use super::draw::{in_turn, stepped, Draw};

pub type Point = (f64, f64);
pub type Stop = Option<Point>;

/// A degree of longitude on the equator, in metres, but for the last digits.
pub const DEGREE: f64 = 111_194.926_644_558_73;

fn anywhere(d: &mut Draw) -> Point {
    (d.between(-90.0, 90.0), d.between(-180.0, 180.0))
}

/// From p by up to so many degrees each way.
fn beside(d: &mut Draw, p: Point, most: f64) -> Point {
    (p.0 + d.between(-most, most), p.1 + d.between(-most, most))
}

/// About a metre to about ten kilometres.
fn spacing(d: &mut Draw) -> f64 {
    d.one_of(&[1e-5, 1e-4, 1e-3, 1e-1])
}

/// Onward, mostly to the north and east.
pub fn onward(d: &mut Draw, n: usize) -> Vec<Point> {
    let step = spacing(d);
    let mut p = (d.between(-85.0, 85.0), d.between(-179.0, 179.0));
    (0..n)
        .map(|_| {
            p = (p.0 + d.between(-0.3, 0.7) * step, p.1 + d.between(-0.3, 0.7) * step);
            p
        })
        .collect()
}

/// Out, and back over the same vertices.
fn out_and_back(d: &mut Draw, n: usize) -> Vec<Point> {
    let out = onward(d, n.div_ceil(2));
    out.iter().chain(out.iter().rev()).copied().take(n).collect()
}

/// Twice round, the second time a little off.
fn looped(d: &mut Draw, n: usize) -> Vec<Point> {
    let (centre, step) = (anywhere(d), spacing(d));
    (0..n)
        .map(|k| {
            let turn = k as f64 / n as f64 * 4.0 * std::f64::consts::PI;
            beside(d, (centre.0 + step * turn.sin(), centre.1 + step * turn.cos()), step * 0.01)
        })
        .collect()
}

/// Vertices that are repeated.
fn repeated(d: &mut Draw, n: usize) -> Vec<Point> {
    let line = onward(d, n);
    (0..n).map(|k| line[k - d.below(1 + k.min(2) as u64) as usize]).collect()
}

fn scattered(d: &mut Draw, n: usize) -> Vec<Point> {
    (0..n).map(|_| anywhere(d)).collect()
}

/// Over the antimeridian and back.
fn antimeridian(d: &mut Draw, n: usize) -> Vec<Point> {
    (0..n)
        .map(|_| {
            let lon = d.between(179.999, 180.0);
            (d.between(-1e-3, 1e-3), d.signed(lon))
        })
        .collect()
}

/// Neighbours whose distance is NaN.
fn antipodal(d: &mut Draw, n: usize) -> Vec<Point> {
    (0..n).map(|_| if d.coin() { (82.25, 0.0) } else { (-82.25, 180.0) }).collect()
}

/// Some vertices that are no position.
fn with_nan(d: &mut Draw, n: usize) -> Vec<Point> {
    let mut line = onward(d, n);
    line.iter_mut().filter(|_| d.below(4) == 0).for_each(|p| p.0 = f64::NAN);
    line
}

/// Any bits.
fn wild(d: &mut Draw, n: usize) -> Vec<Point> {
    (0..n).map(|_| if d.coin() { (f64::from_bits(d.bits()), f64::from_bits(d.bits())) } else { (0.0, -0.0) }).collect()
}

/// 25 metres from 0, 0, or a few floats more or less.
fn at_slack(d: &mut Draw) -> Point {
    let x = stepped(25.0 / DEGREE, d.whole(-6, 6));
    (0.0, d.signed(x))
}

/// Those, and 0, 0 itself.
fn slack(d: &mut Draw, n: usize) -> Vec<Point> {
    (0..n).map(|_| if d.below(4) == 0 { (0.0, 0.0) } else { at_slack(d) }).collect()
}

const LINES: [fn(&mut Draw, usize) -> Vec<Point>; 10] =
    [onward, out_and_back, looped, repeated, scattered, antimeridian, antipodal, with_nan, wild, slack];

/// What the kinds are called.
const KINDS: [&str; 10] = [
    "onward",
    "out and back",
    "looped",
    "repeated vertices",
    "scattered",
    "over the antimeridian",
    "NaN lengths",
    "NaN vertices",
    "any bits",
    "about the slack",
];

/// A short line of the i-th kind, and what it is called.
pub fn short(d: &mut Draw, i: u64) -> (&'static str, Vec<Point>) {
    let n = if d.below(8) == 0 { d.below(41) } else { d.below(10) };
    (in_turn(&KINDS, i), in_turn(&LINES, i)(d, n as usize))
}

/// The i-th line: most are short, some long, and now and then one has as many vertices as a line may.
pub fn line(d: &mut Draw, i: u64) -> Vec<Point> {
    let n = match d.below(2000) {
        0 => 8192,
        1..=40 => d.below(300),
        _ => d.below(12),
    };
    in_turn(&LINES, i)(d, n as usize)
}

/// Half a metre and back, or a few floats more or less.
pub fn half_and_back(d: &mut Draw) -> Vec<Point> {
    let x = stepped(0.5 / DEGREE, d.whole(-12, 12));
    vec![(0.0, 0.0), (0.0, x), (0.0, 0.0)]
}

/// A stretch of less than a millionth of a metre, and on to the north.
pub fn short_stretch(d: &mut Draw) -> Vec<Point> {
    let x = d.between(1e-13, 1e-11);
    vec![(0.0, 0.0), (0.0, x), (d.between(1e-4, 1.0), x)]
}

/// A stop: at a vertex, beside one, anywhere, at the slack's centre, no position, or none.
pub fn stop(d: &mut Draw, line: &[Point]) -> Stop {
    let at = |d: &mut Draw| if line.is_empty() { (1.0, 1.0) } else { d.one_of(line) };
    match d.below(8) {
        0 => None,
        1 => Some((f64::NAN, 0.0)),
        2 => Some((0.0, 0.0)),
        3 => Some(anywhere(d)),
        4 | 5 => Some(at(d)),
        _ => {
            let p = at(d);
            Some(beside(d, p, 4e-4))
        }
    }
}

/// A trip of up to seven stops.
pub fn stops(d: &mut Draw, line: &[Point]) -> Vec<Stop> {
    (0..d.below(8)).map(|_| stop(d, line)).collect()
}
