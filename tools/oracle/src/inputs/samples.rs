//! Ratios, and samples along a line: a distance and a position each.
use super::draw::{in_turn, stepped, Draw};
use super::lines::{self, Point};
use super::values;

pub type Sample = (f64, Point);

const UNITS: [f64; 4] = [1.0, 1000.0, 0.3048, 1609.344];

/// What a ratio may be a multiple of a unit by: itself, the bounds, and what lies past them.
const PARTS: [f64; 7] = [1.0, 0.75, 1.25, 0.74, 1.26, 0.9, 1.1];

/// A few floats from a unit or a bound of it.
fn near_unit(d: &mut Draw) -> f64 {
    let x = d.one_of(&UNITS) * d.one_of(&PARTS);
    stepped(x, d.whole(-4, 4))
}

/// From the kilometre's lower bound to the mile's upper.
fn kilometre_or_mile(d: &mut Draw) -> f64 {
    d.between(740.0, 2020.0)
}

fn about_a_unit(d: &mut Draw) -> f64 {
    d.one_of(&UNITS) * d.between(0.7, 1.3)
}

fn backward(d: &mut Draw) -> f64 {
    -near_unit(d)
}

const RATIOS: [fn(&mut Draw) -> f64; 7] =
    [near_unit, kilometre_or_mile, about_a_unit, backward, values::special, values::any_bits, values::any_exponent];

/// The i-th ratio.
pub fn ratio(d: &mut Draw, i: u64) -> f64 {
    in_turn(&RATIOS, i)(d)
}

/// A degree of longitude on the equator, in metres, but for the last digits.
const DEGREE: f64 = 111_194.926_644_558_73;

/// A metre along the equator, or a few floats more or less.
pub fn metre(d: &mut Draw) -> Vec<Point> {
    let x = stepped(1.0 / DEGREE, d.whole(-12, 12));
    vec![(0.0, 0.0), (0.0, x)]
}

/// A distance from which another is 1e-9 away, or a few floats more or less.
fn close(d: &mut Draw) -> (f64, f64) {
    let from = d.one_of(&[0.0, 1e-9, 0.5, -3.0]);
    let by = stepped(1e-9, d.whole(-4, 4));
    (from, from + d.signed(by))
}

/// The distances of the first sample and of the last, which lie so many metres apart.
fn distances(d: &mut Draw, metres: f64) -> (f64, f64) {
    match d.below(8) {
        0 => close(d),
        1 => (values::special(d), values::special(d)),
        2 => (values::any_bits(d), values::any_bits(d)),
        3 => {
            let x = d.between(-10.0, 10.0);
            (x, x)
        }
        _ => {
            let from = d.one_of(&[0.0, 0.0, 1.0, 12.5, -7.0]);
            let kind = d.below(RATIOS.len() as u64);
            (from, from + metres / ratio(d, kind))
        }
    }
}

fn position(d: &mut Draw, line: &[Point]) -> Point {
    lines::stop(d, line).unwrap_or_else(|| line.first().copied().unwrap_or((1.0, 1.0)))
}

/// Two to five samples; `metres` tells how far apart the first and the last lie. What stands between them is not to be read.
pub fn samples(d: &mut Draw, line: &[Point], metres: impl Fn(Point, Point) -> f64) -> Vec<Sample> {
    let (first, last) = match d.below(4) {
        0 => (position(d, line), position(d, line)),
        _ => match line {
            [] => ((1.0, 1.0), (2.0, 2.0)),
            [first, .., last] if d.coin() => (*first, *last),
            _ => (d.one_of(line), d.one_of(line)),
        },
    };
    let (d0, d1) = distances(d, metres(first, last));
    let mut samples = vec![(d0, first)];
    for _ in 0..d.below(4) {
        let at = position(d, line);
        samples.push((values::any_bits(d), at));
    }
    samples.push((d1, last));
    samples
}
