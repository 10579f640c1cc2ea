//! Fractions, distances and stops for a line: at, just before and just past its lengths, the tolerances and the limits.
use super::draw::{stepped, Draw};
use super::lines::{Point, DEGREE};

/// Of a leg: the ends, past them, just inside them, no number, or any.
pub fn fraction(d: &mut Draw) -> f64 {
    const ENDS: [f64; 12] =
        [0.0, -0.0, 1.0, -1e-9, 1.0 + 1e-9, 5e-324, 0.5, 1.0 - 1e-16, -3.0, f64::NAN, f64::INFINITY, f64::NEG_INFINITY];
    match d.below(4) {
        0 => d.one_of(&ENDS),
        1 => stepped(d.one_of(&[0.25, 0.5, 1.0]), d.whole(-2, 2)),
        _ => d.unit(),
    }
}

/// A length along a line: one to a vertex, with or without a tolerance, a few floats more or less; before the start, past the end, or any.
fn length(d: &mut Draw, sums: &[f64]) -> f64 {
    let last = sums.last().copied().unwrap_or(0.0);
    match d.below(8) {
        0 => -d.unit(),
        1 => last + d.unit() * 2e-6,
        2 => last * d.unit(),
        _ => {
            let sum = if sums.is_empty() { 1.0 } else { d.one_of(sums) };
            let more = d.one_of(&[0.0, 1e-6, 1e-9, -1e-9, 1e-7]);
            stepped(sum + more, d.whole(-2, 2))
        }
    }
}

/// Two distances and a fraction that give such a length: from 0 to a power of two the product is exact. Or two distances near 0.5 apart, or any.
pub fn marks(d: &mut Draw, sums: &[f64]) -> (f32, f32, f64) {
    let frac = fraction(d);
    match d.below(8) {
        0 => {
            let (a, b) = (f32::from_bits(d.bits() as u32), f32::from_bits(d.bits() as u32));
            (a, b, frac)
        }
        1 => {
            let a = d.one_of(&[0.0f32, 1.0, 100.0, 1e4, -2.0]);
            let b = a + d.one_of(&[0.5f32, -0.5, 0.49999997, 0.50000006, -0.49999997, -0.50000006, 0.0, -0.0]);
            (a, b, frac)
        }
        2 => {
            let odd = [f32::NAN, f32::INFINITY, f32::NEG_INFINITY, 0.0, -0.0, 1e4, -1e4];
            (d.one_of(&odd), d.one_of(&odd), frac)
        }
        3 => {
            let (a, b) = (length(d, sums) as f32, length(d, sums) as f32);
            (a, b, frac)
        }
        4 => {
            let high = 33_554_432.0f32;
            (high, 0.0, 1.0 - length(d, sums) / high as f64)
        }
        _ => {
            let high = d.one_of(&[1.0f32, 1024.0, 1_048_576.0, 33_554_432.0]);
            (0.0, high, length(d, sums) / high as f64)
        }
    }
}

/// A calibration: metres, kilometres, feet, an offset, or any.
pub fn affine(d: &mut Draw) -> (f64, f64) {
    match d.below(6) {
        0 => (0.0, 1.0),
        1 => (d.between(-100.0, 100.0), d.one_of(&[1.0, 1000.0, 0.3048, 1609.344])),
        2 => (f64::from_bits(d.bits()), f64::from_bits(d.bits())),
        3 => (0.0, d.one_of(&[1e300, -1.0, 0.0, f64::INFINITY, f64::NAN])),
        _ => (d.between(-1.0, 1.0), d.between(0.5, 2.0)),
    }
}

/// A fraction of a line's own length that gives a length to a vertex, or near one.
pub fn share(d: &mut Draw, sums: &[f64]) -> f64 {
    if d.below(3) == 0 {
        return fraction(d);
    }
    let total = sums.last().copied().unwrap_or(1.0);
    stepped(length(d, sums) / total, d.whole(-1, 1))
}

/// A line of two vertices and two stops whose nearest they are: the line about 1, 500, 700 or 4 metres long, the stops a quarter of it apart or
/// less, each to a few floats; so that the total is at 1, at 500 and at four times the chord.
pub fn limits(d: &mut Draw) -> (Vec<Point>, Point, Point) {
    let metres = d.one_of(&[1.0, 4.0, 500.0, 700.0, 3000.0]);
    let end = stepped(metres / DEGREE, d.whole(-8, 8));
    let line = vec![(0.0, 0.0), (0.0, end)];
    let part = d.one_of(&[0.25, 0.26, 0.125, 0.9]);
    let prev = (0.0, end * 0.4);
    let next = (0.0, stepped(end * (0.4 + part), d.whole(-8, 8)));
    if d.coin() {
        (line, prev, next)
    } else {
        (line, next, prev)
    }
}
