//! Pairs of positions that every run has.
use super::pairs::{Pair, LAT_LIMIT, LON_LIMIT};

const LEAST: f64 = f64::from_bits(1);

/// On the globe.
pub const ON_GLOBE: [Pair; 34] = [
    [0.0, 0.0, 0.0, 0.0],
    [-0.0, -0.0, 0.0, 0.0],
    [0.0, 0.0, -0.0, -0.0],
    [-0.0, 0.0, -0.0, 0.0],
    [0.0, 0.0, 0.0, 1.0],
    [0.0, 0.0, 0.0, -1.0],
    [0.0, 0.0, 1.0, 0.0],
    [0.0, 0.0, -1.0, 0.0],
    [0.0, 0.0, -1.0, -0.0],
    [43.0, 5.0, 43.0, 5.0],
    [43.296482, 5.36978, 41.9192, 8.7386],
    [90.0, 0.0, -90.0, 0.0],
    [-90.0, 0.0, 90.0, 0.0],
    [90.0, 0.0, 90.0, 180.0],
    [90.0, -180.0, 90.0, 180.0],
    [0.0, 180.0, 0.0, -180.0],
    [0.0, -180.0, 0.0, 180.0],
    [10.0, 179.5, 10.0, -179.5],
    [10.0, -179.5, 10.0, 179.5],
    [0.0, 0.0, 0.0, 180.0],
    [0.0, -90.0, 0.0, 90.0],
    [45.0, 0.0, -45.0, 180.0],
    [82.25, 0.0, -82.25, 180.0], // the haversine is NaN
    [-82.25, 180.0, 82.25, 0.0],
    [82.25, -90.0, -82.25, 90.0],
    [45.0, 10.0, 45.00000000000001, 10.0],
    [45.0, 10.0, 45.0, 10.000000000000002],
    [45.0, 10.0, 44.99999999999999, 9.999999999999998],
    [0.0, 0.0, LEAST, 0.0],
    [0.0, 0.0, 0.0, -LEAST],
    [LEAST, -LEAST, -LEAST, LEAST],
    [0.0, 0.0, f64::MIN_POSITIVE, f64::MIN_POSITIVE],
    [10.0, 0.0, 20.0, -1e-15], // the bearing rounds to 360, and comes out 0
    [10.0, 0.0, 20.0, -1e-10],
];

/// Off the globe in one coordinate: a float beyond either edge, NaN, either infinity.
pub fn off_globe() -> Vec<Pair> {
    let mut pairs = Vec::new();
    for at in 0..4 {
        let beyond = [LAT_LIMIT, LON_LIMIT][at % 2].next_up();
        for wrong in [beyond, -beyond, f64::NAN, f64::INFINITY, f64::NEG_INFINITY] {
            let mut pair = [43.0, 5.0, 42.0, 8.0];
            pair[at] = wrong;
            pairs.push(pair);
        }
    }
    pairs
}
