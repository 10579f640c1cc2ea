//! Pairs of positions off the globe.
use super::draw::{power, stepped, Draw};
use super::pairs::{Pair, LAT_LIMIT, LON_LIMIT, PAIRS};
use super::values::any_bits;

/// A pair with one coordinate, at times several, taken off the globe (or, by chance, left on it).
pub fn off_globe(d: &mut Draw) -> Pair {
    let mut pair = d.one_of(&PAIRS)(d);
    let several = d.below(8) == 0;
    let only = d.below(4) as usize;
    for at in 0..4 {
        if at == only || several && d.coin() {
            pair[at] = wrong_coordinate(d, [LAT_LIMIT, LON_LIMIT][at % 2]);
        }
    }
    pair
}

fn wrong_coordinate(d: &mut Draw, limit: f64) -> f64 {
    let x = match d.below(8) {
        0 => limit.next_up(),
        1 => stepped(limit, d.whole(1, 4)),
        2 => limit + power(d.whole(-45, 7)),
        3 => f64::INFINITY,
        4 => f64::from_bits(0x7ff0_0000_0000_0001 | d.bits() >> 12),
        5 => f64::MAX,
        6 => d.between(limit, 2.0 * limit),
        _ => any_bits(d),
    };
    d.signed(x)
}
