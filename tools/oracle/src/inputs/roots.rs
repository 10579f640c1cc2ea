//! Values for the square root: every exponent, and roots that are, or nearly are, a float or halfway between two.
use super::draw::{scaled, stepped, Draw};
use super::values::{any_bits, any_exponent, near_power, special, subnormal, zero_to_one, Value};

/// A perfect square of up to 53 bits, scaled by an even power, and its neighbours.
fn square(d: &mut Draw) -> f64 {
    let m = d.below(94_906_265) >> d.below(26);
    let x = scaled((m * m) as f64, 2 * d.whole(-537, 485));
    stepped(x, d.whole(-2, 2))
}

/// The square of a number of 53 bits, rounded, and its neighbours: roots that are nearly floats.
fn square_of_float(d: &mut Draw) -> f64 {
    let m = (d.bits() >> 11 | 1 << 52) as u128;
    let x = scaled((m * m) as f64, 2 * d.whole(-590, 458));
    stepped(x, d.whole(-2, 2))
}

/// The square of an odd number of 54 bits, rounded, and its neighbours: roots that are nearly halfway between two floats.
fn square_of_halfway(d: &mut Draw) -> f64 {
    let m = (d.bits() >> 10 | 1 << 53 | 1) as u128;
    let x = scaled((m * m) as f64, 2 * d.whole(-590, 457));
    stepped(x, d.whole(-1, 1))
}

/// The same next to the powers of two, where the halfway numbers crowd.
fn square_of_halfway_near_power(d: &mut Draw) -> f64 {
    let low = d.bits() >> 11 >> d.below(52);
    let m = (if d.coin() { (1u64 << 53) + (low | 1) } else { (1u64 << 54) - (low | 1) }) as u128;
    let x = scaled((m * m) as f64, 2 * d.whole(-590, 457));
    stepped(x, d.whole(-1, 1))
}

fn positive_bits(d: &mut Draw) -> f64 {
    any_bits(d).abs()
}

fn positive_exponent(d: &mut Draw) -> f64 {
    any_exponent(d).abs()
}

fn positive_subnormal(d: &mut Draw) -> f64 {
    subnormal(d).abs()
}

fn positive_near_power(d: &mut Draw) -> f64 {
    near_power(d).abs()
}

fn negative(d: &mut Draw) -> f64 {
    -any_exponent(d).abs()
}

fn one_to_two(d: &mut Draw) -> f64 {
    d.between(1.0, 2.0)
}

pub const ROOTS: [Value; 12] = [
    positive_bits,
    positive_exponent,
    positive_subnormal,
    positive_near_power,
    square,
    square_of_float,
    square_of_halfway,
    square_of_halfway_near_power,
    zero_to_one,
    one_to_two,
    negative,
    special,
];
