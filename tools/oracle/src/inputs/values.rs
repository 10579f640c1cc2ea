//! Values of one float, for the functions of one float.
use super::draw::{power, Draw};
use std::f64::consts::PI;

pub const SPECIAL: [f64; 40] = [
    0.0,
    -0.0,
    f64::INFINITY,
    f64::NEG_INFINITY,
    f64::NAN,
    f64::from_bits(0x7ff0_0000_0000_0001), // a signalling NaN
    f64::from_bits(0xffff_ffff_ffff_ffff),
    f64::from_bits(1), // the least subnormal
    f64::from_bits(0x8000_0000_0000_0001),
    f64::from_bits(0x000f_ffff_ffff_ffff), // the greatest subnormal
    f64::MIN_POSITIVE,
    -f64::MIN_POSITIVE,
    f64::MAX,
    f64::MIN,
    1.0,
    -1.0,
    f64::from_bits(0x3ff0_0000_0000_0001), // beside 1
    f64::from_bits(0x3fef_ffff_ffff_ffff),
    f64::from_bits(0xbff0_0000_0000_0001),
    f64::from_bits(0xbfef_ffff_ffff_ffff),
    0.5,
    -0.5,
    2.0,
    4.0,
    f64::from_bits(0x4010_0000_0000_0001),
    f64::from_bits(0x400f_ffff_ffff_ffff),
    PI,
    -PI,
    PI / 2.0,
    -PI / 2.0,
    90.0,
    -90.0,
    180.0,
    -180.0,
    360.0,
    1e154, // squares near the overflow and the underflow
    1.4e154,
    1e-154,
    1.5e-162,
    1e-170,
];

pub fn special(d: &mut Draw) -> f64 {
    d.one_of(&SPECIAL)
}

pub fn any_bits(d: &mut Draw) -> f64 {
    f64::from_bits(d.bits())
}

/// Every exponent alike, zero's and infinity's included, either sign.
pub fn any_exponent(d: &mut Draw) -> f64 {
    f64::from_bits(d.bits() >> 12 | d.below(4096) << 52)
}

/// Every exponent, with few bits set or few bits clear at the low end.
pub fn near_power(d: &mut Draw) -> f64 {
    let e = d.below(4096) << 52;
    f64::from_bits(e.wrapping_add_signed(d.whole(-4, 4) as i64))
}

/// Subnormals of every width.
pub fn subnormal(d: &mut Draw) -> f64 {
    let x = f64::from_bits(d.bits() >> 12 >> d.below(52));
    d.signed(x)
}

fn half_turn(d: &mut Draw) -> f64 {
    d.between(-PI, PI)
}

fn two_turns(d: &mut Draw) -> f64 {
    d.between(-4.0 * PI, 4.0 * PI)
}

pub fn zero_to_one(d: &mut Draw) -> f64 {
    d.unit()
}

pub fn one_either_way(d: &mut Draw) -> f64 {
    d.between(-1.0, 1.0)
}

pub fn two_either_way(d: &mut Draw) -> f64 {
    d.between(-2.0, 2.0)
}

/// Close below or above 1, at every distance, either sign.
pub fn near_one(d: &mut Draw) -> f64 {
    let apart = power(d.whole(-60, -1));
    let x = 1.0 + d.signed(apart);
    d.signed(x)
}

fn whole_turn_deg(d: &mut Draw) -> f64 {
    d.between(-360.0, 360.0)
}

/// Magnitudes from 2 to the -70 up to 2.
pub fn small(d: &mut Draw) -> f64 {
    let x = (1.0 + d.unit()) * power(d.whole(-70, 0));
    d.signed(x)
}

pub type Value = fn(&mut Draw) -> f64;

/// Anything at all.
pub const ANY: [Value; 5] = [any_bits, any_exponent, near_power, subnormal, special];

pub const ANGLES: [Value; 9] =
    [half_turn, two_turns, small, half_turn, any_bits, any_exponent, near_power, subnormal, special];
pub const TANGENTS: [Value; 9] =
    [zero_to_one, near_one, small, zero_to_one, any_bits, any_exponent, near_power, subnormal, special];
pub const SINES: [Value; 9] =
    [one_either_way, near_one, small, one_either_way, any_bits, any_exponent, near_power, subnormal, special];
pub const DEGREES: [Value; 9] =
    [whole_turn_deg, half_turn, small, whole_turn_deg, any_bits, any_exponent, near_power, subnormal, special];
pub const FRACTIONS: [Value; 9] =
    [two_either_way, near_one, small, zero_to_one, any_bits, any_exponent, near_power, subnormal, special];
