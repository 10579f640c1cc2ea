//! Values for narrowing to f32: every exponent, ties and their neighbours, both ends of f32's range.
use super::draw::{power, stepped, Draw};
use super::values::{any_bits, any_exponent, special, subnormal, Value};

/// The magnitude whose f32 bits are m, m up to infinity's; infinity stands for 2 to the 128.
fn f32_value(m: u32) -> f64 {
    if m == 0x7f80_0000 {
        power(128)
    } else {
        f32::from_bits(m) as f64
    }
}

/// Exactly halfway between two f32 that follow each other, or some f64 beside that.
fn tie_above(d: &mut Draw, m: u32) -> f64 {
    let half = (f32_value(m) + f32_value(m + 1)) / 2.0;
    beside(d, half)
}

/// x itself, one float beside it, or x with some low bit changed; either sign.
fn beside(d: &mut Draw, x: f64) -> f64 {
    let x = match d.below(4) {
        0 => x,
        1 => stepped(x, 1),
        2 => stepped(x, -1),
        _ => f64::from_bits(x.to_bits() ^ 1 << d.below(30)),
    };
    d.signed(x)
}

fn tie(d: &mut Draw) -> f64 {
    let m = d.below(0x7f80_0000) as u32;
    tie_above(d, m)
}

/// Halfway between subnormal f32 of every width.
fn tie_subnormal(d: &mut Draw) -> f64 {
    let m = (d.below(0x0080_0002) >> d.below(24)) as u32;
    tie_above(d, m)
}

/// Halfway between the greatest f32 and infinity, and between those just below.
fn tie_at_overflow(d: &mut Draw) -> f64 {
    let m = 0x7f7f_ffff - d.below(4) as u32;
    tie_above(d, m)
}

/// An f32, or some f64 beside it.
fn f32_exact(d: &mut Draw) -> f64 {
    let x = f32_value(d.below(0x7f80_0001) as u32);
    beside(d, x)
}

/// Every exponent from below the least f32 to above the greatest.
fn f32_exponent(d: &mut Draw) -> f64 {
    let x = (1.0 + d.unit()) * power(d.whole(-153, 130));
    d.signed(x)
}

/// Around half of the least f32 and the least itself.
fn at_underflow(d: &mut Draw) -> f64 {
    let x = d.one_of(&[power(-151), power(-150), power(-149), 3.0 * power(-150)]);
    beside(d, x)
}

fn at_overflow(d: &mut Draw) -> f64 {
    let x = d.one_of(&[power(128), power(128) - power(103), power(128) - power(104), power(129)]);
    beside(d, x)
}

/// Distances as feeds have them.
pub fn distance(d: &mut Draw) -> f64 {
    d.between(0.0, 1e6)
}

pub const NARROWS: [Value; 12] = [
    any_bits,
    f32_exponent,
    tie,
    tie_subnormal,
    tie_at_overflow,
    f32_exact,
    at_underflow,
    at_overflow,
    distance,
    any_exponent,
    subnormal,
    special,
];
