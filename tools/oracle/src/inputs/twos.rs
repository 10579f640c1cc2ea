//! Two floats, for the functions of two.
use super::draw::{scaled, stepped, Draw};
use super::narrows::distance;
use super::values::{any_exponent, near_one, one_either_way, small, special, two_either_way, ANY};

pub type Two = [f64; 2];
type Twos = fn(&mut Draw) -> Two;

fn two_of_any(d: &mut Draw) -> Two {
    [d.one_of(&ANY)(d), d.one_of(&ANY)(d)]
}

fn two_units(d: &mut Draw) -> Two {
    [one_either_way(d), one_either_way(d)]
}

fn two_small(d: &mut Draw) -> Two {
    [small(d), small(d)]
}

fn two_special(d: &mut Draw) -> Two {
    [special(d), special(d)]
}

/// The same magnitude, or one float beside it.
fn two_alike(d: &mut Draw) -> Two {
    let x = d.one_of(&[any_exponent, one_either_way])(d);
    let y = stepped(x, d.whole(-1, 1));
    [d.signed(x), d.signed(y)]
}

/// Exponents that are close: ratios near 1, sums that round.
fn two_close(d: &mut Draw) -> Two {
    let x = d.one_of(&[any_exponent, one_either_way])(d);
    let y = scaled(x, d.whole(-60, 60)) * d.between(0.5, 2.0);
    let (x, y) = (d.signed(x), d.signed(y));
    if d.coin() {
        [x, y]
    } else {
        [y, x]
    }
}

/// A zero and anything.
fn two_with_zero(d: &mut Draw) -> Two {
    let zero = d.signed(0.0);
    let x = d.one_of(&ANY)(d);
    if d.coin() {
        [x, zero]
    } else {
        [zero, x]
    }
}

/// A length and the least that counts.
fn two_with_one(d: &mut Draw) -> Two {
    [d.one_of(&[near_one, two_either_way, distance, special])(d), 1.0]
}

pub const TWOS: [Twos; 8] =
    [two_of_any, two_units, two_small, two_special, two_alike, two_close, two_with_zero, two_with_one];
