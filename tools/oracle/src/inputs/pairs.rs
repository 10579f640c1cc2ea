//! Pairs of positions on the globe: lat1, lon1, lat2, lon2.
use super::draw::{power, scaled, stepped, Draw};
use super::twos::Two;
use super::values::{one_either_way, subnormal};
use crate::standin;

pub type Pair = [f64; 4];
type Pairs = fn(&mut Draw) -> Pair;

pub const LAT_LIMIT: f64 = 90.0;
pub const LON_LIMIT: f64 = 180.0;

fn joined(p: Two, q: Two) -> Pair {
    [p[0], p[1], q[0], q[1]]
}

fn swapped_at_times(d: &mut Draw, p: Two, q: Two) -> Pair {
    if d.coin() {
        joined(p, q)
    } else {
        joined(q, p)
    }
}

/// Brought back to the edge where a coordinate left the globe.
fn onto_globe(p: Two) -> Two {
    [p[0].clamp(-LAT_LIMIT, LAT_LIMIT), p[1].clamp(-LON_LIMIT, LON_LIMIT)]
}

fn place(d: &mut Draw) -> Two {
    [d.between(-LAT_LIMIT, LAT_LIMIT), d.between(-LON_LIMIT, LON_LIMIT)]
}

/// Every exponent alike, down to the subnormals.
fn place_of_any_exponent(d: &mut Draw) -> Two {
    let mut coordinate = || {
        let x = f64::from_bits(d.bits() >> 12 | d.below(1031) << 52);
        d.signed(x)
    };
    onto_globe([coordinate(), coordinate()])
}

fn uniform(d: &mut Draw) -> Pair {
    joined(place(d), place(d))
}

/// Six decimals, as feeds have them.
fn decimals(d: &mut Draw) -> Pair {
    let mut place = || [d.whole(-90_000_000, 90_000_000) as f64 / 1e6, d.whole(-180_000_000, 180_000_000) as f64 / 1e6];
    joined(place(), place())
}

/// A pole, or a few floats from it.
fn pole(d: &mut Draw) -> Two {
    let lat = stepped(LAT_LIMIT, -d.whole(0, 3));
    [d.signed(lat), place(d)[1]]
}

fn poles(d: &mut Draw) -> Pair {
    let p = pole(d);
    let q = if d.coin() { pole(d) } else { place(d) };
    swapped_at_times(d, p, q)
}

fn beside_antimeridian(d: &mut Draw) -> Two {
    let inward = if d.coin() { 0.0 } else { power(d.whole(-50, 3)) };
    let lon = stepped(LON_LIMIT - inward, -d.whole(0, 3));
    [place(d)[0], d.signed(lon)]
}

fn antimeridian(d: &mut Draw) -> Pair {
    let p = beside_antimeridian(d);
    let q = if d.coin() { beside_antimeridian(d) } else { place(d) };
    swapped_at_times(d, p, q)
}

fn opposite(p: Two) -> Two {
    [-p[0], if p[1] > 0.0 { p[1] - 180.0 } else { p[1] + 180.0 }]
}

/// Multiples of a quarter degree: their opposites are exact.
fn quarter_place(d: &mut Draw) -> Two {
    [d.whole(-360, 360) as f64 / 4.0, d.whole(-720, 720) as f64 / 4.0]
}

fn quarters(d: &mut Draw) -> Pair {
    joined(quarter_place(d), quarter_place(d))
}

fn antipodes(d: &mut Draw) -> Pair {
    let p = d.one_of(&[place, quarter_place])(d);
    joined(p, opposite(p))
}

fn near_antipodes(d: &mut Draw) -> Pair {
    let p = d.one_of(&[place, quarter_place])(d);
    let q = opposite(p);
    let q = if d.coin() {
        [stepped(q[0], d.whole(-4, 4)), stepped(q[1], d.whole(-4, 4))]
    } else {
        let (north, east) = (power(d.whole(-50, -10)), power(d.whole(-50, -10)));
        [q[0] + d.signed(north), q[1] + d.signed(east)]
    };
    let q = onto_globe(q);
    swapped_at_times(d, p, q)
}

fn equal(d: &mut Draw) -> Pair {
    let p = d.one_of(&[place, quarter_place, pole, place_of_any_exponent])(d);
    joined(p, p)
}

fn one_float_apart(d: &mut Draw) -> Pair {
    let p = d.one_of(&[place, place, quarter_place, pole, beside_antimeridian, place_of_any_exponent])(d);
    let q = onto_globe([stepped(p[0], d.whole(-1, 1)), stepped(p[1], d.whole(-1, 1))]);
    joined(p, q)
}

/// Zeros of both signs in some of the coordinates.
fn zeros(d: &mut Draw) -> Pair {
    let mut pair = joined(place(d), place(d));
    for coordinate in &mut pair {
        if d.below(4) != 0 {
            *coordinate = d.signed(0.0);
        }
    }
    pair
}

/// Subnormal coordinates, so that differences are subnormal too; at times about a place that is none.
fn subnormals(d: &mut Draw) -> Pair {
    let mut pair = [subnormal(d), subnormal(d), subnormal(d), subnormal(d)];
    if d.below(4) == 0 {
        let at = d.below(4) as usize;
        pair[at] = place(d)[at % 2];
    }
    pair
}

fn origin(_: &mut Draw) -> Two {
    [0.0, 0.0]
}

/// Differences of every exponent.
fn tiny_differences(d: &mut Draw) -> Pair {
    let p = d.one_of(&[place, place_of_any_exponent, origin])(d);
    let mut difference = || {
        let x = scaled(1.0 + d.unit(), d.whole(-1074, 6));
        d.signed(x)
    };
    let (north, east) = (difference(), difference());
    let q = match d.below(3) {
        0 => [p[0] + north, p[1]],
        1 => [p[0], p[1] + east],
        _ => [p[0] + north, p[1] + east],
    };
    joined(p, onto_globe(q))
}

fn any_exponents(d: &mut Draw) -> Pair {
    joined(place_of_any_exponent(d), place_of_any_exponent(d))
}

/// Legs of 10 m to 50 km, in any direction.
fn short_legs(d: &mut Draw) -> Pair {
    let p = [d.between(-89.0, 89.0), d.between(-LON_LIMIT, LON_LIMIT)];
    let metres = (10.0 * (1.0 + d.unit()) * power(d.whole(0, 12))).min(50_000.0);
    let (north, east) = (one_either_way(d), one_either_way(d));
    let degrees = metres / 111_195.0 / standin::hypot(north, east);
    let shrink = standin::cos(standin::radians(p[0]));
    joined(p, onto_globe([p[0] + north * degrees, p[1] + east * degrees / shrink]))
}

/// Due north, south, east and west, or a hair beside: bearings at 0, 90, 180, 270 and about 360.
fn along_axes(d: &mut Draw) -> Pair {
    let p = d.one_of(&[place, quarter_place])(d);
    let mut q = place(d);
    let fixed = d.below(2) as usize;
    let hair = if d.coin() { 0.0 } else { power(d.whole(-60, -10)) };
    q[fixed] = p[fixed] + d.signed(hair);
    joined(p, onto_globe(q))
}

const LATITUDES: [f64; 18] = [
    0.0,
    -0.0,
    90.0,
    -90.0,
    45.0,
    -45.0,
    30.0,
    -60.0,
    82.25,
    -82.25,
    89.99999999999999,
    -89.99999999999999,
    1.0,
    -1.0,
    f64::from_bits(1),
    f64::MIN_POSITIVE,
    1e-8,
    43.296482,
];

const LONGITUDES: [f64; 18] = [
    0.0,
    -0.0,
    180.0,
    -180.0,
    90.0,
    -90.0,
    45.0,
    -135.0,
    120.0,
    -60.0,
    179.99999999999997,
    -179.99999999999997,
    1.0,
    -1.0,
    f64::from_bits(0x8000_0000_0000_0001),
    f64::MIN_POSITIVE,
    -1e-8,
    5.36978,
];

fn landmarks(d: &mut Draw) -> Pair {
    [d.one_of(&LATITUDES), d.one_of(&LONGITUDES), d.one_of(&LATITUDES), d.one_of(&LONGITUDES)]
}

/// All on the globe.
pub const PAIRS: [Pairs; 16] = [
    uniform,
    decimals,
    poles,
    antimeridian,
    antipodes,
    near_antipodes,
    equal,
    one_float_apart,
    zeros,
    subnormals,
    tiny_differences,
    any_exponents,
    short_legs,
    along_axes,
    landmarks,
    quarters,
];
