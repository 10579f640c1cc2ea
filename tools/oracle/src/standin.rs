//! The stand-ins for the maths library, as document 01 defines them: all in f64, one rounding an operation.
#![allow(dead_code)]
use std::f64::consts::PI;

/// c0 = 1, cj = -c(j-1) / (2j(2j+1)).
const SIN: [f64; 18] = {
    let mut c = [1.0; 18];
    let mut j = 1;
    while j < c.len() {
        c[j] = -c[j - 1] / (2 * j * (2 * j + 1)) as f64;
        j += 1;
    }
    c
};

/// c0 = 1, cj = -c(j-1) / ((2j-1)(2j)).
const COS: [f64; 19] = {
    let mut c = [1.0; 19];
    let mut j = 1;
    while j < c.len() {
        c[j] = -c[j - 1] / ((2 * j - 1) * (2 * j)) as f64;
        j += 1;
    }
    c
};

/// cj = (-1)^j / (2j+1).
const ATAN: [f64; 12] = {
    let mut c = [1.0; 12];
    let mut j = 1;
    while j < c.len() {
        let sign = if j % 2 == 1 { -1.0 } else { 1.0 };
        c[j] = sign / (2 * j + 1) as f64;
        j += 1;
    }
    c
};

/// The polynomial with these coefficients at z, from the top one down.
fn horner<const N: usize>(c: &[f64; N], z: f64) -> f64 {
    let mut acc = c[N - 1];
    for j in (0..N - 1).rev() {
        acc = acc * z + c[j];
    }
    acc
}

pub fn radians(x: f64) -> f64 {
    x * (PI / 180.0)
}

pub fn degrees(x: f64) -> f64 {
    x * (180.0 / PI)
}

pub fn sin(r: f64) -> f64 {
    r * horner(&SIN, r * r)
}

pub fn cos(r: f64) -> f64 {
    horner(&COS, r * r)
}

/// t / (1 + root(1 + t·t)): the tangent of half the angle.
fn halved(t: f64) -> f64 {
    t / (1.0 + (1.0 + t * t).sqrt())
}

/// Meant for t in 0..1; defined by the same text elsewhere.
pub fn atan(t: f64) -> f64 {
    let t = halved(halved(t));
    4.0 * (t * horner(&ATAN, t * t))
}

pub fn atan2(y: f64, x: f64) -> f64 {
    if y.is_nan() || x.is_nan() {
        return f64::NAN;
    }
    if y == 0.0 && x == 0.0 {
        return 0.0;
    }
    let (high, wide) = (y.abs(), x.abs());
    let steep = high > wide;
    let mut a = atan(if steep { wide / high } else { high / wide });
    if steep {
        a = PI / 2.0 - a;
    }
    if x < 0.0 {
        a = PI - a;
    }
    if y < 0.0 {
        a = -a;
    }
    a
}

pub fn asin(s: f64) -> f64 {
    atan2(s, (1.0 - s * s).sqrt())
}

pub fn hypot(dx: f64, dy: f64) -> f64 {
    (dx * dx + dy * dy).sqrt()
}

/// The names under which the patched Rust calls them.
pub trait StandIn {
    fn stand_in_radians(self) -> f64;
    fn stand_in_degrees(self) -> f64;
    fn stand_in_sin(self) -> f64;
    fn stand_in_cos(self) -> f64;
    fn stand_in_asin(self) -> f64;
    fn stand_in_atan2(self, x: f64) -> f64;
    fn stand_in_square(self) -> f64;
    fn stand_in_hypot(self, y: f64) -> f64;
}

impl StandIn for f64 {
    fn stand_in_radians(self) -> f64 {
        radians(self)
    }
    fn stand_in_degrees(self) -> f64 {
        degrees(self)
    }
    fn stand_in_sin(self) -> f64 {
        sin(self)
    }
    fn stand_in_cos(self) -> f64 {
        cos(self)
    }
    fn stand_in_asin(self) -> f64 {
        asin(self)
    }
    fn stand_in_atan2(self, x: f64) -> f64 {
        atan2(self, x)
    }
    fn stand_in_square(self) -> f64 {
        self * self
    }
    fn stand_in_hypot(self, y: f64) -> f64 {
        hypot(self, y)
    }
}
