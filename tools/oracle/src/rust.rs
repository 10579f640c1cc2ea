//! The Rust's side: the functions cut from the sources, the stand-ins, and Rust's own operations on floats.
#![allow(dead_code, unused_imports)]
pub use crate::standin::{asin, atan, atan2, cos, degrees, hypot, radians, sin};

pub mod records;

pub mod taken {
    include!(env!("ORACLE_TAKEN"));
}

pub fn root(x: f64) -> f64 {
    x.sqrt()
}

pub fn narrow(x: f64) -> f32 {
    x as f32
}

pub fn abs(x: f64) -> f64 {
    x.abs()
}

pub fn clamp01(x: f64) -> f64 {
    x.clamp(0.0, 1.0)
}

pub fn max_of(x: f64, k: f64) -> f64 {
    x.max(k)
}

/// A step of the fold that skips NaN.
pub fn least(best: f64, x: f64) -> f64 {
    best.min(x)
}

/// Whether both positions are on the globe. A NaN is not. The Rust does not ask; the port refuses where this fails.
pub fn on_globe(pair: [f64; 4]) -> bool {
    let [lat1, lon1, lat2, lon2] = pair;
    let lat = -90.0..=90.0;
    let lon = -180.0..=180.0;
    lat.contains(&lat1) && lon.contains(&lon1) && lat.contains(&lat2) && lon.contains(&lon2)
}

/// The number of that refusal.
pub const OFF_GLOBE: u32 = 3;
