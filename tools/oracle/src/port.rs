//! The port's side: the functions of target/staticlib/liboracle.a.
#![allow(dead_code)]

/// lat1, lon1, lat2, lon2, then where the answer goes. Returns 0, or the number of a refusal.
pub type Measure = unsafe extern "C" fn(f64, f64, f64, f64, *mut f64) -> u32;

extern "C" {
    pub fn zebumorn_root(x: f64) -> f64;
    pub fn zebumorn_narrow(x: f64) -> f32;
    pub fn zebumorn_sin(r: f64) -> f64;
    pub fn zebumorn_cos(r: f64) -> f64;
    pub fn zebumorn_atan(t: f64) -> f64;
    pub fn zebumorn_asin(s: f64) -> f64;
    pub fn zebumorn_radians(x: f64) -> f64;
    pub fn zebumorn_degrees(x: f64) -> f64;
    pub fn zebumorn_abs(x: f64) -> f64;
    pub fn zebumorn_clamp01(x: f64) -> f64;
    pub fn zebumorn_atan2(y: f64, x: f64) -> f64;
    pub fn zebumorn_hypot(x: f64, y: f64) -> f64;
    pub fn zebumorn_max_of(x: f64, k: f64) -> f64;
    pub fn zebumorn_least(best: f64, x: f64) -> f64;
    pub fn zebumorn_is_nan(x: f64) -> u8;
    pub fn zebumorn_haversine_m(lat1: f64, lon1: f64, lat2: f64, lon2: f64, out: *mut f64) -> u32;
    pub fn zebumorn_bearing_deg(lat1: f64, lon1: f64, lat2: f64, lon2: f64, out: *mut f64) -> u32;
}
