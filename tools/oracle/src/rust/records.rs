//! The Rust's records, with the fields that the functions cut from the sources read.
use std::collections::HashMap;

pub struct GlobalTrip {
    pub shape_id: Option<String>,
    pub stop_time_start: u32,
    pub stop_time_len: u32,
}

pub struct TripRecord {
    pub shape_id: Option<String>,
    pub stop_time_start: u32,
    pub stop_time_len: u32,
}

#[derive(Clone)]
pub struct PackedStopTime {
    pub stop_idx: u32,
    pub shape_dist_traveled: Option<f32>,
}

pub struct StopRecord {
    pub lat: Option<f64>,
    pub lon: Option<f64>,
}

pub struct StaticEpoch {
    pub shapes: HashMap<String, Vec<(f64, f64)>>,
    pub stop_times: Vec<PackedStopTime>,
    pub stops: Vec<StopRecord>,
}
