//! The Rust's records, with the fields that leg_geometry and journey_geometry read.
use std::collections::HashMap;

pub struct TripRecord {
    pub shape_id: Option<String>,
    pub stop_time_start: u32,
    pub stop_time_len: u32,
}

pub struct PackedStopTime {
    pub stop_idx: u32,
}

pub struct StopRecord {
    pub lat: Option<f64>,
    pub lon: Option<f64>,
}

pub struct StaticEpoch {
    pub trip_id_to_idx: HashMap<String, u32>,
    pub trips: Vec<TripRecord>,
    pub stop_times: Vec<PackedStopTime>,
    pub stops: Vec<StopRecord>,
    pub shapes: HashMap<String, Vec<(f64, f64)>>,
}

pub struct TransitLeg {
    pub geometry: Vec<(f64, f64)>,
}

pub struct WalkLeg {
    pub geometry: Vec<(f64, f64)>,
    pub from_lat: Option<f64>,
    pub from_lon: Option<f64>,
    pub to_lat: Option<f64>,
    pub to_lon: Option<f64>,
}

pub enum Leg {
    Transit(TransitLeg),
    Walk(WalkLeg),
}
