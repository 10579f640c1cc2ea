//! Legs of trips and journeys, as the Rust and the port are handed them.
#![allow(dead_code)]
pub mod journeys;
pub mod lay;
pub mod legs;
pub mod records;
pub mod way;
