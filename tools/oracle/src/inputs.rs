//! The inputs, from a generator with a fixed seed: one small function for each kind of input.
//! A list of kinds is gone through in turn, so that each kind has its share of any count.
#![allow(dead_code)]
pub mod backfills;
pub mod draw;
pub mod fixed;
pub mod lines;
pub mod narrows;
pub mod off;
pub mod pairs;
pub mod roots;
pub mod samples;
pub mod trips;
pub mod twos;
pub mod values;
pub mod walks;
