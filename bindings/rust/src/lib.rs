//! Where a ferry is between her calls, when her transponder is silent.
//!
//! A [`Builder`] takes the rows of a schedule, of a sailing and of her realtime updates, in any order. What it builds, a
//! [`Voyage`], is asked with as many clocks as one likes.
//!
//! ```
//! use zebumorn::{Builder, Position, Sailing, Status, Stop, Update};
//!
//! let mut builder = Builder::new();
//! builder
//!     .sailing(Sailing { feed: "f", key: "t", ..Sailing::default() })
//!     .stop(Stop { id: "f:a", position: Some(Position { lat: 0.0, lon: 0.0 }), ..Stop::default() })
//!     .stop(Stop { id: "f:b", position: Some(Position { lat: 0.0, lon: 1.0 }), ..Stop::default() })
//!     .update(Update { sequence: 1, stop: Some("f:a"), departure: Some(100), ..Update::default() })
//!     .update(Update { sequence: 2, stop: Some("f:b"), arrival: Some(400), ..Update::default() });
//! let mut voyage = builder.build();
//!
//! let estimate = voyage.at(250)?.expect("she is not silent");
//! assert_eq!((estimate.lat, estimate.lon, estimate.bearing), (0.0, 0.5, Some(90.0)));
//! assert_eq!((estimate.status, estimate.stop), (Status::InTransitTo, 1));
//! # Ok::<(), zebumorn::Refusal>(())
//! ```
//!
//! The estimate itself is proved: it answers for whatever it is lent, reads nothing past it, and gives each fault its
//! [`Refusal`]. This crate lays out what is lent, and no more: it tests nothing on its own.
#![deny(unsafe_code, missing_docs)]
#![forbid(unsafe_op_in_unsafe_fn)]

mod answer; // what an estimate answers
mod builder; // rows taken in any order
mod layout; // rows sorted and laid out in the pools
mod place; // where an estimate is along the voyage
mod pools; // columns put into pools
pub mod raw; // the C interface, and the only unsafe code
mod refusal; // why there is no answer
mod rows; // what a builder takes
mod voyage; // laid out once, asked with many clocks

pub use answer::{Estimate, Status};
pub use builder::Builder;
pub use place::{Path, Place, Way};
pub use refusal::Refusal;
pub use rows::{Exception, Position, Range, Sailing, Stop, StopTime, Trip, Update};
pub use voyage::Voyage;
