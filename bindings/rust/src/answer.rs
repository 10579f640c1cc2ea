//! What an estimate answers.
use crate::place::Place;
use crate::raw;
use crate::refusal::Refusal;

/// Where a ferry is, and how that was found.
#[derive(Clone, Copy, Debug, PartialEq)]
pub struct Estimate {
    /// Latitude, in degrees.
    pub lat: f64,
    /// Longitude, in degrees.
    pub lon: f64,
    /// Degrees from north, where there is one.
    pub bearing: Option<f64>,
    /// How it was found.
    pub status: Status,
    /// The stop that she is at or sails to: how many were given to the builder before it.
    pub stop: usize,
    /// The stop_sequence of that call.
    pub stop_sequence: u32,
    /// The place that the coordinates are drawn from.
    pub place: Place,
}

/// How an estimate was found.
#[derive(Clone, Copy, Debug, PartialEq, Eq, Hash)]
pub enum Status {
    /// She lies at the stop.
    StoppedAt,
    /// She is about to call at it.
    IncomingAt,
    /// She is on the trip's shape.
    OnShape,
    /// She is on the line of the stops between two calls.
    OnStopChain,
    /// She is on a straight line to the stop, or only known to sail to it.
    InTransitTo,
}

impl Estimate {
    pub(crate) fn read(answer: &raw::Answer) -> Result<Option<Self>, Refusal> {
        if answer.refusal != 0 {
            return Err(Refusal::read(answer.refusal));
        }
        if answer.answered == 0 {
            return Ok(None);
        }
        Ok(Some(Estimate {
            lat: answer.lat,
            lon: answer.lon,
            bearing: (answer.bears != 0).then_some(answer.bearing),
            status: Status::read(answer.status),
            stop: answer.stop as usize,
            stop_sequence: answer.sequence,
            place: Place::read(&answer.place),
        }))
    }
}

impl Status {
    fn read(number: u32) -> Self {
        match number {
            1 => Status::StoppedAt,
            2 => Status::IncomingAt,
            3 => Status::OnShape,
            4 => Status::OnStopChain,
            5 => Status::InTransitTo,
            _ => unreachable!("an estimate has no status {number}"),
        }
    }
}
