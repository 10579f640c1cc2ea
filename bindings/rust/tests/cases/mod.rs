//! Cases that more than one test asks of.
#![allow(dead_code)] // each test takes its own
use zebumorn::{Builder, Exception, Position, Range, Sailing, Stop, StopTime, Trip, Update};

pub const fn at(lat: f64, lon: f64) -> Position {
    Position { lat, lon }
}

pub fn stop(id: &str, position: Position) -> Stop<'_> {
    Stop { id, raw_id: "", position: Some(position) }
}

/// A call that arrives and departs at one moment.
pub fn call(sequence: u32, stop: &str, moment: i64) -> Update<'_> {
    Update { sequence, stop: Some(stop), arrival: Some(moment), departure: Some(moment), ..Update::default() }
}

/// Document 01's case: two stops on the equator, a degree apart, and a call at each, at 100 and at 400.
pub fn document_01() -> Builder<'static> {
    let mut builder = Builder::new();
    builder
        .sailing(Sailing { feed: "f", key: "t", ..Sailing::default() })
        .stop(stop("f:a", at(0.0, 0.0)))
        .stop(stop("f:b", at(0.0, 1.0)))
        .update(call(1, "f:a", 100))
        .update(call(2, "f:b", 400));
    builder
}

/// A row of any table.
#[derive(Clone, Copy)]
pub enum Row {
    Sailing(Sailing<'static>),
    Stop(Stop<'static>),
    StopKey(&'static str, &'static str),
    Trip(Trip<'static>),
    TripKey(&'static str, &'static str),
    StopTime(StopTime<'static>),
    Shape(&'static str, &'static [Position]),
    Alias(&'static str, &'static str),
    Line(&'static str, &'static str),
    Calendar(&'static str),
    Range(Range<'static>),
    Exception(Exception<'static>),
    Update(Update<'static>),
}

pub fn built(rows: &[Row]) -> Builder<'static> {
    let mut builder = Builder::new();
    for &row in rows {
        match row {
            Row::Sailing(sailing) => builder.sailing(sailing),
            Row::Stop(stop) => builder.stop(stop),
            Row::StopKey(id, of) => builder.stop_key(id, of),
            Row::Trip(trip) => builder.trip(trip),
            Row::TripKey(id, of) => builder.trip_key(id, of),
            Row::StopTime(stop_time) => builder.stop_time(stop_time),
            Row::Shape(id, points) => builder.shape(id, points),
            Row::Alias(id, trip) => builder.alias(id, trip),
            Row::Line(token, trip) => builder.line(token, trip),
            Row::Calendar(feed) => builder.calendar(feed),
            Row::Range(range) => builder.range(range),
            Row::Exception(exception) => builder.exception(exception),
            Row::Update(update) => builder.update(update),
        };
    }
    builder
}
