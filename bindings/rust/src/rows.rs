//! What a [`Builder`](crate::Builder) takes. Ids are texts of bytes 32 to 126, 1 to 96 of them; others are refused.
//! Rows name each other by id, so that none has to come before another.

/// A position on the globe, in degrees.
#[derive(Clone, Copy, Debug, Default, PartialEq)]
pub struct Position {
    /// −90 to 90.
    pub lat: f64,
    /// −180 to 180.
    pub lon: f64,
}

/// A stop of the schedule.
#[derive(Clone, Copy, Debug, Default)]
pub struct Stop<'a> {
    /// Its own id.
    pub id: &'a str,
    /// The id without the feed's prefix; it may be empty.
    pub raw_id: &'a str,
    /// Where it is, if that is known.
    pub position: Option<Position>,
}

/// A static trip.
#[derive(Clone, Copy, Debug, Default)]
pub struct Trip<'a> {
    /// Its own id.
    pub id: &'a str,
    /// The feed that it is of.
    pub feed: &'a str,
    /// The service on whose days it runs.
    pub service: &'a str,
    /// The id of its shape, if it has one.
    pub shape: Option<&'a str>,
    /// Whether it has frequency windows; matching passes such a trip over.
    pub frequency: bool,
}

/// A stop time of a static trip. Those of one trip keep the order in which they are given.
#[derive(Clone, Copy, Debug, Default)]
pub struct StopTime<'a> {
    /// The trip's id.
    pub trip: &'a str,
    /// The stop's id.
    pub stop: &'a str,
    /// The stop_sequence.
    pub sequence: u32,
    /// Schedule seconds, 0 to 604,799.
    pub arrival: u32,
    /// Schedule seconds, 0 to 604,799.
    pub departure: u32,
    /// The shape_dist_traveled, if the feed has one.
    pub dist: Option<f32>,
}

/// Days on which a service runs: those of its weekdays from `first` to `last`, both included. Dates are yyyymmdd.
#[derive(Clone, Copy, Debug, Default)]
pub struct Range<'a> {
    /// The service's feed.
    pub feed: &'a str,
    /// The service.
    pub service: &'a str,
    /// The first day.
    pub first: u32,
    /// The last day.
    pub last: u32,
    /// On which weekdays, Monday first.
    pub weekdays: [bool; 7],
}

/// A single day on which a service runs or does not, whatever its range says.
#[derive(Clone, Copy, Debug, Default)]
pub struct Exception<'a> {
    /// The service's feed.
    pub feed: &'a str,
    /// The service.
    pub service: &'a str,
    /// The day, yyyymmdd.
    pub date: u32,
    /// Whether the day is removed; else it is added.
    pub removed: bool,
}

/// What the realtime feed says of one call. Moments are seconds from 1970, UTC.
#[derive(Clone, Copy, Debug, Default)]
pub struct Update<'a> {
    /// The stop_sequence.
    pub sequence: u32,
    /// The stop, as the feed names it.
    pub stop: Option<&'a str>,
    /// When she arrives.
    pub arrival: Option<i64>,
    /// When she departs.
    pub departure: Option<i64>,
    /// By how many seconds the arrival is late.
    pub arrival_delay: Option<i32>,
    /// By how many seconds the departure is late.
    pub departure_delay: Option<i32>,
}

/// The sailing asked of.
#[derive(Clone, Copy, Debug, Default)]
pub struct Sailing<'a> {
    /// Her feed.
    pub feed: &'a str,
    /// Her trip key in the realtime feed.
    pub key: &'a str,
    /// Her route id, if the feed gives it.
    pub route: Option<&'a str>,
    /// Whether the trip is cancelled.
    pub cancelled: bool,
    /// Local time less UTC, in seconds.
    pub offset: i32,
}
