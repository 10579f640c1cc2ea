//! Rows taken in any order.
use crate::layout::lay_out;
use crate::rows::{Exception, Position, Range, Sailing, Stop, StopTime, Trip, Update};
use crate::voyage::Voyage;

/// Takes rows in any order, and builds a [`Voyage`] of them.
///
/// Nothing is tested here: what is wrong with the rows is told by the [`Refusal`](crate::Refusal) of each question.
/// A row that names a stop, a trip or a shape that is not there is refused as outside its table, an id that is given
/// twice as not ascending, and rows without a sailing as columns of unequal length.
#[derive(Clone, Debug, Default)]
pub struct Builder<'a> {
    pub(crate) stops: Vec<Stop<'a>>,
    pub(crate) stop_keys: Vec<(&'a str, &'a str)>,
    pub(crate) trips: Vec<Trip<'a>>,
    pub(crate) trip_keys: Vec<(&'a str, &'a str)>,
    pub(crate) stop_times: Vec<StopTime<'a>>,
    pub(crate) shapes: Vec<(&'a str, &'a [Position])>,
    pub(crate) aliases: Vec<(&'a str, &'a str)>,
    pub(crate) lines: Vec<(&'a str, &'a str)>,
    pub(crate) calendars: Vec<&'a str>,
    pub(crate) ranges: Vec<Range<'a>>,
    pub(crate) exceptions: Vec<Exception<'a>>,
    pub(crate) updates: Vec<Update<'a>>,
    pub(crate) sailing: Option<Sailing<'a>>,
}

impl<'a> Builder<'a> {
    /// No rows.
    pub fn new() -> Self {
        Self::default()
    }

    /// A stop. An estimate names it by how many stops were given before it.
    pub fn stop(&mut self, stop: Stop<'a>) -> &mut Self {
        self.stops.push(stop);
        self
    }

    /// Another id by which a stop is looked up.
    pub fn stop_key(&mut self, id: &'a str, stop: &'a str) -> &mut Self {
        self.stop_keys.push((id, stop));
        self
    }

    /// A static trip.
    pub fn trip(&mut self, trip: Trip<'a>) -> &mut Self {
        self.trips.push(trip);
        self
    }

    /// Another id by which a trip is looked up.
    pub fn trip_key(&mut self, id: &'a str, trip: &'a str) -> &mut Self {
        self.trip_keys.push((id, trip));
        self
    }

    /// A stop time.
    pub fn stop_time(&mut self, stop_time: StopTime<'a>) -> &mut Self {
        self.stop_times.push(stop_time);
        self
    }

    /// A shape and its points.
    pub fn shape(&mut self, id: &'a str, points: &'a [Position]) -> &mut Self {
        self.shapes.push((id, points));
        self
    }

    /// An alias and the trip id that it stands for; one that no trip has is passed over.
    pub fn alias(&mut self, id: &'a str, trip: &'a str) -> &mut Self {
        self.aliases.push((id, trip));
        self
    }

    /// A trip of a line, by the line's token, such as `C1`.
    pub fn line(&mut self, token: &'a str, trip: &'a str) -> &mut Self {
        self.lines.push((token, trip));
        self
    }

    /// A feed that has a calendar. Services of other feeds run every day.
    pub fn calendar(&mut self, feed: &'a str) -> &mut Self {
        self.calendars.push(feed);
        self
    }

    /// Days on which a service runs.
    pub fn range(&mut self, range: Range<'a>) -> &mut Self {
        self.ranges.push(range);
        self
    }

    /// A single day on which a service runs or does not.
    pub fn exception(&mut self, exception: Exception<'a>) -> &mut Self {
        self.exceptions.push(exception);
        self
    }

    /// What the realtime feed says of one call.
    pub fn update(&mut self, update: Update<'a>) -> &mut Self {
        self.updates.push(update);
        self
    }

    /// The sailing asked of, in place of any that was given before.
    pub fn sailing(&mut self, sailing: Sailing<'a>) -> &mut Self {
        self.sailing = Some(sailing);
        self
    }

    /// Sorts the rows that must ascend and lays all of them out, once.
    pub fn build(&self) -> Voyage {
        let (pools, tables) = lay_out(self);
        Voyage::new(pools, tables)
    }
}
