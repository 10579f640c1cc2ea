//! A case as the port is lent it: five pools, and where each column lies in its pool (crates/tables/src/lent.rt).
use super::{Call, Case};

#[repr(C)]
#[derive(Clone, Copy, Default)]
pub struct Span {
    pub at: u32,
    pub n: u32,
}

/// How many columns the tables have. A column of ids is two.
pub const COLUMNS: usize = 78;

/// The first column of each table, in the order of the structs.
pub mod column {
    pub const STOPS: usize = 0;
    pub const STOP_IDS: usize = 7;
    pub const TRIPS: usize = 10;
    pub const TRIP_IDS: usize = 19;
    pub const STOP_TIMES: usize = 22;
    pub const SHAPES: usize = 28;
    pub const POINTS: usize = 32;
    pub const ALIASES: usize = 34;
    pub const LINES: usize = 38;
    pub const CALENDARS: usize = 41;
    pub const RANGES: usize = 43;
    pub const EXCEPTIONS: usize = 50;
    pub const UPDATES: usize = 56;
    pub const SAILING: usize = 68;
}

#[repr(C)]
#[derive(Clone, Copy)]
pub struct Tables(pub [Span; COLUMNS]);

pub struct Laid {
    pub columns: Tables,
    pub bytes: Vec<u8>,
    pub words: Vec<u32>,
    pub times: Vec<i64>,
    pub reals: Vec<f64>,
    pub dists: Vec<f32>,
}

/// The first row of each, where so many lie one after the other.
fn firsts(counts: impl Iterator<Item = usize>) -> impl Iterator<Item = u32> {
    counts.scan(0, |next, count| Some(std::mem::replace(next, *next + count as u32)))
}

impl Laid {
    fn span(&mut self, column: usize, at: usize, n: usize) {
        self.columns.0[column] = Span { at: at as u32, n: n as u32 };
    }

    fn words(&mut self, column: usize, rows: impl IntoIterator<Item = u32>) {
        let at = self.words.len();
        self.words.extend(rows);
        self.span(column, at, self.words.len() - at);
    }

    fn flags(&mut self, column: usize, rows: impl IntoIterator<Item = u8>) {
        let at = self.bytes.len();
        self.bytes.extend(rows);
        self.span(column, at, self.bytes.len() - at);
    }

    fn times(&mut self, column: usize, rows: impl IntoIterator<Item = i64>) {
        let at = self.times.len();
        self.times.extend(rows);
        self.span(column, at, self.times.len() - at);
    }

    fn reals(&mut self, column: usize, rows: impl IntoIterator<Item = f64>) {
        let at = self.reals.len();
        self.reals.extend(rows);
        self.span(column, at, self.reals.len() - at);
    }

    fn ids<'a>(&mut self, column: usize, rows: impl IntoIterator<Item = &'a str>) {
        let (mut starts, mut lens) = (vec![], vec![]);
        for id in rows {
            starts.push(self.bytes.len() as u32);
            lens.push(id.len() as u32);
            self.bytes.extend(id.as_bytes());
        }
        self.words(column, starts);
        self.words(column + 1, lens);
    }

    /// Moments that may be missing, and which are there.
    fn moments(&mut self, column: usize, rows: &[Option<i64>]) {
        self.times(column, rows.iter().map(|row| row.unwrap_or(i64::MIN)));
        self.flags(column + 1, rows.iter().map(|row| row.is_some() as u8));
    }

    /// Ids in order, each with the row of a record.
    fn id_rows(&mut self, column: usize, own: impl Iterator<Item = String>, keys: &[(String, u32)]) {
        let mut rows: Vec<(String, u32)> = own.zip(0..).chain(keys.iter().cloned()).collect();
        rows.sort();
        self.ids(column, rows.iter().map(|row| row.0.as_str()));
        self.words(column + 2, rows.iter().map(|row| row.1));
    }

    fn lay_stops(&mut self, case: &Case) {
        use column::{STOPS, STOP_IDS};
        let at = |stop: &super::Stop| stop.at.unwrap_or((91.0, f64::NAN));
        self.ids(STOPS, case.stops.iter().map(|stop| stop.id.as_str()));
        self.ids(STOPS + 2, case.stops.iter().map(|stop| stop.raw.as_str()));
        self.reals(STOPS + 4, case.stops.iter().map(|stop| at(stop).0));
        self.reals(STOPS + 5, case.stops.iter().map(|stop| at(stop).1));
        self.flags(STOPS + 6, case.stops.iter().map(|stop| stop.at.is_some() as u8));
        self.id_rows(STOP_IDS, case.stops.iter().map(|stop| stop.id.clone()), &case.stop_keys);
    }

    fn lay_trips(&mut self, case: &Case) {
        use column::{STOP_TIMES, TRIPS, TRIP_IDS};
        let trips = &case.trips;
        self.ids(TRIPS, trips.iter().map(|trip| trip.feed.as_str()));
        self.ids(TRIPS + 2, trips.iter().map(|trip| trip.service.as_str()));
        self.words(TRIPS + 4, trips.iter().map(|trip| trip.shape.unwrap_or(u32::MAX)));
        self.flags(TRIPS + 5, trips.iter().map(|trip| trip.shape.is_some() as u8));
        self.flags(TRIPS + 6, trips.iter().map(|trip| trip.frequency as u8));
        self.words(TRIPS + 7, firsts(trips.iter().map(|trip| trip.calls.len())));
        self.words(TRIPS + 8, trips.iter().map(|trip| trip.calls.len() as u32));
        self.id_rows(TRIP_IDS, trips.iter().map(|trip| trip.id.clone()), &case.trip_keys);
        let calls: Vec<&Call> = trips.iter().flat_map(|trip| &trip.calls).collect();
        self.words(STOP_TIMES, calls.iter().map(|call| call.sequence));
        self.words(STOP_TIMES + 1, calls.iter().map(|call| call.stop));
        self.words(STOP_TIMES + 2, calls.iter().map(|call| call.arrival));
        self.words(STOP_TIMES + 3, calls.iter().map(|call| call.departure));
        self.dists = calls.iter().map(|call| call.dist.unwrap_or(f32::NAN)).collect();
        self.span(STOP_TIMES + 4, 0, calls.len());
        self.flags(STOP_TIMES + 5, calls.iter().map(|call| call.dist.is_some() as u8));
    }

    fn lay_shapes(&mut self, case: &Case) {
        use column::{POINTS, SHAPES};
        let shapes = &case.shapes;
        self.ids(SHAPES, shapes.iter().map(|shape| shape.id.as_str()));
        self.words(SHAPES + 2, firsts(shapes.iter().map(|shape| shape.points.len())));
        self.words(SHAPES + 3, shapes.iter().map(|shape| shape.points.len() as u32));
        self.reals(POINTS, shapes.iter().flat_map(|shape| &shape.points).map(|point| point.0));
        self.reals(POINTS + 1, shapes.iter().flat_map(|shape| &shape.points).map(|point| point.1));
    }

    fn lay_lookups(&mut self, case: &Case) {
        use column::{ALIASES, CALENDARS, EXCEPTIONS, LINES, RANGES};
        self.ids(ALIASES, case.aliases.iter().map(|row| row.0.as_str()));
        self.ids(ALIASES + 2, case.aliases.iter().map(|row| row.1.as_str()));
        self.ids(LINES, case.lines.iter().map(|row| row.0.as_str()));
        self.words(LINES + 2, case.lines.iter().map(|row| row.1));
        self.ids(CALENDARS, case.calendars.iter().map(String::as_str));
        self.ids(RANGES, case.ranges.iter().map(|r| r.feed.as_str()));
        self.ids(RANGES + 2, case.ranges.iter().map(|r| r.service.as_str()));
        self.words(RANGES + 4, case.ranges.iter().map(|r| r.first));
        self.words(RANGES + 5, case.ranges.iter().map(|r| r.last));
        self.flags(RANGES + 6, case.ranges.iter().map(|r| r.weekdays));
        self.ids(EXCEPTIONS, case.exceptions.iter().map(|e| e.feed.as_str()));
        self.ids(EXCEPTIONS + 2, case.exceptions.iter().map(|e| e.service.as_str()));
        self.words(EXCEPTIONS + 4, case.exceptions.iter().map(|e| e.date));
        self.flags(EXCEPTIONS + 5, case.exceptions.iter().map(|e| e.removed as u8));
    }

    fn lay_updates(&mut self, case: &Case) {
        use column::UPDATES;
        let updates = &case.updates;
        let delay = |delay: Option<i32>| delay.map(i64::from);
        self.words(UPDATES, updates.iter().map(|u| u.sequence));
        self.ids(UPDATES + 1, updates.iter().map(|u| u.stop.as_deref().unwrap_or_default()));
        self.flags(UPDATES + 3, updates.iter().map(|u| u.stop.is_some() as u8));
        self.moments(UPDATES + 4, &updates.iter().map(|u| u.arrival).collect::<Vec<_>>());
        self.moments(UPDATES + 6, &updates.iter().map(|u| u.departure).collect::<Vec<_>>());
        self.moments(UPDATES + 8, &updates.iter().map(|u| delay(u.arrival_delay)).collect::<Vec<_>>());
        self.moments(UPDATES + 10, &updates.iter().map(|u| delay(u.departure_delay)).collect::<Vec<_>>());
    }

    fn lay_sailing(&mut self, case: &Case) {
        use column::SAILING;
        self.ids(SAILING, [case.feed.as_str()]);
        self.ids(SAILING + 2, [case.trip.as_str()]);
        self.ids(SAILING + 4, [case.route.as_deref().unwrap_or_default()]);
        self.flags(SAILING + 6, [case.route.is_some() as u8]);
        self.flags(SAILING + 7, [case.cancelled as u8]);
        self.times(SAILING + 8, [case.now]);
        self.times(SAILING + 9, [case.offset]);
    }

    /// Sets the clock.
    pub fn at(&mut self, now: i64) {
        let row = self.columns.0[column::SAILING + 8].at;
        self.times[row as usize] = now;
    }

    pub fn of(case: &Case) -> Laid {
        let columns = Tables([Span::default(); COLUMNS]);
        let mut laid = Laid { columns, bytes: vec![], words: vec![], times: vec![], reals: vec![], dists: vec![] };
        laid.lay_stops(case);
        laid.lay_trips(case);
        laid.lay_shapes(case);
        laid.lay_lookups(case);
        laid.lay_updates(case);
        laid.lay_sailing(case);
        laid
    }
}
