//! A world as the port is lent it: five pools, and where each column lies in its pool.
use super::{Asked, World};

/// A column: n elements from `at` on.
#[repr(C)]
#[derive(Clone, Copy)]
pub struct Span {
    pub at: u32,
    pub n: u32,
}

/// The first column of each table, in the order of the structs of crates/tables/src/lent.rt. A column of ids is two.
pub mod column {
    pub const STOPS: usize = 0;
    pub const TRIPS: usize = 10;
    pub const TRIP_IDS: usize = 19;
    pub const STOP_TIMES: usize = 22;
    pub const ALIASES: usize = 34;
    pub const LINES: usize = 38;
    pub const CALENDARS: usize = 41;
    pub const RANGES: usize = 43;
    pub const EXCEPTIONS: usize = 50;
    pub const JOURNEY: usize = 78;
    pub const SERVICE: usize = 86;
    pub const ALL: usize = 91;
}

pub struct Laid {
    pub columns: [Span; column::ALL],
    pub bytes: Vec<u8>,
    pub words: Vec<u32>,
    pub times: Vec<i64>,
    pub reals: Vec<f64>,
    pub dists: Vec<f32>,
}

impl Laid {
    fn span(&mut self, column: usize, at: usize, n: usize) {
        self.columns[column] = Span { at: at as u32, n: n as u32 };
    }

    fn words(&mut self, column: usize, rows: &[u32]) {
        self.span(column, self.words.len(), rows.len());
        self.words.extend(rows);
    }

    fn flags(&mut self, column: usize, rows: &[u8]) {
        self.span(column, self.bytes.len(), rows.len());
        self.bytes.extend(rows);
    }

    fn times(&mut self, column: usize, rows: &[i64]) {
        self.span(column, self.times.len(), rows.len());
        self.times.extend(rows);
    }

    fn ids<'a>(&mut self, column: usize, rows: impl Iterator<Item = &'a str>) {
        let (mut starts, mut lens) = (Vec::new(), Vec::new());
        for id in rows {
            starts.push(self.bytes.len() as u32);
            lens.push(id.len() as u32);
            self.bytes.extend(id.as_bytes());
        }
        self.words(column, &starts);
        self.words(column + 1, &lens);
    }

    fn lay_trips(&mut self, w: &World) {
        let n = w.trips.len();
        self.ids(column::TRIPS, w.trips.iter().map(|t| t.feed.as_str()));
        self.ids(column::TRIPS + 2, w.trips.iter().map(|t| t.service.as_str()));
        self.words(column::TRIPS + 4, &vec![7; n]); // no trip has a shape
        self.flags(column::TRIPS + 5, &vec![0; n]);
        self.flags(column::TRIPS + 6, &w.trips.iter().map(|t| t.frequency).collect::<Vec<_>>());
        self.words(column::TRIPS + 7, &w.trips.iter().map(|t| t.first).collect::<Vec<_>>());
        self.words(column::TRIPS + 8, &w.trips.iter().map(|t| t.count).collect::<Vec<_>>());
        self.ids(column::TRIP_IDS, w.keys.keys().map(String::as_str));
        self.words(column::TRIP_IDS + 2, &w.keys.values().copied().collect::<Vec<_>>());
    }

    /// One stop, without a position, has all stop times; they lack their distance.
    fn lay_stop_times(&mut self, w: &World) {
        let n = w.departures.len();
        self.ids(column::STOPS, ["f:a"].into_iter());
        self.ids(column::STOPS + 2, [""].into_iter());
        self.span(column::STOPS + 4, 0, 1);
        self.span(column::STOPS + 5, 0, 1);
        self.flags(column::STOPS + 6, &[0]);
        self.words(column::STOP_TIMES, &vec![1; n]);
        self.words(column::STOP_TIMES + 1, &vec![0; n]);
        self.words(column::STOP_TIMES + 2, &w.departures);
        self.words(column::STOP_TIMES + 3, &w.departures);
        self.dists = vec![0.0; n];
        self.span(column::STOP_TIMES + 4, 0, n);
        self.flags(column::STOP_TIMES + 5, &vec![0; n]);
    }

    fn lay_lookups(&mut self, w: &World) {
        self.ids(column::ALIASES, w.aliases.keys().map(String::as_str));
        self.ids(column::ALIASES + 2, w.aliases.values().map(String::as_str));
        self.ids(column::LINES, w.lines.iter().map(|(token, _)| token.as_str()));
        self.words(column::LINES + 2, &w.lines.iter().map(|&(_, trip)| trip).collect::<Vec<_>>());
    }

    fn lay_calendars(&mut self, w: &World) {
        self.ids(column::CALENDARS, w.feeds.iter().map(String::as_str));
        self.ids(column::RANGES, w.ranges.keys().map(|(feed, _)| feed.as_str()));
        self.ids(column::RANGES + 2, w.ranges.keys().map(|(_, service)| service.as_str()));
        self.words(column::RANGES + 4, &w.ranges.values().map(|r| r.first).collect::<Vec<_>>());
        self.words(column::RANGES + 5, &w.ranges.values().map(|r| r.last).collect::<Vec<_>>());
        self.flags(column::RANGES + 6, &w.ranges.values().map(|r| r.weekdays).collect::<Vec<_>>());
        self.ids(column::EXCEPTIONS, w.exceptions.iter().map(|e| e.0.as_str()));
        self.ids(column::EXCEPTIONS + 2, w.exceptions.iter().map(|e| e.1.as_str()));
        self.words(column::EXCEPTIONS + 4, &w.exceptions.iter().map(|e| e.2).collect::<Vec<_>>());
        self.flags(column::EXCEPTIONS + 5, &w.exceptions.iter().map(|e| e.3 as u8 * 129).collect::<Vec<_>>());
    }

    /// Lays out what is asked, in place of what was asked before.
    pub fn ask(&mut self, asked: &Asked) {
        match asked {
            Asked::Journey(j) => {
                self.ids(column::JOURNEY, [j.key.as_str()].into_iter());
                // a route or a departure that is missing has no row that could be read
                match &j.route {
                    Some(route) => self.ids(column::JOURNEY + 2, [route.as_str()].into_iter()),
                    None => {
                        self.words(column::JOURNEY + 2, &[u32::MAX]);
                        self.words(column::JOURNEY + 3, &[u32::MAX]);
                    }
                }
                self.flags(column::JOURNEY + 4, &[j.route.is_some() as u8 * 2]);
                self.times(column::JOURNEY + 5, &[j.departure.unwrap_or(i64::MIN)]);
                self.flags(column::JOURNEY + 6, &[j.departure.is_some() as u8 * 64]);
                self.times(column::JOURNEY + 7, &[j.offset as i64]);
            }
            Asked::Service(s) => {
                self.ids(column::SERVICE, [s.feed.as_str()].into_iter());
                self.ids(column::SERVICE + 2, [s.service.as_str()].into_iter());
                self.words(column::SERVICE + 4, &[s.date]);
            }
        }
    }
}

/// The tables of a world, with nothing asked yet.
pub fn lay(w: &World) -> Laid {
    let mut laid = Laid {
        columns: [Span { at: 0, n: 0 }; column::ALL],
        bytes: Vec::new(),
        words: Vec::new(),
        times: Vec::new(),
        reals: vec![0.0],
        dists: Vec::new(),
    };
    laid.lay_trips(w);
    laid.lay_stop_times(w);
    laid.lay_lookups(w);
    laid.lay_calendars(w);
    laid
}
