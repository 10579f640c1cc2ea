//! Microseconds an estimate, and of trip matching, on a small and on a large feed, port and Rust, and how much of the port's is the checks of all that is lent, which the Rust does not make.
//!
//! The checks of an estimate are timed as one of the same sailing cancelled, those of matching as a match of an id in the table: either does little else. Either
//! side's answer is compared before it is timed.
#![allow(dead_code, unused_imports)]
mod cases;
#[path = "inputs/draw.rs"]
mod draw;
mod estimate_port;
mod feed;
mod journey_port;
mod lent;
mod met;
mod standin;
mod timing;

include!(env!("ORACLE_TAKEN"));

use cases::lay::Laid;
use cases::{asked, Case};
use feed::{Kind, Size, DWELL, LARGE, RUN, SMALL};
use gtfs::pack::StaticEpoch;
use gtfs::siri_trip_map::resolve_static_trip;
use rt::estimate::{estimate_vehicle_pos, trip_resolve_hint};
use std::hint::black_box;
use timing::{least, Pass};

/// Prints a line of the table, of the port, the checks and the Rust.
fn row(name: &str, passes: [Pass; 3]) {
    let [port, checks, rust] = least(passes);
    let share = (100.0 * checks / port).min(100.0);
    println!("{name:<52} {port:>9.1} {rust:>9.2} {:>9.2} {checks:>9.1} {share:>7.0}", port / rust);
}

/// A feed as both sides have it.
struct Feed {
    name: &'static str,
    size: Size,
    case: Case,
    epoch: StaticEpoch,
}

impl Feed {
    fn of(name: &'static str, size: Size) -> Feed {
        let case = size.case();
        let epoch = asked::epoch(&case);
        Feed { name, size, case, epoch }
    }

    /// The case's sailing at a clock.
    fn estimate(&mut self, what: &str, now: i64) {
        let case = &mut self.case;
        case.now = now;
        let laid = Laid::of(case);
        case.cancelled = true;
        let cancelled = Laid::of(case);
        case.cancelled = false;
        let sailing = asked::sailing(case);
        let line = estimate_port::estimate(&laid).line(case);
        assert_eq!(line, asked::board(case, &self.epoch), "the two differ");
        assert_eq!(estimate_port::estimate(&cancelled).line(case), "(none)");
        let now = lent::moment(now).expect("a moment");
        let mut port = || {
            black_box(estimate_port::estimate(&laid).lat);
        };
        let mut checks = || {
            black_box(estimate_port::estimate(&cancelled).lat);
        };
        let mut rust = || {
            black_box(estimate_vehicle_pos(&case.feed, &case.trip, &sailing, &self.epoch, now).is_some());
        };
        row(&format!("{}, {what}", self.name), [&mut port, &mut checks, &mut rust]);
    }

    /// At clocks of each kind.
    fn estimates(&mut self) {
        let trip = self.size.trip(Kind::ByDistance);
        let at = |size: &Size, call: usize| size.moment(trip, call);
        self.size.sail(&mut self.case, trip);
        self.estimate("at a call", at(&self.size, 10));
        self.estimate("between calls, by distance", at(&self.size, 10) + DWELL + RUN / 3);
        self.estimate("before the first call", at(&self.size, 0) - 60);
        self.estimate("after the last call", at(&self.size, self.size.calls - 1) + DWELL + 60);
        for update in &mut self.case.updates {
            (update.arrival, update.departure) = (None, None);
        }
        self.estimate("without a call", at(&self.size, 0));
        for (kind, path) in [(Kind::ByVertices, "by vertices"), (Kind::ByChain, "by the chain")] {
            let trip = self.size.trip(kind);
            self.size.sail(&mut self.case, trip);
            self.estimate(&format!("between calls, {path}"), self.size.moment(trip, 10) + DWELL + RUN / 3);
        }
    }

    /// A key and a route, and the way by which they find a trip.
    fn ways(&self, trip: usize) -> [(&'static str, String, Option<String>); 5] {
        [
            ("exact id", self.case.trips[trip].id.clone(), None),
            ("alias", self.case.aliases[trip].0.clone(), None),
            ("line and time", "f:another".into(), Some(format!("f:C{:05}", trip % self.size.shapes))),
            ("tail", format!("x:trip{trip:05}"), None),
            ("none", "f:another".into(), None),
        ]
    }

    /// Matching alone, way by way, and an estimate of a sailing so matched.
    fn matches(&mut self) {
        let trip = self.size.trip(Kind::ByChain);
        self.size.sail(&mut self.case, trip);
        let exact = Laid::of(&self.case);
        for (way, key, route) in self.ways(trip) {
            (self.case.trip, self.case.route) = (key, route);
            let laid = Laid::of(&self.case);
            let hint = trip_resolve_hint(&asked::sailing(&self.case));
            let resolved = || resolve_static_trip(&self.epoch, &self.case.trip, Some(&hint));
            let got = journey_port::match_trip(&laid).expect("no refusal");
            let found = (way != "none").then_some(trip);
            assert_eq!(got, found, "{way}");
            assert_eq!(resolved().map(|t| &t.id), found.map(|k| &self.case.trips[k].id), "{way}");
            let mut port = || {
                black_box(journey_port::match_trip(&laid).is_ok());
            };
            let mut checks = || {
                black_box(journey_port::match_trip(&exact).is_ok());
            };
            let mut rust = || {
                black_box(resolved().is_some());
            };
            row(&format!("{}, match a trip: {way}", self.name), [&mut port, &mut checks, &mut rust]);
        }
        for (way, key, route) in self.ways(trip).into_iter().skip(1) {
            (self.case.trip, self.case.route) = (key, route);
            self.estimate(&format!("between calls, trip by {way}"), self.size.moment(trip, 10) + DWELL + RUN / 3);
        }
    }

    /// What the checks of each table take: less of a feed is lent each time.
    fn checks(mut self) {
        let parts: [(&str, fn(&mut Case)); 6] = [
            ("aliases", |case| case.aliases.clear()),
            ("lines", |case| case.lines.clear()),
            ("shapes and points", |case| {
                case.trips.iter_mut().for_each(|trip| trip.shape = None);
                case.shapes.clear();
            }),
            ("stop times", |case| case.trips.iter_mut().for_each(|trip| trip.calls.clear())),
            ("trips", |case| case.trips.clear()),
            ("stops", |case| case.stops.clear()),
        ];
        self.case.cancelled = true;
        let mut before = refused_none(&self.case);
        for (table, without) in parts {
            without(&mut self.case);
            let after = refused_none(&self.case);
            println!("{:<52} {:>9.1}", format!("{}, checks of {table}", self.name), before - after);
            before = after;
        }
    }
}

/// Microseconds of the checks of a cancelled sailing's tables, which have no fault.
fn refused_none(case: &Case) -> f64 {
    let laid = Laid::of(case);
    assert_eq!(estimate_port::estimate(&laid).line(case), "(none)");
    let mut checks = || {
        black_box(estimate_port::estimate(&laid).lat);
    };
    let [time] = least([&mut checks]);
    time
}

fn main() {
    println!("{:<52} {:>9} {:>9} {:>9} {:>9} {:>7}", "microseconds", "port", "Rust", "ratio", "checks", "in 100");
    for (name, size) in [("small feed", SMALL), ("large feed", LARGE)] {
        let mut feed = Feed::of(name, size);
        feed.estimates();
        feed.matches();
        feed.checks();
    }
}
