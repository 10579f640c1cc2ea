//! A feed of any size, in order as document 01 asks, and sailings on it.
//!
//! A shape goes onward, and its route has stops beside its vertices. Trips go round the routes: one with distances in metres, one without, one without a shape, and so on.
//! Each trip has an alias and a row of its line; a service of the calendar runs every day, with some days out.
use crate::cases::plan::lengths;
use crate::cases::{Call, Case, Exception, Range, Shape, Stop, Trip, Update};
use crate::draw::Draw;

/// How many of each; a trip calls at so many stops.
pub struct Size {
    pub stops: usize,
    pub trips: usize,
    pub calls: usize,
    pub shapes: usize,
    pub points: usize,
    pub services: usize,
}

/// 2,000 stop times.
pub const SMALL: Size = Size { stops: 500, trips: 100, calls: 20, shapes: 20, points: 100, services: 4 };
/// As many stops and stop times as document 01 lets a feed have.
pub const LARGE: Size = Size { stops: 65_535, trips: 50_000, calls: 20, shapes: 2_000, points: 1_000, services: 100 };

/// By which path a trip's legs go.
#[derive(Clone, Copy)]
pub enum Kind {
    ByDistance,
    ByVertices,
    ByChain,
}

const KINDS: [Kind; 3] = [Kind::ByDistance, Kind::ByVertices, Kind::ByChain];
/// How many days each service is out.
const OUT: u32 = 20;
/// The first second of a day.
const MIDNIGHT: i64 = 1_699_920_000;
/// Seconds at a stop, and from a stop to the next.
pub const DWELL: i64 = 30;
pub const RUN: i64 = 300;

fn onward(d: &mut Draw, n: usize) -> Vec<(f64, f64)> {
    let step = 1000.0 / n as f64;
    let mut p = (d.between(-60.0, 60.0), d.between(-170.0, 170.0));
    (0..n)
        .map(|_| {
            p = (p.0 + step * d.between(0.0, 1e-3), p.1 + step * d.between(-2e-4, 4e-4));
            p
        })
        .collect()
}

impl Size {
    /// How many stops are on a route.
    fn along(&self) -> usize {
        self.stops / self.shapes
    }

    /// The vertex that the route's stop is beside.
    fn vertex(&self, stop: usize) -> usize {
        stop * (self.points - 1) / (self.along() - 1)
    }

    /// The second at which a trip is at a call.
    fn second(&self, trip: usize, call: usize) -> u32 {
        (trip / self.shapes * 1_800) as u32 + call as u32 * (DWELL + RUN) as u32
    }

    /// The moment of it, as the updates have it: a minute late.
    pub fn moment(&self, trip: usize, call: usize) -> i64 {
        MIDNIGHT + 60 + self.second(trip, call) as i64
    }

    /// A trip of this kind, in the middle of the table.
    pub fn trip(&self, kind: Kind) -> usize {
        let round = self.trips / self.shapes / 2 / KINDS.len() * KINDS.len();
        round * self.shapes + self.shapes / 2 + kind as usize * self.shapes
    }

    fn lay_stops(&self, d: &mut Draw, case: &mut Case) {
        for k in 0..self.stops {
            let (route, along) = (k / self.along(), k % self.along());
            let at = match case.shapes.get(route) {
                Some(shape) => shape.points[self.vertex(along)],
                None => (0.5, 0.5),
            };
            let at = (at.0 + d.between(-1e-5, 1e-5), at.1 + d.between(-1e-5, 1e-5));
            case.stops.push(Stop { id: format!("f:{k:05}"), raw: format!("{k:05}"), at: Some(at) });
        }
    }

    fn lay_trips(&self, case: &mut Case) {
        let sums: Vec<Vec<f64>> = case.shapes.iter().map(|shape| lengths(&shape.points)).collect();
        for k in 0..self.trips {
            let (route, kind) = (k % self.shapes, KINDS[k / self.shapes % KINDS.len()]);
            let calls = (0..self.calls).map(|c| {
                let second = self.second(k, c);
                let dist = matches!(kind, Kind::ByDistance).then(|| sums[route][self.vertex(c)] as f32);
                let (sequence, stop) = (c as u32 + 1, (route * self.along() + c) as u32);
                Call { sequence, stop, arrival: second, departure: second + DWELL as u32, dist }
            });
            let shape = (!matches!(kind, Kind::ByChain)).then_some(route as u32);
            let (id, feed, service) = (format!("f:trip{k:05}"), "f".into(), format!("s{:02}", k % self.services));
            case.trips.push(Trip { id, feed, service, shape, frequency: false, calls: calls.collect() });
            case.aliases.push((format!("a:{k:05}"), format!("f:trip{k:05}")));
            case.lines.push((format!("C{:05}", k % self.shapes), k as u32));
        }
        case.lines.sort();
    }

    fn lay_calendar(&self, case: &mut Case) {
        case.calendars = vec!["f".into()];
        for k in 0..self.services {
            let (feed, service) = (|| "f".to_string(), || format!("s{k:02}"));
            case.ranges.push(Range {
                feed: feed(),
                service: service(),
                first: 20_200_101,
                last: 20_301_231,
                weekdays: 127,
            });
            let out = |day| Exception { feed: feed(), service: service(), date: 20_240_101 + day, removed: true };
            case.exceptions.extend((0..OUT).map(out));
        }
    }

    /// The tables, without a sailing.
    pub fn case(&self) -> Case {
        let mut d = Draw::new(77);
        let mut case = Case { feed: "f".into(), ..Case::default() };
        for k in 0..self.shapes {
            case.shapes.push(Shape { id: format!("{k:04}"), points: onward(&mut d, self.points) });
        }
        self.lay_stops(&mut d, &mut case);
        self.lay_trips(&mut case);
        self.lay_calendar(&mut case);
        case
    }

    /// Has a trip sail, with an update at each of its calls.
    pub fn sail(&self, case: &mut Case, trip: usize) {
        case.trip = case.trips[trip].id.clone();
        case.route = None;
        case.cancelled = false;
        case.updates = (0..self.calls)
            .map(|c| Update {
                sequence: c as u32 + 1,
                stop: Some(case.stops[case.trips[trip].calls[c].stop as usize].id.clone()),
                arrival: Some(self.moment(trip, c)),
                departure: Some(self.moment(trip, c) + DWELL),
                ..Update::default()
            })
            .collect();
    }
}
