//! Where the Rust's estimate is drawn: its calls, its legs and their paths by the Rust's own functions, and the walk along a path in a few plain lines.
use super::asked::sailing;
use super::place::{Kind, Place};
use super::{Case, Update};
use crate::gtfs::pack::{GlobalTrip, StaticEpoch};
use crate::gtfs::siri_trip_map::TripResolveHint;
use crate::lent;
use crate::routing::geometry::trip_shape_dist_affine;
use crate::rt::estimate::*;
use crate::rt::overlay::TripRt;

type Point = (f64, f64);

/// The path of a leg. None of it hangs on the clock.
#[derive(Clone)]
pub enum Path {
    /// along the shape between two lengths
    ByDistance(f32, f32),
    /// along the shape between two vertices
    Part(usize, usize),
    /// by the stops between
    Chain(Vec<Point>),
    Straight,
}

impl Path {
    /// Whether the vertices run as she sails.
    pub fn up(&self) -> bool {
        match self {
            Path::ByDistance(m0, m1) => m0 <= m1,
            Path::Part(i0, i1) => i0 < i1,
            _ => true,
        }
    }
}

#[derive(Clone)]
pub struct Leg {
    pub from: Point,
    pub to: Point,
    pub path: Path,
}

pub struct Plan<'a> {
    pub case: &'a Case,
    pub epoch: &'a StaticEpoch,
    trip: Option<&'a GlobalTrip>,
    pub base: &'a str,
    hint: TripResolveHint,
    /// in the order of their sequences
    pub calls: Vec<CallPoint>,
    /// the coordinates of the best stop
    pub pin: Option<Point>,
    previous: Option<CallPoint>,
    /// seconds from the stop before the first call to it
    run: Option<u32>,
    legs: Vec<Option<Leg>>,
}

pub fn base(key: &str) -> &str {
    key.rsplit_once('@').map_or(key, |(base, _)| base)
}

fn score(u: &Update) -> i64 {
    let signalled =
        u.arrival.is_some() || u.departure.is_some() || u.arrival_delay.is_some() || u.departure_delay.is_some();
    signalled as i64 * 1_000_000 + u.sequence as i64
}

/// Whether two updates share the best score, so that the Rust's answer may hang on the order of its map.
pub fn tied(case: &Case) -> bool {
    let best = case.updates.iter().map(score).max();
    case.updates.iter().filter(|u| Some(score(u)) == best).count() > 1
}

fn best(case: &Case, epoch: &StaticEpoch, sailing: &TripRt) -> Option<Point> {
    let best = case.updates.iter().rev().max_by_key(|u| score(u))?;
    let (lat, lon, ..) = resolve_stop_coords(&case.feed, epoch, &case.trip, &sailing.stop_updates[&best.sequence])?;
    Some((lat, lon))
}

pub fn lengths(line: &[Point]) -> Vec<f64> {
    let mut sums = vec![0.0];
    for pair in line.windows(2) {
        sums.push(sums[sums.len() - 1] + haversine_m(pair[0].0, pair[0].1, pair[1].0, pair[1].1));
    }
    sums
}

/// The first stretch that the target meets, and the fraction of it.
fn met(sums: &[f64], target: f64, slack: f64) -> Option<(usize, f64)> {
    let v = sums.windows(2).position(|pair| target >= pair[0] && target <= pair[1] + slack)?;
    let stretch = (sums[v + 1] - sums[v]).max(1e-6);
    Some((v, ((target - sums[v]) / stretch).clamp(0.0, 1.0)))
}

impl<'a> Plan<'a> {
    pub fn of(case: &'a Case, epoch: &'a StaticEpoch) -> Plan<'a> {
        lent::lend(case.offset as i32);
        let sailing = sailing(case);
        let (base, hint) = (base(&case.trip), trip_resolve_hint(&sailing));
        let mut calls: Vec<CallPoint> =
            sailing.stop_updates.values().filter_map(|u| call_point(&case.feed, epoch, &case.trip, u)).collect();
        calls.sort_by_key(|call| call.seq);
        let trip = resolve_trip(epoch, base, Some(&hint));
        let previous =
            calls.first().and_then(|first| previous_static_stop(epoch, base, first, Some(&hint))).map(|pin| {
                let StaticStopPin { stop_sequence, stop_idx, stop_id, lat, lon } = pin;
                CallPoint { seq: stop_sequence, stop_id, lat, lon, t_arr: None, t_dep: None, stop_idx: Some(stop_idx) }
            });
        let run = previous
            .as_ref()
            .and_then(|previous| scheduled_run_secs(epoch, base, previous.seq, calls[0].seq, Some(&hint)));
        let pin = best(case, epoch, &sailing);
        let mut plan = Plan { case, epoch, trip, base, hint, calls, pin, previous, run, legs: vec![] };
        let ends = plan.previous.iter().map(|previous| (previous, &plan.calls[0]));
        let first = ends.map(|(from, to)| plan.between(from, to)).next();
        let others = plan.calls.windows(2).map(|pair| Some(plan.between(&pair[0], &pair[1])));
        plan.legs = [first].into_iter().chain(others).collect();
        plan
    }

    pub fn trip(&self) -> Option<&GlobalTrip> {
        self.trip
    }

    pub fn hint(&self) -> &TripResolveHint {
        &self.hint
    }

    pub fn shape(&self) -> Option<&'a [Point]> {
        self.epoch.shapes.get(self.trip?.shape_id.as_ref()?).map(Vec::as_slice)
    }

    /// Leg k, which ends at call k.
    pub fn leg(&self, k: usize) -> Option<Leg> {
        self.legs.get(k.checked_sub(1)?)?.clone()
    }

    /// The calls that leg k runs between; before the first, the static stop.
    pub fn ends(&self, k: usize) -> Option<(&CallPoint, &CallPoint)> {
        let from = if k == 1 { self.previous.as_ref() } else { self.calls.get(k.checked_sub(2)?) };
        Some((from?, self.calls.get(k - 1)?))
    }

    pub fn run(&self) -> Option<u32> {
        self.run
    }

    /// The distances of two calls along the shape.
    fn metres(&self, trip: &GlobalTrip, from: &CallPoint, to: &CallPoint) -> Option<(f32, f32)> {
        let dist = |call: &CallPoint| shape_dist_for_seq(self.epoch, self.base, call.seq, Some(&self.hint));
        let (d0, d1, (a, b)) = (dist(from)?, dist(to)?, trip_shape_dist_affine(self.epoch, trip)?);
        Some(((a + b * d0 as f64) as f32, (a + b * d1 as f64) as f32))
    }

    /// How far apart they are, or NaN.
    pub fn apart(&self, trip: &GlobalTrip, from: &CallPoint, to: &CallPoint) -> f64 {
        self.metres(trip, from, to).map_or(f64::NAN, |(m0, m1)| (m0 as f64 - m1 as f64).abs())
    }

    /// Whether the static trip has two distances for a sequence.
    pub fn dists_differ(&self, sequence: u32) -> bool {
        let trip = self.trip.expect("a trip");
        let rows = &self.epoch.stop_times[trip.stop_time_start as usize..][..trip.stop_time_len as usize];
        let mut dists = rows.iter().filter(|row| row.stop_sequence == sequence).map(|row| row.shape_dist_traveled);
        let first = dists.next();
        dists.any(|dist| Some(dist) != first)
    }

    /// Along the shape by those distances, where the Rust answers so.
    fn by_distance(&self, trip: &GlobalTrip, from: &CallPoint, to: &CallPoint) -> Option<Path> {
        let (m0, m1) = self.metres(trip, from, to)?;
        let short = (m0 as f64 - m1 as f64).abs() < 0.5;
        (!short).then_some(Path::ByDistance(m0, m1))
    }

    fn part(&self, line: &[Point], from: &CallPoint, to: &CallPoint) -> Option<Path> {
        let (i0, i1) = (nearest_idx(line, from.lat, from.lon), nearest_idx(line, to.lat, to.lon));
        let total = *lengths(&line[i0.min(i1)..=i0.max(i1)]).last()?;
        let chord = haversine_m(from.lat, from.lon, to.lat, to.lon).max(1.0);
        let refused = i0 == i1 || total < 1.0 || total > chord * 4.0 && total > 500.0;
        (!refused).then_some(Path::Part(i0, i1))
    }

    fn between(&self, from: &CallPoint, to: &CallPoint) -> Leg {
        let path = self.trip.map_or(Path::Straight, |trip| {
            let line = self.shape().filter(|line| line.len() >= 2);
            let on_shape = line.and_then(|line| self.by_distance(trip, from, to).or_else(|| self.part(line, from, to)));
            let chain = || build_stop_chain_polyline(self.epoch, self.base, from, to, Some(&self.hint));
            on_shape.or_else(|| chain().map(Path::Chain)).expect("a trip has a chain")
        });
        Leg { from: (from.lat, from.lon), to: (to.lat, to.lon), path }
    }

    /// On leg k, this fraction of it.
    fn on_leg(&self, k: usize, frac: f64) -> Place {
        let leg = self.leg(k).expect("a leg");
        if frac <= 0.0 {
            return Place::Start(k);
        }
        if frac >= 1.0 {
            return Place::End(k);
        }
        match leg.path {
            Path::ByDistance(m0, m1) => {
                let up = m0 <= m1;
                let (lo, hi, f) = if up { (m0, m1, frac) } else { (m1, m0, 1.0 - frac) };
                let target = lo as f64 + (hi as f64 - lo as f64) * f;
                let found = met(&lengths(self.shape().expect("a shape")), target, 1e-6);
                found.map_or(Place::Last(k, Kind::Shape), |(v, t)| Place::Stretch(k, Kind::Shape, v, up, t))
            }
            Path::Part(i0, i1) => {
                let (up, a) = (i0 < i1, i0.min(i1));
                let sums = lengths(&self.shape().expect("a shape")[a..=i0.max(i1)]);
                let f = if up { frac } else { 1.0 - frac };
                assert!(0.0 < f && f < 1.0, "a fraction that is drawn at a bare vertex");
                let found = met(&sums, sums[sums.len() - 1] * f, 1e-9);
                found.map_or(Place::Last(k, Kind::Shape), |(v, t)| Place::Stretch(k, Kind::Shape, a + v, up, t))
            }
            Path::Chain(line) => {
                let sums = lengths(&line);
                let total = sums[sums.len() - 1];
                if total < 1.0 {
                    return Place::Stretch(k, Kind::Straight, 0, true, frac);
                }
                let found = met(&sums, total * frac, 1e-9);
                found.map_or(Place::Last(k, Kind::Chain), |(v, t)| Place::Stretch(k, Kind::Chain, v, true, t))
            }
            Path::Straight => Place::Stretch(k, Kind::Straight, 0, true, frac),
        }
    }

    pub fn arrival(&self, k: usize) -> i64 {
        self.calls[k].t_arr.or(self.calls[k].t_dep).expect("a call has a time")
    }

    pub fn departure(&self, k: usize) -> i64 {
        self.calls[k].t_dep.or(self.calls[k].t_arr).expect("a call has a time")
    }

    fn approaching(&self, now: i64) -> Place {
        if now > self.departure(0) || self.previous.is_none() {
            return Place::Call(1);
        }
        let remaining = (self.arrival(0) - now).max(0) as f64;
        let run = (self.run.unwrap_or(120) as f64).max(30.0);
        self.on_leg(1, (1.0 - remaining / run).clamp(0.0, 1.0))
    }

    /// The place beside the estimate at this clock, or none with silence.
    pub fn place(&self, now: i64) -> Option<Place> {
        if self.case.cancelled || self.case.updates.is_empty() {
            return None;
        }
        if self.calls.is_empty() {
            return self.pin.map(|_| Place::Call(1));
        }
        let n = self.calls.len();
        if let Some(k) = (0..n).find(|&k| self.arrival(k) <= now && now <= self.departure(k)) {
            return Some(Place::Call(k + 1));
        }
        if let Some(k) = (1..n).find(|&k| self.departure(k - 1) <= now && now <= self.arrival(k)) {
            let span = (self.arrival(k) - self.departure(k - 1)).max(1) as f64;
            let elapsed = (now - self.departure(k - 1)).max(0) as f64;
            return Some(self.on_leg(k + 1, (elapsed / span).clamp(0.0, 1.0)));
        }
        if n == 1 || now < self.arrival(0) {
            return Some(self.approaching(now));
        }
        Some(Place::Call(n))
    }

    /// Whether arrivals do not follow their departures, nor departures the next arrival.
    pub fn times_ordered(&self) -> bool {
        let n = self.calls.len();
        (0..n).all(|k| self.arrival(k) <= self.departure(k)) && (1..n).all(|k| self.departure(k - 1) <= self.arrival(k))
    }

    /// Whether every length along a path is a number of zero or more, and distances read along a shape are finite and not below zero.
    pub fn lengths_fit(&self) -> bool {
        let fit = |line: &[Point]| lengths(line).windows(2).all(|pair| pair[1] - pair[0] >= 0.0);
        self.legs.iter().flatten().all(|leg| match &leg.path {
            Path::ByDistance(m0, m1) => {
                [m0, m1].iter().all(|m| m.is_finite() && **m >= 0.0) && fit(self.shape().expect("a shape"))
            }
            Path::Part(i0, i1) => fit(&self.shape().expect("a shape")[*i0.min(i1)..=*i0.max(i1)]),
            Path::Chain(line) => fit(line),
            Path::Straight => true,
        })
    }
}
