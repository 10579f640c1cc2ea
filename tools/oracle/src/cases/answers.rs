//! The Rust's answers to the probe's queries, or the refusal of what each query lends (docs/CASES.md).
use super::asked::epoch;
use super::plan::{base, tied, Plan};
use super::read::{decoded, Read};
use super::refusal::{day, off_globe, refusal};
use super::{digits, Case, Shape, Stop, Trip};
use crate::gtfs::pack::{PackedStopTime, StaticEpoch, TripRecord};
use crate::gtfs::siri_trip_map::{resolve_static_trip, TripResolveHint};
use crate::link::geo::haversine_m;
use crate::routing::geometry::*;
use crate::rt::estimate::bearing_deg;
use crate::standin;
use chrono::Datelike;

fn refused(number: u32) -> String {
    format!("(refused {number})")
}

fn single(x: f32) -> String {
    if x.is_nan() {
        "7fc00000".into()
    } else {
        format!("{:08x}", x.to_bits())
    }
}

fn real(word: &str) -> f64 {
    f64::from_bits(u64::from_str_radix(word, 16).expect("16 digits"))
}

fn small(word: &str) -> f32 {
    f32::from_bits(u32::from_str_radix(word, 16).expect("8 digits"))
}

fn number(word: &str) -> u32 {
    word.parse().expect("a number")
}

fn maths(name: &str, words: &[&str]) -> String {
    let x = real(words[0]);
    match name {
        "sin" => digits(standin::sin(x)),
        "cos" => digits(standin::cos(x)),
        "asin" => digits(standin::asin(x)),
        "root" => digits(x.sqrt()),
        "narrow" => single(x as f32),
        "atan2" => digits(standin::atan2(x, real(words[1]))),
        "snap" if x.is_nan() => refused(8),
        "snap" => digits(snap_unit_scale(x)),
        _ if (0.0..=1.0).contains(&x) => digits(standin::atan(x)),
        _ => "(none)".into(),
    }
}

fn measure(name: &str, words: &[&str]) -> String {
    let [lat1, lon1, lat2, lon2] = [0, 1, 2, 3].map(|k| real(words[k]));
    if off_globe((lat1, lon1)) || off_globe((lat2, lon2)) {
        return refused(3);
    }
    digits(match name {
        "haversine" => haversine_m(lat1, lon1, lat2, lon2),
        _ => bearing_deg(lat1, lon1, lat2, lon2),
    })
}

fn date(words: &[&str]) -> String {
    day(number(words[0])).map_or(refused(10), |day| {
        format!("(day {} {})", day.num_days_from_ce() - 719_163, day.weekday().num_days_from_monday())
    })
}

/// Nothing but ids of one byte where a sailing has its own.
fn plain() -> Read {
    let mut read = Read::default();
    (read.case.feed, read.case.trip) = ("x".into(), "x".into());
    read
}

/// A trip with these rows and nothing else of it.
fn rows_of(trip: &Trip, times: bool) -> Trip {
    let mut trip = Trip { id: "x".into(), feed: "x".into(), service: "x".into(), frequency: false, ..trip.clone() };
    for call in &mut trip.calls {
        call.arrival = 0;
        if !times {
            call.departure = 0;
        }
    }
    trip
}

/// The calendar tables.
fn calendars(read: &Read) -> Read {
    let mut lent = plain();
    lent.case.calendars = read.case.calendars.clone();
    lent.case.ranges = read.case.ranges.clone();
    lent.case.exceptions = read.case.exceptions.clone();
    lent
}

fn runs(read: &Read, words: &[&str]) -> String {
    let mut lent = calendars(read);
    let (feed, service) = (decoded(words[0]).expect("an id"), decoded(words[1]).expect("an id"));
    (lent.case.feed, lent.case.trip) = (feed.clone(), service.clone());
    match (refusal(&lent), day(number(words[2]))) {
        (0, Some(day)) => {
            let epoch = epoch(&lent.case);
            let runs = epoch.calendars.get(&feed).is_none_or(|calendar| calendar.is_active(&service, day));
            if runs { "(yes)" } else { "(no)" }.into()
        }
        (0, None) => refused(10),
        (number, _) => refused(number),
    }
}

/// What matching is lent: of the stop times their departures, of the updates the first departure.
fn matching(read: &Read) -> Read {
    let mut lent = calendars(read);
    let case = &read.case;
    lent.case.trip = base(&case.trip).into();
    lent.case.route = case.route.clone();
    lent.case.offset = case.offset;
    let first = case.updates.iter().filter_map(|u| u.departure.or(u.arrival)).min();
    lent.case.now = first.unwrap_or(0);
    lent.case.updates = first.map(|_| super::Update { departure: first, ..Default::default() }).into_iter().collect();
    lent.case.stops = vec![Stop { id: "x".into(), raw: String::new(), at: None }];
    lent.case.trips = case.trips.iter().map(|trip| rows_of(trip, true)).collect();
    for (trip, own) in lent.case.trips.iter_mut().zip(&case.trips) {
        (trip.feed, trip.service, trip.frequency) = (own.feed.clone(), own.service.clone(), own.frequency);
        (trip.id, trip.shape) = (own.id.clone(), None);
        trip.calls.iter_mut().for_each(|call| (call.stop, call.dist) = (0, None));
    }
    lent.trip_rows = read.trip_rows.clone();
    lent.case.trip_keys = case.trip_keys.clone();
    lent.case.aliases = case.aliases.clone();
    lent.case.lines = case.lines.clone();
    lent
}

fn matched(read: &Read) -> String {
    let lent = matching(read);
    let number = refusal(&lent);
    if number != 0 {
        return refused(number);
    }
    let epoch = epoch(&lent.case);
    let first_departure_utc = lent.case.updates.first().and_then(|u| u.departure);
    let hint = TripResolveHint { route_id: lent.case.route.clone(), first_departure_utc };
    crate::lent::lend(lent.case.offset as i32);
    match resolve_static_trip(&epoch, &lent.case.trip, Some(&hint)) {
        Some(trip) => {
            let row = epoch.trips.iter().position(|other| std::ptr::eq(other, trip)).expect("a trip of the table");
            format!("(trip {row})")
        }
        None => "(none)".into(),
    }
}

/// What projection, backfill and leg drawing are lent: positions of stops, rows and shapes of trips, shapes with their ids.
fn drawing(read: &Read) -> Read {
    let mut lent = plain();
    let case = &read.case;
    lent.case.stops = case.stops.iter().map(|stop| Stop { id: "x".into(), raw: String::new(), at: stop.at }).collect();
    lent.case.trips = case.trips.iter().map(|trip| rows_of(trip, false)).collect();
    lent.case.shapes = case.shapes.clone();
    lent
}

fn positions(case: &Case, trip: usize) -> Vec<Option<(f64, f64)>> {
    case.trips[trip].calls.iter().map(|call| case.stops[call.stop as usize].at).collect()
}

fn listed<T>(name: &str, all: &[Option<T>], show: impl Fn(&T) -> String) -> String {
    let words: String =
        all.iter().map(|one| one.as_ref().map_or(" -".into(), |one| format!(" {}", show(one)))).collect();
    format!("({name}{words})")
}

/// `project N` and `backfill N`. A number past the trips is a row of a trip-id table.
fn of_trip(read: &Read, name: &str, n: u32) -> String {
    let mut lent = drawing(read);
    lent.trip_rows = vec![("x".into(), n)];
    let number = refusal(&lent);
    if number != 0 {
        return refused(number);
    }
    let (case, n) = (&lent.case, n as usize);
    let shape = case.trips[n].shape.map(|k| &case.shapes[k as usize].points);
    match (name, shape) {
        ("project", None) => "(none)".into(),
        ("project", Some(shape)) => {
            listed("vertices", &project_stops_monotonic(shape, &positions(case, n)), |v| v.to_string())
        }
        _ => listed("dists", &backfilled(&epoch(case), n), |&dist| single(dist)),
    }
}

/// The distances of a trip after backfill.
fn backfilled(epoch: &StaticEpoch, n: usize) -> Vec<Option<f32>> {
    let trip = &epoch.trips[n];
    let (start, len) = (trip.stop_time_start, trip.stop_time_len);
    let rows = &epoch.stop_times[start as usize..][..len as usize];
    let mut rows: Vec<PackedStopTime> = rows.iter().map(|row| PackedStopTime { ..*row }).collect();
    let record = TripRecord { shape_id: trip.shape_id.clone(), stop_time_start: 0, stop_time_len: len };
    backfill_shape_dist_traveled(&[record], &mut rows, &epoch.stops, &epoch.shapes);
    rows.iter().map(|row| row.shape_dist_traveled).collect()
}

fn leg(read: &Read, words: &[&str]) -> String {
    let mut lent = drawing(read);
    let id = decoded(words[0]).expect("an id");
    lent.case.trip = id.clone();
    lent.trip_rows = read.trip_rows.clone();
    let refusal = refusal(&lent);
    if refusal != 0 {
        return refused(refusal);
    }
    let mut epoch = epoch(&lent.case);
    epoch.trip_id_to_idx = lent.trip_rows.into_iter().collect();
    let points = leg_geometry(&epoch, &id, number(words[1]), number(words[2]));
    let all: String = points.iter().flatten().map(|&x| format!(" {}", digits(x))).collect();
    format!("(points {}{all})", points.len())
}

/// A shape's points alone, as interpolation and calibration are lent them.
fn line(shape: &Shape) -> Read {
    let mut lent = plain();
    lent.case.shapes = vec![Shape { id: "x".into(), points: shape.points.clone() }];
    lent
}

fn along(read: &Read, words: &[&str]) -> String {
    let Some(shape) = read.case.shapes.get(number(words[0]) as usize) else {
        return refused(5);
    };
    let (d0, d1, frac) = (small(words[1]), small(words[2]), real(words[3]));
    match refusal(&line(shape)) {
        0 if !d0.is_finite() || !d1.is_finite() || frac.is_nan() => refused(8),
        0 => interpolate_shape_by_dist(&shape.points, d0, d1, frac)
            .map_or("(none)".into(), |(lat, lon, to)| format!("(point {})", [lat, lon, to].map(digits).join(" "))),
        number => refused(number),
    }
}

/// Calibration alone has no refusal 5: a shape that is not there has no points, a stop that is not there no position. Without a shape the samples are lent all the same.
fn calibrate(read: &Read, n: usize) -> String {
    let case = &read.case;
    let Some(trip) = case.trips.get(n) else {
        return refused(5);
    };
    let shape = trip.shape.and_then(|shape| case.shapes.get(shape as usize));
    let mut lent = shape.map_or_else(plain, line);
    let mut own = rows_of(trip, false);
    own.shape = shape.map(|_| 0);
    for call in &mut own.calls {
        let at = case.stops.get(call.stop as usize).and_then(|stop| stop.at).filter(|_| call.dist.is_some());
        call.dist = call.dist.filter(|_| at.is_some());
        call.stop = lent.case.stops.len() as u32;
        lent.case.stops.push(Stop { id: "x".into(), raw: String::new(), at });
    }
    lent.case.trips.push(own);
    let number = refusal(&lent);
    if number != 0 {
        return refused(number);
    }
    let epoch = epoch(&lent.case);
    trip_shape_dist_affine(&epoch, &epoch.trips[0])
        .map_or("(none)".into(), |(shift, scale)| format!("(affine {} {})", digits(shift), digits(scale)))
}

fn place(read: &Read) -> Option<String> {
    let number = refusal(read);
    if number != 0 {
        return Some(refused(number));
    }
    let epoch = epoch(&read.case);
    let plan = Plan::of(&read.case, &epoch);
    (!tied(&read.case)).then(|| plan.place(read.case.now).map_or("(none)".into(), |place| place.text()))
}

/// The line that answers a query of a case; none where it is left open.
pub fn answer(query: &str, read: &Read) -> Option<String> {
    let words: Vec<&str> = query[1..query.len() - 1].split(' ').collect();
    let (name, words) = (words[0], &words[1..]);
    match name {
        "haversine" | "bearing" => Some(measure(name, words)),
        "date" => Some(date(words)),
        "runs" => Some(runs(read, words)),
        "match" => Some(matched(read)),
        "project" | "backfill" => Some(of_trip(read, name, number(words[0]))),
        "calibrate" => Some(calibrate(read, number(words[0]) as usize)),
        "along" => Some(along(read, words)),
        "leg" => Some(leg(read, words)),
        "place" => place(read),
        _ => Some(maths(name, words)),
    }
}
