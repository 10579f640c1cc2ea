//! The Rust's side of a case: its records and maps, and the line that the Board prints of the Rust's estimate.
use super::{digits, token, Case};
use crate::gtfs::calendar::ServiceCalendar;
use crate::gtfs::pack::{FrequencyWindow, GlobalTrip, PackedStopTime, StaticEpoch, StopRecord};
use crate::gtfs::siri_trip_map::SiriTripAliases;
use crate::lent;
use crate::rt::estimate::estimate_vehicle_pos;
use crate::rt::overlay::{StopTimeRt, TripRt, VehiclePos};
use chrono::NaiveDate;
use std::collections::HashMap;
use std::sync::Arc;

pub fn date(digits: u32) -> NaiveDate {
    NaiveDate::from_ymd_opt((digits / 10_000) as i32, digits / 100 % 100, digits % 100).expect("a case has dates only")
}

fn calendars(case: &Case) -> HashMap<String, Arc<ServiceCalendar>> {
    let mut all: HashMap<String, ServiceCalendar> =
        case.calendars.iter().map(|feed| (feed.clone(), ServiceCalendar::new())).collect();
    for r in &case.ranges {
        if let Some(calendar) = all.get_mut(&r.feed) {
            let on = |day: u8| r.weekdays >> day & 1 == 1;
            let (first, last) = (date(r.first), date(r.last));
            calendar.add_regular(r.service.clone(), first, last, on(0), on(1), on(2), on(3), on(4), on(5), on(6));
        }
    }
    for e in &case.exceptions {
        if let Some(calendar) = all.get_mut(&e.feed) {
            calendar.add_exception(e.service.clone(), date(e.date), if e.removed { 2 } else { 1 });
        }
    }
    all.into_iter().map(|(feed, calendar)| (feed, Arc::new(calendar))).collect()
}

pub fn epoch(case: &Case) -> StaticEpoch {
    let mut stop_times = vec![];
    let mut trips = vec![];
    for trip in &case.trips {
        trips.push(GlobalTrip {
            id: trip.id.clone(),
            feed_id: trip.feed.clone(),
            service_id: trip.service.clone(),
            shape_id: trip.shape.map(|k| case.shapes[k as usize].id.clone()),
            stop_time_start: stop_times.len() as u32,
            stop_time_len: trip.calls.len() as u32,
            frequency_windows: if trip.frequency { vec![FrequencyWindow] } else { vec![] },
        });
        stop_times.extend(trip.calls.iter().map(|call| PackedStopTime {
            stop_idx: call.stop,
            arrival_s: call.arrival,
            departure_s: call.departure,
            stop_sequence: call.sequence,
            shape_dist_traveled: call.dist,
        }));
    }
    let mut siri_trip_aliases = SiriTripAliases::default();
    for (key, trip) in &case.aliases {
        siri_trip_aliases.insert(key.as_str(), trip.as_str());
    }
    let mut route_line_to_trip_idxs: HashMap<String, Vec<u32>> = HashMap::new();
    for (token, trip) in &case.lines {
        route_line_to_trip_idxs.entry(token.clone()).or_default().push(*trip);
    }
    let own = |ids: Vec<String>, keys: &[(String, u32)]| -> HashMap<String, u32> {
        let own = ids.into_iter().enumerate().map(|(k, id)| (id, k as u32));
        own.chain(keys.iter().cloned()).collect()
    };
    StaticEpoch {
        stops: case
            .stops
            .iter()
            .map(|stop| StopRecord {
                id: stop.id.clone(),
                raw_id: stop.raw.clone(),
                lat: stop.at.map(|at| at.0),
                lon: stop.at.map(|at| at.1),
            })
            .collect(),
        stop_id_to_idx: own(case.stops.iter().map(|stop| stop.id.clone()).collect(), &case.stop_keys),
        trip_id_to_idx: own(case.trips.iter().map(|trip| trip.id.clone()).collect(), &case.trip_keys),
        trips,
        stop_times,
        shapes: case.shapes.iter().map(|shape| (shape.id.clone(), shape.points.clone())).collect(),
        calendars: calendars(case),
        siri_trip_aliases,
        route_line_to_trip_idxs,
    }
}

pub fn sailing(case: &Case) -> TripRt {
    let updates = case.updates.iter().map(|u| {
        let update = StopTimeRt {
            stop_sequence: u.sequence,
            stop_id: u.stop.clone(),
            arrival_delay: u.arrival_delay,
            departure_delay: u.departure_delay,
            arrival_time: u.arrival,
            departure_time: u.departure,
        };
        (u.sequence, update)
    });
    TripRt { delay: None, canceled: case.cancelled, route_id: case.route.clone(), stop_updates: updates.collect() }
}

fn line(at: &VehiclePos) -> String {
    let bearing = at.bearing.map_or("-".into(), digits);
    let (sequence, stop) =
        (at.current_stop_sequence.expect("a sequence"), at.current_stop_id.as_ref().expect("a stop"));
    let status = at.current_status.as_ref().expect("a status");
    format!("(at {sequence} {} {status} {} {} {bearing})", token(stop), digits(at.lat), digits(at.lon))
}

/// What the Board prints.
pub fn board(case: &Case, epoch: &StaticEpoch) -> String {
    lent::lend(case.offset as i32);
    let now = lent::moment(case.now).expect("a moment");
    match estimate_vehicle_pos(&case.feed, &case.trip, &sailing(case), epoch, now) {
        Some(at) => line(&at),
        None => "(none)".into(),
    }
}
