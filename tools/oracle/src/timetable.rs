//! The Rust's side of matching: a world as its records and maps, and what its functions answer.
#![allow(dead_code)]
use crate::lent;
use crate::taken::calendar::ServiceCalendar;
use crate::taken::pack::{FrequencyWindow, GlobalTrip, PackedStopTime, StaticEpoch};
use crate::taken::siri_trip_map as rust;
use crate::worlds::{Journey, Service, World};
use chrono::{Datelike, NaiveDate};
use std::collections::HashMap;
use std::sync::Arc;

/// The date of the digits yyyymmdd, if they are one.
pub fn date(digits: u32) -> Option<NaiveDate> {
    NaiveDate::from_ymd_opt((digits / 10_000) as i32, digits / 100 % 100, digits % 100)
}

fn a_date(digits: u32) -> NaiveDate {
    date(digits).expect("a world has dates only")
}

fn calendars(w: &World) -> HashMap<String, Arc<ServiceCalendar>> {
    let mut all: HashMap<String, ServiceCalendar> =
        w.feeds.iter().map(|feed| (feed.clone(), ServiceCalendar::new())).collect();
    for ((feed, service), r) in &w.ranges {
        if let Some(calendar) = all.get_mut(feed) {
            let on = |day: u8| r.weekdays >> day & 1 == 1;
            let (first, last) = (a_date(r.first), a_date(r.last));
            calendar.add_regular(service.clone(), first, last, on(0), on(1), on(2), on(3), on(4), on(5), on(6));
        }
    }
    for (feed, service, date, removed) in &w.exceptions {
        if let Some(calendar) = all.get_mut(feed) {
            calendar.add_exception(service.clone(), a_date(*date), 1 + *removed as u8);
        }
    }
    all.into_iter().map(|(feed, calendar)| (feed, Arc::new(calendar))).collect()
}

pub fn epoch(w: &World) -> StaticEpoch {
    let trip = |t: &crate::worlds::Trip| GlobalTrip {
        feed_id: t.feed.clone(),
        service_id: t.service.clone(),
        stop_time_start: t.first,
        frequency_windows: if t.frequency == 0 { vec![] } else { vec![FrequencyWindow] },
    };
    let mut lines: HashMap<String, Vec<u32>> = HashMap::new();
    for (token, trip) in &w.lines {
        lines.entry(token.clone()).or_default().push(*trip);
    }
    let mut aliases = rust::SiriTripAliases::default();
    for (key, trip) in &w.aliases {
        aliases.insert(key.as_str(), trip.as_str());
    }
    StaticEpoch {
        trips: w.trips.iter().map(trip).collect(),
        trip_id_to_idx: w.keys.iter().map(|(id, trip)| (id.clone(), *trip)).collect(),
        stop_times: w.departures.iter().map(|&departure_s| PackedStopTime { departure_s }).collect(),
        calendars: calendars(w),
        siri_trip_aliases: aliases,
        route_line_to_trip_idxs: lines,
    }
}

fn hint(j: &Journey) -> rust::TripResolveHint {
    rust::TripResolveHint { route_id: j.route.clone(), first_departure_utc: j.departure }
}

fn number(epoch: &StaticEpoch, trip: &GlobalTrip) -> u32 {
    epoch.trips.iter().position(|t| std::ptr::eq(t, trip)).expect("a trip of the epoch") as u32
}

/// The number of the trip that `resolve_static_trip` answers.
pub fn matched(epoch: &StaticEpoch, j: &Journey) -> Option<u32> {
    lent::lend(j.offset);
    rust::resolve_static_trip(epoch, &j.key, Some(&hint(j))).map(|trip| number(epoch, trip))
}

/// The way by which the Rust comes to its answer.
pub fn way(epoch: &StaticEpoch, j: &Journey) -> &'static str {
    let known = |id: &str| epoch.trip_id_to_idx.contains_key(id);
    lent::lend(j.offset);
    if known(&j.key) {
        return "exact id";
    }
    let aliases = &epoch.siri_trip_aliases;
    if rust::siri_ref_lookup_keys(&j.key).iter().any(|key| aliases.lookup(key).is_some_and(known)) {
        return "alias";
    }
    let built = |id: String| known(&format!("{}:IDFM:TN:SNCF:{id}", j.key.split(':').next().unwrap_or("")));
    if rust::journey_id_from_code(&j.key).filter(|id| rust::is_uuid(id)).is_some_and(built) {
        return "built id";
    }
    if rust::resolve_by_route_and_time(epoch, &j.key, &hint(j)).is_some() {
        return "line and time";
    }
    if rust::fuzzy_unique_match(epoch, &j.key).is_some() {
        return "tail";
    }
    "none"
}

/// Whether the service runs, by `is_active`, and always where the feed has no calendar.
pub fn is_active(epoch: &StaticEpoch, s: &Service) -> bool {
    let calendar = epoch.calendars.get(&s.feed);
    calendar.is_none_or(|calendar| calendar.is_active(&s.service, a_date(s.date)))
}

/// The same by the GTFS Schedule reference: calendar_dates.txt overrides what calendar.txt says for the date. Where both kinds of exception are
/// there, which the reference's primary key rules out, document 01 has removed win.
pub fn by_reference(w: &World, s: &Service) -> bool {
    let row = |removed| w.exceptions.contains(&(s.feed.clone(), s.service.clone(), s.date, removed));
    let weekday = a_date(s.date).weekday().num_days_from_monday();
    let range = w.ranges.get(&(s.feed.clone(), s.service.clone()));
    let regular = range.is_some_and(|r| (r.first..=r.last).contains(&s.date) && r.weekdays >> weekday & 1 == 1);
    !w.feeds.contains(&s.feed) || !row(true) && (row(false) || regular)
}
