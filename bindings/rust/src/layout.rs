//! Rows sorted and laid out in the pools.
use crate::builder::Builder;
use crate::pools::{number, Filling};
use crate::raw;
use crate::rows::{Sailing, StopTime};
use std::collections::HashMap;

#[cfg(test)]
mod tests; // each field is read back from its column

/// The row of what no row has: past the end of every table, so it is refused.
const NO_ROW: u32 = u32::MAX;

/// Rows by their ids; of an id that is there twice, the first.
struct Rows<'a>(HashMap<&'a str, u32>);

impl<'a> Rows<'a> {
    fn of(ids: impl Iterator<Item = &'a str>) -> Self {
        let mut rows = HashMap::new();
        for (row, id) in ids.enumerate() {
            rows.entry(id).or_insert(number(row));
        }
        Rows(rows)
    }

    fn row(&self, id: &str) -> u32 {
        self.0.get(id).copied().unwrap_or(NO_ROW)
    }
}

pub(crate) fn lay_out(given: &Builder) -> (raw::Pools, raw::Tables) {
    let mut pools = Filling::default();
    let stop_rows = Rows::of(given.stops.iter().map(|stop| stop.id));
    let trip_rows = Rows::of(given.trips.iter().map(|trip| trip.id));

    let mut shapes = given.shapes.clone();
    shapes.sort_by_key(|shape| shape.0);
    let shape_rows = Rows::of(shapes.iter().map(|shape| shape.0));

    let mut calls: Vec<_> = given.stop_times.iter().map(|call| (trip_rows.row(call.trip), call)).collect();
    calls.sort_by_key(|call| call.0);

    let tables = raw::Tables {
        stops: stops(given, &mut pools),
        stopkeys: keys(given.stops.iter().map(|stop| stop.id), &given.stop_keys, &stop_rows, &mut pools),
        trips: trips(given, &calls, &shape_rows, &mut pools),
        tripkeys: keys(given.trips.iter().map(|trip| trip.id), &given.trip_keys, &trip_rows, &mut pools),
        times: stop_times(&calls, &stop_rows, &mut pools),
        shapes: raw::Shapes {
            id: pools.ids(shapes.iter().map(|shape| shape.0)),
            first: pools.words(firsts(shapes.iter().map(|shape| number(shape.1.len())))),
            count: pools.words(shapes.iter().map(|shape| number(shape.1.len()))),
        },
        points: pools.positions(shapes.iter().flat_map(|shape| shape.1).copied()),
        aliases: aliases(given, &mut pools),
        lines: lines(given, &trip_rows, &mut pools),
        calendars: calendars(given, &mut pools),
        ranges: ranges(given, &mut pools),
        exceptions: exceptions(given, &mut pools),
        updates: updates(given, &mut pools),
        sailing: sailing(given.sailing.as_ref(), &mut pools),
    };
    (pools.done(), tables)
}

/// Where each of some ranges begins that stand one after another.
fn firsts(counts: impl Iterator<Item = u32>) -> impl Iterator<Item = u32> {
    counts.scan(0u32, |next, count| {
        let first = *next;
        *next = next.saturating_add(count);
        Some(first)
    })
}

fn stops<'a>(given: &Builder<'a>, pools: &mut Filling<'a>) -> raw::Stops {
    let stops = given.stops.iter();
    let at = pools.positions(stops.clone().map(|stop| stop.position.unwrap_or_default()));
    raw::Stops {
        own: pools.ids(stops.clone().map(|stop| stop.id)),
        raw: pools.ids(stops.clone().map(|stop| stop.raw_id)),
        lat: at.lat,
        lon: at.lon,
        positioned: pools.flags(stops.map(|stop| stop.position.is_some())),
    }
}

/// The ids of a table's own rows, and others that name one of them.
fn keys<'a>(
    own: impl Iterator<Item = &'a str>,
    others: &[(&'a str, &'a str)],
    rows: &Rows,
    pools: &mut Filling<'a>,
) -> raw::IdRows {
    let mut keys: Vec<_> = own.enumerate().map(|(row, id)| (id, number(row))).collect();
    keys.extend(others.iter().map(|&(id, of)| (id, rows.row(of))));
    keys.sort_unstable();
    raw::IdRows { id: pools.ids(keys.iter().map(|key| key.0)), row: pools.words(keys.iter().map(|key| key.1)) }
}

fn trips<'a>(
    given: &Builder<'a>,
    calls: &[(u32, &StopTime)],
    shape_rows: &Rows,
    pools: &mut Filling<'a>,
) -> raw::Trips {
    let trips = given.trips.iter();
    let mut counts = vec![0u32; given.trips.len()];
    for &(trip, _) in calls {
        if let Some(count) = counts.get_mut(trip as usize) {
            *count += 1;
        }
    }
    raw::Trips {
        feed: pools.ids(trips.clone().map(|trip| trip.feed)),
        service: pools.ids(trips.clone().map(|trip| trip.service)),
        shape: pools.words(trips.clone().map(|trip| trip.shape.map_or(0, |id| shape_rows.row(id)))),
        shaped: pools.flags(trips.clone().map(|trip| trip.shape.is_some())),
        frequency: pools.flags(trips.map(|trip| trip.frequency)),
        first: pools.words(firsts(counts.iter().copied())),
        count: pools.words(counts),
    }
}

/// Stop times, each with its trip's row. One of a trip that is not there has no stop either, so that it is refused.
fn stop_times(calls: &[(u32, &StopTime)], stop_rows: &Rows, pools: &mut Filling) -> raw::StopTimes {
    let rows = calls.iter().map(|call| call.1);
    let (dist, measured) = pools.known_dists(rows.clone().map(|call| call.dist));
    let stop = |&(trip, call): &(u32, &StopTime)| match trip {
        NO_ROW => NO_ROW,
        _ => stop_rows.row(call.stop),
    };
    raw::StopTimes {
        sequence: pools.words(rows.clone().map(|call| call.sequence)),
        stop: pools.words(calls.iter().map(stop)),
        arrival: pools.words(rows.clone().map(|call| call.arrival)),
        departure: pools.words(rows.map(|call| call.departure)),
        dist,
        measured,
    }
}

fn aliases<'a>(given: &Builder<'a>, pools: &mut Filling<'a>) -> raw::Aliases {
    let mut aliases = given.aliases.clone();
    aliases.sort_unstable();
    raw::Aliases {
        id: pools.ids(aliases.iter().map(|alias| alias.0)),
        trip: pools.ids(aliases.iter().map(|alias| alias.1)),
    }
}

/// By token, then the trip's row.
fn lines<'a>(given: &Builder<'a>, trip_rows: &Rows, pools: &mut Filling<'a>) -> raw::Lines {
    let mut lines: Vec<_> = given.lines.iter().map(|&(token, trip)| (token, trip_rows.row(trip))).collect();
    lines.sort_unstable();
    raw::Lines { token: pools.ids(lines.iter().map(|line| line.0)), trip: pools.words(lines.iter().map(|line| line.1)) }
}

fn calendars<'a>(given: &Builder<'a>, pools: &mut Filling<'a>) -> raw::Calendars {
    let mut feeds = given.calendars.clone();
    feeds.sort_unstable();
    raw::Calendars { feed: pools.ids(feeds) }
}

fn ranges<'a>(given: &Builder<'a>, pools: &mut Filling<'a>) -> raw::Ranges {
    let mut ranges = given.ranges.clone();
    ranges.sort_by_key(|range| (range.feed, range.service));
    let ranges = ranges.iter();
    raw::Ranges {
        feed: pools.ids(ranges.clone().map(|range| range.feed)),
        service: pools.ids(ranges.clone().map(|range| range.service)),
        first: pools.words(ranges.clone().map(|range| range.first)),
        last: pools.words(ranges.clone().map(|range| range.last)),
        weekdays: pools.bytes(ranges.map(|range| weekdays(range.weekdays))),
    }
}

/// The low seven bits, Monday lowest.
fn weekdays(days: [bool; 7]) -> u8 {
    days.iter().rev().fold(0, |bits, &day| bits << 1 | u8::from(day))
}

/// By feed, service and date, then added before removed.
fn exceptions<'a>(given: &Builder<'a>, pools: &mut Filling<'a>) -> raw::Exceptions {
    let mut days = given.exceptions.clone();
    days.sort_by_key(|day| (day.feed, day.service, day.date, day.removed));
    let days = days.iter();
    raw::Exceptions {
        feed: pools.ids(days.clone().map(|day| day.feed)),
        service: pools.ids(days.clone().map(|day| day.service)),
        date: pools.words(days.clone().map(|day| day.date)),
        removed: pools.flags(days.map(|day| day.removed)),
    }
}

fn updates<'a>(given: &Builder<'a>, pools: &mut Filling<'a>) -> raw::Updates {
    let mut updates = given.updates.clone();
    updates.sort_by_key(|update| update.sequence);
    let updates = updates.iter();
    let (arrival, arrives) = pools.known_times(updates.clone().map(|update| update.arrival));
    let (departure, departs) = pools.known_times(updates.clone().map(|update| update.departure));
    let (arrdelay, arrdelayed) = pools.known_times(updates.clone().map(|update| update.arrival_delay.map(i64::from)));
    let (depdelay, depdelayed) = pools.known_times(updates.clone().map(|update| update.departure_delay.map(i64::from)));
    raw::Updates {
        sequence: pools.words(updates.clone().map(|update| update.sequence)),
        stop: pools.ids(updates.clone().map(|update| update.stop.unwrap_or_default())),
        named: pools.flags(updates.map(|update| update.stop.is_some())),
        arrival,
        arrives,
        departure,
        departs,
        arrdelay,
        arrdelayed,
        depdelay,
        depdelayed,
    }
}

/// A row, or none. The clock is set when she is asked of.
fn sailing<'a>(sailing: Option<&Sailing<'a>>, pools: &mut Filling<'a>) -> raw::Sailing {
    raw::Sailing {
        feed: pools.ids(sailing.map(|sailing| sailing.feed)),
        key: pools.ids(sailing.map(|sailing| sailing.key)),
        route: pools.ids(sailing.map(|sailing| sailing.route.unwrap_or_default())),
        routed: pools.flags(sailing.map(|sailing| sailing.route.is_some())),
        cancelled: pools.flags(sailing.map(|sailing| sailing.cancelled)),
        now: pools.times(sailing.map(|_| 0)),
        offset: pools.times(sailing.map(|sailing| i64::from(sailing.offset))),
    }
}
