//! The first refusal of document 01 that applies to a case as it was read, for the estimate: a plain restatement, table by table.
use super::read::Read;
use super::{Case, Exception};
use chrono::NaiveDate;

const LAST_MOMENT: i64 = 4_102_444_799;
const MOST_OFFSET: i64 = 50_400;
const LAST_SECOND: u32 = 604_799;
const UPDATES: usize = 256;
const POINTS: usize = 8192;
const ID: usize = 96;

/// Every id of a case but raw ids.
fn ids(read: &Read) -> Vec<&str> {
    let case = &read.case;
    let mut all: Vec<&str> = vec![&case.feed, &case.trip];
    all.extend(case.route.as_deref());
    all.extend(case.updates.iter().filter_map(|u| u.stop.as_deref()));
    all.extend(read.stop_rows.iter().map(|row| row.0.as_str()));
    all.extend(read.trip_rows.iter().map(|row| row.0.as_str()));
    all.extend(case.trips.iter().flat_map(|trip| [trip.feed.as_str(), &trip.service]));
    all.extend(case.shapes.iter().map(|shape| shape.id.as_str()));
    all.extend(case.aliases.iter().flat_map(|(key, trip)| [key.as_str(), trip]));
    all.extend(case.lines.iter().map(|(token, _)| token.as_str()));
    all.extend(case.calendars.iter().map(String::as_str));
    all.extend(case.ranges.iter().flat_map(|r| [r.feed.as_str(), &r.service]));
    all.extend(case.exceptions.iter().flat_map(|e| [e.feed.as_str(), &e.service]));
    all
}

fn raw_ids(case: &Case) -> impl Iterator<Item = &str> {
    case.stops.iter().map(|stop| stop.raw.as_str())
}

fn count_over(read: &Read) -> bool {
    let case = &read.case;
    case.updates.len() > UPDATES
        || case.shapes.iter().any(|shape| shape.points.len() > POINTS)
        || ids(read).into_iter().chain(raw_ids(case)).any(|id| id.chars().count() > ID)
}

pub fn off_globe((lat, lon): (f64, f64)) -> bool {
    !((-90.0..=90.0).contains(&lat) && (-180.0..=180.0).contains(&lon))
}

fn some_off_globe(case: &Case) -> bool {
    let stops = case.stops.iter().filter_map(|stop| stop.at);
    stops.chain(case.shapes.iter().flat_map(|shape| shape.points.iter().copied())).any(off_globe)
}

fn ascend<T: PartialOrd>(rows: impl Iterator<Item = T>) -> bool {
    let rows: Vec<T> = rows.collect();
    rows.windows(2).all(|pair| pair[0] < pair[1])
}

fn out_of_order(read: &Read) -> bool {
    let case = &read.case;
    let day = |e: &Exception| (e.feed.clone(), e.service.clone(), e.date, e.removed);
    let ordered = ascend(read.stop_rows.iter().map(|row| &row.0))
        && ascend(read.trip_rows.iter().map(|row| &row.0))
        && ascend(case.shapes.iter().map(|shape| &shape.id))
        && ascend(case.aliases.iter().map(|row| &row.0))
        && ascend(case.lines.iter())
        && ascend(case.calendars.iter())
        && ascend(case.ranges.iter().map(|r| (&r.feed, &r.service)))
        && ascend(case.exceptions.iter().map(day))
        && ascend(case.updates.iter().map(|u| u.sequence));
    !ordered
}

fn outside_table(read: &Read) -> bool {
    let case = &read.case;
    let (stops, trips) = (case.stops.len() as u32, case.trips.len() as u32);
    case.trips.iter().any(|trip| trip.shape.is_some_and(|shape| shape as usize >= case.shapes.len()))
        || case.trips.iter().flat_map(|trip| &trip.calls).any(|call| call.stop >= stops)
        || read.stop_rows.iter().any(|row| row.1 >= stops)
        || read.trip_rows.iter().any(|row| row.1 >= trips)
        || case.lines.iter().any(|row| row.1 >= trips)
}

fn out_of_time(case: &Case) -> bool {
    let times = case.updates.iter().flat_map(|u| [u.arrival, u.departure]).flatten();
    let seconds = case.trips.iter().flat_map(|trip| &trip.calls).flat_map(|call| [call.arrival, call.departure]);
    times.chain([case.now]).any(|time| !(0..=LAST_MOMENT).contains(&time))
        || !(-MOST_OFFSET..=MOST_OFFSET).contains(&case.offset)
        || seconds.into_iter().any(|second| second > LAST_SECOND)
}

fn not_an_id(read: &Read) -> bool {
    let all = ids(read);
    let bad = |id: &str| id.chars().any(|c| !(' '..='~').contains(&c));
    all.iter().any(|id| id.is_empty()) || all.into_iter().chain(raw_ids(&read.case)).any(bad)
}

fn not_finite(case: &Case) -> bool {
    case.trips.iter().flat_map(|trip| &trip.calls).any(|call| call.dist.is_some_and(|dist| !dist.is_finite()))
}

/// The day of eight digits, year 0001 to 9999.
pub fn day(digits: u32) -> Option<NaiveDate> {
    let year = (digits / 10_000) as i32;
    (1..=9999).contains(&year).then(|| NaiveDate::from_ymd_opt(year, digits / 100 % 100, digits % 100)).flatten()
}

fn not_a_date(case: &Case) -> bool {
    let ranges = case.ranges.iter().flat_map(|r| [r.first, r.last]);
    ranges.chain(case.exceptions.iter().map(|e| e.date)).any(|digits| day(digits).is_none())
}

/// Its number, or 0. Columns of a case are of one length, so 1 is never given.
pub fn refusal(read: &Read) -> u32 {
    let case = &read.case;
    let causes = [
        (2, count_over(read)),
        (3, some_off_globe(case)),
        (4, out_of_order(read)),
        (5, outside_table(read)),
        (6, out_of_time(case)),
        (7, not_an_id(read)),
        (8, not_finite(case)),
        (10, not_a_date(case)),
    ];
    causes.iter().find(|cause| cause.1).map_or(0, |cause| cause.0)
}
