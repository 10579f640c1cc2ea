//! Which limits of matching a question meets. Counted beside the comparison, so that a run shows that it reached them.
#![allow(dead_code)]
use crate::met::Met;
use crate::taken::pack::StaticEpoch;
use crate::taken::siri_trip_map::{line_product_code, line_token_from_journey_ref, siri_ref_lookup_keys};
use crate::timetable::{is_active, way};
use crate::worlds::make::date_of;
use crate::worlds::texts::LONGEST;
use crate::worlds::{Journey, Service, World};
use std::collections::BTreeSet;

const DAY: i64 = 86_400;

/// The way by which the Rust answers a journey, and the limits that it meets: of line and time, and of the tail, where no id answers.
pub fn of_journey(w: &World, epoch: &StaticEpoch, j: &Journey) -> (&'static str, Met) {
    let way = way(epoch, j);
    let mut met = Met::default();
    note_ids(&mut met, w, j, way);
    if !matches!(way, "exact id" | "alias" | "built id") {
        note_line(&mut met, w, epoch, j, way);
        note_tail(&mut met, w, j, way);
    }
    (way, met)
}

/// What a service meets.
pub fn of_service(w: &World, s: &Service, runs: bool) -> Met {
    let mut met = Met::default();
    note_service(&mut met, w, s, runs);
    met
}

/// Counts what a journey meets that is answered by an id, and how long the keys are that are made of its parts.
fn note_ids(met: &mut Met, w: &World, j: &Journey, way: &str) {
    let keys = siri_ref_lookup_keys(&j.key);
    let known = |key: &String| w.aliases.get(key).is_some_and(|id| w.keys.contains_key(id));
    let hit = keys.iter().position(known);
    let passed_over = keys[..hit.unwrap_or(0)].iter().any(|key| w.aliases.contains_key(key));
    const BY: [&str; 5] = [
        "alias by the first key",
        "alias by the second key",
        "alias by the third key",
        "alias by the fourth key",
        "alias by a later key",
    ];
    for (k, name) in BY.into_iter().enumerate() {
        met.note(way == "alias" && hit.map(|at| at.min(4)) == Some(k), name);
    }
    met.note(way == "alias" && passed_over, "alias after one whose trip id is unknown");
    met.note(keys.iter().any(|key| key.len() > LONGEST), "a key over 96 bytes");
}

/// Counts what the tail of a journey meets.
fn note_tail(met: &mut Met, w: &World, j: &Journey, way: &str) {
    let trimmed = j.key.trim_end_matches(':');
    let trimmed = trimmed.strip_suffix(":LOC").unwrap_or(trimmed);
    let tail = trimmed.rsplit(':').next().unwrap_or(trimmed);
    let ids: Vec<(&String, &u32)> = w.keys.iter().filter(|(id, _)| id.contains(tail)).collect();
    let trips: BTreeSet<u32> = ids.iter().map(|(_, &trip)| trip).collect();
    let inside = ids.iter().any(|(id, _)| !id.ends_with(tail));
    met.note(tail.len() == 5 && !ids.is_empty(), "a tail of 5 that an id has");
    met.note(way == "tail" && tail.len() == 6, "answered by a tail of 6");
    met.note(way == "tail" && tail.len() == 7, "answered by a tail of 7");
    met.note(way == "tail" && tail.len() == 8, "answered by a tail of 8");
    met.note(tail.len() == 7 && inside, "a tail of 7 inside an id");
    met.note(way == "tail" && tail.len() == 8 && inside, "answered by a tail of 8 inside an id");
    met.note(way == "tail" && ids.len() > 1 && trips.len() == 1, "answered by two ids of one trip");
    met.note(tail.len() >= 8 && trips.len() > 1, "a tail of two trips");
}

/// A trip of the line that runs: how far its departure is from the moment, its departure from today's midnight, and whose day it is.
struct Fit {
    delta: i64,
    rel: i64,
    trip: u32,
    yesterday: bool,
}

/// The rows of the line, as the Rust reads them.
fn line<'a>(w: &'a World, j: &Journey) -> Vec<&'a (String, u32)> {
    let token = j.route.as_deref().and_then(line_product_code).or_else(|| line_token_from_journey_ref(&j.key));
    w.lines.iter().filter(|line| Some(&line.0) == token.as_ref()).collect()
}

fn fit(w: &World, epoch: &StaticEpoch, trip: u32, day: i64, second: i64) -> Option<Fit> {
    let t = &w.trips[trip as usize];
    let &s = w.departures.get(t.first as usize)?;
    let runs = |day| {
        let service = Service { feed: t.feed.clone(), service: t.service.clone(), date: date_of(day) };
        is_active(epoch, &service)
    };
    let at = |rel: i64, yesterday| Fit { delta: (rel - second).abs(), rel, trip, yesterday };
    let today = (t.frequency == 0 && runs(day)).then(|| at(s as i64, false));
    let late = (t.frequency == 0 && s >= 43_200 && runs(day - 1)).then(|| at(s as i64 - DAY, true));
    match (today, late) {
        (Some(a), Some(b)) => Some(if b.delta < a.delta { b } else { a }),
        (a, b) => a.or(b),
    }
}

/// Counts the limits of line and time that a journey meets, one that no id answered.
fn note_line(met: &mut Met, w: &World, epoch: &StaticEpoch, j: &Journey, way: &str) {
    let Some(moment) = j.departure else { return };
    let local = moment + j.offset as i64;
    let (day, second) = (local.div_euclid(DAY), local.rem_euclid(DAY));
    let rows = line(w, j);
    let trip = |row: &(String, u32)| &w.trips[row.1 as usize];
    let answered = way == "line and time";
    let of_route = j.route.as_deref().and_then(line_product_code).is_some();
    met.note(answered && of_route, "answered by the route's token");
    met.note(answered && !of_route, "answered by the journey's token");
    met.note(answered && j.offset == 50_400, "offset 50,400, answered");
    met.note(answered && j.offset == -50_400, "offset -50,400, answered");
    met.note(answered && moment == 0, "moment 0, answered");
    met.note(answered && moment == 4_102_444_799, "moment 4,102,444,799, answered");
    met.note(answered && day == -1, "local day before 1970, answered");
    met.note(rows.iter().any(|row| trip(row).frequency != 0), "a frequency trip on the line");
    met.note(
        rows.iter().any(|row| trip(row).first as usize == w.departures.len()),
        "a trip that starts where the rows end",
    );
    let seconds: Vec<u32> = rows.iter().filter_map(|row| w.departures.get(trip(row).first as usize).copied()).collect();
    met.note(seconds.contains(&43_199), "a departure at 43,199");
    met.note(seconds.contains(&43_200), "a departure at 43,200");
    let fits: Vec<Fit> = rows.iter().filter_map(|row| fit(w, epoch, row.1, day, second)).collect();
    let Some(best) = fits.iter().min_by_key(|f| (f.delta, f.trip)) else { return };
    let others = || fits.iter().filter(|f| f.trip != best.trip);
    let apart = |n: i64| others().any(|f| (f.rel - best.rel).abs() == n);
    let crowd = others().filter(|f| (f.rel - best.rel).abs() <= 120).count();
    let t = &w.trips[best.trip as usize];
    met.note(answered && t.count == 0, "answered by a trip of no rows, whose first row is another's");
    met.note(answered && best.yesterday, "answered from yesterday's service day");
    met.note(answered && best.rel < 0, "answered, departure before midnight");
    met.note(others().any(|f| f.delta == best.delta), "two trips equally near");
    met.note(best.delta == 60 && crowd > 0, "best at 60 with a neighbour");
    met.note(best.delta == 61 && crowd > 0, "best at 61 with a neighbour");
    met.note(best.delta == 61 && crowd == 0, "best at 61 without one");
    met.note((61..=900).contains(&best.delta) && apart(120), "best over 60, another 120 from it");
    met.note((61..=900).contains(&best.delta) && crowd == 0 && apart(121), "best over 60, the next 121 from it");
    met.note(best.delta == 900 && crowd == 0, "best at 900");
    met.note(best.delta == 901, "best at 901");
    met.note(others().any(|f| f.delta == 1_020), "a candidate at 1,020");
    met.note(others().any(|f| f.delta == 1_021), "a candidate at 1,021");
    met.note(
        best.delta == 900 && others().any(|f| f.delta == 1_020 && (f.rel - best.rel).abs() == 120),
        "best at 900, another at 1,020",
    );
    let both =
        |date: u32| [false, true].iter().all(|&r| w.exceptions.contains(&(t.feed.clone(), t.service.clone(), date, r)));
    met.note(both(date_of(day)) || both(date_of(day - 1)), "the best trip's service both added and removed on a day");
}

/// Counts what a service meets.
fn note_service(met: &mut Met, w: &World, s: &Service, runs: bool) {
    let row = |removed| w.exceptions.contains(&(s.feed.clone(), s.service.clone(), s.date, removed));
    let named = w.feeds.contains(&s.feed);
    let range = w.ranges.get(&(s.feed.clone(), s.service.clone()));
    met.note(!named, "a feed without a calendar");
    met.note(named && row(false) && row(true), "added and removed on the date");
    met.note(named && row(true) && !row(false), "removed");
    met.note(named && row(false) && !row(true), "added");
    met.note(named && range.is_none(), "no range");
    met.note(named && range.is_some_and(|r| r.first == s.date), "the range's first day");
    met.note(named && range.is_some_and(|r| r.last == s.date), "the range's last day");
    met.note(named && range.is_some_and(|r| r.last < r.first), "a range that ends before it begins");
    met.note(runs, "runs");
    met.note(!runs, "does not run");
}
