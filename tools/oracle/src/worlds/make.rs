//! Makes worlds, with what each way of matching looks for planted in them, and the limits of each rule met on purpose.
use super::texts::{self, is_id};
use super::{Asked, Journey, Range, Service, Trip, World};
use crate::draw::Draw;
use crate::taken::siri_trip_map::{
    journey_id_from_code, line_product_code, line_token_from_journey_ref, siri_ref_lookup_keys,
};
use chrono::{Datelike, Duration, NaiveDate};

const DAY: i64 = 86_400;
const LAST_MOMENT: i64 = 4_102_444_799;
const LAST_SECOND: i64 = 604_799;
const FARTHEST: i32 = 50_400;

/// How far departures are from the moment asked of, or from each other: the limits of 60, 120, 900 and 1,020 seconds, and sums of them.
const APART: [i64; 22] =
    [0, 0, 1, 30, 59, 60, 60, 61, 61, 119, 120, 121, 180, 181, 182, 899, 900, 901, 1019, 1020, 1021, 780];
const BESIDE: [i64; 10] = [0, 1, 60, 119, 120, 120, 121, 121, 240, 241];

/// The date of a day, counted from 1970, as yyyymmdd.
pub fn date_of(day: i64) -> u32 {
    let date = NaiveDate::from_ymd_opt(1970, 1, 1).expect("a date") + Duration::days(day);
    date.year() as u32 * 10_000 + date.month() * 100 + date.day()
}

/// The moment that a world is made around.
struct Around {
    moment: i64,
    offset: i32,
    day: i64,
    second: i64,
}

fn offset(d: &mut Draw) -> i32 {
    match d.below(8) {
        0 => FARTHEST,
        1 => -FARTHEST,
        2 => 0,
        3 => d.whole(-FARTHEST, FARTHEST),
        4 => 3_600,
        _ => 7_200,
    }
}

/// A moment: either end, near them, near a local midnight, or any.
fn moment(d: &mut Draw, offset: i32) -> i64 {
    let any = d.below(LAST_MOMENT as u64) as i64;
    let at = match d.below(10) {
        0 => 0,
        1 => LAST_MOMENT,
        2 => d.below(100_000) as i64,
        3 => LAST_MOMENT - d.below(100_000) as i64,
        4..=6 => any / DAY * DAY - offset as i64 + either_way(d, &APART),
        _ => any,
    };
    at.clamp(0, LAST_MOMENT)
}

fn either_way(d: &mut Draw, list: &[i64]) -> i64 {
    let n = d.one_of(list);
    if d.coin() {
        -n
    } else {
        n
    }
}

impl Around {
    fn draw(d: &mut Draw) -> Around {
        let offset = offset(d);
        let moment = moment(d, offset);
        let local = moment + offset as i64;
        Around { moment, offset, day: local.div_euclid(DAY), second: local.rem_euclid(DAY) }
    }

    /// A date that a rule may turn on: today's, yesterday's, one beside these, either end of all dates, or any.
    fn date(&self, d: &mut Draw) -> u32 {
        match d.below(10) {
            0..=2 => date_of(self.day),
            3..=5 => date_of(self.day - 1),
            6 => date_of(self.day + 1),
            7 => date_of(self.day - 2),
            8 => d.one_of(&[101 + 10_000, 99_991_231, 19_700_101, 20_000_229, 19_691_231]),
            _ => date_of(d.below(3_652_059) as i64 - 719_162),
        }
    }

    fn weekday_bit(&self, before: i64) -> u8 {
        1 << (self.day - before + 3).rem_euclid(7)
    }
}

// Trips and their rows

fn departure(d: &mut Draw, around: &Around, others: &[u32]) -> u32 {
    let s = match d.below(16) {
        0..=6 => around.second + either_way(d, &APART),
        7 | 8 => around.second + DAY + either_way(d, &APART),
        9..=12 if !others.is_empty() => d.one_of(others) as i64 + either_way(d, &BESIDE),
        13 => 43_200 + d.whole(-1, 1) as i64,
        14 => d.one_of(&[0, LAST_SECOND, DAY - 1, DAY, DAY + 60]),
        _ => d.below(LAST_SECOND as u64 + 1) as i64,
    };
    s.clamp(0, LAST_SECOND) as u32
}

fn flag(d: &mut Draw) -> u8 {
    d.one_of(&[1, 1, 2, 128, 255])
}

fn trips(d: &mut Draw, w: &mut World, around: &Around, feeds: &[&str]) {
    let n = match d.below(50) {
        0 => 0,
        _ => 1 + d.below(8),
    };
    for _ in 0..n {
        let count = d.below(4) as u32;
        let first = w.departures.len() as u32;
        for _ in 0..count {
            let s = departure(d, around, &w.departures);
            w.departures.push(s);
        }
        w.trips.push(Trip {
            feed: d.one_of(feeds).to_string(),
            service: d.one_of(&texts::SERVICES).to_string(),
            frequency: if d.below(8) == 0 { flag(d) } else { 0 },
            first,
            count,
        });
    }
    // a trip of no rows may start at any row, or where the rows end
    let rows = w.departures.len() as u64;
    for trip in w.trips.iter_mut().filter(|trip| trip.count == 0) {
        trip.first = d.below(rows + 1) as u32;
    }
}

// Calendars

fn calendars(d: &mut Draw, w: &mut World, around: &Around, feeds: &[&str]) {
    for feed in feeds {
        if d.below(3) > 0 {
            w.feeds.insert(feed.to_string());
        }
        for service in texts::SERVICES {
            if d.below(6) > 0 {
                w.ranges.insert((feed.to_string(), service.to_string()), range(d, around));
            }
            for date in [date_of(around.day), date_of(around.day - 1), around.date(d)] {
                let kinds = d.below(12);
                if kinds == 0 || kinds == 2 {
                    w.exceptions.insert((feed.to_string(), service.to_string(), date, false));
                }
                if kinds == 1 || kinds == 2 {
                    w.exceptions.insert((feed.to_string(), service.to_string(), date, true));
                }
            }
        }
    }
}

fn range(d: &mut Draw, around: &Around) -> Range {
    let (mut first, mut last) = (around.date(d), around.date(d));
    match d.below(4) {
        0 => {}
        1 => first = date_of(around.day - d.below(900) as i64),
        _ => (first, last) = (10_101, 99_991_231),
    }
    let (today, yesterday) = (around.weekday_bit(0), around.weekday_bit(1));
    let weekdays = match d.below(12) {
        0 => 0,
        1 => 255,
        2 => today,
        3 => yesterday,
        4 => 127 & !today,
        5 => 127 & !yesterday,
        6 => d.below(256) as u8,
        _ => 127,
    };
    Range { first, last, weekdays }
}

// Journeys

/// Some trip of the world, which has one.
fn some_trip(d: &mut Draw, w: &World) -> u32 {
    d.below(w.trips.len() as u64) as u32
}

fn plant_key(d: &mut Draw, w: &mut World, id: String) {
    if is_id(&id) && !w.trips.is_empty() {
        let trip = some_trip(d, w);
        w.keys.insert(id, trip);
    }
}

/// A trip id of the table, or one that is not there.
fn some_id(d: &mut Draw, w: &World) -> String {
    if w.keys.is_empty() || d.below(4) == 0 {
        return "no:such:trip".to_string();
    }
    let at = d.below(w.keys.len() as u64) as usize;
    w.keys.keys().nth(at).expect("a key").clone()
}

/// Keys of a journey's parts that are looked up for journeys of one kind or another, and some that never are.
fn keys_beside(key: &str, id: &str) -> Vec<String> {
    let raw = key.split_once(':').map_or(key, |(_, rest)| rest);
    vec![
        raw.to_string(),
        raw.trim_end_matches(":LOC").to_string(),
        key.trim_end_matches(":LOC").to_string(),
        format!("IDFM:TN:SNCF:{id}"),
        format!("SNCF_MAGENTA_PRD:VehicleJourney::{id}:LOC"),
        format!("SNCF:VehicleJourney::{id}:LOC"),
        format!("SNCF:VehicleJourney::{id}"),
        format!("RATP-SIV:VehicleJourney::{id}:LOC"),
        format!("stif:VehicleJourney:{id}:LOC"),
        format!("IDFM:stif:{id}"),
        format!("{id}:LOC"),
        id.trim().to_string(),
    ]
}

fn plant_alias(d: &mut Draw, w: &mut World, key: &str, id: &str) {
    let (looked_up, beside) = (siri_ref_lookup_keys(key), keys_beside(key, id));
    for _ in 0..1 + d.below(2) {
        let keys = if d.below(3) > 0 { &looked_up } else { &beside };
        let alias = keys[d.below(keys.len() as u64) as usize].clone();
        if is_id(&alias) {
            let id = some_id(d, w);
            w.aliases.insert(alias, id);
        }
    }
}

fn plant_built(d: &mut Draw, w: &mut World, key: &str) {
    if let Some(id) = journey_id_from_code(key) {
        let feed = key.split(':').next().expect("a first part");
        plant_key(d, w, format!("{feed}:IDFM:TN:SNCF:{id}"));
    }
}

/// Plants a line under the token that the Rust reads, or now and then under the one that was drawn, whether it is read or not.
fn plant_line(d: &mut Draw, w: &mut World, key: &str, route: Option<&str>, drawn: &str) {
    let read = route.and_then(line_product_code).or_else(|| line_token_from_journey_ref(key));
    let token = read.filter(|_| d.below(4) > 0).unwrap_or(drawn.to_uppercase());
    for trip in 0..w.trips.len() as u32 {
        if d.below(4) > 0 && is_id(&token) {
            w.lines.insert((token.clone(), trip));
        }
    }
}

fn tail(d: &mut Draw) -> String {
    let n = 5 + d.below(5) as usize;
    (0..n).map(|_| d.one_of(b"abC019-. ") as char).collect()
}

fn plant_tail(d: &mut Draw, w: &mut World, tail: &str) {
    for _ in 0..1 + d.below(3) {
        let before = d.one_of(&["", "f:", "idfm:x", "~~"]);
        let after = d.one_of(&["", "", "", ":LOC", "z"]);
        plant_key(d, w, format!("{before}{tail}{after}"));
    }
}

/// The ways that are planted for; by line and time oftener, since most rules are there.
#[derive(Clone, Copy)]
enum Way {
    Exact,
    Alias,
    Built,
    Time,
    Tail,
    Nothing,
}
const WAYS: [Way; 12] = [
    Way::Exact,
    Way::Alias,
    Way::Alias,
    Way::Built,
    Way::Built,
    Way::Time,
    Way::Time,
    Way::Time,
    Way::Time,
    Way::Time,
    Way::Tail,
    Way::Nothing,
];

fn journey(d: &mut Draw, w: &mut World, around: &Around) -> Journey {
    let way = d.one_of(&WAYS);
    let token = texts::token(d);
    let route = if d.below(6) > 0 { Some(texts::route(d, &token)).filter(|id| is_id(id)) } else { None };
    let id = match way {
        Way::Built => texts::uuid_like(d),
        _ => texts::journey_id(d, &token),
    };
    let mut key = match way {
        Way::Exact => texts::trip_id(d),
        Way::Tail => {
            let tail = tail(d);
            plant_tail(d, w, &tail);
            let after = d.one_of(&["", "", ":LOC", ":", ":LOC:", "::", ":LOC:LOC"]);
            format!("{}{tail}{after}", d.one_of(&["", "idfm:A:", "q:"]))
        }
        _ => texts::journey_ref(d, &id),
    };
    if !is_id(&key) {
        key = "idfm:A:VehicleJourney:local-1:LOC".to_string();
    }
    match way {
        Way::Exact => plant_key(d, w, key.clone()),
        Way::Alias => plant_alias(d, w, &key, &id),
        Way::Built => plant_built(d, w, &key),
        Way::Time => plant_line(d, w, &key, route.as_deref(), &token),
        _ => {}
    }
    if d.below(12) == 0 {
        key = Some(texts::beside(d, &key)).filter(|text| is_id(text)).unwrap_or(key);
    }
    let near = around.moment + if d.below(3) == 0 { either_way(d, &APART) } else { 0 };
    Journey {
        key,
        route,
        departure: if d.below(16) > 0 { Some(near.clamp(0, LAST_MOMENT)) } else { None },
        offset: if d.below(10) == 0 { offset(d) } else { around.offset },
    }
}

fn service(d: &mut Draw, around: &Around, feeds: &[&str]) -> Service {
    let feed = if d.below(10) == 0 { "other" } else { d.one_of(feeds) };
    let service = if d.below(10) == 0 { "other" } else { d.one_of(&texts::SERVICES) };
    Service { feed: feed.to_string(), service: service.to_string(), date: around.date(d) }
}

/// What no way is planted for: more ids, aliases and lines.
fn further(d: &mut Draw, w: &mut World) {
    for _ in 0..d.below(4) {
        let id = texts::trip_id(d);
        plant_key(d, w, id);
    }
    for _ in 0..d.below(3) {
        let id = some_id(d, w);
        w.aliases.insert(texts::trip_id(d), id);
    }
    for _ in 0..d.below(3) {
        if !w.trips.is_empty() {
            let trip = some_trip(d, w);
            w.lines.insert((texts::token(d), trip));
        }
    }
}

/// A world, with `journeys` and `services` asked of it.
pub fn draw(d: &mut Draw, journeys: usize, services: usize) -> (World, Vec<Asked>) {
    let around = Around::draw(d);
    let feeds: Vec<&str> = (0..1 + d.below(2)).map(|_| d.one_of(&texts::FEEDS)).collect();
    let mut w = World::default();
    trips(d, &mut w, &around, &feeds);
    calendars(d, &mut w, &around, &feeds);
    further(d, &mut w);
    let mut asked = Vec::new();
    for _ in 0..journeys {
        asked.push(Asked::Journey(journey(d, &mut w, &around)));
    }
    for _ in 0..services {
        asked.push(Asked::Service(service(d, &around, &feeds)));
    }
    (w, asked)
}
