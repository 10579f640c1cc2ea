//! Cases from a seed: every way of finding a trip, a stop and a path, with clocks at each time and a second to either side.
use super::{Call, Case, Exception, Range, Shape, Stop, Trip, Update};
use crate::draw::Draw;

/// Texts before a stop's number, by which it may be known.
const STOP_IDS: [&str; 12] = [
    "f:a",
    "f:a",
    "f:",
    "f:IDFM:",
    "f:IDFM:monomodalStopPlace:",
    "f:IDFM:StopPoint:",
    "IDFM:",
    "IDFM:monomodalStopPlace:",
    "StopPoint:",
    "",
    "idfm:IDFM:monomodalStopPlace:",
    "idfm:IDFM:",
];
/// Texts before a stop's number, by which an update may name it.
const NAMES: [&str; 6] = ["f:a", "STIF:StopPoint:Q:", "a", "", "x:", "f:IDFM:"];

fn stop_id(draw: &mut Draw, k: u64) -> String {
    format!("{}{}", draw.one_of(&STOP_IDS), 1000 + k)
}

/// How an update names the stop of this number.
fn name(draw: &mut Draw, own: &str, k: u64) -> Option<String> {
    match draw.below(16) {
        0 | 1 => None,
        2..=9 => Some(own.into()),
        10 => Some(own.strip_prefix("f:").unwrap_or(own).into()),
        11 | 12 => Some(format!("{}{}:", draw.one_of(&["STIF:StopPoint:Q:", "x:Q:", ":Q:"]), 1000 + k)),
        13 if draw.below(3) == 0 => Some(format!("nowhere{}", draw.below(3))),
        _ => Some(format!("{}{}", draw.one_of(&NAMES), 1000 + k)),
    }
}

/// Steps in degrees: two points the same to a chain, some about a metre, miles.
const STEPS: [f64; 14] = [1e-9, 9e-10, 1e-6, 3e-6, 4e-6, 5e-6, 1e-5, 2e-5, 0.001, 0.001, 0.01, 0.01, 0.1, 0.5];

/// Positions of ports, one after another, each a step on.
fn ports(draw: &mut Draw, n: u64) -> Vec<(f64, f64)> {
    let starts =
        [(48.8, 2.3), (0.0, 0.0), (0.0, 0.0), (-0.0, -0.0), (59.9, 10.7), (0.0, 179.9), (-33.8, 151.2), (82.25, 0.0)];
    let (mut lat, mut lon): (f64, f64) = draw.one_of(&starts);
    let usual = draw.one_of(&STEPS);
    let turn = draw.below(4) == 0;
    // no number is as far as between these two
    let far = draw.below(25) == 0;
    (0..n)
        .map(|k| {
            let at = (lat, lon);
            let back = if turn && k > n / 2 { -1.0 } else { 1.0 };
            let step = if draw.below(8) == 0 { draw.one_of(&[1e-9, 1e-9, 1.1e-9, 1e-5]) } else { usual };
            if draw.below(8) != 0 {
                lat = (lat + back * step * draw.one_of(&[0.0, 0.5, 1.0])).clamp(-90.0, 90.0);
                lon = (lon + back * step * draw.one_of(&[0.0, 1.0, 1.0, -1.0])).clamp(-180.0, 180.0);
            }
            match far {
                true if k % 2 == 0 => (82.25, 0.0),
                true => (-82.25, 180.0),
                false => at,
            }
        })
        .collect()
}

/// A point so far off the way from one port to another that the way by it is some four times as long.
fn detour(draw: &mut Draw, a: (f64, f64), b: (f64, f64)) -> (f64, f64) {
    let (north, east) = (b.0 - a.0, b.1 - a.1);
    let times: f64 = draw.between(3.0, 5.5);
    let off = (times * times - 1.0).sqrt() / 2.0;
    let at = (a.0 + north / 2.0 + east * off, a.1 + east / 2.0 - north * off);
    (at.0.clamp(-90.0, 90.0), at.1.clamp(-180.0, 180.0))
}

/// A shape about the ports: with points between, turned round, out and back, or short.
fn shape(draw: &mut Draw, ports: &[(f64, f64)]) -> Vec<(f64, f64)> {
    let mut line = vec![];
    let detours = draw.below(6) == 0;
    for pair in ports.windows(2) {
        let n = if draw.below(40) == 0 { draw.below(60) } else { draw.below(4) };
        for j in 0..=n {
            let t = j as f64 / (n + 1) as f64;
            let off = draw.one_of(&[0.0, 0.0, 0.0, 1e-5, 0.002]);
            let at = |a: f64, b: f64| a + (b - a) * t + off;
            line.push((at(pair[0].0, pair[1].0).clamp(-90.0, 90.0), at(pair[0].1, pair[1].1).clamp(-180.0, 180.0)));
        }
        if detours && draw.coin() {
            line.truncate(line.len() - n as usize);
            line.push(detour(draw, pair[0], pair[1]));
        }
    }
    line.extend(ports.last());
    match draw.below(12) {
        0 | 5 => line.reverse(),
        1 => line.truncate(draw.below(3) as usize),
        2 => {
            let back: Vec<_> = line.iter().rev().copied().collect();
            line.extend(back);
        }
        3 => line.insert(0, (-82.25, 180.0)),
        4 | 6 => line.insert(line.len() / 2, line[line.len() / 2]),
        _ => {}
    }
    line
}

/// Distances of a trip's calls in metres, in another unit, some missing, or none.
fn distances(draw: &mut Draw, ports: &[(f64, f64)]) -> Vec<Option<f32>> {
    let way = |k: usize| -> f64 {
        let mut sum = 0.0;
        for pair in ports[..=k].windows(2) {
            sum += crate::link::geo::haversine_m(pair[0].0, pair[0].1, pair[1].0, pair[1].1);
        }
        sum
    };
    let unit = draw.one_of(&[1.0, 1.0, 0.001, 3.28, 0.0006, 7.0, -1.0]);
    let from = draw.one_of(&[0.0, 0.0, 0.0, 100.0, -50.0]);
    let kind = draw.below(5);
    let dist = |k: usize| match kind {
        0 => None,
        1 if draw.below(3) == 0 => None,
        2 if draw.below(6) == 0 => Some(draw.between(-1000.0, 100000.0) as f32),
        _ => Some(((way(k) + from) * unit) as f32),
    };
    let mut all: Vec<Option<f32>> = (0..ports.len()).map(dist).map(|d| d.filter(|d| d.is_finite())).collect();
    if all.len() > 3 && draw.below(6) == 0 {
        // between the first and the last the distances fall
        let last = all.len() - 1;
        all[1..last].reverse();
    }
    all
}

/// The sequences of n rows.
fn sequences(draw: &mut Draw, n: u64) -> Vec<u32> {
    let (from, step) = draw.one_of(&[(1, 1), (0, 1), (10, 10), (1, 0), (5, 2)]);
    let mut all: Vec<u32> = (0..n as u32).map(|k| from + k * step).collect();
    match draw.below(10) {
        0 => all.reverse(),
        1 => all[draw.below(n) as usize] = draw.below(12) as u32,
        _ => {}
    }
    all
}

struct Ports {
    at: Vec<(f64, f64)>,
    /// the row of each in the stops
    stop: Vec<u32>,
    /// its number
    number: Vec<u64>,
    /// the moment of the first call, about
    start: i64,
    /// the second of its day
    second: i64,
}

const STARTS: [i64; 7] =
    [0, 1_000, 36_000, 1_700_000_000, 86_400 * 20_000 + 36_000, 86_400 * 20_001 + 120, 4_102_440_000];

/// The stops of the ports, in the order of their ids; some without a position.
fn stops(draw: &mut Draw, case: &mut Case, n: u64) -> Ports {
    let at = ports(draw, n);
    let mut rows: Vec<(Stop, u64)> = vec![];
    for k in 0..n {
        let id = stop_id(draw, k);
        let raw = match draw.below(4) {
            0 => String::new(),
            1 => format!("{}", draw.one_of(&[1u64, 10, 100, 1000, 1001])),
            _ => id.clone(),
        };
        let lacks = draw.below(10) == 0;
        rows.push((Stop { id, raw, at: Some(at[k as usize]).filter(|_| !lacks) }, k));
    }
    rows.sort_by(|a, b| a.0.id.cmp(&b.0.id));
    let mut stop = vec![0; n as usize];
    for (row, (_, k)) in rows.iter().enumerate() {
        stop[*k as usize] = row as u32;
    }
    case.stops = rows.into_iter().map(|(stop, _)| stop).collect();
    for _ in 0..draw.below(3) {
        let k = draw.below(n);
        let id = if draw.coin() { stop_id(draw, k) } else { format!("f:a{}", 1000 + k) };
        let known = |id: &String| case.stops.iter().any(|s| s.id == *id) || case.stop_keys.iter().any(|s| s.0 == *id);
        if !known(&id) {
            case.stop_keys.push((id, stop[k as usize]));
        }
    }
    let start = draw.one_of(&STARTS);
    Ports { at, stop, number: (0..n).collect(), start, second: (start + case.offset).rem_euclid(86_400) }
}

fn trip(draw: &mut Draw, case: &mut Case, ports: &Ports, id: String) -> Trip {
    let n = ports.at.len() as u64;
    let sequences = sequences(draw, n);
    let dists = distances(draw, &ports.at);
    let about = ports.second + draw.one_of(&[0, 0, 30, -60, 61, 121, 180, -900, 900, 901]);
    let mut second = match draw.below(6) {
        0 => draw.one_of(&[0, 36_000, 43_000, 86_000, 600_000]),
        1 => (about + 86_400) as u32,
        _ => about.max(0) as u32,
    };
    let calls = (0..n as usize).map(|k| {
        let arrival = second;
        let departure = arrival + draw.one_of(&[0, 0, 0, 20, 60]);
        second = departure + draw.one_of(&[0, 10, 29, 30, 31, 50, 100, 120, 600]);
        let stop = if draw.below(12) == 0 { draw.below(n) as u32 } else { ports.stop[k] };
        Call { sequence: sequences[k], stop, arrival, departure, dist: dists[k] }
    });
    let mut calls: Vec<Call> = calls.collect();
    if draw.below(40) == 0 {
        calls.clear();
    }
    let shape = (draw.below(5) != 0).then(|| {
        let id = format!("s{}", case.shapes.len());
        case.shapes.push(Shape { id, points: shape(draw, &ports.at) });
        case.shapes.len() as u32 - 1
    });
    let service = draw.one_of(&["daily", "never"]).into();
    Trip { id, feed: "f".into(), service, shape, frequency: draw.below(12) == 0, calls }
}

/// What the sailing is called, and the id of its trip.
const KEYS: [(&str, &str); 16] = [
    ("t1", "t1"),
    ("t1", "t1"),
    ("t1", "t1"),
    ("t1", "t1"),
    ("t1@a@b", "t1@a"),
    ("t1@20240101", "t1"),
    ("k.other", "t1"),
    ("idfm:A:VehicleJourney::77:LOC", "t1"),
    ("IDFM:A:ServiceJourney:77:LOC", "t1"),
    ("x:ServiceJourney:abcdefgh:LOC", "z:abcdefgh"),
    ("x:ServiceJourney:abcdef", "z:abcdef"),
    ("R:ServiceJourney:k.C01234", "t2"),
    ("R:ServiceJourney:k.C01234", "t2"),
    ("feed::01234567-89ab-cdef-0123-456789abcdef:LOC", "feed:IDFM:TN:SNCF:01234567-89ab-cdef-0123-456789abcdef"),
    ("@x", "t1"),
    ("unknown", "t1"),
];

/// Trips, and the ids, aliases and lines by which the sailing's is found.
fn sailing(draw: &mut Draw, case: &mut Case, ports: &Ports) {
    let (key, id) = draw.one_of(&KEYS);
    case.trip = key.into();
    if draw.below(8) == 0 {
        return;
    }
    let first = trip(draw, case, ports, id.into());
    case.trips.push(first);
    if draw.below(3) == 0 {
        let second = trip(draw, case, ports, format!("{id}b"));
        case.trips.push(second);
    }
    if key.contains("77") || draw.below(3) == 0 {
        let alias = draw.one_of(&["77", "77", "A:VehicleJourney::77", "nobody"]);
        case.aliases.push((alias.into(), draw.one_of(&[id, id, "nobody"]).into()));
    }
    if key.starts_with("R:") || key == "@x" || draw.below(3) == 0 {
        case.lines.extend((0..case.trips.len() as u32).map(|trip| ("C01234".into(), trip)));
        case.route = Some("IDFM:C01234".into()).filter(|_| draw.coin());
    }
    if key == "k.other" || draw.below(4) == 0 {
        case.trip_keys.push(("k.other".into(), 0));
    }
}

/// The day of a moment, eight digits.
fn date(moment: i64) -> u32 {
    let day = crate::lent::moment(moment.max(0)).expect("a moment").format("%Y%m%d").to_string();
    day.parse().expect("digits")
}

/// Calendars, and services that run, that do not, or that do by exceptions about the day.
fn calendars(draw: &mut Draw, case: &mut Case, ports: &Ports) {
    if draw.below(3) != 0 {
        return;
    }
    let feed = draw.one_of(&["f", "f", "f", "other"]);
    case.calendars.push(feed.into());
    let weekdays = draw.one_of(&[127, 127, 127, 0, 1, 64, 21]);
    let today = date(ports.start + case.offset);
    let (first, last) = draw.one_of(&[(19700101, 20991231), (today, today), (10101, 99991231), (today, 19700101)]);
    if draw.below(8) != 0 {
        case.ranges.push(Range { feed: feed.into(), service: "daily".into(), first, last, weekdays });
    }
    for service in ["daily", "never"] {
        for (removed, rarity) in [(false, 3), (true, 6)] {
            if draw.below(rarity) == 0 {
                let date = if draw.below(4) == 0 { date(ports.start + case.offset - 86_400) } else { today };
                case.exceptions.push(Exception { feed: feed.into(), service: service.into(), date, removed });
            }
        }
    }
    case.exceptions.sort_by_key(|e| (e.feed.clone(), e.service.clone(), e.date, e.removed));
}

/// The updates of a sailing: calls at the trip's rows or at ports, with their times.
fn updates(draw: &mut Draw, case: &mut Case, ports: &Ports) {
    let n = ports.at.len() as u64;
    let mut time = ports.start + draw.one_of(&[0, 0, 0, 60, 61]);
    let rows = if draw.below(30) == 0 { 0 } else { draw.one_of(&[1, 1, 2, 2, 2, 3, 4, 6, 8]).min(n) };
    let keep = draw.one_of(&[1, 1, 1, 5, 20]);
    let timeless = draw.below(25) == 0;
    let from = (n - rows).min(draw.below(n - rows + 2));
    for k in from..from + rows {
        let port = if draw.below(10) == 0 { draw.below(n) } else { k } as usize;
        let row = case.trips.first().and_then(|trip| trip.calls.get(port)).map(|call| call.sequence);
        let sequence = row.filter(|_| draw.below(6) != 0).unwrap_or(draw.below(15) as u32);
        let other = if draw.below(12) == 0 { draw.below(n) as usize } else { port };
        let own = case.stops[ports.stop[other] as usize].id.clone();
        let arrival = time;
        let departure = arrival + draw.one_of(&[0, 0, 1, 30, 60]);
        time = departure + draw.one_of(&[0, 1, 2, 3, 7, 60, 300, 601, 3600]);
        if draw.below(15) == 0 {
            time -= 100;
        }
        let departure = if draw.below(20) == 0 { arrival - draw.one_of(&[1, 50, 200]) } else { departure };
        let keeps = |draw: &mut Draw| !timeless && draw.below(5 * keep) != 0;
        let delay = |draw: &mut Draw| (draw.below(if timeless { 3 } else { 6 }) == 0).then(|| draw.whole(-300, 300));
        case.updates.push(Update {
            sequence,
            stop: name(draw, &own, ports.number[other]),
            arrival: Some(arrival.clamp(0, LAST)).filter(|_| keeps(draw)),
            departure: Some(departure.clamp(0, LAST)).filter(|_| keeps(draw)),
            arrival_delay: delay(draw),
            departure_delay: delay(draw),
        });
    }
    case.updates.sort_by_key(|u| u.sequence);
    case.updates.dedup_by_key(|u| u.sequence);
}

/// The last moment.
const LAST: i64 = 4_102_444_799;

/// The moments of interest of a case: its times, a second to either side, and some between and about.
pub fn clocks(draw: &mut Draw, case: &Case) -> Vec<i64> {
    let mut all = vec![];
    for u in &case.updates {
        for time in [u.arrival, u.departure].into_iter().flatten() {
            let before = draw.one_of(&[2, 3, 4, 5, 7, 8, 9, 10, 20, 29, 30, 31, 60, 115, 120, 700]);
            all.extend([time - 1, time, time + 1, time - before]);
        }
    }
    let (first, last) = (all.iter().min().copied().unwrap_or(0), all.iter().max().copied().unwrap_or(1000));
    for _ in 0..8 {
        all.push(first + draw.below((last - first + 1) as u64) as i64);
    }
    all.retain(|now| (0..=LAST).contains(now));
    all.push(draw.one_of(&[0, LAST]));
    all.sort_unstable();
    all.dedup();
    all
}

/// The same, and moments close together on the way from one time to the next, and before the first.
pub fn sweep(draw: &mut Draw, case: &Case) -> Vec<i64> {
    let mut all = clocks(draw, case);
    let mut times: Vec<i64> = case.updates.iter().flat_map(|u| [u.arrival, u.departure]).flatten().collect();
    times.sort_unstable();
    if let Some(first) = times.first() {
        all.extend((1..8).map(|k| first - k * draw.one_of(&[4, 16])));
    }
    for pair in times.windows(2) {
        all.extend((1..6).map(|k| pair[0] + (pair[1] - pair[0]) * k / 6));
    }
    all.retain(|now| (0..=LAST).contains(now));
    all.sort_unstable();
    all.dedup();
    all
}

pub fn case(draw: &mut Draw) -> Case {
    let mut case = Case { feed: draw.one_of(&["f", "f", "f", "idfm", "f:Q"]).into(), ..Case::default() };
    case.offset = draw.one_of(&[0, 0, 3600, 7200, -50_400, 50_400]);
    case.cancelled = draw.below(40) == 0;
    let n = draw.one_of(&[1, 2, 3, 4, 4, 5, 6, 8, 12]);
    let ports = stops(draw, &mut case, n);
    sailing(draw, &mut case, &ports);
    calendars(draw, &mut case, &ports);
    updates(draw, &mut case, &ports);
    case
}
