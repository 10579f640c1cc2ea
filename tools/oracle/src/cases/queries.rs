//! Queries of the probe, drawn for a case. Their answers are in answers.rs.
use super::{digits, token, Case};
use crate::draw::{stepped, Draw};
use crate::routing::geometry::shape_cumulative_distances;

fn single(x: f32) -> String {
    if x.is_nan() {
        "7fc00000".into()
    } else {
        format!("{:08x}", x.to_bits())
    }
}

const SPECIAL: [f64; 16] = [
    0.0,
    -0.0,
    1.0,
    -1.0,
    0.5,
    90.0,
    -90.0,
    180.0,
    -180.0,
    f64::INFINITY,
    f64::NEG_INFINITY,
    f64::NAN,
    f64::MIN_POSITIVE,
    5e-324,
    f64::MAX,
    f32::MAX as f64,
];

fn real(draw: &mut Draw) -> f64 {
    let near = draw.one_of(&SPECIAL);
    match draw.below(8) {
        0 => near,
        1 => stepped(near, draw.whole(-3, 3)),
        2 => f64::from_bits(draw.bits()),
        3 => draw.unit(),
        4 => draw.between(-4.0, 4.0),
        _ => draw.between(-200.0, 200.0),
    }
}

fn latitude(draw: &mut Draw) -> f64 {
    match draw.below(12) {
        0 => stepped(draw.one_of(&[90.0, -90.0]), draw.whole(-1, 1)),
        1 => real(draw),
        _ => draw.between(-90.0, 90.0),
    }
}

fn longitude(draw: &mut Draw) -> f64 {
    match draw.below(12) {
        0 => stepped(draw.one_of(&[180.0, -180.0]), draw.whole(-1, 1)),
        1 => real(draw),
        _ => draw.between(-180.0, 180.0),
    }
}

fn measure(draw: &mut Draw, name: &str) -> String {
    let numbers = [latitude(draw), longitude(draw), latitude(draw), longitude(draw)];
    format!("({name} {})", numbers.map(digits).join(" "))
}

fn snap(draw: &mut Draw) -> String {
    let unit = draw.one_of(&[1.0, 1000.0, 0.3048, 1609.344]);
    let ratio = match draw.below(4) {
        0 => real(draw),
        1 => stepped(unit * draw.one_of(&[0.75, 1.25]), draw.whole(-2, 2)),
        _ => unit * draw.between(0.7, 1.3),
    };
    format!("(snap {})", digits(ratio))
}

/// Eight digits or about, mostly of a day.
fn number_of_day(draw: &mut Draw) -> u32 {
    let year = draw.one_of(&[0, 1, 4, 1600, 1900, 1970, 2000, 2024, 2025, 2099, 2100, 9999, 10000]);
    let (month, day) = (draw.whole(1, 12) as u32, draw.one_of(&[1, 15, 28, 29, 30, 31]));
    match draw.below(10) {
        0 => draw.bits() as u32,
        1 => year * 10_000 + draw.one_of(&[0, 1, 12, 13]) * 100 + draw.one_of(&[0, 1, 31, 32]),
        _ => year * 10_000 + month * 100 + day,
    }
}

/// An id that is too long, or none.
fn odd(draw: &mut Draw) -> String {
    if draw.coin() {
        "l".repeat(97)
    } else {
        String::new()
    }
}

fn runs(draw: &mut Draw, case: &Case) -> String {
    let mut feed = draw.one_of(&["f", "f", "f", "f", "other", "g"]).to_string();
    let mut service = draw.one_of(&["daily", "daily", "daily", "daily", "never", "never", "none"]).to_string();
    if draw.below(20) == 0 {
        feed = odd(draw);
    }
    if draw.below(20) == 0 {
        service = odd(draw);
    }
    let known: Vec<u32> =
        case.ranges.iter().flat_map(|r| [r.first, r.last]).chain(case.exceptions.iter().map(|e| e.date)).collect();
    let number = if known.is_empty() || draw.coin() { number_of_day(draw) } else { draw.one_of(&known) };
    format!("(runs {} {} {number})", token(&feed), token(&service))
}

/// A number below a count, seldom at it or past it.
fn row(draw: &mut Draw, count: usize) -> usize {
    match draw.below(12) {
        0 => count + draw.one_of(&[0, 0, 1, 70_000, u32::MAX as usize - 70_000]),
        _ => draw.below(count.max(1) as u64) as usize,
    }
}

fn dist(draw: &mut Draw, total: f64) -> f32 {
    match draw.below(10) {
        0 if draw.below(4) == 0 => draw.one_of(&[f32::NAN, f32::INFINITY]),
        0 => draw.one_of(&[-1.0, -0.0, f32::MAX, -f32::MAX]),
        1 => total as f32,
        2 => 0.0,
        _ => draw.between(-0.1 * total, 1.2 * total) as f32,
    }
}

fn along(draw: &mut Draw, case: &Case) -> String {
    let n = row(draw, case.shapes.len());
    let points = case.shapes.get(n).map(|shape| &shape.points);
    let total = points.and_then(|points| shape_cumulative_distances(points).last().copied()).unwrap_or(1000.0);
    let d0 = dist(draw, total);
    let d1 = if draw.below(6) == 0 { d0 + draw.one_of(&[0.49, 0.5, 0.51]) } else { dist(draw, total) };
    let frac = if draw.below(4) == 0 { real(draw) } else { draw.unit() };
    format!("(along {n} {} {} {})", single(d0), single(d1), digits(frac))
}

fn leg(draw: &mut Draw, case: &Case) -> String {
    let mut ids: Vec<String> = case.trips.iter().map(|trip| trip.id.clone()).collect();
    ids.extend(case.trip_keys.iter().map(|key| key.0.clone()));
    let id = match draw.below(12) {
        0 => "nobody".to_string(),
        1 => odd(draw),
        _ if ids.is_empty() => "nobody".to_string(),
        _ => ids[draw.below(ids.len() as u64) as usize].clone(),
    };
    let [from, to] = [0, 1].map(|_| if draw.below(20) == 0 { u32::MAX } else { draw.below(14) as u32 });
    format!("(leg {} {from} {to})", token(&id))
}

/// The names of all queries.
pub const NAMES: [&str; 19] = [
    "sin",
    "cos",
    "atan",
    "asin",
    "root",
    "atan2",
    "narrow",
    "haversine",
    "bearing",
    "snap",
    "date",
    "runs",
    "match",
    "project",
    "calibrate",
    "backfill",
    "along",
    "leg",
    "place",
];

/// A query of this name.
pub fn drawn(draw: &mut Draw, case: &Case, name: &str) -> String {
    match name {
        "haversine" | "bearing" => measure(draw, name),
        "snap" => snap(draw),
        "date" => format!("(date {})", number_of_day(draw)),
        "runs" => runs(draw, case),
        "match" | "place" => format!("({name})"),
        "project" | "calibrate" | "backfill" => format!("({name} {})", row(draw, case.trips.len())),
        "along" => along(draw, case),
        "leg" => leg(draw, case),
        "atan2" => format!("(atan2 {} {})", digits(real(draw)), digits(real(draw))),
        _ => format!("({name} {})", digits(real(draw))),
    }
}
