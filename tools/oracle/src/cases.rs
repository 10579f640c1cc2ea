//! A case of the Board: its tables and its sailing, and the text of it in the case language (docs/CASES.md).
#![allow(dead_code)]
use std::fmt::Write;

pub mod answers;
pub mod asked;
pub mod harm;
pub mod lay;
pub mod limits;
pub mod make;
pub mod meets;
pub mod place;
pub mod plan;
pub mod queries;
pub mod read;
pub mod refusal;
pub mod told;

#[derive(Clone, Default)]
pub struct Update {
    pub sequence: u32,
    pub stop: Option<String>,
    pub arrival: Option<i64>,
    pub departure: Option<i64>,
    pub arrival_delay: Option<i32>,
    pub departure_delay: Option<i32>,
}

#[derive(Clone)]
pub struct Stop {
    pub id: String,
    pub raw: String,
    pub at: Option<(f64, f64)>,
}

#[derive(Clone)]
pub struct Call {
    pub sequence: u32,
    pub stop: u32,
    pub arrival: u32,
    pub departure: u32,
    pub dist: Option<f32>,
}

#[derive(Clone)]
pub struct Trip {
    pub id: String,
    pub feed: String,
    pub service: String,
    pub shape: Option<u32>,
    pub frequency: bool,
    pub calls: Vec<Call>,
}

#[derive(Clone)]
pub struct Range {
    pub feed: String,
    pub service: String,
    pub first: u32,
    pub last: u32,
    pub weekdays: u8,
}

#[derive(Clone)]
pub struct Exception {
    pub feed: String,
    pub service: String,
    pub date: u32,
    pub removed: bool,
}

#[derive(Clone)]
pub struct Shape {
    pub id: String,
    pub points: Vec<(f64, f64)>,
}

/// Ids have a character for each byte.
#[derive(Clone, Default)]
pub struct Case {
    pub feed: String,
    pub trip: String,
    pub now: i64,
    pub offset: i64,
    pub cancelled: bool,
    pub route: Option<String>,
    pub updates: Vec<Update>,
    pub stops: Vec<Stop>,
    /// ids of stops beside their own
    pub stop_keys: Vec<(String, u32)>,
    pub trips: Vec<Trip>,
    /// ids of trips beside their own
    pub trip_keys: Vec<(String, u32)>,
    pub shapes: Vec<Shape>,
    pub aliases: Vec<(String, String)>,
    pub lines: Vec<(String, u32)>,
    pub calendars: Vec<String>,
    pub ranges: Vec<Range>,
    pub exceptions: Vec<Exception>,
    /// for the probe alone
    pub queries: Vec<String>,
}

/// An id as a token: '%', a space and the parentheses by their digits.
pub fn token(id: &str) -> String {
    if id.is_empty() {
        return "%".into();
    }
    id.bytes().fold(String::new(), |mut text, byte| {
        match byte {
            b'%' | b' ' | b'(' | b')' => write!(text, "%{byte:02x}").unwrap(),
            _ => text.push(byte as char),
        }
        text
    })
}

pub fn digits(x: f64) -> String {
    if x.is_nan() {
        return "7ff8000000000000".into();
    }
    format!("{:016x}", x.to_bits())
}

fn bracket<T: std::fmt::Display>(name: &str, value: Option<T>) -> String {
    value.map(|value| format!(" ({name} {value})")).unwrap_or_default()
}

impl Case {
    fn sailing(&self, text: &mut String) {
        let (feed, trip) = (token(&self.feed), token(&self.trip));
        write!(text, "(feed {feed})\n(trip {trip})\n(now {})\n", self.now).unwrap();
        if self.offset != 0 {
            writeln!(text, "(offset {})", self.offset).unwrap();
        }
        if self.cancelled {
            text.push_str("(cancelled)\n");
        }
        if let Some(route) = &self.route {
            writeln!(text, "(route {})", token(route)).unwrap();
        }
        for u in &self.updates {
            let stop = u.stop.as_ref().map(|id| format!(" {}", token(id))).unwrap_or_default();
            let times = bracket("arr", u.arrival) + &bracket("dep", u.departure);
            let delays = bracket("arr-delay", u.arrival_delay) + &bracket("dep-delay", u.departure_delay);
            writeln!(text, "(update {}{stop}{times}{delays})", u.sequence).unwrap();
        }
    }

    fn stop_lines(&self, text: &mut String) {
        let own = self.stops.iter().map(|stop| {
            let at = stop.at.map(|(lat, lon)| format!(" {} {}", digits(lat), digits(lon))).unwrap_or_default();
            let raw = Some(&stop.raw).filter(|raw| !raw.is_empty()).map(|raw| token(raw));
            (stop.id.clone(), format!("(stop {}{at}{})", token(&stop.id), bracket("raw", raw)))
        });
        let keys = self.stop_keys.iter().map(|(id, k)| (id.clone(), format!("(stop-key {} {k})", token(id))));
        ascending(own.chain(keys).collect(), text);
    }

    fn trip_lines(&self, text: &mut String) {
        let own = self.trips.iter().map(|trip| {
            let frequency = if trip.frequency { " (frequency)" } else { "" };
            let ids = [&trip.id, &trip.feed, &trip.service].map(|id| token(id)).join(" ");
            let mut lines = format!("(static {ids}{}{frequency})", bracket("shape", trip.shape));
            for call in &trip.calls {
                let dist = call.dist.map(|dist| format!("{:08x}", dist.to_bits()));
                let Call { sequence, stop, arrival, departure, .. } = call;
                write!(lines, "\n(call {sequence} {stop} {arrival} {departure}{})", bracket("dist", dist)).unwrap();
            }
            (trip.id.clone(), lines)
        });
        let keys = self.trip_keys.iter().map(|(id, k)| (id.clone(), format!("(static-key {} {k})", token(id))));
        ascending(own.chain(keys).collect(), text);
    }

    fn other_lines(&self, text: &mut String) {
        for shape in &self.shapes {
            writeln!(text, "(shape {})", token(&shape.id)).unwrap();
            for &(lat, lon) in &shape.points {
                writeln!(text, "(point {} {})", digits(lat), digits(lon)).unwrap();
            }
        }
        for (id, trip) in &self.aliases {
            writeln!(text, "(alias {} {})", token(id), token(trip)).unwrap();
        }
        for (id, trip) in &self.lines {
            writeln!(text, "(line {} {trip})", token(id)).unwrap();
        }
        for feed in &self.calendars {
            writeln!(text, "(calendar {})", token(feed)).unwrap();
        }
        for r in &self.ranges {
            let days: String = (0..7).map(|day| if r.weekdays >> day & 1 == 1 { '1' } else { '0' }).collect();
            writeln!(text, "(range {} {} {} {} {days})", token(&r.feed), token(&r.service), r.first, r.last).unwrap();
        }
        for e in &self.exceptions {
            let kind = if e.removed { "removed" } else { "added" };
            writeln!(text, "(exception {} {} {} {kind})", token(&e.feed), token(&e.service), e.date).unwrap();
        }
        for query in &self.queries {
            writeln!(text, "{query}").unwrap();
        }
    }

    /// The case's lines.
    pub fn text(&self) -> String {
        let mut text = String::new();
        self.sailing(&mut text);
        self.stop_lines(&mut text);
        self.trip_lines(&mut text);
        self.other_lines(&mut text);
        text
    }
}

/// Lines by their ids, which a table has in order.
fn ascending(mut lines: Vec<(String, String)>, text: &mut String) {
    lines.sort();
    for (_, line) in lines {
        writeln!(text, "{line}").unwrap();
    }
}
