//! A world as text: a line for each row, its fields after tabs, as crate `test_matching` reads it. A line of a journey or a service is a question.
use super::{Asked, World};
use std::fmt::Write;

/// The rows of the tables.
pub fn tables(w: &World) -> String {
    let mut text = String::new();
    let out = &mut text;
    for t in &w.trips {
        let _ = writeln!(out, "t\t{}\t{}\t0\t0\t{}\t{}\t{}", t.feed, t.service, t.frequency, t.first, t.count);
    }
    for (id, trip) in &w.keys {
        let _ = writeln!(out, "k\t{id}\t{trip}");
    }
    for s in &w.departures {
        let _ = writeln!(out, "c\t1\t0\t{s}\t{s}\t0\t0");
    }
    for (id, trip) in &w.aliases {
        let _ = writeln!(out, "a\t{id}\t{trip}");
    }
    for (token, trip) in &w.lines {
        let _ = writeln!(out, "l\t{token}\t{trip}");
    }
    for feed in &w.feeds {
        let _ = writeln!(out, "f\t{feed}");
    }
    for ((feed, service), r) in &w.ranges {
        let _ = writeln!(out, "r\t{feed}\t{service}\t{}\t{}\t{}", r.first, r.last, r.weekdays);
    }
    for (feed, service, date, removed) in &w.exceptions {
        let _ = writeln!(out, "e\t{feed}\t{service}\t{date}\t{}", *removed as u8);
    }
    text
}

/// The line that asks.
pub fn question(asked: &Asked) -> String {
    match asked {
        Asked::Journey(j) => {
            let (route, routed) = (j.route.as_deref().unwrap_or(""), j.route.is_some() as u8);
            let (departure, departs) = (j.departure.unwrap_or(0), j.departure.is_some() as u8);
            format!("j\t{}\t{route}\t{routed}\t{departure}\t{departs}\t{}\n", j.key, j.offset)
        }
        Asked::Service(s) => format!("v\t{}\t{}\t{}\n", s.feed, s.service, s.date),
    }
}
