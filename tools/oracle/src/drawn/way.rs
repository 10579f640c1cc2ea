//! By which way the Rust draws a leg, what it meets, and the same of a journey.
use crate::drawn::journeys::Way;
use crate::drawn::legs::{Asked, World};
use crate::inputs::lines::{Point, Stop};
use crate::rust::taken::line::project_stops_monotonic;
use std::collections::BTreeMap;

/// How often each was met.
#[derive(Default)]
pub struct Met(pub BTreeMap<&'static str, u64>);

impl Met {
    pub fn note(&mut self, what: &'static str) {
        *self.0.entry(what).or_default() += 1;
    }

    pub fn print(&self) {
        for (what, times) in &self.0 {
            println!("    {times:>9} {what}");
        }
    }
}

pub const OF_LEGS: [&str; 13] = [
    "slice",
    "whole: both ends meet one vertex",
    "whole: an end has no position",
    "whole: a trip of no rows",
    "single point",
    "stop to stop",
    "nothing: no such trip",
    "nothing: a trip of no rows and no points",
    "offset brought down",
    "offsets put in order",
    "stop without a position passed over",
    "stop dropped, exactly 1e-9 from the last",
    "stop kept, the float above 1e-9 from the last",
];

pub const OF_JOURNEYS: [&str; 8] = [
    "transit",
    "walk by its points",
    "walk of one point, from its start to its end",
    "walk of no point, from its start to its end",
    "end missing",
    "point repeated",
    "zero of the other sign repeated",
    "nothing at all",
];

/// What the stops drawn meet.
fn of_stops(met: &mut Met, stops: &[Stop]) {
    let mut last: Option<Point> = None;
    for stop in stops {
        let Some(p) = *stop else {
            met.note("stop without a position passed over");
            continue;
        };
        let gaps = last.map(|q| ((q.0 - p.0).abs(), (q.1 - p.1).abs()));
        let kept = gaps.is_none_or(|g| g.0 > 1e-9 || g.1 > 1e-9);
        if let Some(g) = gaps {
            if !kept && (g.0 == 1e-9 || g.1 == 1e-9) {
                met.note("stop dropped, exactly 1e-9 from the last");
            }
            let above = 1e-9f64.next_up();
            if kept && g.0.max(g.1) == above {
                met.note("stop kept, the float above 1e-9 from the last");
            }
        }
        if kept {
            last = Some(p);
        }
    }
}

pub fn of_leg(met: &mut Met, w: &World, asked: &Asked) {
    let Some((shape, first, count)) = w.trip(&asked.trip) else {
        return met.note("nothing: no such trip");
    };
    let line: &[Point] = shape.map_or(&[], |k| &w.shapes[k as usize]);
    if count == 0 {
        return met.note(if line.is_empty() {
            "nothing: a trip of no rows and no points"
        } else if line.len() == 1 {
            "single point"
        } else {
            "whole: a trip of no rows"
        });
    }
    let (a, b) = (asked.from.min(count - 1), asked.to.min(count - 1));
    if (a, b) != (asked.from, asked.to) {
        met.note("offset brought down");
    }
    if b < a {
        met.note("offsets put in order");
    }
    let (a, b) = (a.min(b) as usize, a.max(b) as usize);
    let rows = &w.rows[first as usize..(first + count) as usize];
    let stops: Vec<Stop> = rows[..=b].iter().map(|&s| w.stops[s as usize]).collect();
    match line.len() {
        0 => {
            met.note("stop to stop");
            of_stops(met, &stops[a..=b]);
        }
        1 => met.note("single point"),
        _ => {
            let vertices = project_stops_monotonic(line, &stops);
            met.note(match (vertices[a], vertices[b]) {
                (Some(i), Some(j)) if i < j => "slice",
                (Some(_), Some(_)) => "whole: both ends meet one vertex",
                _ => "whole: an end has no position",
            });
        }
    }
}

pub fn of_journey(met: &mut Met, ways: &[Way], drawn: &[[f64; 2]]) {
    let mut last: Option<Point> = None;
    for way in ways {
        let ends = way.walk && way.points.len() < 2;
        met.note(match (way.walk, way.points.len()) {
            (false, _) => "transit",
            (true, 0) => "walk of no point, from its start to its end",
            (true, 1) => "walk of one point, from its start to its end",
            _ => "walk by its points",
        });
        let points: Vec<Stop> =
            if ends { vec![way.start, way.end] } else { way.points.iter().map(|&p| Some(p)).collect() };
        for stop in points {
            let Some(p) = stop else {
                met.note("end missing");
                continue;
            };
            if last == Some(p) {
                met.note("point repeated");
                let q = last.expect("a point");
                if q.0.to_bits() != p.0.to_bits() || q.1.to_bits() != p.1.to_bits() {
                    met.note("zero of the other sign repeated");
                }
            } else {
                last = Some(p);
            }
        }
    }
    if drawn.is_empty() {
        met.note("nothing at all");
    }
}
