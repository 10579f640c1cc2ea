//! Journeys: legs of few points, many of them the same, with zeros of both signs.
use crate::drawn::records::{Leg, TransitLeg, WalkLeg};
use crate::inputs::draw::Draw;
use crate::inputs::lines::{Point, Stop};

pub struct Way {
    pub walk: bool,
    pub points: Vec<Point>,
    pub start: Stop,
    pub end: Stop,
}

fn point(d: &mut Draw) -> Point {
    let near = [0.0, -0.0, 1.0, 1.0, -1.0, 5e-324];
    match d.below(6) {
        0 => (d.between(-90.0, 90.0), d.between(-180.0, 180.0)),
        _ => (d.one_of(&near), d.one_of(&near)),
    }
}

fn end(d: &mut Draw) -> Stop {
    (d.below(3) != 0).then(|| point(d))
}

fn way(d: &mut Draw) -> Way {
    let points = (0..d.one_of(&[0, 0, 1, 1, 2, 2, 3, 7])).map(|_| point(d)).collect();
    Way { walk: d.coin(), points, start: end(d), end: end(d) }
}

pub fn journey(d: &mut Draw) -> Vec<Way> {
    (0..d.below(7)).map(|_| way(d)).collect()
}

/// As the Rust is handed it.
pub fn legs(ways: &[Way]) -> Vec<Leg> {
    (ways.iter())
        .map(|w| match w.walk {
            false => Leg::Transit(TransitLeg { geometry: w.points.clone() }),
            true => Leg::Walk(WalkLeg {
                geometry: w.points.clone(),
                from_lat: w.start.map(|p| p.0),
                from_lon: w.start.map(|p| p.1),
                to_lat: w.end.map(|p| p.0),
                to_lon: w.end.map(|p| p.1),
            }),
        })
        .collect()
}
