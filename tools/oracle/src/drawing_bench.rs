//! Microseconds a leg, port and Rust, on the same trips in one run.
//!
//! A trip has 100 stops, each some metres from a vertex, in order, on a line that goes onward. A leg is from the first stop to the last, and from the first to the middle one; without a shape it is
//! drawn from stop to stop. The port checks all that is lent each time, as the Rust does not.
mod drawing_port;
mod drawn;
mod inputs;
mod rust;
mod standin;
mod timing;

use drawn::lay::Laid;
use drawn::legs::{Asked, World};
use inputs::draw::Draw;
use inputs::lines::Point;
use rust::taken::drawing as rust_drawing;
use std::hint::black_box;
use timing::{head, least, row};

const STOPS: usize = 100;

fn line(d: &mut Draw, n: usize) -> Vec<Point> {
    let mut p = (43.0, 5.0);
    (0..n)
        .map(|_| {
            p = (p.0 + d.between(0.0, 1e-3), p.1 + d.between(-2e-4, 4e-4));
            p
        })
        .collect()
}

fn world(d: &mut Draw, n: usize, shaped: bool) -> World {
    let line = line(d, n);
    let stops = (0..STOPS)
        .map(|k| {
            let p = line[k * (n - 1) / (STOPS - 1)];
            Some((p.0 + d.between(-1e-4, 1e-4), p.1 + d.between(-1e-4, 1e-4)))
        })
        .collect();
    World {
        shapes: vec![line],
        stops,
        rows: (0..STOPS as u32).collect(),
        trips: vec![(shaped.then_some(0), 0, STOPS as u32)],
        keys: vec![("a".to_string(), 0)],
    }
}

fn main() {
    let mut d = Draw::new(74);
    head("microseconds a leg");
    for (n, shaped) in [(100, true), (1000, true), (8192, true), (100, false)] {
        let world = world(&mut d, n, shaped);
        let (epoch, mut laid) = (world.epoch(), Laid::of_world(&world));
        for to in [49, 99] {
            let asked = Asked { trip: "a".to_string(), from: 0, to };
            laid.ask(&asked);
            let want = rust_drawing::leg_geometry(&epoch, "a", 0, to);
            assert!(laid.leg_geometry(0, to, n, n).is(&want), "the two differ");
            let mut port = || {
                black_box(laid.leg_geometry(0, to, n, n).points);
            };
            let mut rust = || {
                black_box(rust_drawing::leg_geometry(&epoch, "a", 0, to).len());
            };
            let times = least([&mut port, &mut rust]);
            let name = if shaped {
                format!("shape of {n} points, stop 0 to {to}")
            } else {
                format!("no shape, stop 0 to {to}")
            };
            row(&name, times);
        }
    }
}
