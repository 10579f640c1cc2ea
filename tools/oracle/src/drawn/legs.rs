//! Small worlds of trips with what is asked of them: shapes of every number of points, stops with and without a position, and stops that lie at and about 1e-9 apart.
use crate::drawn::records::{PackedStopTime, StaticEpoch, StopRecord, TripRecord};
use crate::inputs::draw::{stepped, Draw};
use crate::inputs::lines::{self, Point, Stop};

/// Its shape, its first row and how many it has.
pub type Trip = (Option<u32>, u32, u32);

pub struct World {
    pub shapes: Vec<Vec<Point>>,
    pub stops: Vec<Stop>,
    pub rows: Vec<u32>,
    pub trips: Vec<Trip>,
    /// trip ids in their order, each with its trip
    pub keys: Vec<(String, u32)>,
}

/// A trip id, and two offsets of its rows.
pub struct Asked {
    pub trip: String,
    pub from: u32,
    pub to: u32,
}

/// On the globe: what is no position there is refused.
fn on_globe(p: Point) -> Point {
    let within = |x: f64, most: f64| if x.is_nan() { 0.0 } else { x.clamp(-most, most) };
    (within(p.0, 90.0), within(p.1, 180.0))
}

/// Zero of either sign, or a few times 1e-9, or a float beside that.
fn nano(d: &mut Draw) -> f64 {
    let x = 1e-9 * d.whole(-3, 3) as f64;
    match d.below(4) {
        0 => d.signed(0.0),
        1 => stepped(x, d.whole(-1, 1)),
        _ => x,
    }
}

/// Mostly short; a line of one point and of none are as likely as longer ones.
fn shape(d: &mut Draw, i: u64) -> Vec<Point> {
    let line = match d.below(8) {
        0 => Vec::new(),
        1 => vec![(d.between(-80.0, 80.0), d.between(-170.0, 170.0))],
        2 | 3 => {
            let n = 2 + d.below(12) as usize;
            lines::onward(d, n)
        }
        _ => lines::line(d, i),
    };
    line.into_iter().map(on_globe).collect()
}

fn stop(d: &mut Draw, line: &[Point], near: bool) -> Stop {
    if near {
        return (d.below(8) != 0).then(|| (nano(d), nano(d)));
    }
    lines::stop(d, line).map(on_globe)
}

/// The i-th world.
pub fn world(d: &mut Draw, i: u64) -> World {
    let shapes: Vec<Vec<Point>> = (0..1 + d.below(3)).map(|k| shape(d, i + k)).collect();
    let near = d.below(4) == 0;
    let mut stops = Vec::new();
    for _ in 0..1 + d.below(10) {
        let k = d.below(shapes.len() as u64) as usize;
        stops.push(stop(d, &shapes[k], near));
    }
    let rows: Vec<u32> = (0..d.below(14)).map(|_| d.below(stops.len() as u64) as u32).collect();
    let trips: Vec<Trip> = (0..1 + d.below(3))
        .map(|_| {
            let first = d.below(rows.len() as u64 + 1);
            let shape = (d.below(4) != 0).then(|| d.below(shapes.len() as u64) as u32);
            (shape, first as u32, d.below(rows.len() as u64 - first + 1) as u32)
        })
        .collect();
    let keys = ["a", "b", "c", "d"].iter().map(|id| (id.to_string(), d.below(trips.len() as u64) as u32)).collect();
    World { shapes, stops, rows, trips, keys }
}

/// An offset: of the trip, a little past it, or far past it.
fn offset(d: &mut Draw, count: u32) -> u32 {
    match d.below(12) {
        0 => u32::MAX,
        _ => d.below(count as u64 + 2) as u32,
    }
}

pub fn asked(d: &mut Draw, w: &World) -> Asked {
    let trip = if d.below(24) == 0 { "e".to_string() } else { d.one_of(&["a", "b", "c", "d"]).to_string() };
    let count = w.trip(&trip).map_or(3, |t| t.2);
    Asked { from: offset(d, count), to: offset(d, count), trip }
}

impl World {
    pub fn trip(&self, id: &str) -> Option<Trip> {
        self.keys.iter().find(|k| k.0 == id).map(|k| self.trips[k.1 as usize])
    }

    /// As the Rust is handed it.
    pub fn epoch(&self) -> StaticEpoch {
        StaticEpoch {
            trip_id_to_idx: self.keys.iter().cloned().collect(),
            trips: (self.trips.iter())
                .map(|t| TripRecord { shape_id: t.0.map(|s| s.to_string()), stop_time_start: t.1, stop_time_len: t.2 })
                .collect(),
            stop_times: self.rows.iter().map(|&stop_idx| PackedStopTime { stop_idx }).collect(),
            stops: self.stops.iter().map(|s| StopRecord { lat: s.map(|p| p.0), lon: s.map(|p| p.1) }).collect(),
            shapes: self.shapes.iter().enumerate().map(|(k, s)| (k.to_string(), s.clone())).collect(),
        }
    }
}
