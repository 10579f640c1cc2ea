//! The port's side of the estimate: the function of target/staticlib/libexports_estimate.a.
use crate::cases::lay::{Laid, Tables};
use crate::cases::place::{Kind, Place};
use crate::cases::{digits, token, Case};

/// Where an estimate is; include/zebumorn.h says what its numbers are.
#[derive(Clone, Copy)]
#[repr(C)]
pub struct PlaceTold {
    pub fraction: f64,
    pub vertex: u64,
    pub kind: u32,
    pub number: u32,
    pub line: u32,
    pub way: u32,
}

/// What the estimate answers.
#[derive(Clone, Copy)]
#[repr(C)]
pub struct Told {
    pub lat: f64,
    pub lon: f64,
    pub bearing: f64,
    pub stop: u64,
    pub sequence: u32,
    pub status: u32,
    pub bears: u32,
    pub answered: u32,
    pub refusal: u32,
    pub place: PlaceTold,
}

extern "C" {
    fn zebumorn_estimate(
        bytes: *const u8,
        byte_count: usize,
        words: *const u32,
        word_count: usize,
        times: *const i64,
        time_count: usize,
        reals: *const f64,
        real_count: usize,
        dists: *const f32,
        dist_count: usize,
        t: Tables,
    ) -> Told;
}

/// The statuses by their numbers, from 1.
const STATUSES: [&str; 5] = [
    "ESTIMATED_STOPPED_AT",
    "ESTIMATED_INCOMING_AT",
    "ESTIMATED_ON_SHAPE",
    "ESTIMATED_ON_STOP_CHAIN",
    "ESTIMATED_IN_TRANSIT_TO",
];

pub fn estimate(laid: &Laid) -> Told {
    unsafe {
        zebumorn_estimate(
            laid.bytes.as_ptr(),
            laid.bytes.len(),
            laid.words.as_ptr(),
            laid.words.len(),
            laid.times.as_ptr(),
            laid.times.len(),
            laid.reals.as_ptr(),
            laid.reals.len(),
            laid.dists.as_ptr(),
            laid.dists.len(),
            laid.columns,
        )
    }
}

impl Told {
    /// The line that the Board prints of it.
    pub fn line(&self, case: &Case) -> String {
        if self.refusal != 0 {
            return format!("(refused {})", self.refusal);
        }
        if self.answered == 0 {
            return "(none)".into();
        }
        let bearing = if self.bears == 1 { digits(self.bearing) } else { "-".into() };
        let (stop, status) = (token(&case.stops[self.stop as usize].id), STATUSES[self.status as usize - 1]);
        format!("(at {} {stop} {status} {} {} {bearing})", self.sequence, digits(self.lat), digits(self.lon))
    }

    /// The place beside it.
    pub fn place(&self) -> Option<Place> {
        let PlaceTold { fraction, vertex, kind, number, line, way } = self.place;
        let number = number as usize;
        let line = || [Kind::Shape, Kind::Chain, Kind::Straight][line as usize - 1];
        match kind {
            1 => Some(Place::Call(number)),
            2 => Some(Place::Start(number)),
            3 => Some(Place::End(number)),
            4 => Some(Place::Stretch(number, line(), vertex as usize, way == 1, fraction)),
            5 => Some(Place::Last(number, line())),
            _ => None,
        }
    }
}
