//! The C interface as it is: the structs of `include/zebumorn.h`, field for field, and the estimate.
//!
//! [`estimate`] is safe to call with any numbers: a column that runs past its pool is refused, not read.
#![allow(missing_docs)]

/// The five pools, in which all columns lie.
#[derive(Clone, Debug, Default)]
pub struct Pools {
    pub bytes: Vec<u8>,
    pub words: Vec<u32>,
    pub times: Vec<i64>,
    pub reals: Vec<f64>,
    pub dists: Vec<f32>,
}

/// A column: `n` cells from `at` on, of its pool.
#[repr(C)]
#[derive(Clone, Copy, Debug, Default)]
pub struct Span {
    pub at: u32,
    pub n: u32,
}

/// A column of ids: where each begins in the bytes, and how long it is.
#[repr(C)]
#[derive(Clone, Copy, Debug, Default)]
pub struct Ids {
    pub starts: Span,
    pub lens: Span,
}

#[repr(C)]
#[derive(Clone, Copy, Debug, Default)]
pub struct Stops {
    pub own: Ids,
    pub raw: Ids,
    pub lat: Span,
    pub lon: Span,
    pub positioned: Span,
}

#[repr(C)]
#[derive(Clone, Copy, Debug, Default)]
pub struct IdRows {
    pub id: Ids,
    pub row: Span,
}

#[repr(C)]
#[derive(Clone, Copy, Debug, Default)]
pub struct Trips {
    pub feed: Ids,
    pub service: Ids,
    pub shape: Span,
    pub shaped: Span,
    pub frequency: Span,
    pub first: Span,
    pub count: Span,
}

#[repr(C)]
#[derive(Clone, Copy, Debug, Default)]
pub struct StopTimes {
    pub sequence: Span,
    pub stop: Span,
    pub arrival: Span,
    pub departure: Span,
    pub dist: Span,
    pub measured: Span,
}

#[repr(C)]
#[derive(Clone, Copy, Debug, Default)]
pub struct Shapes {
    pub id: Ids,
    pub first: Span,
    pub count: Span,
}

#[repr(C)]
#[derive(Clone, Copy, Debug, Default)]
pub struct Points {
    pub lat: Span,
    pub lon: Span,
}

#[repr(C)]
#[derive(Clone, Copy, Debug, Default)]
pub struct Aliases {
    pub id: Ids,
    pub trip: Ids,
}

#[repr(C)]
#[derive(Clone, Copy, Debug, Default)]
pub struct Lines {
    pub token: Ids,
    pub trip: Span,
}

#[repr(C)]
#[derive(Clone, Copy, Debug, Default)]
pub struct Calendars {
    pub feed: Ids,
}

#[repr(C)]
#[derive(Clone, Copy, Debug, Default)]
pub struct Ranges {
    pub feed: Ids,
    pub service: Ids,
    pub first: Span,
    pub last: Span,
    pub weekdays: Span,
}

#[repr(C)]
#[derive(Clone, Copy, Debug, Default)]
pub struct Exceptions {
    pub feed: Ids,
    pub service: Ids,
    pub date: Span,
    pub removed: Span,
}

#[repr(C)]
#[derive(Clone, Copy, Debug, Default)]
pub struct Updates {
    pub sequence: Span,
    pub stop: Ids,
    pub named: Span,
    pub arrival: Span,
    pub arrives: Span,
    pub departure: Span,
    pub departs: Span,
    pub arrdelay: Span,
    pub arrdelayed: Span,
    pub depdelay: Span,
    pub depdelayed: Span,
}

#[repr(C)]
#[derive(Clone, Copy, Debug, Default)]
pub struct Sailing {
    pub feed: Ids,
    pub key: Ids,
    pub route: Ids,
    pub routed: Span,
    pub cancelled: Span,
    pub now: Span,
    pub offset: Span,
}

/// Everything that an estimate is lent.
#[repr(C)]
#[derive(Clone, Copy, Debug, Default)]
pub struct Tables {
    pub stops: Stops,
    pub stopkeys: IdRows,
    pub trips: Trips,
    pub tripkeys: IdRows,
    pub times: StopTimes,
    pub shapes: Shapes,
    pub points: Points,
    pub aliases: Aliases,
    pub lines: Lines,
    pub calendars: Calendars,
    pub ranges: Ranges,
    pub exceptions: Exceptions,
    pub updates: Updates,
    pub sailing: Sailing,
}

#[repr(C)]
#[derive(Clone, Copy, Debug, PartialEq)]
pub struct Place {
    pub fraction: f64,
    pub vertex: u64,
    pub kind: u32,
    pub number: u32,
    pub line: u32,
    pub way: u32,
}

/// A refusal, silence or an estimate, as numbers.
#[repr(C)]
#[derive(Clone, Copy, Debug, PartialEq)]
pub struct Answer {
    pub lat: f64,
    pub lon: f64,
    pub bearing: f64,
    pub stop: u64,
    pub sequence: u32,
    pub status: u32,
    pub bears: u32,
    pub answered: u32,
    pub refusal: u32,
    pub place: Place,
}

extern "C" {
    fn zebumorn_estimate(
        bytes: *const u8,
        byte_count: usize,
        words: *const u32,
        word_count: usize,
        times: *const i64,
        time_count: usize,
        reals: *const f64,
        real_count: usize,
        dists: *const f32,
        dist_count: usize,
        tables: Tables,
    ) -> Answer;
}

/// Where the sailing is at its clock.
#[allow(unsafe_code)]
pub fn estimate(pools: &Pools, tables: Tables) -> Answer {
    let Pools { bytes, words, times, reals, dists } = pools;
    // SAFETY: each pointer and count are those of a vector that is borrowed throughout the call. The operation answers
    // for all tables, reads nothing past the counts, writes nothing, and keeps no pointer.
    unsafe {
        zebumorn_estimate(
            bytes.as_ptr(),
            bytes.len(),
            words.as_ptr(),
            words.len(),
            times.as_ptr(),
            times.len(),
            reals.as_ptr(),
            reals.len(),
            dists.as_ptr(),
            dists.len(),
            tables,
        )
    }
}

#[cfg(test)]
mod tests {
    use super::{Answer, Place, Tables};
    use std::mem::size_of;

    /// As a C compiler lays them out.
    #[test]
    fn sizes_are_those_of_the_header() {
        assert_eq!((size_of::<Tables>(), size_of::<Place>(), size_of::<Answer>()), (78 * 8, 32, 88));
    }
}
