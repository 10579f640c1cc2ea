//! The port's side of matching: the functions of target/staticlib/libexports_timetable.a.
use crate::worlds::lay::{column, Laid, Span};

const JOURNEY_COLUMNS: usize = column::SERVICE - column::JOURNEY;
const SERVICE_COLUMNS: usize = column::ALL - column::SERVICE;

/// The structs of the same names in crates/tables/src/lent.rt, each its columns in their order.
#[repr(C)]
struct Tables([Span; column::JOURNEY]);
#[repr(C)]
struct Journey([Span; JOURNEY_COLUMNS]);
#[repr(C)]
struct Service([Span; SERVICE_COLUMNS]);

extern "C" {
    fn zebumorn_match_trip(
        bytes: *const u8,
        byte_count: usize,
        words: *const u32,
        word_count: usize,
        times: *const i64,
        time_count: usize,
        reals: *const f64,
        real_count: usize,
        dists: *const f32,
        dist_count: usize,
        t: Tables,
        j: Journey,
        row: &mut usize,
    ) -> u32;
    fn zebumorn_service_runs(
        bytes: *const u8,
        byte_count: usize,
        words: *const u32,
        word_count: usize,
        times: *const i64,
        time_count: usize,
        reals: *const f64,
        real_count: usize,
        dists: *const f32,
        dist_count: usize,
        t: Tables,
        s: Service,
        runs: &mut usize,
    ) -> u32;
}

/// What an operation answers: its answer, or a refusal's number.
pub type Answer<T> = Result<T, u32>;

fn columns<const N: usize>(laid: &Laid, first: usize) -> [Span; N] {
    laid.columns[first..first + N].try_into().expect("as many columns as the table has")
}

/// The trip that what was laid out last asks of.
pub fn match_trip(laid: &Laid) -> Answer<Option<u32>> {
    let mut row = usize::MAX;
    let refusal = unsafe {
        zebumorn_match_trip(
            laid.bytes.as_ptr(),
            laid.bytes.len(),
            laid.words.as_ptr(),
            laid.words.len(),
            laid.times.as_ptr(),
            laid.times.len(),
            laid.reals.as_ptr(),
            laid.reals.len(),
            laid.dists.as_ptr(),
            laid.dists.len(),
            Tables(columns(laid, 0)),
            Journey(columns(laid, column::JOURNEY)),
            &mut row,
        )
    };
    match refusal {
        0 => Ok((row != usize::MAX).then_some(row as u32)),
        _ => Err(refusal),
    }
}

/// Whether the service runs that was asked of last.
pub fn service_runs(laid: &Laid) -> Answer<bool> {
    let mut runs = usize::MAX;
    let refusal = unsafe {
        zebumorn_service_runs(
            laid.bytes.as_ptr(),
            laid.bytes.len(),
            laid.words.as_ptr(),
            laid.words.len(),
            laid.times.as_ptr(),
            laid.times.len(),
            laid.reals.as_ptr(),
            laid.reals.len(),
            laid.dists.as_ptr(),
            laid.dists.len(),
            Tables(columns(laid, 0)),
            Service(columns(laid, column::SERVICE)),
            &mut runs,
        )
    };
    match refusal {
        0 => Ok(runs != 0),
        _ => Err(refusal),
    }
}
