//! The port's side of trip matching on a case's tables: the function of target/staticlib/libexports_timetable.a.
use crate::cases::lay::{column, Laid, Span, Tables};

/// The columns of a journey: its key, its route, its first departure and the offset.
#[repr(C)]
struct Journey([Span; 8]);

extern "C" {
    fn zebumorn_match_trip(
        bytes: *const u8,
        byte_count: usize,
        words: *const u32,
        word_count: usize,
        times: *const i64,
        time_count: usize,
        reals: *const f64,
        real_count: usize,
        dists: *const f32,
        dist_count: usize,
        t: Tables,
        j: Journey,
        row: &mut usize,
    ) -> u32;
}

/// The sailing's trip, which departs by its first update.
pub fn match_trip(laid: &Laid) -> Result<Option<usize>, u32> {
    let sailing = |k: usize| laid.columns.0[column::SAILING + k];
    let first = |k: usize| Span { n: 1, ..laid.columns.0[column::UPDATES + k] };
    let journey = [sailing(2), sailing(3), sailing(4), sailing(5), sailing(6), first(6), first(7), sailing(9)];
    let mut row = usize::MAX;
    let refusal = unsafe {
        zebumorn_match_trip(
            laid.bytes.as_ptr(),
            laid.bytes.len(),
            laid.words.as_ptr(),
            laid.words.len(),
            laid.times.as_ptr(),
            laid.times.len(),
            laid.reals.as_ptr(),
            laid.reals.len(),
            laid.dists.as_ptr(),
            laid.dists.len(),
            laid.columns,
            Journey(journey),
            &mut row,
        )
    };
    match refusal {
        0 => Ok((row != usize::MAX).then_some(row)),
        _ => Err(refusal),
    }
}
