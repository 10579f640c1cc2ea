//! Bytes a second of each pass over a column, beside a plain read of the same memory in the same run.
//!
//! The tables are as large as document 01 lets them be: 65,535 stops, 1,000,000 stop times; and 5,000,000 points. No row is at fault, so each pass
//! reads all of its columns.
mod timing;

use std::hint::black_box;

const STOPS: usize = 65_535;
const CALLS: usize = 1_000_000;
const POINTS: usize = 5_000_000;

extern "C" {
    fn zebumorn_reaches(s: *const u32, n: usize, flags: *const u8, m: usize, all: bool, bound: u64) -> bool;
    fn zebumorn_ends_past(
        first: *const u32,
        n: usize,
        count: *const u32,
        m: usize,
        flags: *const u8,
        l: usize,
        all: bool,
        bound: u64,
    ) -> bool;
    fn zebumorn_off_globe(
        lat: *const f64,
        n: usize,
        lon: *const f64,
        m: usize,
        flags: *const u8,
        l: usize,
        all: bool,
    ) -> bool;
    fn zebumorn_not_finite(s: *const f32, n: usize, flags: *const u8, m: usize, all: bool) -> bool;
    fn zebumorn_bad_ids(
        bytes: *const u8,
        b: usize,
        starts: *const u32,
        n: usize,
        lens: *const u32,
        m: usize,
        flags: *const u8,
        l: usize,
        all: bool,
        empty: bool,
    ) -> bool;
    fn zebumorn_ids_unsorted(bytes: *const u8, b: usize, words: *const u32, n: usize, rows: u32) -> bool;
}

/// Nanoseconds of one call.
fn timed(pass: &dyn Fn() -> u64) -> f64 {
    let mut pass = || {
        black_box(pass());
    };
    let [time] = timing::least([&mut pass]);
    time * 1e3
}

/// Reads that many bytes, a word at a time.
fn plain(memory: &[u64], bytes: usize) -> u64 {
    memory[..bytes / 8].iter().fold(0, |sum, &word| sum.wrapping_add(word))
}

/// Prints a line of the table; says whether the pass found no fault.
fn line(name: &str, rows: usize, bytes: usize, memory: &[u64], pass: &dyn Fn() -> bool) -> bool {
    let fault = pass();
    let ours = timed(&|| pass() as u64);
    let read = timed(&|| plain(black_box(memory), bytes));
    let rate = |ns: f64| bytes as f64 / ns;
    println!("{name:<34} {rows:>9} {:>8.3} {:>8.2} {:>8.2}", ours / 1e6, rate(ours), rate(read));
    !fault
}

fn main() {
    let memory = black_box(vec![1u64; POINTS * 2]);
    let flags = black_box(vec![1u8; CALLS]);
    let floats = black_box(vec![45.5f64; POINTS]);
    let distances = black_box(vec![12.5f32; CALLS]);
    let numbers = black_box((0..CALLS as u32).map(|k| k % STOPS as u32).collect::<Vec<_>>());
    let ones = black_box(vec![1u32; CALLS]);
    // ids of 16 bytes that ascend, with the first 12 alike
    let ids: Vec<u8> = (0..STOPS).flat_map(|k| format!("FERRY:STOP: {:04x}", k).into_bytes()).collect();
    let mut spans: Vec<u32> = (0..STOPS as u32).map(|k| k * 16).collect();
    spans.extend(vec![16u32; STOPS]);
    let none = [0u8; 0];
    println!("{:<34} {:>9} {:>8} {:>8} {:>8}", "", "rows", "ms", "GB/s", "read");
    let clear = unsafe {
        [
            line("stops on the globe, flagged", STOPS, STOPS * 17, &memory, &|| {
                zebumorn_off_globe(floats.as_ptr(), STOPS, floats.as_ptr(), STOPS, flags.as_ptr(), STOPS, false)
            }),
            line("points on the globe", POINTS, POINTS * 16, &memory, &|| {
                zebumorn_off_globe(floats.as_ptr(), POINTS, floats.as_ptr(), POINTS, none.as_ptr(), 0, true)
            }),
            line("stop times' stops below the stops", CALLS, CALLS * 4, &memory, &|| {
                zebumorn_reaches(numbers.as_ptr(), CALLS, none.as_ptr(), 0, true, STOPS as u64)
            }),
            line("distances finite, flagged", CALLS, CALLS * 5, &memory, &|| {
                zebumorn_not_finite(distances.as_ptr(), CALLS, flags.as_ptr(), CALLS, false)
            }),
            line("row ranges within a table", STOPS, STOPS * 8, &memory, &|| {
                zebumorn_ends_past(numbers.as_ptr(), STOPS, ones.as_ptr(), STOPS, none.as_ptr(), 0, true, CALLS as u64)
            }),
            line("ids of bytes 32 to 126", STOPS, STOPS * 24, &memory, &|| {
                zebumorn_bad_ids(
                    ids.as_ptr(),
                    ids.len(),
                    spans.as_ptr(),
                    STOPS,
                    spans[STOPS..].as_ptr(),
                    STOPS,
                    none.as_ptr(),
                    0,
                    true,
                    false,
                )
            }),
            line("ids ascending", STOPS, STOPS * 24, &memory, &|| {
                zebumorn_ids_unsorted(ids.as_ptr(), ids.len(), spans.as_ptr(), spans.len(), STOPS as u32)
            }),
        ]
    };
    std::process::exit(clear.contains(&false) as i32);
}
