//! Compares dates with chrono's, number by number: validity, day and weekday. Ends with status 1 where any answer differs.
use chrono::{Datelike, NaiveDate};
use std::ops::RangeInclusive;
use std::time::Instant;

extern "C" {
    fn zebumorn_read_date(n: u32) -> u32;
    fn zebumorn_day_of(n: u32) -> i64;
    fn zebumorn_weekday_of(n: u32) -> u32;
}

/// Every number of eight digits or fewer in a range of years, whatever its month and day.
const RANGES: [RangeInclusive<u32>; 4] =
    [0..=59_999, 15_990_000..=24_019_999, 99_900_000..=100_019_999, u32::MAX - 19_999..=u32::MAX];
const SHOWN: u64 = 5;

/// The day from 1970 and the weekday from Monday, or nothing for what is no date.
fn by_chrono(n: u32) -> Option<(i64, u32)> {
    let (year, month, day) = ((n / 10_000) as i32, n / 100 % 100, n % 100);
    if !(1..=9_999).contains(&year) {
        return None;
    }
    let date = NaiveDate::from_ymd_opt(year, month, day)?;
    let epoch = NaiveDate::from_ymd_opt(1970, 1, 1)?;
    Some((date.signed_duration_since(epoch).num_days(), date.weekday().num_days_from_monday()))
}

fn by_port(n: u32) -> Option<(i64, u32)> {
    unsafe { (zebumorn_read_date(n) == 0).then(|| (zebumorn_day_of(n), zebumorn_weekday_of(n))) }
}

fn main() {
    let start = Instant::now();
    let mut differ = 0;
    for range in RANGES {
        let (first, last, mut dates) = (*range.start(), *range.end(), 0);
        for n in range {
            let (port, chrono) = (by_port(n), by_chrono(n));
            dates += chrono.is_some() as u64;
            if port != chrono {
                differ += 1;
                if differ <= SHOWN {
                    println!("{n:08}: port: {port:?}, chrono: {chrono:?}");
                }
            }
        }
        println!("{first:08} to {last:08}: {} numbers, {dates} of them dates", last as u64 - first as u64 + 1);
    }
    println!("{differ} differ in all; {:.1} s", start.elapsed().as_secs_f64());
    std::process::exit((differ != 0) as i32);
}
