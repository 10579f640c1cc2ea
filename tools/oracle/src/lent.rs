//! What the cut of matching calls in place of its time zone and of a newer chrono.
use chrono::{DateTime, FixedOffset, NaiveDateTime, Utc};
use std::cell::Cell;

thread_local! {
    static OFFSET: Cell<i32> = const { Cell::new(0) };
}

/// Lends an offset to what is asked next.
pub fn lend(offset: i32) {
    OFFSET.with(|lent| lent.set(offset));
}

pub fn offset() -> FixedOffset {
    FixedOffset::east_opt(OFFSET.with(Cell::get)).expect("an offset of less than a day")
}

/// `DateTime::from_timestamp(seconds, 0)`.
pub fn moment(seconds: i64) -> Option<DateTime<Utc>> {
    NaiveDateTime::from_timestamp_opt(seconds, 0).map(|naive| DateTime::from_utc(naive, Utc))
}
