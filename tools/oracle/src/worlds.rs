//! Worlds for matching and for services: the tables that are lent, and what is asked of them.
#![allow(dead_code)]
pub mod lay;
pub mod make;
pub mod rows;
pub mod smaller;
pub mod texts;

use std::collections::{BTreeMap, BTreeSet};

/// Trips in their own order. `first` is the first of `count` stop times.
#[derive(Clone)]
pub struct Trip {
    pub feed: String,
    pub service: String,
    pub frequency: u8,
    pub first: u32,
    pub count: u32,
}

/// Dates are yyyymmdd; weekdays the low seven bits, Monday lowest.
#[derive(Clone)]
pub struct Range {
    pub first: u32,
    pub last: u32,
    pub weekdays: u8,
}

/// Tables in the order in which they are lent: the order of strings is that of their bytes, and added (false) comes before removed.
#[derive(Clone, Default)]
pub struct World {
    pub trips: Vec<Trip>,
    pub departures: Vec<u32>,
    pub keys: BTreeMap<String, u32>,
    pub aliases: BTreeMap<String, String>,
    pub lines: BTreeSet<(String, u32)>,
    pub feeds: BTreeSet<String>,
    pub ranges: BTreeMap<(String, String), Range>,
    pub exceptions: BTreeSet<(String, String, u32, bool)>,
}

/// Asked of matching.
#[derive(Clone)]
pub struct Journey {
    pub key: String,
    pub route: Option<String>,
    pub departure: Option<i64>,
    pub offset: i32,
}

/// Asked of the calendars.
#[derive(Clone)]
pub struct Service {
    pub feed: String,
    pub service: String,
    pub date: u32,
}

#[derive(Clone)]
pub enum Asked {
    Journey(Journey),
    Service(Service),
}
