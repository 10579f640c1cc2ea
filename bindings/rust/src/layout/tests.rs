//! Each field is read back from the column that is its own.
use super::*;
use crate::rows::{Position, Stop, Trip, Update};

/// Columns read back.
struct Read(raw::Pools);

impl Read {
    fn ids(&self, ids: raw::Ids) -> Vec<&str> {
        let text = |(start, len): (&u32, &u32)| &self.0.bytes[*start as usize..][..*len as usize];
        let column = cells(&self.0.words, ids.starts).iter().zip(cells(&self.0.words, ids.lens));
        column.map(|place| std::str::from_utf8(text(place)).expect("a text")).collect()
    }
}

fn cells<T>(pool: &[T], span: raw::Span) -> &[T] {
    &pool[span.at as usize..][..span.n as usize]
}

#[test]
fn each_field_of_an_update_has_its_column() {
    let mut given = Builder::new();
    given.update(Update {
        sequence: 7,
        stop: Some("f:a"),
        arrival: Some(1),
        departure: Some(2),
        arrival_delay: Some(3),
        departure_delay: Some(4),
    });
    given.update(Update { sequence: 8, ..Update::default() });
    let (pools, raw::Tables { updates: u, .. }) = lay_out(&given);
    let read = Read(pools);
    assert_eq!(cells(&read.0.words, u.sequence), [7, 8]);
    assert_eq!(read.ids(u.stop), ["f:a", ""]);
    let times = [(u.arrival, 1), (u.departure, 2), (u.arrdelay, 3), (u.depdelay, 4)];
    for (column, time) in times {
        assert_eq!(cells(&read.0.times, column), [time, 0]);
    }
    for column in [u.named, u.arrives, u.departs, u.arrdelayed, u.depdelayed] {
        assert_eq!(cells(&read.0.bytes, column), [1, 0]);
    }
}

#[test]
fn each_field_of_the_schedule_has_its_column() {
    let mut given = Builder::new();
    given.stop(Stop { id: "f:a", raw_id: "a", position: Some(Position { lat: 1.0, lon: 2.0 }) });
    given.trip(Trip { id: "t0", feed: "g", service: "r", ..Trip::default() });
    given.trip(Trip { id: "t1", feed: "f", service: "s", shape: Some("w"), frequency: true });
    given.stop_time(StopTime { trip: "t1", stop: "f:a", sequence: 3, arrival: 4, departure: 5, dist: Some(6.0) });
    given.shape("w", &[Position { lat: 7.0, lon: 8.0 }]).alias("x", "t1");
    let (pools, tables) = lay_out(&given);
    let read = Read(pools);
    let raw::Tables { stops, trips, times, points, aliases, .. } = tables;

    assert_eq!((read.ids(stops.own), read.ids(stops.raw)), (vec!["f:a"], vec!["a"]));
    assert_eq!((cells(&read.0.reals, stops.lat), cells(&read.0.reals, stops.lon)), (&[1.0][..], &[2.0][..]));
    assert_eq!((cells(&read.0.reals, points.lat), cells(&read.0.reals, points.lon)), (&[7.0][..], &[8.0][..]));
    assert_eq!((read.ids(trips.feed), read.ids(trips.service)), (vec!["g", "f"], vec!["r", "s"]));
    assert_eq!((cells(&read.0.words, trips.first), cells(&read.0.words, trips.count)), (&[0, 0][..], &[0, 1][..]));
    for column in [trips.shaped, trips.frequency] {
        assert_eq!(cells(&read.0.bytes, column), [0, 1]);
    }
    for (column, word) in [(times.stop, 0), (times.sequence, 3), (times.arrival, 4), (times.departure, 5)] {
        assert_eq!(cells(&read.0.words, column), [word]);
    }
    assert_eq!(cells(&read.0.dists, times.dist), [6.0]);
    assert_eq!((read.ids(aliases.id), read.ids(aliases.trip)), (vec!["x"], vec!["t1"]));
}

#[test]
fn each_field_of_the_sailing_has_its_column() {
    let mut given = Builder::new();
    given.sailing(Sailing { feed: "f", key: "k", route: Some("r"), cancelled: false, offset: 9 });
    let (pools, raw::Tables { sailing, .. }) = lay_out(&given);
    let read = Read(pools);
    assert_eq!([sailing.feed, sailing.key, sailing.route].map(|ids| read.ids(ids)), [["f"], ["k"], ["r"]]);
    assert_eq!([sailing.routed, sailing.cancelled].map(|flag| cells(&read.0.bytes, flag)), [[1], [0]]);
    assert_eq!([sailing.now, sailing.offset].map(|time| cells(&read.0.times, time)), [[0], [9]]);
}
