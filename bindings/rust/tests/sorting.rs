//! Rows given in any order come to the same answers.
mod cases;

use cases::{at, built, stop, Row};
use zebumorn::{Exception, Place, Position, Range, Refusal, Sailing, Status, StopTime, Trip, Update};

static BAY: [Position; 5] = [at(43.0, 5.0), at(42.99, 5.05), at(43.0, 5.1), at(43.02, 5.16), at(43.1, 5.2)];
static COAST: [Position; 2] = [at(10.0, 10.0), at(10.0, 11.0)];
const NOON: i64 = 1_709_294_400; // Friday 1 March 2024, 12:00 UTC

/// A sailing that no id names, and two trips of her line that leave at her time, of which the second runs that day. Its
/// shape leads over its three stops.
fn rows() -> Vec<Row> {
    let call = |trip, stop, sequence, second| {
        Row::StopTime(StopTime { trip, stop, sequence, arrival: second, departure: second, dist: None })
    };
    let update = |sequence, stop, moment| {
        Row::Update(Update {
            sequence,
            stop: Some(stop),
            arrival: Some(moment),
            departure: Some(moment + 60),
            ..Update::default()
        })
    };
    let daily = [true; 7];
    let not_on_friday = [true, true, true, true, false, true, true];
    vec![
        Row::Sailing(Sailing {
            feed: "f",
            key: "X:VehicleJourney::77:LOC",
            route: Some("C01234"),
            ..Sailing::default()
        }),
        Row::Stop(stop("f:a", at(43.0, 5.0))),
        Row::Stop(stop("f:b", at(43.0, 5.1))),
        Row::Stop(stop("f:c", at(43.1, 5.2))),
        Row::StopKey("quay c", "f:c"),
        Row::Trip(Trip { id: "f:t1", feed: "f", service: "summer", shape: Some("coast"), frequency: false }),
        Row::Trip(Trip { id: "f:t2", feed: "f", service: "winter", shape: Some("bay"), frequency: false }),
        Row::TripKey("t2", "f:t2"),
        call("f:t1", "f:a", 1, 43_200),
        call("f:t1", "f:c", 2, 50_000),
        call("f:t2", "f:a", 1, 43_200),
        call("f:t2", "f:b", 2, 44_000),
        call("f:t2", "f:c", 3, 45_000),
        Row::Shape("coast", &COAST),
        Row::Shape("bay", &BAY),
        Row::Alias("one", "f:t1"),
        Row::Alias("another", "f:t2"),
        Row::Line("C01234", "f:t1"),
        Row::Line("C01234", "f:t2"),
        Row::Line("C0", "f:t1"),
        Row::Calendar("g"),
        Row::Calendar("f"),
        Row::Range(Range { feed: "f", service: "winter", first: 20231201, last: 20240229, weekdays: daily }),
        Row::Range(Range { feed: "f", service: "summer", first: 20240101, last: 20241231, weekdays: not_on_friday }),
        Row::Exception(Exception { feed: "f", service: "winter", date: 20240301, removed: false }),
        Row::Exception(Exception { feed: "f", service: "summer", date: 20240229, removed: true }),
        Row::Exception(Exception { feed: "f", service: "summer", date: 20240229, removed: false }),
        update(1, "f:a", NOON),
        update(2, "f:b", NOON + 800),
        update(3, "quay c", NOON + 1_800),
    ]
}

/// A line for each clock; stops are named by their ids, as their rows hang on the order.
fn answers(rows: &[Row]) -> Vec<String> {
    let stops: Vec<_> =
        rows.iter().filter_map(|row| if let Row::Stop(stop) = row { Some(stop.id) } else { None }).collect();
    let mut voyage = built(rows).build();
    let answer = |clock| {
        let estimate = voyage.at(clock).expect("nothing to refuse").expect("no silence");
        format!("{} {:?}", stops[estimate.stop], (estimate.lat, estimate.lon, estimate.status, estimate.place))
    };
    (NOON - 100..NOON + 2_000).step_by(50).map(answer).collect()
}

/// Numbers of no pattern, the same on each run.
struct Dice(u64);

impl Dice {
    fn below(&mut self, n: usize) -> usize {
        self.0 = self.0.wrapping_mul(6_364_136_223_846_793_005).wrapping_add(1_442_695_040_888_963_407);
        (self.0 >> 33) as usize % n
    }
}

/// Shuffled, but for the stop times, which keep their order among themselves.
fn shuffled(rows: &[Row], dice: &mut Dice) -> Vec<Row> {
    let mut rows = rows.to_vec();
    for k in (1..rows.len()).rev() {
        rows.swap(k, dice.below(k + 1));
    }
    let is_call = |row: &&Row| matches!(row, Row::StopTime(_));
    let mut calls: Vec<_> = rows.iter().filter(is_call).copied().collect();
    calls.sort_by_key(|row| if let Row::StopTime(call) = row { call.sequence } else { 0 });
    let mut calls = calls.into_iter();
    rows.iter().map(|row| if is_call(&row) { calls.next().expect("as many as there were") } else { *row }).collect()
}

#[test]
fn shuffled_rows_give_the_same_answers() {
    let straight = answers(&rows());
    let mut dice = Dice(8);
    for _ in 0..200 {
        assert_eq!(answers(&shuffled(&rows(), &mut dice)), straight);
    }
}

/// The calendars, the line and the shape's row are all read as they were meant.
#[test]
fn the_trip_of_that_day_is_found() -> Result<(), Refusal> {
    let estimate = built(&rows()).build().at(NOON + 1_200)?.expect("an estimate");
    assert_eq!(estimate.status, Status::OnShape);
    assert!(matches!(estimate.place, Place::Stretch { leg: 3, vertex: 2 | 3, .. }));
    Ok(())
}
