//! A fault in document 01's case, for each refusal of the estimate.
mod cases;

use cases::{at, call, document_01, stop};
use zebumorn::{raw, Builder, Exception, Position, Range, Refusal, Sailing, StopTime, Trip, Update};

const TRIP: Trip = Trip { id: "f:t", feed: "f", service: "s", shape: None, frequency: false };
const STOP_TIME: StopTime =
    StopTime { trip: "f:t", stop: "f:a", sequence: 1, arrival: 100, departure: 100, dist: Some(0.0) };
const SAILING: Sailing = Sailing { feed: "f", key: "t", route: None, cancelled: false, offset: 0 };
const RANGE: Range = Range { feed: "f", service: "s", first: 20240101, last: 20241231, weekdays: [true; 7] };
const EXCEPTION: Exception = Exception { feed: "f", service: "s", date: 20240229, removed: true };

/// What the case is refused with, with more rows given.
fn refused(fault: impl FnOnce(&mut Builder<'static>)) -> Option<Refusal> {
    let mut builder = document_01();
    fault(&mut builder);
    builder.build().at(250).err()
}

#[test]
fn what_is_not_at_fault_is_not_refused() {
    let clean = refused(|b| {
        b.trip(TRIP).stop_time(STOP_TIME).calendar("f").range(RANGE).exception(EXCEPTION);
        b.alias("other", "no-such-trip").line("C1", "f:t").stop_key("a", "f:a").trip_key("t", "f:t");
    });
    assert_eq!(clean, None);
}

#[test]
fn refusal_1() {
    assert_eq!(Builder::new().build().at(250), Err(Refusal::Unequal));
}

#[test]
fn refusal_2() {
    let long = Box::leak("x".repeat(97).into_boxed_str());
    assert_eq!(refused(|b| _ = b.alias(&long[..96], "t")), None);
    assert_eq!(refused(|b| _ = b.alias(long, "t")), Some(Refusal::OverBound));

    let points = Box::leak(vec![at(0.0, 0.0); 8_193].into_boxed_slice());
    assert_eq!(refused(|b| _ = b.shape("w", &points[..8_192])), None);
    assert_eq!(refused(|b| _ = b.shape("w", points)), Some(Refusal::OverBound));

    let updates = |last| move |b: &mut Builder<'static>| (3..=last).for_each(|k| _ = b.update(call(k, "f:b", 500)));
    assert_eq!(refused(updates(256)), None);
    assert_eq!(refused(updates(257)), Some(Refusal::OverBound));
}

#[test]
fn refusal_3() {
    static OFF: [Position; 1] = [at(0.0, f64::NAN)];
    assert_eq!(refused(|b| _ = b.stop(stop("f:c", at(91.0, 0.0)))), Some(Refusal::OffGlobe));
    assert_eq!(refused(|b| _ = b.shape("w", &OFF)), Some(Refusal::OffGlobe));
}

#[test]
fn refusal_4() {
    assert_eq!(refused(|b| _ = b.stop(stop("f:a", at(0.0, 0.0)))), Some(Refusal::Unsorted));
    assert_eq!(refused(|b| _ = b.update(call(2, "f:b", 400))), Some(Refusal::Unsorted));
    assert_eq!(refused(|b| _ = b.range(RANGE).range(RANGE)), Some(Refusal::Unsorted));
}

#[test]
fn refusal_5() {
    let nowhere = StopTime { stop: "f:z", ..STOP_TIME };
    assert_eq!(refused(|b| _ = b.trip(TRIP).stop_time(nowhere)), Some(Refusal::Outside));
    assert_eq!(refused(|b| _ = b.stop_time(STOP_TIME)), Some(Refusal::Outside));
    assert_eq!(refused(|b| _ = b.trip(Trip { shape: Some("w"), ..TRIP })), Some(Refusal::Outside));
    assert_eq!(refused(|b| _ = b.line("C1", "f:t")), Some(Refusal::Outside));
    assert_eq!(refused(|b| _ = b.stop_key("z", "f:z")), Some(Refusal::Outside));
}

#[test]
fn refusal_6() {
    let clock = |now| document_01().build().at(now).err();
    assert_eq!((clock(-1), clock(0)), (Some(Refusal::Time), None));
    assert_eq!((clock(4_102_444_799), clock(4_102_444_800)), (None, Some(Refusal::Time)));

    let offset = |offset| refused(|b| _ = b.sailing(Sailing { offset, ..SAILING }));
    assert_eq!((offset(50_400), offset(50_401)), (None, Some(Refusal::Time)));

    let second = |arrival| refused(|b| _ = b.trip(TRIP).stop_time(StopTime { arrival, ..STOP_TIME }));
    assert_eq!((second(604_799), second(604_800)), (None, Some(Refusal::Time)));
}

#[test]
fn refusal_7() {
    assert_eq!(refused(|b| _ = b.calendar("")), Some(Refusal::Id));
    assert_eq!(refused(|b| _ = b.calendar("caf\u{e9}")), Some(Refusal::Id));
    assert_eq!(refused(|b| _ = b.sailing(Sailing { key: "\t", ..SAILING })), Some(Refusal::Id));
    let unnamed = Update { stop: None, ..call(3, "", 500) };
    assert_eq!(refused(|b| _ = b.update(unnamed)), None);
}

#[test]
fn refusal_8() {
    let far = |dist| refused(|b| _ = b.trip(TRIP).stop_time(StopTime { dist, ..STOP_TIME }));
    assert_eq!(far(Some(f32::INFINITY)), Some(Refusal::NotFinite));
    assert_eq!(far(Some(f32::NAN)), Some(Refusal::NotFinite));
    assert_eq!(far(None), None);
}

#[test]
fn refusal_10() {
    assert_eq!(refused(|b| _ = b.range(Range { last: 20990229, ..RANGE })), Some(Refusal::Date));
    assert_eq!(refused(|b| _ = b.exception(Exception { date: 0, ..EXCEPTION })), Some(Refusal::Date));
}

#[test]
fn the_first_that_applies() {
    let both = refused(|b| _ = b.stop(stop("f:c", at(91.0, 0.0))).range(Range { last: 20990229, ..RANGE }));
    assert_eq!(both, Some(Refusal::OffGlobe));
    assert_eq!(Refusal::Date.to_string(), "refused with 10: a date that is not one");
}

/// Document 01's case as crates/astern has it laid out by hand, for faults that no builder makes.
fn by_hand() -> (raw::Pools, raw::Tables) {
    let span = |at, n| raw::Span { at, n };
    let ids = |starts, lens, n| raw::Ids { starts: span(starts, n), lens: span(lens, n) };
    let (set, unset, moments) = (span(8, 2), span(10, 2), span(0, 2));
    let pools = raw::Pools {
        bytes: b"ftf:af:b\x01\x01\0\0".to_vec(),
        words: vec![2, 5, 3, 3, 1, 2, 0, 1, 0, 0],
        times: vec![100, 400, 250, 0],
        reals: vec![0.0, 0.0, 1.0],
        dists: vec![],
    };
    let stops = raw::Stops { own: ids(0, 2, 2), raw: ids(8, 8, 2), lat: span(0, 2), lon: span(1, 2), positioned: set };
    let updates = raw::Updates {
        sequence: span(4, 2),
        stop: ids(0, 2, 2),
        named: set,
        arrival: moments,
        arrives: set,
        departure: moments,
        departs: set,
        arrdelay: moments,
        arrdelayed: unset,
        depdelay: moments,
        depdelayed: unset,
    };
    let sailing = raw::Sailing {
        feed: ids(6, 4, 1),
        key: ids(4, 4, 1),
        route: ids(8, 8, 1),
        routed: span(10, 1),
        cancelled: span(10, 1),
        now: span(2, 1),
        offset: span(3, 1),
    };
    let stopkeys = raw::IdRows { id: ids(0, 2, 2), row: span(6, 2) };
    (pools, raw::Tables { stops, stopkeys, updates, sailing, ..raw::Tables::default() })
}

#[test]
fn raw_answer() {
    let (pools, tables) = by_hand();
    let answer = raw::estimate(&pools, tables);
    assert_eq!((answer.refusal, answer.answered, answer.lat, answer.lon), (0, 1, 0.0, 0.5));
}

#[test]
fn raw_refusal_1() {
    let (pools, mut tables) = by_hand();
    tables.stops.lon.n = 1;
    assert_eq!(raw::estimate(&pools, tables).refusal, 1);
    let (mut pools, tables) = by_hand();
    pools.reals.pop();
    assert_eq!(raw::estimate(&pools, tables).refusal, 1);
}

#[test]
fn raw_refusal_4() {
    let (mut pools, tables) = by_hand();
    pools.words.swap(4, 5);
    assert_eq!(raw::estimate(&pools, tables).refusal, 4);
}
