//! Document 01's case of the Board.
mod cases;

use cases::document_01;
use zebumorn::{Path, Place, Refusal, Status, Way};

/// `(at 2 f:b ESTIMATED_IN_TRANSIT_TO 0000000000000000 3fe0000000000000 4056800000000000)`, f:b being stop 1.
#[test]
fn its_line() -> Result<(), Refusal> {
    let estimate = document_01().build().at(250)?.expect("an estimate");
    assert_eq!((estimate.stop_sequence, estimate.stop, estimate.status), (2, 1, Status::InTransitTo));
    assert_eq!(estimate.lat.to_bits(), 0x0000000000000000);
    assert_eq!(estimate.lon.to_bits(), 0x3fe0000000000000);
    assert_eq!(estimate.bearing.map(f64::to_bits), Some(0x4056800000000000));
    Ok(())
}

#[test]
fn its_place() -> Result<(), Refusal> {
    let estimate = document_01().build().at(250)?.expect("an estimate");
    let halfway = Place::Stretch { leg: 2, path: Path::Straight, way: Way::With, vertex: 0, fraction: 0.5 };
    assert_eq!(estimate.place, halfway);
    Ok(())
}

#[test]
fn at_its_first_call_she_has_no_bearing() -> Result<(), Refusal> {
    let estimate = document_01().build().at(100)?.expect("an estimate");
    assert_eq!((estimate.lat, estimate.lon, estimate.bearing), (0.0, 0.0, None));
    assert_eq!((estimate.stop_sequence, estimate.stop, estimate.status), (1, 0, Status::StoppedAt));
    assert_eq!(estimate.place, Place::Call(1));
    Ok(())
}

/// One layout, asked with clocks that go forth and back.
#[test]
fn no_clock_asked_before_makes_a_difference() {
    let mut voyage = document_01().build();
    for clock in [250, 100, 400, -1, 250, 399, 4_102_444_800, 101, 250] {
        assert_eq!(voyage.at(clock), document_01().build().at(clock), "at {clock}");
    }
}
