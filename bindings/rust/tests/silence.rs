//! Where silence falls: she is cancelled, has no updates, or has no call and her best stop cannot be placed.
mod cases;

use cases::document_01;
use zebumorn::{Builder, Sailing, Status, Stop, Update};

#[test]
fn a_cancelled_trip() {
    let mut builder = document_01();
    builder.sailing(Sailing { feed: "f", key: "t", cancelled: true, ..Sailing::default() });
    assert_eq!(builder.build().at(250), Ok(None));
}

#[test]
fn no_updates() {
    let mut builder = Builder::new();
    builder.sailing(Sailing { feed: "f", key: "t", ..Sailing::default() });
    assert_eq!(builder.build().at(250), Ok(None));
}

/// No update has a time, so she is put at the stop that scores best, if that has a position.
#[test]
fn no_call_and_nowhere_to_put_her() {
    let timeless = Update { sequence: 1, stop: Some("f:a"), ..Update::default() };
    let mut builder = Builder::new();
    builder.sailing(Sailing { feed: "f", key: "t", ..Sailing::default() });
    builder.stop(Stop { id: "f:a", ..Stop::default() }).update(timeless);
    assert_eq!(builder.build().at(250), Ok(None));

    let mut placed = Builder::new();
    placed.sailing(Sailing { feed: "f", key: "t", ..Sailing::default() });
    placed.stop(cases::stop("f:a", cases::at(1.0, 2.0))).update(timeless);
    let pinned = placed.build().at(250).expect("nothing to refuse").expect("a pin");
    assert_eq!((pinned.lat, pinned.lon, pinned.status), (1.0, 2.0, Status::InTransitTo));
}
