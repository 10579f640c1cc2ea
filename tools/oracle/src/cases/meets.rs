//! What a case and its clock meet, counted so that a run shows that it reached every path and every bound.
use super::place::{Kind, Place};
use super::plan::{lengths, Path, Plan};
use super::Update;
use crate::gtfs::pack::PackedStopTime;
use crate::gtfs::siri_trip_map::{fuzzy_unique_match, resolve_by_route_and_time, siri_ref_lookup_keys};
use crate::met::Met;
use crate::routing::geometry::trip_shape_dist_affine;
use crate::rt::estimate::{extract_stop_digits, haversine_m, nearest_idx, CallPoint};

/// Which of document 01's ways finds the static trip.
fn way(plan: &Plan) -> &'static str {
    let (ids, aliases) = (&plan.epoch.trip_id_to_idx, &plan.epoch.siri_trip_aliases);
    let known = |key: &String| aliases.lookup(key).is_some_and(|trip| ids.contains_key(trip));
    if plan.trip().is_none() {
        "trip: none"
    } else if ids.contains_key(plan.base) {
        "trip: exact id"
    } else if siri_ref_lookup_keys(plan.base).iter().any(known) {
        "trip: alias"
    } else if resolve_by_route_and_time(plan.epoch, plan.base, plan.hint())
        .is_some_and(|t| t.id == plan.trip().unwrap().id)
    {
        "trip: route and time"
    } else if fuzzy_unique_match(plan.epoch, plan.base).is_some_and(|t| t.id == plan.trip().unwrap().id) {
        "trip: tail"
    } else {
        "trip: built id"
    }
}

const WAYS: [&str; 6] =
    ["trip: none", "trip: exact id", "trip: alias", "trip: built id", "trip: route and time", "trip: tail"];

fn note_trip(met: &mut Met, plan: &Plan) {
    let way = way(plan);
    for name in WAYS {
        met.note(name == way, name);
    }
    let case = plan.case;
    let exact = plan.epoch.trip_id_to_idx.contains_key(plan.base);
    met.note(plan.trip().is_some_and(|trip| !trip.frequency_windows.is_empty()), "trip: one with frequency windows");
    met.note(
        !exact && case.lines.iter().any(|line| case.trips[line.1 as usize].frequency),
        "trip: one with frequency windows on the line",
    );
    met.note(plan.trip().is_some_and(|trip| trip.stop_time_len == 0), "trip: one without rows");
    met.note(case.trip_keys.iter().any(|key| key.0 == plan.base), "trip: exact id of another id's row");
    met.note(!exact && !case.exceptions.is_empty() && way == "trip: route and time", "trip: by time, with exceptions");
    let departures: Vec<i64> = case.updates.iter().filter_map(|u| u.departure.or(u.arrival)).collect();
    let later = departures.first() > departures.iter().min();
    met.note(later && way == "trip: route and time", "trip: by time, of an update that is not the first");
    met.note(!exact && case.calendars.is_empty() && way == "trip: route and time", "trip: by time, without a calendar");
}

/// What may stand before a stop's digits in its own id.
fn alternates(feed: &str) -> [(String, &'static str); 10] {
    [
        (format!("{feed}:"), "stop: FEED:digits"),
        (format!("{feed}:IDFM:"), "stop: FEED:IDFM:digits"),
        (format!("{feed}:IDFM:monomodalStopPlace:"), "stop: FEED:IDFM:monomodalStopPlace:digits"),
        (format!("{feed}:IDFM:StopPoint:"), "stop: FEED:IDFM:StopPoint:digits"),
        ("IDFM:".into(), "stop: IDFM:digits"),
        ("IDFM:monomodalStopPlace:".into(), "stop: IDFM:monomodalStopPlace:digits"),
        ("StopPoint:".into(), "stop: StopPoint:digits"),
        ("".into(), "stop: digits"),
        ("idfm:IDFM:monomodalStopPlace:".into(), "stop: idfm:IDFM:monomodalStopPlace:digits"),
        ("idfm:IDFM:".into(), "stop: idfm:IDFM:digits"),
    ]
}

/// How the stop of each update is found.
fn note_stops(met: &mut Met, plan: &Plan) {
    let (case, stops) = (plan.case, &plan.epoch.stop_id_to_idx);
    for u in &case.updates {
        let timed = u.arrival.is_some() || u.departure.is_some();
        let call = plan.calls.iter().find(|call| call.seq == u.sequence);
        let prefixed = u.stop.as_ref().map(|id| format!("{}:{id}", case.feed));
        let by = |id: &Option<String>| id.as_ref().and_then(|id| stops.get(id).copied());
        let placed = |row: Option<u32>| row.is_some_and(|row| case.stops[row as usize].at.is_some());
        let own = placed(by(&u.stop));
        let feed = !own && u.stop.as_ref().is_some_and(|id| !id.contains(':')) && placed(by(&prefixed));
        let digits = [&u.stop, &prefixed].into_iter().flatten().any(|id| extract_stop_digits(id).is_some());
        let found = call.is_some() && timed;
        met.note(found && own, "stop: by the update's id");
        met.note(found && feed, "stop: by the feed and the update's id");
        let by_digits = found && !own && !feed && digits;
        met.note(by_digits, "stop: by digits, or by sequence after them");
        for (before, name) in alternates(&case.feed) {
            let stop = call.map(|call| call.stop_id.as_str()).unwrap_or_default();
            met.note(by_digits && stop.strip_prefix(&before).is_some_and(|rest| rest.starts_with('1')), name);
        }
        met.note(found && u.stop.is_none(), "stop: by sequence, without an id");
        met.note(timed && call.is_none() && u.stop.is_some(), "stop: named, not found");
        met.note(timed && call.is_none() && u.stop.is_none(), "stop: not named, not found");
        met.note(by(&u.stop).is_some() && !own, "stop: found without a position");
        met.note(found && by(&u.stop).is_some() && !own, "stop: found without a position, then by another way");
        met.note(u.arrival.is_some() && u.departure.is_none(), "update: an arrival alone");
        met.note(u.arrival.is_none() && u.departure.is_some(), "update: a departure alone");
        met.note(!timed && (u.arrival_delay.is_some() || u.departure_delay.is_some()), "update: delays alone");
        met.note(!timed && u.arrival_delay.is_none() && u.departure_delay.is_none(), "update: nothing but its number");
    }
}

fn note_clock(met: &mut Met, plan: &Plan, now: i64) {
    let times = |offset: i64, arrival: bool| {
        (0..plan.calls.len()).any(|k| now == offset + if arrival { plan.arrival(k) } else { plan.departure(k) })
    };
    met.note(times(-1, true), "clock: a second before an arrival");
    met.note(times(0, true), "clock: at an arrival");
    met.note(times(1, true), "clock: a second after an arrival");
    met.note(times(-1, false), "clock: a second before a departure");
    met.note(times(0, false), "clock: at a departure");
    met.note(times(1, false), "clock: a second after a departure");
    met.note(now == 0, "clock: 0");
    met.note(now == 4_102_444_799, "clock: 4,102,444,799");
    met.note(!plan.times_ordered(), "times: out of order");
}

/// Which turn the clock falls to, and with silence why.
fn note_turn(met: &mut Met, plan: &Plan, now: i64, place: Option<Place>) {
    let (case, n) = (plan.case, plan.calls.len());
    met.note(case.cancelled, "silence: cancelled");
    met.note(!case.cancelled && case.updates.is_empty(), "silence: no updates");
    let going = !case.cancelled && !case.updates.is_empty();
    met.note(going && n == 0 && place.is_none(), "silence: no call, the best stop not placed");
    met.note(going && n == 0 && place.is_some(), "a pin: no call, the best stop placed");
    let signalled = |u: &Update| {
        u.arrival.is_some() || u.departure.is_some() || u.arrival_delay.is_some() || u.departure_delay.is_some()
    };
    let silent_last = case.updates.last().is_some_and(|u| !signalled(u)) && case.updates.iter().any(signalled);
    met.note(going && n == 0 && place.is_some() && silent_last, "a pin: by a signal, below a higher sequence");
    if !going || n == 0 {
        return;
    }
    let early = now < plan.arrival(0) && matches!(place, Some(Place::Call(1)));
    let leg_one = matches!(place, Some(Place::Start(1) | Place::Stretch(1, ..) | Place::Last(1, _)));
    let count = if n == 1 { "a single call" } else { "the first of calls" };
    for name in ["a single call", "the first of calls"] {
        let here = name == count;
        let told =
            |what: &str| -> &'static str { TURNS.iter().find(|t| **t == format!("{name}: {what}")).expect("a turn") };
        met.note(here && early && now <= plan.departure(0), told("before it, no stop before"));
        met.note(here && leg_one, told("before it, a stop before"));
        met.note(
            here && place == Some(Place::Call(1)) && plan.arrival(0) <= now && now <= plan.departure(0),
            told("at it"),
        );
        met.note(here && place == Some(Place::Call(1)) && now > plan.departure(0), told("after it"));
    }
    met.note(n > 1 && place == Some(Place::Call(n)) && now > plan.departure(n - 1), "after the last of calls");
    met.note(leg_one && plan.run().is_none(), "approach: 120 seconds for want of a row");
    met.note(leg_one && plan.run() == Some(30), "approach: a run of 30 seconds");
    met.note(leg_one && plan.run().is_some_and(|run| run > 30), "approach: a run of the rows");
    let remaining = (plan.arrival(0) - now).max(0) as f64;
    let frac = 1.0 - remaining / plan.run().unwrap_or(120) as f64;
    met.note(leg_one && frac == 0.92, "approach: 0.92 of the leg");
    met.note(leg_one && frac > 0.92 && frac < 0.93, "approach: over 0.92 of the leg, under 0.93");
    let backward = |k: usize| plan.departure(k) < plan.arrival(k);
    met.note(
        (0..n).any(|k| now == plan.departure(k) && backward(k)) && matches!(place, Some(Place::Start(_))),
        "times: at a departure before its arrival, the next leg's start",
    );
    met.note(n > 1 && now == plan.arrival(0) && backward(0), "times: at the first arrival, past its departure");
}

const TURNS: [&str; 8] = [
    "a single call: before it, no stop before",
    "a single call: before it, a stop before",
    "a single call: at it",
    "a single call: after it",
    "the first of calls: before it, no stop before",
    "the first of calls: before it, a stop before",
    "the first of calls: at it",
    "the first of calls: after it",
];

/// Why a leg is not along its trip's shape by distance, or not along it at all.
fn note_choice(met: &mut Met, plan: &Plan, from: &CallPoint, to: &CallPoint, path: &Path) {
    let (Some(trip), false) = (plan.trip(), matches!(path, Path::ByDistance(..))) else {
        return;
    };
    let Some(line) = plan.shape() else {
        met.note(true, "no shape");
        return;
    };
    met.note(line.len() < 2, "a shape of under 2 points");
    if line.len() < 2 {
        return;
    }
    let affine = trip_shape_dist_affine(plan.epoch, trip).is_some();
    let rows = &plan.epoch.stop_times[trip.stop_time_start as usize..][..trip.stop_time_len as usize];
    let dist = |seq: u32| rows.iter().find(|row| row.stop_sequence == seq).and_then(|row| row.shape_dist_traveled);
    let both = dist(from.seq).is_some() && dist(to.seq).is_some();
    met.note(!both, "by vertices: a distance is missing");
    met.note(both && !affine, "by vertices: no calibration");
    let placed = |row: &&PackedStopTime| plan.epoch.stops[row.stop_idx as usize].lat.is_some();
    let measured: Vec<f32> = rows.iter().filter(placed).filter_map(|row| row.shape_dist_traveled).collect();
    let (first, last) = (measured.first(), measured.last());
    met.note(both && !affine && first > last, "by vertices: no calibration, for distances that fall");
    met.note(both && !affine && first < last, "by vertices: no calibration, for lengths under 1 apart");
    met.note(both && affine, "by vertices: distances under 0.5 apart");
    let apart = both && dist(from.seq) != dist(to.seq);
    met.note(apart && affine && plan.apart(trip, from, to) > 0.1, "by vertices: distances from 0.1 to 0.5 apart");
    let (i0, i1) = (nearest_idx(line, from.lat, from.lon), nearest_idx(line, to.lat, to.lon));
    let total = *lengths(&line[i0.min(i1)..=i0.max(i1)]).last().expect("a length");
    let chord = haversine_m(from.lat, from.lon, to.lat, to.lon);
    let (long, over) = (total > chord.max(1.0) * 4.0, total > 500.0);
    met.note(i0 == i1, "part refused: one vertex nearest to both");
    met.note(i0 != i1 && total < 1.0, "part refused: under 1");
    met.note(i0 != i1 && long && over, "part refused: over 4 chords and over 500");
    met.note(i0 != i1 && long && !over && total >= 1.0, "part taken: over 4 chords, not over 500");
    met.note(i0 != i1 && !long && over, "part taken: over 500, not over 4 chords");
    let times = total / chord;
    met.note(i0 != i1 && over && times > 4.0 && times < 5.0, "part refused: from 4 to 5 chords");
    met.note(i0 != i1 && over && times > 3.0 && times < 4.0, "part taken: from 3 to 4 chords, over 500");
    met.note(i0 != i1 && long && total > 500.0 && total < 600.0, "part refused: from 500 to 600 in all");
    met.note(i0 != i1 && long && total > 400.0 && total < 500.0, "part taken: from 400 to 500 in all, over 4 chords");
    let near = |at: &CallPoint| line.iter().map(|p| (p.0 - at.lat).hypot(p.1 - at.lon)).collect::<Vec<f64>>();
    let twice = |d: Vec<f64>| d.iter().filter(|&&x| Some(x) == d.iter().copied().reduce(f64::min)).count() > 1;
    met.note(i0 != i1 && !(long && over) && twice(near(to)), "part taken: two vertices equally near");
    met.note(i0 != i1 && long && over && chord.is_nan(), "part refused: a chord of NaN counts as 1");
    met.note(i0 != i1 && total.is_nan(), "part taken: a length of NaN");
}

/// What the rows of a chain are.
fn note_chain(met: &mut Met, plan: &Plan, from: &CallPoint, to: &CallPoint, line: &[(f64, f64)], inner: bool) {
    let trip = plan.trip().expect("a trip has a chain");
    let rows = &plan.epoch.stop_times[trip.stop_time_start as usize..][..trip.stop_time_len as usize];
    let (lo, hi) = (from.seq.min(to.seq), from.seq.max(to.seq));
    let between: Vec<_> = rows.iter().filter(|row| (lo..=hi).contains(&row.stop_sequence)).collect();
    let placed = between.iter().filter(|row| plan.epoch.stops[row.stop_idx as usize].lat.is_some()).count();
    let total = *lengths(line).last().expect("a length");
    met.note(inner && total < 1.0, "chain: under 1 in all");
    met.note(inner && total >= 1.0 && from.seq <= to.seq, "chain: forward");
    met.note(inner && total >= 1.0 && from.seq > to.seq, "chain: turned round");
    met.note(
        inner && total >= 1.0 && from.seq > to.seq && line.len() > 2,
        "chain: turned round, of three points or more",
    );
    met.note(
        inner && total >= 1.0 && from.seq > to.seq && line.len() > 3,
        "chain: turned round, of four points or more",
    );
    met.note(
        inner && total >= 1.0 && total < 2.0 && line.len() > 2,
        "chain: from 1 to 2 in all, of three points or more",
    );
    met.note(inner && total >= 0.5 && total < 1.0, "chain: from 0.5 to 1 in all");
    let at = |row: &&PackedStopTime| {
        let stop = &plan.epoch.stops[row.stop_idx as usize];
        stop.lat.zip(stop.lon)
    };
    let points: Vec<(f64, f64)> = between.iter().filter_map(at).collect();
    met.note(
        inner && total >= 1.0 && line.len() > 2 && from.seq < to.seq && points[0] != (from.lat, from.lon),
        "chain: a call elsewhere than its row, of three points or more",
    );
    let apart = |a: f64, b: f64| (a - b).abs();
    met.note(
        inner
            && total >= 1.0
            && line.len() > 2
            && points.windows(2).any(|p| apart(p[0].0, p[1].0).max(apart(p[0].1, p[1].1)) == 1e-9),
        "chain: two stops exactly 1e-9 apart",
    );
    met.note(inner && line.len() > 2, "chain: of three points or more");
    met.note(inner && placed < 2, "chain: two calls for want of rows");
    met.note(inner && placed < between.len(), "chain: a row without a position left out");
    met.note(inner && placed > line.len(), "chain: a repeated point left out");
}

fn note_leg(met: &mut Met, plan: &Plan, place: Place) {
    let (k, inner) = match place {
        Place::Call(_) => return,
        Place::Start(k) | Place::End(k) => (k, false),
        Place::Stretch(k, ..) | Place::Last(k, _) => (k, true),
    };
    met.note(matches!(place, Place::Start(_)), "leg: its start");
    met.note(matches!(place, Place::End(_)), "leg: its end");
    let (Some(leg), Some((from, to))) = (plan.leg(k), plan.ends(k)) else {
        return;
    };
    let last = matches!(place, Place::Last(..));
    let (by_distance, part) = (matches!(leg.path, Path::ByDistance(..)), matches!(leg.path, Path::Part(..)));
    met.note(inner && by_distance && leg.path.up() && !last, "by distance: as the vertices run");
    met.note(inner && by_distance && !leg.path.up() && !last, "by distance: against the vertices");
    if let Path::ByDistance(m0, m1) = leg.path {
        met.note(inner && (m0 - m1).abs() < 1.0, "by distance: from 0.5 to 1 apart");
        met.note(inner && plan.dists_differ(from.seq.min(to.seq)), "by distance: a sequence of two distances");
    }
    met.note(last && by_distance && leg.path.up(), "by distance: no stretch, as the vertices run");
    met.note(last && by_distance && !leg.path.up(), "by distance: no stretch, against the vertices");
    met.note(inner && part && leg.path.up() && !last, "part: as the vertices run");
    met.note(inner && part && !leg.path.up() && !last, "part: against the vertices");
    met.note(last && part, "part: no stretch");
    met.note(inner && matches!(leg.path, Path::Straight), "straight: no static trip");
    met.note(last && place == Place::Last(k, Kind::Chain), "chain: no stretch");
    met.note(
        inner && leg.path.up() && matches!(place, Place::Stretch(_, _, v, ..) if v > 0),
        "a stretch past the first",
    );
    if inner {
        note_choice(met, plan, from, to, &leg.path);
    }
    if let Path::Chain(line) = &leg.path {
        note_chain(met, plan, from, to, line, inner);
    }
}

/// Whether any sequence stands on two rows of the static trip.
fn note_rows(met: &mut Met, plan: &Plan, place: Option<Place>) {
    let Some(trip) = plan.trip() else {
        return;
    };
    let rows = &plan.epoch.stop_times[trip.stop_time_start as usize..][..trip.stop_time_len as usize];
    let twice = |seq: u32| rows.iter().filter(|row| row.stop_sequence == seq).count() > 1;
    met.note(plan.calls.iter().any(|call| twice(call.seq)), "rows: a call's sequence on two of them");
    met.note(
        rows.windows(2).any(|pair| pair[0].stop_sequence > pair[1].stop_sequence),
        "rows: sequences that do not ascend",
    );
    let first = plan.calls.first();
    let is_target = |row: &PackedStopTime, first: &CallPoint| {
        let stop = &plan.epoch.stops[row.stop_idx as usize];
        let named = !stop.raw_id.is_empty() && first.stop_id.contains(&stop.raw_id);
        stop.lat.is_some() && (Some(row.stop_idx) == first.stop_idx || row.stop_sequence == first.seq || named)
    };
    let astray = first.is_some_and(|first| !rows.iter().any(|row| is_target(row, first)));
    let seq = first.map_or(0, |first| first.seq);
    let leg_one = matches!(place, Some(Place::Start(1) | Place::Stretch(1, ..) | Place::Last(1, _)));
    met.note(astray && seq > 0 && leg_one, "previous: by sequence alone");
    met.note(astray && seq == 0 && leg_one, "previous: by sequence alone, of 0");
    met.note(
        astray && seq > 0 && rows.iter().any(|row| row.stop_sequence == seq),
        "previous: by sequence alone, a row without position at it",
    );
    met.note(
        first.is_some_and(|first| {
            rows.iter().all(|row| Some(row.stop_idx) != first.stop_idx && row.stop_sequence != first.seq)
        }),
        "rows: the first call on none of them",
    );
}

pub fn note(met: &mut Met, plan: &Plan, now: i64, place: Option<Place>) {
    note_trip(met, plan);
    note_stops(met, plan);
    note_clock(met, plan, now);
    note_turn(met, plan, now, place);
    note_rows(met, plan, place);
    if let Some(place) = place {
        note_leg(met, plan, place);
    }
}
