//! Makes a world smaller as long as something still holds of it, row by row and byte by byte.
use super::{Asked, World};

/// What differs from the world in one row less.
fn without_a_row(w: &World) -> Vec<World> {
    let mut all = Vec::new();
    let mut add = |change: &dyn Fn(&mut World)| {
        let mut less = w.clone();
        change(&mut less);
        all.push(less);
    };
    for key in w.keys.keys() {
        add(&|w| w.keys.retain(|other, _| other != key));
    }
    for key in w.aliases.keys() {
        add(&|w| w.aliases.retain(|other, _| other != key));
    }
    for line in &w.lines {
        add(&|w| w.lines.retain(|other| other != line));
    }
    for feed in &w.feeds {
        add(&|w| w.feeds.retain(|other| other != feed));
    }
    for key in w.ranges.keys() {
        add(&|w| w.ranges.retain(|other, _| other != key));
    }
    for row in &w.exceptions {
        add(&|w| w.exceptions.retain(|other| other != row));
    }
    let last = w.trips.len().saturating_sub(1);
    let named = |trip: usize| w.keys.values().chain(w.lines.iter().map(|l| &l.1)).any(|&t| t as usize == trip);
    if !w.trips.is_empty() && !named(last) {
        add(&|w| w.trips.truncate(last));
    }
    let last = w.departures.len().saturating_sub(1);
    if !w.departures.is_empty() && w.trips.iter().all(|t| (t.first + t.count) as usize <= last) {
        add(&|w| w.departures.truncate(last));
    }
    for k in 0..w.trips.len() {
        if w.trips[k].count > 0 {
            add(&|w| w.trips[k].count = 0);
        }
        if w.trips[k].first > 0 {
            add(&|w| w.trips[k].first = 0);
        }
    }
    all
}

/// What asks with a byte less.
fn without_a_byte(asked: &Asked) -> Vec<Asked> {
    let mut all = Vec::new();
    if let Asked::Journey(j) = asked {
        for at in 0..j.key.len() {
            let mut less = j.clone();
            less.key.remove(at);
            if !less.key.is_empty() {
                all.push(Asked::Journey(less));
            }
        }
        if j.route.is_some() {
            let mut less = j.clone();
            less.route = None;
            all.push(Asked::Journey(less));
        }
    }
    all
}

/// The smallest that is found of which `holds` holds, as it does of the world that is given.
pub fn smaller(w: &World, asked: &Asked, holds: &dyn Fn(&World, &Asked) -> bool) -> (World, Asked) {
    let (mut w, mut asked) = (w.clone(), asked.clone());
    loop {
        if let Some(less) = without_a_row(&w).into_iter().find(|less| holds(less, &asked)) {
            w = less;
        } else if let Some(less) = without_a_byte(&asked).into_iter().find(|less| holds(&w, less)) {
            asked = less;
        } else {
            return (w, asked);
        }
    }
}
