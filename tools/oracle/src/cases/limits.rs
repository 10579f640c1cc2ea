//! Texts at the limits of document 01 and of the case language, and one past each.
use std::fmt::Write;

const SAILING: &str = "(feed f)\n(trip t)\n(now 250)\n";
const ENDS: &str = "(stop f:a 0000000000000000 0000000000000000)\n(stop f:b 0000000000000000 3ff0000000000000)\n";
const UPDATES: &str = "(update 1 f:a (arr 100) (dep 100))\n(update 2 f:b (arr 400) (dep 400))\n";

fn lines(count: usize, line: impl Fn(usize) -> String) -> String {
    (0..count).fold(String::new(), |mut text, k| {
        writeln!(text, "{}", line(k)).unwrap();
        text
    })
}

/// A trip on a shape of so many points along the way, the last of shapes of points.
fn points(counts: &[usize]) -> String {
    let mut text = format!("{SAILING}{UPDATES}{ENDS}(static t f s (shape 0))\n(call 1 0 0 0)\n(call 2 1 300 300)\n");
    for (k, &count) in counts.iter().enumerate() {
        writeln!(text, "(shape s{k})").unwrap();
        let lon = |j: usize| format!("{:016x}", (j as f64 / (count - 1) as f64).to_bits());
        text += &lines(count, |j| format!("(point 0000000000000000 {})", lon(j)));
    }
    text
}

fn updates(count: usize) -> String {
    format!(
        "{SAILING}{ENDS}{}",
        lines(count, |k| format!("(update {} f:a (arr {}) (dep {}))", k + 1, 10 * k, 10 * k + 5))
    )
}

/// An id of so many bytes, as a token.
fn long(bytes: usize) -> String {
    "x".repeat(bytes)
}

fn id(bytes: usize) -> String {
    format!("{SAILING}{UPDATES}{ENDS}(stop g{})\n", long(bytes - 1))
}

/// The same, each byte by its digits, so that its line is three times as long.
fn coded(bytes: usize) -> String {
    format!("{SAILING}{UPDATES}{ENDS}(stop g (raw {}))\n", "%78".repeat(bytes))
}

fn more(count: usize, line: impl Fn(usize) -> String) -> String {
    format!("{SAILING}{UPDATES}{ENDS}{}", lines(count, line))
}

/// With a static trip, so that rows may name it.
fn with_trip(count: usize, line: impl Fn(usize) -> String) -> String {
    format!("{SAILING}{UPDATES}{ENDS}(static a f s)\n{}", lines(count, line))
}

/// Ids of so many bytes in all: the sailing and its stops have 14 of them.
fn id_bytes(bytes: usize) -> String {
    let (whole, rest) = ((bytes - 14) / 96, (bytes - 14) % 96);
    let stops = lines(whole, |k| format!("(stop g{k:04} (raw {}))", long(91)));
    format!("{SAILING}{UPDATES}{ENDS}{stops}(stop h{})\n", long(rest - 1))
}

/// Each with its name.
pub fn all() -> Vec<(String, String)> {
    let mut all = vec![];
    let mut put = |name: &str, count: usize, text: String| all.push((format!("{name}: {count}"), text));
    for count in [2, 8_192, 8_193, 16_384, 16_385] {
        put("points of a shape", count, points(&[count]));
    }
    put("points of two shapes", 16_384, points(&[8_192, 8_192]));
    put("points of two shapes", 16_385, points(&[8_192, 8_193]));
    for count in [0, 1, 256, 257, 512, 513] {
        put("updates", count, updates(count));
    }
    for bytes in [95, 96, 97, 255, 256] {
        put("bytes of an id", bytes, id(bytes));
        put("bytes of an id by their digits", bytes, coded(bytes));
    }
    for count in [4_096, 4_097] {
        put("stops", count, more(count - 2, |k| format!("(stop g{k:04})")));
    }
    for count in [5_120, 5_121] {
        put("rows of the stop-id table", count, more(count - 2, |k| format!("(stop-key g{k:04} 1)")));
    }
    for count in [2_048, 2_049] {
        put("rows of the trip-id table", count, with_trip(count - 1, |k| format!("(static-key b{k:04} 0)")));
    }
    for count in [1_024, 1_025] {
        put("trips", count, with_trip(count - 1, |k| format!("(static b{k:04} f s)")));
        put("aliases", count, more(count, |k| format!("(alias b{k:04} t)")));
        put("lines", count, with_trip(count, |k| format!("(line b{k:04} 0)")));
        put("calendars", count, more(count, |k| format!("(calendar b{k:04})")));
        put("ranges", count, more(count, |k| format!("(range f b{k:04} 20240101 20241231 1111111)")));
        put("exceptions", count, more(count, |k| format!("(exception f b{k:04} 20240101 added)")));
        put("shapes", count, more(count, |k| format!("(shape b{k:04})")));
    }
    for count in [8_192, 8_193] {
        put("calls", count, with_trip(count, |k| format!("(call {k} 0 0 0)")));
    }
    for bytes in [131_072, 131_073] {
        put("bytes of all ids", bytes, id_bytes(bytes));
    }
    all
}
