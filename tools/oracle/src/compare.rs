//! Compares the port with the Rust, input by input. Ends with status 1 where any answer differs.
//!
//!     compare DIVISOR     takes a DIVISOR-th of the inputs
mod inputs;
mod measured;
mod port;
mod rust;
mod standin;
mod tally;

use inputs::draw::{in_turn, Draw};
use inputs::{narrows, roots, twos, values};
use measured::{Measured, Reference};
use rust::taken::{estimate, geo, geometry};
use std::time::Instant;
use tally::{hex, same, same_f32, Tally};

/// The special values, then `count` values of the kinds in turn.
fn drawn(stream: u64, kinds: &[fn(&mut Draw) -> f64], count: u64) -> impl Iterator<Item = f64> + '_ {
    let mut d = Draw::new(stream);
    let drawn = (0..count).map(move |i| in_turn(kinds, i)(&mut d));
    values::SPECIAL.into_iter().chain(drawn)
}

type PortOne = unsafe extern "C" fn(f64) -> f64;
type PortTwo = unsafe extern "C" fn(f64, f64) -> f64;

fn one(name: &str, port: PortOne, rust: fn(f64) -> f64, inputs: impl Iterator<Item = f64>) -> u64 {
    let mut tally = Tally::new(name);
    for x in inputs {
        let (got, want) = (unsafe { port(x) }, rust(x));
        let told = || format!("{}: port: {}, Rust: {}", hex(&[x]), hex(&[got]), hex(&[want]));
        tally.note(same(got, want), want.is_nan(), told);
    }
    tally.close()
}

fn narrow(inputs: impl Iterator<Item = f64>) -> u64 {
    let mut tally = Tally::new("narrow");
    for x in inputs {
        let (got, want) = (unsafe { port::zebumorn_narrow(x) }, rust::narrow(x));
        let told = || format!("{}: port: {:08x}, Rust: {:08x}", hex(&[x]), got.to_bits(), want.to_bits());
        tally.note(same_f32(got, want), want.is_nan(), told);
    }
    tally.close()
}

fn is_nan(inputs: impl Iterator<Item = f64>) -> u64 {
    let mut tally = Tally::new("is_nan");
    for x in inputs {
        let (got, want) = (unsafe { port::zebumorn_is_nan(x) }, x.is_nan());
        tally.note(got == want as u8, want, || format!("{}: port: {got}, Rust: {want}", hex(&[x])));
    }
    tally.close()
}

/// Whether the Rust may answer with either: two zeros, in max and min.
fn either_zero(name: &str, x: f64, y: f64, got: f64) -> bool {
    (name == "max" || name == "least") && x == 0.0 && y == 0.0 && x.to_bits() != y.to_bits() && got == 0.0
}

/// max is asked of a bound that is a number, and a step of the least of a least so far that is one.
fn asked(name: &str, x: f64, y: f64) -> bool {
    !(name == "max" && y.is_nan() || name == "least" && x.is_nan())
}

fn two(stream: u64, name: &str, port: PortTwo, rust: fn(f64, f64) -> f64, count: u64) -> u64 {
    let mut tally = Tally::new(name);
    let mut d = Draw::new(stream);
    let mut compare = |x: f64, y: f64| {
        if !asked(name, x, y) {
            return;
        }
        let (got, want) = (unsafe { port(x, y) }, rust(x, y));
        let agree = same(got, want) || either_zero(name, x, y, got);
        let told = || format!("{}: port: {}, Rust: {}", hex(&[x, y]), hex(&[got]), hex(&[want]));
        tally.note(agree, want.is_nan(), told);
    };
    for x in values::SPECIAL {
        for y in values::SPECIAL {
            compare(x, y);
        }
    }
    for i in 0..count {
        let [x, y] = in_turn(&twos::TWOS, i)(&mut d);
        compare(x, y);
    }
    tally.close()
}

/// All comparisons, each with a `divisor`-th of its inputs; how many answers differ.
fn compare_all(divisor: u64) -> u64 {
    let many = 20_000_000 / divisor;
    let some = 2_000_000 / divisor;
    let few = 1_000_000 / divisor;
    let haversine = Measured::new(
        "haversine",
        port::zebumorn_haversine_m,
        Reference { file: "estimate.rs", measure: estimate::haversine_m },
        Reference { file: "geo.rs", measure: geo::haversine_m },
    );
    let bearing = Measured::new(
        "bearing",
        port::zebumorn_bearing_deg,
        Reference { file: "estimate.rs", measure: estimate::bearing_deg },
        Reference { file: "geometry.rs", measure: geometry::bearing_deg },
    );
    let mut differ = 0;
    differ += haversine.run(1, 10_000_000 / divisor, few);
    differ += bearing.run(2, 10_000_000 / divisor, few);
    differ += one("root", port::zebumorn_root, rust::root, drawn(3, &roots::ROOTS, many));
    differ += narrow(drawn(4, &narrows::NARROWS, many));
    differ += one("sin", port::zebumorn_sin, rust::sin, drawn(5, &values::ANGLES, some));
    differ += one("cos", port::zebumorn_cos, rust::cos, drawn(6, &values::ANGLES, some));
    differ += one("atan", port::zebumorn_atan, rust::atan, drawn(7, &values::TANGENTS, some));
    differ += one("asin", port::zebumorn_asin, rust::asin, drawn(8, &values::SINES, some));
    differ += one("radians", port::zebumorn_radians, rust::radians, drawn(9, &values::DEGREES, some));
    differ += one("degrees", port::zebumorn_degrees, rust::degrees, drawn(10, &values::DEGREES, some));
    differ += two(11, "atan2", port::zebumorn_atan2, rust::atan2, some);
    differ += two(12, "hypot", port::zebumorn_hypot, rust::hypot, some);
    differ += two(13, "max", port::zebumorn_max_of, rust::max_of, few);
    differ += two(17, "least", port::zebumorn_least, rust::least, few);
    differ += one("abs", port::zebumorn_abs, rust::abs, drawn(14, &values::FRACTIONS, few));
    differ += one("clamp01", port::zebumorn_clamp01, rust::clamp01, drawn(15, &values::FRACTIONS, few));
    differ += is_nan(drawn(16, &values::FRACTIONS, few));
    differ
}

fn main() {
    let divisor = std::env::args().nth(1).and_then(|word| word.parse().ok()).filter(|&n: &u64| n > 0);
    let Some(divisor) = divisor else {
        eprintln!("compare: the divisor is a whole number from 1");
        std::process::exit(2);
    };
    let start = Instant::now();
    let differ = compare_all(divisor);
    println!("{differ} differ in all; {:.1} s", start.elapsed().as_secs_f64());
    std::process::exit((differ != 0) as i32);
}
