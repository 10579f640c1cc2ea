//! Nanoseconds a call, port and Rust, on the same inputs in one run.
//!
//! Both sides have the same C signature and are called through a pointer that the compiler cannot see through, so that both
//! pay one call and neither is folded into the loop.
mod inputs;
mod port;
mod rust;
mod standin;
mod timing;

use inputs::draw::Draw;
use inputs::pairs;
use rust::taken::estimate;
use std::hint::black_box;
use timing::{head, least, row};

const INPUTS: usize = 4096;

// The Rust, with the port's signatures

#[inline(never)]
unsafe extern "C" fn rust_haversine(lat1: f64, lon1: f64, lat2: f64, lon2: f64, out: *mut f64) -> u32 {
    *out = estimate::haversine_m(lat1, lon1, lat2, lon2);
    0
}

#[inline(never)]
unsafe extern "C" fn rust_bearing(lat1: f64, lon1: f64, lat2: f64, lon2: f64, out: *mut f64) -> u32 {
    *out = estimate::bearing_deg(lat1, lon1, lat2, lon2);
    0
}

#[inline(never)]
unsafe extern "C" fn rust_root(x: f64) -> f64 {
    rust::root(x)
}

#[inline(never)]
unsafe extern "C" fn rust_narrow(x: f64) -> f32 {
    rust::narrow(x)
}

#[inline(never)]
unsafe extern "C" fn rust_sin(r: f64) -> f64 {
    rust::sin(r)
}

#[inline(never)]
unsafe extern "C" fn rust_atan2(y: f64, x: f64) -> f64 {
    rust::atan2(y, x)
}

// One pass over the inputs, folded into a checksum

fn fold(sum: u64, bits: u64) -> u64 {
    sum.rotate_left(1) ^ bits
}

fn pass_measure(f: port::Measure, inputs: &[[f64; 4]]) -> u64 {
    let f = black_box(f);
    let mut sum = 0;
    for &[lat1, lon1, lat2, lon2] in inputs {
        let mut out = 0.0;
        let number = unsafe { f(lat1, lon1, lat2, lon2, &mut out) };
        sum = fold(sum, out.to_bits() ^ number as u64);
    }
    sum
}

fn pass_one(f: unsafe extern "C" fn(f64) -> f64, inputs: &[[f64; 1]]) -> u64 {
    let f = black_box(f);
    inputs.iter().fold(0, |sum, &[x]| fold(sum, unsafe { f(x) }.to_bits()))
}

fn pass_narrow(f: unsafe extern "C" fn(f64) -> f32, inputs: &[[f64; 1]]) -> u64 {
    let f = black_box(f);
    inputs.iter().fold(0, |sum, &[x]| fold(sum, unsafe { f(x) }.to_bits() as u64))
}

fn pass_two(f: unsafe extern "C" fn(f64, f64) -> f64, inputs: &[[f64; 2]]) -> u64 {
    let f = black_box(f);
    inputs.iter().fold(0, |sum, &[x, y]| fold(sum, unsafe { f(x, y) }.to_bits()))
}

/// Prints a line of the table; says whether the two sides' checksums agree.
fn line(name: &str, port: &dyn Fn() -> u64, rust: &dyn Fn() -> u64) -> bool {
    let mut port_pass = || {
        black_box(port());
    };
    let mut rust_pass = || {
        black_box(rust());
    };
    row(name, least([&mut port_pass, &mut rust_pass]).map(|time| time * 1e3 / INPUTS as f64));
    let agree = port() == rust();
    if !agree {
        println!("    the checksums differ");
    }
    agree
}

/// The inputs of one function.
fn drawn<const N: usize>(stream: u64, mut one: impl FnMut(&mut Draw) -> [f64; N]) -> Vec<[f64; N]> {
    let mut d = Draw::new(stream);
    (0..INPUTS).map(|_| one(&mut d)).collect()
}

fn main() {
    let uniform = pairs::PAIRS[0];
    let pairs = black_box(drawn(65, uniform));
    let roots = black_box(drawn(66, |d| [d.unit()]));
    let lengths = black_box(drawn(67, |d| [d.between(0.0, 1e6)]));
    let angles = black_box(drawn(68, |d| [d.between(-3.2, 3.2)]));
    let points = black_box(drawn(69, |d| [d.between(-1.0, 1.0), d.between(-1.0, 1.0)]));
    head("nanoseconds a call");
    let agree = [
        line("haversine", &|| pass_measure(port::zebumorn_haversine_m, &pairs), &|| {
            pass_measure(rust_haversine, &pairs)
        }),
        line("bearing", &|| pass_measure(port::zebumorn_bearing_deg, &pairs), &|| pass_measure(rust_bearing, &pairs)),
        line("root", &|| pass_one(port::zebumorn_root, &roots), &|| pass_one(rust_root, &roots)),
        line("narrow", &|| pass_narrow(port::zebumorn_narrow, &lengths), &|| pass_narrow(rust_narrow, &lengths)),
        line("sin", &|| pass_one(port::zebumorn_sin, &angles), &|| pass_one(rust_sin, &angles)),
        line("atan2", &|| pass_two(port::zebumorn_atan2, &points), &|| pass_two(rust_atan2, &points)),
    ];
    std::process::exit(agree.contains(&false) as i32);
}
