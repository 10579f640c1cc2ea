//! Writes a fixed sample of questions and the Rust's answers, for a program that replays them.
//!
//!     sample FOLDER     writes FOLDER/questions and FOLDER/answers
mod inputs;
mod replayed;
mod rust;
mod standin;

use inputs::draw::Draw;
use inputs::pairs::{self, Pair};
use inputs::{fixed, narrows, roots, twos, values};
use replayed::{asked, digits, digits_f32, Sample};
use rust::taken::estimate;

// Haversine and bearing: the fixed pairs, six pairs of each kind

fn measure(sample: &mut Sample, stream: u64, name: &str, rust: fn(f64, f64, f64, f64) -> f64) {
    let mut d = Draw::new(stream);
    let mut pairs: Vec<Pair> = fixed::ON_GLOBE.to_vec();
    pairs.extend(fixed::off_globe());
    for kind in pairs::PAIRS {
        for _ in 0..6 {
            pairs.push(kind(&mut d));
        }
    }
    for pair in pairs {
        let [lat1, lon1, lat2, lon2] = pair;
        let answer = if rust::on_globe(pair) {
            digits(rust(lat1, lon1, lat2, lon2))
        } else {
            format!("refused {}", rust::OFF_GLOBE)
        };
        sample.add(&asked(name, &pair), &answer);
    }
}

// Functions of one float: chosen values, and some of each kind

/// Zeros, infinities, NaN, subnormals, the greatest, the least normal and the neighbours of 1.
const CHOSEN: [f64; 11] = [
    0.0,
    -0.0,
    f64::INFINITY,
    f64::NEG_INFINITY,
    f64::NAN,
    f64::from_bits(1),
    f64::from_bits(0x800f_ffff_ffff_ffff),
    f64::MAX,
    1.0,
    -1.0,
    f64::from_bits(0x3ff0_0000_0000_0001),
];

/// The squares of an odd number of 54 bits, one low and one high, rounded; and a perfect square with both neighbours.
const CHOSEN_ROOTS: [f64; 8] = [
    f64::from_bits(0x4690_0000_0000_0001), // of 2^53 + 1: its root is close to halfway
    f64::from_bits(0x46af_ffff_ffff_ffff), // of 2^54 - 1
    f64::from_bits(0x4021_ffff_ffff_ffff),
    9.0,
    f64::from_bits(0x4022_0000_0000_0001),
    2.0,
    f64::MIN_POSITIVE,
    f64::from_bits(0x000f_ffff_ffff_ffff),
];

/// f32's edges: its greatest, the tie with infinity and both neighbours, its least, the tie with zero and its neighbours,
/// its least normal, the tie below that, ties to even downward and upward, and a float above a tie.
const CHOSEN_NARROWS: [f64; 13] = [
    f64::from_bits(0x47ef_ffff_e000_0000),
    f64::from_bits(0x47ef_ffff_f000_0000),
    f64::from_bits(0x47ef_ffff_efff_ffff),
    f64::from_bits(0xc7ef_ffff_f000_0001),
    f64::from_bits(0x36a0_0000_0000_0000),
    f64::from_bits(0x3690_0000_0000_0000),
    f64::from_bits(0x3690_0000_0000_0001),
    f64::from_bits(0xb68f_ffff_ffff_ffff),
    f64::from_bits(0x3810_0000_0000_0000),
    f64::from_bits(0x380f_ffff_e000_0000),
    f64::from_bits(0x3ff0_0000_1000_0000),
    f64::from_bits(0x3ff0_0000_3000_0000),
    f64::from_bits(0x3ff0_0000_1000_0001),
];

/// The chosen values, the further ones, and `each` of each kind.
fn drawn(stream: u64, further: &[f64], kinds: &[fn(&mut Draw) -> f64], each: usize) -> Vec<f64> {
    let mut d = Draw::new(stream);
    let mut values = CHOSEN.to_vec();
    values.extend(further);
    for kind in kinds {
        for _ in 0..each {
            values.push(kind(&mut d));
        }
    }
    values
}

fn one(sample: &mut Sample, name: &str, rust: fn(f64) -> f64, values: Vec<f64>) {
    for x in values {
        sample.add(&asked(name, &[x]), &digits(rust(x)));
    }
}

fn narrow(sample: &mut Sample, values: Vec<f64>) {
    for x in values {
        sample.add(&asked("narrow", &[x]), &digits_f32(rust::narrow(x)));
    }
}

// Functions of two floats: chosen values, and some of each kind

const CHOSEN_TWOS: [[f64; 2]; 15] = [
    [0.0, 0.0],
    [-0.0, -0.0],
    [-0.0, 1.0],
    [0.0, -1.0],
    [-0.0, -1.0],
    [1.0, 0.0],
    [-1.0, -0.0],
    [1.0, 1.0],
    [-1.0, -1.0],
    [f64::NAN, 1.0],
    [1.0, f64::NAN],
    [f64::NAN, f64::NAN],
    [f64::INFINITY, 1.0],
    [-1.0, f64::NEG_INFINITY],
    [f64::INFINITY, f64::INFINITY],
];

fn two(sample: &mut Sample, stream: u64, name: &str, rust: fn(f64, f64) -> f64) {
    let mut d = Draw::new(stream);
    let mut twos = CHOSEN_TWOS.to_vec();
    for kind in twos::TWOS {
        twos.push(kind(&mut d));
    }
    for [x, y] in twos {
        if name == "max" && y.is_nan() {
            continue;
        }
        assert!(name != "max" || x != 0.0 || y != 0.0 || x.to_bits() == y.to_bits(), "Rust leaves this max open");
        sample.add(&asked(name, &[x, y]), &digits(rust(x, y)));
    }
}

fn whole_sample() -> Sample {
    let mut sample = Sample::default();
    let s = &mut sample;
    measure(s, 33, "haversine", estimate::haversine_m);
    measure(s, 34, "bearing", estimate::bearing_deg);
    one(s, "root", rust::root, drawn(35, &CHOSEN_ROOTS, &roots::ROOTS[..11], 4));
    narrow(s, drawn(36, &CHOSEN_NARROWS, &narrows::NARROWS[..11], 4));
    one(s, "sin", rust::sin, drawn(37, &[], &values::ANGLES, 1));
    one(s, "cos", rust::cos, drawn(38, &[], &values::ANGLES, 1));
    one(s, "atan", rust::atan, drawn(39, &[], &values::TANGENTS, 1));
    one(s, "asin", rust::asin, drawn(40, &[], &values::SINES, 1));
    one(s, "radians", rust::radians, drawn(41, &[], &values::DEGREES, 1));
    one(s, "degrees", rust::degrees, drawn(42, &[], &values::DEGREES, 1));
    one(s, "abs", rust::abs, drawn(43, &[], &values::FRACTIONS, 1));
    one(s, "clamp01", rust::clamp01, drawn(44, &[], &values::FRACTIONS, 1));
    two(s, 45, "atan2", rust::atan2);
    two(s, 46, "hypot", rust::hypot);
    two(s, 47, "max", rust::max_of);
    sample
}

fn main() -> std::io::Result<()> {
    let folder = std::env::args().nth(1).expect("usage: sample FOLDER");
    whole_sample().write(&folder)
}
