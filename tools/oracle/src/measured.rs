//! Compares haversine and bearing: the port with each of the two files that have them, those with each other, and refusals.
use crate::inputs::draw::{in_turn, Draw};
use crate::inputs::pairs::{self, Pair};
use crate::inputs::{fixed, off};
use crate::tally::{hex, same, Tally};
use crate::{port, rust};

/// What stands in the output, and beside it, before the port is asked.
const MARK: u64 = 0x0123_4567_89ab_cdef;

/// The port's answer: what it returned, and the output with a word on either side of it.
#[derive(Clone, Copy)]
struct Answer {
    number: u32,
    words: [u64; 3],
}

impl Answer {
    fn value(self) -> f64 {
        f64::from_bits(self.words[1])
    }

    fn is(self, value: f64) -> bool {
        self.number == 0 && self.words[0] == MARK && self.words[2] == MARK && same(self.value(), value)
    }

    fn is_refusal(self) -> bool {
        self.number == rust::OFF_GLOBE && self.words == [MARK; 3]
    }

    fn told(self) -> String {
        let [before, out, after] = self.words;
        let beside = if before == MARK && after == MARK { "" } else { ", and wrote beside its output" };
        format!("port: returned {}, out {out:016x}{beside}", self.number)
    }
}

fn ask(port: port::Measure, pair: Pair) -> Answer {
    let [lat1, lon1, lat2, lon2] = pair;
    let mut words = [MARK; 3];
    let out = words.as_mut_ptr().wrapping_add(1).cast::<f64>();
    let number = unsafe { port(lat1, lon1, lat2, lon2, out) };
    Answer { number, words }
}

/// One of the Rust's functions, and the file that it stands in.
#[derive(Clone, Copy)]
pub struct Reference {
    pub file: &'static str,
    pub measure: fn(f64, f64, f64, f64) -> f64,
}

impl Reference {
    fn answer(self, pair: Pair) -> f64 {
        (self.measure)(pair[0], pair[1], pair[2], pair[3])
    }
}

/// The four comparisons of a measure that stands in two files.
pub struct Measured {
    port: port::Measure,
    first: Reference,
    second: Reference,
    against_first: Tally,
    against_second: Tally,
    refusals: Tally,
    both: Tally,
}

impl Measured {
    pub fn new(name: &str, port: port::Measure, first: Reference, second: Reference) -> Measured {
        Measured {
            port,
            first,
            second,
            against_first: Tally::new(&format!("{name}: port, {}", first.file)),
            against_second: Tally::new(&format!("{name}: port, {}", second.file)),
            refusals: Tally::new(&format!("{name}: port, refusal off the globe")),
            both: Tally::new(&format!("{name}: {}, {}", first.file, second.file)),
        }
    }

    fn compare(&mut self, pair: Pair) {
        let first = self.first.answer(pair);
        let second = self.second.answer(pair);
        let answer = ask(self.port, pair);
        self.both.note(same(first, second), first.is_nan(), || {
            format!("{}: {}: {}, {}: {}", hex(&pair), self.first.file, hex(&[first]), self.second.file, hex(&[second]))
        });
        if !rust::on_globe(pair) {
            let told = || format!("{}: {}, expected refusal 3 and out untouched", hex(&pair), answer.told());
            self.refusals.note(answer.is_refusal(), false, told);
            return;
        }
        let told = |file: &str, value: f64| format!("{}: {}, {file}: {}", hex(&pair), answer.told(), hex(&[value]));
        self.against_first.note(answer.is(first), first.is_nan(), || told(self.first.file, first));
        self.against_second.note(answer.is(second), second.is_nan(), || told(self.second.file, second));
    }

    /// The fixed pairs, `on` pairs on the globe, and `off` pairs off it.
    pub fn run(mut self, stream: u64, on: u64, off: u64) -> u64 {
        let mut d = Draw::new(stream);
        for pair in fixed::ON_GLOBE.into_iter().chain(fixed::off_globe()) {
            self.compare(pair);
        }
        for i in 0..on {
            self.compare(in_turn(&pairs::PAIRS, i)(&mut d));
        }
        for _ in 0..off {
            self.compare(off::off_globe(&mut d));
        }
        self.against_first.close() + self.against_second.close() + self.refusals.close() + self.both.close()
    }
}
