//! What a comparison counts, and when two answers are the same.
#![allow(dead_code)]

/// How many differing inputs of one comparison are shown.
const SHOWN: usize = 5;

/// One comparison: its name, what was counted, and the first inputs that differ.
pub struct Tally {
    name: String,
    count: u64,
    nan: u64,
    differ: u64,
    shown: Vec<String>,
}

impl Tally {
    pub fn new(name: &str) -> Tally {
        Tally { name: name.to_string(), count: 0, nan: 0, differ: 0, shown: Vec::new() }
    }

    /// Counts one input; `nan` says whether the answer is one, `told` shows the input and both answers.
    pub fn note(&mut self, same: bool, nan: bool, told: impl FnOnce() -> String) {
        self.count += 1;
        self.nan += nan as u64;
        if !same {
            self.differ += 1;
            if self.shown.len() < SHOWN {
                self.shown.push(told());
            }
        }
    }

    /// Prints the comparison's line and returns how many differ. A comparison of nothing counts as one that differs.
    pub fn close(self) -> u64 {
        println!("{:<42} {:>10} compared {:>9} NaN {:>9} differ", self.name, self.count, self.nan, self.differ);
        for line in &self.shown {
            println!("    {line}");
        }
        if self.count == 0 {
            println!("    nothing was compared");
        }
        self.differ.max((self.count == 0) as u64)
    }
}

pub fn same(a: f64, b: f64) -> bool {
    a.is_nan() && b.is_nan() || a.to_bits() == b.to_bits()
}

/// Both none, or two pairs of the same numbers.
pub fn agree(got: Option<(f64, f64)>, want: Option<(f64, f64)>) -> bool {
    match (got, want) {
        (Some(g), Some(w)) => same(g.0, w.0) && same(g.1, w.1),
        (None, None) => true,
        _ => false,
    }
}

pub fn same_f32(a: f32, b: f32) -> bool {
    a.is_nan() && b.is_nan() || a.to_bits() == b.to_bits()
}

pub fn hex(values: &[f64]) -> String {
    let digits: Vec<String> = values.iter().map(|v| format!("{:016x}", v.to_bits())).collect();
    digits.join(" ")
}
