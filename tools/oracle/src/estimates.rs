//! Holds the Board beside the Rust's estimate: `estimates PROGRAM COUNT` asks the program `board` of each clock of generated cases.
#![allow(dead_code, unused_imports)]
mod cases;
#[path = "inputs/draw.rs"]
#[allow(dead_code)]
mod draw;
mod lent;
mod met;
mod program;
mod standin;

include!(env!("ORACLE_TAKEN"));

use cases::plan::Plan;
use cases::{asked, digits, make, meets};
use met::Met;
use program::Program;
use std::collections::BTreeMap;

/// Cases that are asked at once, and how many that differ are shown.
const AT_ONCE: usize = 2000;
const SHOWN: u64 = 3;

/// The status that a line has, or the line.
fn kind(line: &str) -> String {
    line.split(' ').nth(3).unwrap_or(line).into()
}

/// Whether the coordinates in a line are those.
fn has(line: &str, at: (f64, f64)) -> bool {
    let words: Vec<&str> = line.split(' ').collect();
    words.len() > 5 && words[4] == digits(at.0) && words[5] == digits(at.1)
}

/// What is to be asked, and the Rust's lines.
#[derive(Default)]
struct Asked {
    texts: Vec<Vec<u8>>,
    lines: Vec<String>,
}

impl Asked {
    /// Asks all, shows the first that differ, and returns how many do.
    fn differ(&mut self, program: &Program, before: u64) -> u64 {
        let mut differ = 0;
        for (k, port) in program.answers(&self.texts).into_iter().enumerate() {
            if port != self.lines[k] {
                differ += 1;
                if before + differ <= SHOWN {
                    let text = String::from_utf8_lossy(&self.texts[k]);
                    println!("the Rust: {}\nthe Board: {port}\n{text}", self.lines[k]);
                }
            }
        }
        *self = Asked::default();
        differ
    }
}

fn main() {
    let words: Vec<String> = std::env::args().collect();
    let count: u64 = words[2].parse().expect("a count");
    let program = Program::named(&words[1]);
    let mut draw = draw::Draw::new(9);
    let (mut clocks, mut all, mut differ, mut astray) = (0, 0, 0, 0);
    let (mut kinds, mut met): (BTreeMap<String, u64>, Met) = Default::default();
    let mut asked = Asked::default();
    while clocks < count {
        let mut case = make::case(&mut draw);
        all += 1;
        let epoch = asked::epoch(&case);
        let clock_list = make::clocks(&mut draw, &case);
        let mut lines = vec![];
        for &now in &clock_list {
            case.now = now;
            lines.push(asked::board(&case, &epoch));
            asked.texts.push(case.text().into_bytes());
        }
        let plan = Plan::of(&case, &epoch);
        for (&now, line) in clock_list.iter().zip(&lines) {
            let place = plan.place(now);
            meets::note(&mut met, &plan, now, place);
            astray += (place
                .map(|place| place.coordinates(&plan))
                .map_or(line != "(none)", |at| !has(line, at.expect("coordinates")))) as u64;
            *kinds.entry(kind(line)).or_default() += 1;
        }
        clocks += lines.len() as u64;
        asked.lines.extend(lines);
        match &program {
            Some(program) if asked.lines.len() >= AT_ONCE || clocks >= count => differ += asked.differ(program, differ),
            Some(_) => {}
            None => asked = Asked::default(),
        }
    }
    println!(
        "{clocks} clocks of {all} cases, {differ} differ; {astray} estimates of the Rust are not where their place is"
    );
    for (kind, count) in kinds {
        println!("    {kind:<72} {count:>9}");
    }
    println!("met:");
    met.print();
    if met.lacks(1) {
        println!("something was not met");
    }
    std::process::exit((differ + astray > 0) as i32);
}
