//! Holds the estimate of the library beside the Rust's: `estimate_library COUNT` asks it of COUNT clocks of generated cases, without a program between. Its line and its
//! place are to be the Rust's.
#![allow(dead_code, unused_imports)]
mod cases;
#[path = "inputs/draw.rs"]
#[allow(dead_code)]
mod draw;
mod estimate_port;
mod lent;
mod met;
mod standin;

include!(env!("ORACLE_TAKEN"));

use cases::lay::Laid;
use cases::plan::Plan;
use cases::{asked, make, meets};
use met::Met;

/// How many cases that differ are shown.
const SHOWN: u64 = 3;

fn main() {
    let count: u64 = std::env::args().nth(1).and_then(|word| word.parse().ok()).expect("a count");
    let mut draw = draw::Draw::new(13);
    let (mut clocks, mut all, mut differ, mut met) = (0, 0, 0, Met::default());
    while clocks < count {
        let mut case = make::case(&mut draw);
        let epoch = asked::epoch(&case);
        let mut laid = Laid::of(&case);
        for now in make::clocks(&mut draw, &case) {
            case.now = now;
            laid.at(now);
            let plan = Plan::of(&case, &epoch);
            let place = plan.place(now);
            let rust = (asked::board(&case, &epoch), place.map(|place| place.text()));
            let told = estimate_port::estimate(&laid);
            let port = (told.line(&case), told.place().map(|place| place.text()));
            if rust != port {
                differ += 1;
                if differ <= SHOWN {
                    println!("the Rust: {rust:?}\nthe port: {port:?}\n{}", case.text());
                }
            }
            meets::note(&mut met, &plan, now, place);
            clocks += 1;
        }
        all += 1;
    }
    println!("{clocks} clocks of {all} cases, {differ} differ");
    met.print();
    std::process::exit((differ > 0) as i32);
}
