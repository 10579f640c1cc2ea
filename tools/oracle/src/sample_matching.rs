//! Writes a fixed sample of worlds with what is asked of them, and the Rust's answers, for a program that replays them.
//!
//!     sample_matching FOLDER     writes FOLDER/questions and FOLDER/answers
#[allow(dead_code)]
#[path = "inputs/draw.rs"]
mod draw;
mod lent;
mod limits;
mod met;
mod timetable;
mod worlds;

mod taken {
    #![allow(dead_code)]
    include!(env!("ORACLE_TAKEN"));
}

use draw::Draw;
use met::Met;
use std::fs;
use std::path::Path;
use worlds::{make, rows, Asked, World};

/// How often each way and each limit is in the sample, and how many worlds are looked through for that.
const TIMES: u64 = 10;
const LOOKED_THROUGH: usize = 100_000;
const JOURNEYS: usize = 4;
const SERVICES: usize = 1;

/// What a question meets, and the Rust's answer.
fn told(w: &World, asked: &Asked) -> (Met, String) {
    let epoch = timetable::epoch(w);
    match asked {
        Asked::Journey(j) => {
            let (way, mut met) = limits::of_journey(w, &epoch, j);
            met.note(true, way);
            (met, timetable::matched(&epoch, j).map_or("nothing".to_string(), |trip| format!("trip {trip}")))
        }
        Asked::Service(s) => {
            let runs = timetable::is_active(&epoch, s);
            assert_eq!(runs, timetable::by_reference(w, s));
            (limits::of_service(w, s, runs), if runs { "runs" } else { "rests" }.to_string())
        }
    }
}

fn main() -> std::io::Result<()> {
    let folder = std::env::args().nth(1).expect("usage: sample_matching FOLDER");
    let folder = Path::new(&folder);
    let (mut questions, mut answers, mut met) = (String::new(), String::new(), Met::default());
    let (mut d, mut kept) = (Draw::new(65), 0);
    for _ in 0..LOOKED_THROUGH {
        let (w, all) = make::draw(&mut d, JOURNEYS, SERVICES);
        let mut wanted = String::new();
        for asked in &all {
            let (meets, answer) = told(&w, asked);
            if met.wants(&meets, TIMES) {
                wanted.push_str(&rows::question(asked));
                answers.push_str(&format!("{answer}\n"));
                met.add(&meets);
            }
        }
        if !wanted.is_empty() {
            questions.push_str(&format!("{}{wanted}\n", rows::tables(&w)));
            kept += 1;
        }
    }
    met.print();
    assert!(!met.lacks(TIMES), "too few worlds were looked through");
    fs::write(folder.join("questions"), &questions)?;
    fs::write(folder.join("answers"), &answers)?;
    println!("{} questions of {kept} worlds in {}", answers.lines().count(), folder.display());
    Ok(())
}
