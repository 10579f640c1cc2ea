//! Compares matching and services with the Rust, world by world. Ends with status 1 where any answer differs.
//!
//!     matching DIVISOR     takes a DIVISOR-th of the worlds
#[allow(dead_code)]
#[path = "inputs/draw.rs"]
mod draw;
mod lent;
mod limits;
mod met;
mod port_matching;
mod timetable;
mod worlds;

mod taken {
    #![allow(dead_code)]
    include!(env!("ORACLE_TAKEN"));
}

use draw::Draw;
use met::Met;
use std::time::Instant;
use worlds::smaller::smaller;
use worlds::{lay, make, rows, Asked, World};

const WORLDS: u64 = 1_000_000;
const JOURNEYS: usize = 4;
const SERVICES: usize = 2;
/// How many of the questions that differ are shown.
const SHOWN: u64 = 5;

/// The port's answer and the Rust's, as text.
fn answers(w: &World, asked: &Asked) -> (String, String) {
    let mut laid = lay::lay(w);
    let epoch = timetable::epoch(w);
    laid.ask(asked);
    match asked {
        Asked::Journey(j) => (
            format!("{:?}", port_matching::match_trip(&laid)),
            format!("{:?}", Ok::<_, u32>(timetable::matched(&epoch, j))),
        ),
        Asked::Service(s) => (
            format!("{:?}", port_matching::service_runs(&laid)),
            format!("{:?}", Ok::<_, u32>(timetable::is_active(&epoch, s))),
        ),
    }
}

fn show(w: &World, asked: &Asked) {
    let (w, asked) = smaller(w, asked, &|w, asked| {
        let (port, rust) = answers(w, asked);
        port != rust
    });
    let (port, rust) = answers(&w, &asked);
    println!("port: {port}, Rust: {rust}, in the world\n{}{}", rows::tables(&w), rows::question(&asked));
}

fn main() {
    let divisor = std::env::args().nth(1).and_then(|word| word.parse().ok()).filter(|&n: &u64| n > 0);
    let Some(divisor) = divisor else {
        eprintln!("matching: the divisor is a whole number from 1");
        std::process::exit(2);
    };
    let start = Instant::now();
    let mut d = Draw::new(64);
    let (mut ways, mut limits, mut served) = (Met::default(), Met::default(), Met::default());
    let (mut journeys, mut services, mut differ, mut apart) = (0u64, 0u64, 0u64, 0u64);
    for _ in 0..WORLDS / divisor {
        let (w, asked) = make::draw(&mut d, JOURNEYS, SERVICES);
        let mut laid = lay::lay(&w);
        let epoch = timetable::epoch(&w);
        for ask in &asked {
            laid.ask(ask);
            let same = match ask {
                Asked::Journey(j) => {
                    journeys += 1;
                    let (way, met) = limits::of_journey(&w, &epoch, j);
                    ways.note(true, way);
                    limits.add(&met);
                    port_matching::match_trip(&laid) == Ok(timetable::matched(&epoch, j))
                }
                Asked::Service(s) => {
                    services += 1;
                    let runs = timetable::is_active(&epoch, s);
                    served.add(&limits::of_service(&w, s, runs));
                    apart += (runs != timetable::by_reference(&w, s)) as u64;
                    port_matching::service_runs(&laid) == Ok(runs)
                }
            };
            if !same {
                differ += 1;
                if differ <= SHOWN {
                    show(&w, ask);
                }
            }
        }
    }
    println!("{journeys} journeys of {} worlds, answered by", WORLDS / divisor);
    ways.print();
    println!("limits that they meet: of line and time, and of the tail, where no id answers");
    limits.print();
    println!("{services} services; is_active and the GTFS Schedule reference differ in {apart}");
    served.print();
    println!("{differ} differ in all; {:.1} s", start.elapsed().as_secs_f64());
    let lacking = divisor == 1 && (ways.lacks(1) || limits.lacks(1) || served.lacks(1));
    if lacking {
        println!("a limit was not met");
    }
    std::process::exit((differ + apart != 0 || lacking) as i32);
}
