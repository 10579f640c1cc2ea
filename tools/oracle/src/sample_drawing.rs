//! Writes a fixed sample of worlds and journeys as pools, with the Rust's answers, for a program that replays them.
//!
//!     sample_drawing FOLDER     writes FOLDER/questions and FOLDER/answers
mod drawn;
mod inputs;
mod rust;
mod standin;

use drawn::lay::{Laid, Span, JOURNEY, TABLES};
use drawn::way::{self, Met};
use drawn::{journeys, legs};
use inputs::draw::Draw;
use rust::taken::drawing as rust_drawing;
use std::fs;
use std::path::Path;

/// How often each way is in the sample, and how many worlds are looked through for that.
const TIMES: u64 = 6;
const LOOKED_THROUGH: u64 = 20_000;
/// No pool of the sample is longer, so that the program's arrays hold it.
const MOST: usize = 900;
/// The column of the trip asked of, as crate `worlds` counts them.
const ASKED: usize = 91;

/// The pools: bytes, words after the layout of the columns, and reals, each number a word of the text.
fn pools(laid: &Laid, head: &[u32]) -> String {
    let numbers = |letter: char, all: &mut dyn Iterator<Item = u64>| {
        all.map(|n| format!("{letter}{n}")).collect::<Vec<_>>().join(" ")
    };
    let words = &mut head.iter().chain(&laid.words).map(|&n| n as u64);
    let reals: Vec<String> = laid.reals.iter().map(|x| format!("r{:016x}", x.to_bits())).collect();
    format!("{} {} {}", numbers('b', &mut laid.bytes.iter().map(|&b| b as u64)), numbers('w', words), reals.join(" "))
}

/// Each column's place, among words that begin with these.
fn places(laid: &Laid, of_words: &dyn Fn(usize) -> bool, head: u32) -> Vec<u32> {
    (laid.columns.iter().enumerate())
        .flat_map(|(k, &Span { at, n })| [if of_words(k) { at + head } else { at }, n])
        .collect()
}

fn told(points: &[[f64; 2]], room: usize) -> String {
    if room < points.len() {
        return "refused 9\n".to_string();
    }
    let rows: Vec<String> = points.iter().map(|p| format!(" {:016x} {:016x}", p[0].to_bits(), p[1].to_bits())).collect();
    format!("points {}{}\n", points.len(), rows.concat())
}

/// Whether one of these was met less often than it should be.
fn wants(met: &Met, meets: &Met) -> bool {
    meets.0.keys().any(|what| met.0.get(what).copied().unwrap_or(0) < TIMES)
}

fn add(met: &mut Met, meets: &Met) {
    for (what, times) in &meets.0 {
        *met.0.entry(what).or_default() += times;
    }
}

fn small(laid: &Laid) -> bool {
    laid.bytes.len() < MOST && laid.words.len() < MOST && laid.reals.len() < MOST
}

fn main() -> std::io::Result<()> {
    let folder = std::env::args().nth(1).expect("usage: sample_drawing FOLDER");
    let folder = Path::new(&folder);
    let (mut questions, mut answers) = (String::new(), String::new());
    let (mut of_legs, mut of_journeys) = (Met::default(), Met::default());
    let mut d = Draw::new(73);
    for i in 0..LOOKED_THROUGH {
        let world = legs::world(&mut d, i);
        let asked = legs::asked(&mut d, &world);
        let mut laid = Laid::of_world(&world);
        laid.ask(&asked);
        let mut meets = Met::default();
        way::of_leg(&mut meets, &world, &asked);
        if !small(&laid) || !wants(&of_legs, &meets) {
            continue;
        }
        add(&mut of_legs, &meets);
        let want = rust_drawing::leg_geometry(&world.epoch(), &asked.trip, asked.from, asked.to);
        let room = want.len() + i as usize % 3 - (i as usize % 7 == 0 && !want.is_empty()) as usize;
        // the words begin with the offsets, the room, and from word 12 on the layout of the tables and of the trip asked of
        let head = 12 + 2 * (ASKED as u32 + 2);
        let mut first = vec![0; head as usize];
        first[..3].copy_from_slice(&[asked.from, asked.to, room as u32]);
        let of_words = |k: usize| ![4, 5, 6, 15, 16, 26, 27, 32, 33].contains(&k);
        let laid_out = places(&laid, &of_words, head);
        first[12..12 + 2 * TABLES].copy_from_slice(&laid_out[..2 * TABLES]);
        first[12 + 2 * ASKED..16 + 2 * ASKED].copy_from_slice(&laid_out[2 * TABLES..]);
        questions.push_str(&format!("{} ?0\n", pools(&laid, &first)));
        answers.push_str(&told(&want, room));
    }
    for i in 0..LOOKED_THROUGH {
        let ways = journeys::journey(&mut d);
        let want = rust_drawing::journey_geometry(&journeys::legs(&ways));
        let mut meets = Met::default();
        way::of_journey(&mut meets, &ways, &want);
        if !wants(&of_journeys, &meets) {
            continue;
        }
        add(&mut of_journeys, &meets);
        let laid = Laid::of_journey(&ways);
        let room = want.len() + i as usize % 3 - (i as usize % 5 == 0 && !want.is_empty()) as usize;
        let head = 12 + 2 * JOURNEY as u32;
        let mut first = vec![0; 12];
        first[2] = room as u32;
        first.extend(places(&laid, &|k| k == 1 || k == 2, head));
        questions.push_str(&format!("{} ?1\n", pools(&laid, &first)));
        answers.push_str(&told(&want, room));
    }
    of_legs.print();
    of_journeys.print();
    let lacks = |met: &Met, all: &[&'static str]| all.iter().any(|what| met.0.get(what).copied().unwrap_or(0) < TIMES);
    assert!(!lacks(&of_legs, &way::OF_LEGS) && !lacks(&of_journeys, &way::OF_JOURNEYS), "too few were looked through");
    fs::write(folder.join("questions"), &questions)?;
    fs::write(folder.join("answers"), &answers)?;
    println!("{} questions in {}", answers.lines().count(), folder.display());
    Ok(())
}
