//! Holds the Board's answers to damaged copies of good cases beside what they are to be: `damaged PROGRAM COUNT`.
//!
//! 11 exactly where a reader of its own says that the text is no case; else the first of document 01's refusals, restated; else the Rust's line. Nothing is to crash or hang.
#![allow(dead_code, unused_imports)]
mod cases;
#[path = "inputs/draw.rs"]
#[allow(dead_code)]
mod draw;
mod lent;
mod met;
mod program;
mod standin;

include!(env!("ORACLE_TAKEN"));

use cases::told::told;
use cases::{harm, limits, make};
use draw::Draw;
use program::Program;
use std::collections::BTreeMap;

/// Texts that are asked at once, and how many that differ are shown.
const AT_ONCE: usize = 2000;
const SHOWN: u64 = 5;
/// Copies that are made of one case.
const COPIES: u64 = 20;

/// Damaged copies of one case. One in four is damaged twice.
fn copies(draw: &mut Draw) -> Vec<Vec<u8>> {
    let mut case = make::case(draw);
    let clocks = make::clocks(draw, &case);
    case.now = draw.one_of(&clocks);
    let text = case.text();
    let copies = (0..COPIES).map(|_| {
        let harmed = harm::harmed(draw, &text);
        match String::from_utf8(harmed) {
            Ok(harmed) if harmed.len() > 20 && draw.below(4) == 0 => harm::harmed(draw, &harmed),
            Ok(harmed) => harmed.into_bytes(),
            Err(bytes) => bytes.into_bytes(),
        }
    });
    copies.collect()
}

/// A refusal, or what else the line is.
fn kind(line: &str) -> String {
    if line.starts_with("(at ") {
        "an estimate".into()
    } else {
        line.into()
    }
}

/// Asks of the texts at the limits, prints each, and returns how many are answered otherwise.
fn at_limits(program: &Option<Program>) -> u64 {
    let (names, texts): (Vec<String>, Vec<Vec<u8>>) =
        limits::all().into_iter().map(|(name, text)| (name, text.into_bytes())).unzip();
    let lines: Vec<String> = texts.iter().map(|text| told(text).expect("no tie")).collect();
    let answers = program.as_ref().map_or(lines.clone(), |program| program.answers(&texts));
    let mut differ = 0;
    for ((name, line), answer) in names.iter().zip(&lines).zip(&answers) {
        let apart = if line == answer { String::new() } else { format!(", the Board: {answer}") };
        println!("    {name:<40} {}{apart}", kind(line));
        differ += (line != answer) as u64;
    }
    differ
}

fn main() {
    let words: Vec<String> = std::env::args().collect();
    let count: u64 = words[2].parse().expect("a count");
    let program = Program::named(&words[1]);
    let mut draw = Draw::new(11);
    let (mut asked, mut differ, mut kept) = (0, at_limits(&program), 0);
    let mut kinds: BTreeMap<String, u64> = BTreeMap::new();
    while asked < count {
        let (mut texts, mut lines) = (vec![], vec![]);
        while texts.len() < AT_ONCE && asked + (texts.len() as u64) < count {
            for text in copies(&mut draw) {
                match told(&text) {
                    Some(line) => {
                        texts.push(text);
                        lines.push(line);
                    }
                    None => kept += 1,
                }
            }
        }
        asked += texts.len() as u64;
        lines.iter().for_each(|line| *kinds.entry(kind(line)).or_default() += 1);
        let Some(program) = &program else {
            continue;
        };
        for (k, answer) in program.answers(&texts).into_iter().enumerate() {
            if answer != lines[k] {
                differ += 1;
                if differ <= SHOWN {
                    println!("to be: {}\nthe Board: {answer}\n{}", lines[k], String::from_utf8_lossy(&texts[k]));
                }
            }
        }
    }
    println!("{asked} damaged copies, {differ} answered otherwise; {kept} left out for a tie of best stops");
    for (kind, count) in kinds {
        println!("    {kind:<30} {count:>9}");
    }
    std::process::exit((differ > 0) as i32);
}
