//! Holds the probe beside the Rust's functions: `probes PROGRAM COUNT` asks COUNT queries of generated cases, `probes PROGRAM COUNT damaged` of damaged copies.
//!
//! A text that is no case gets 11 alone; else each query gets the refusal of what it lends, or the Rust's answer.
#![allow(dead_code, unused_imports)]
mod cases;
#[path = "inputs/draw.rs"]
#[allow(dead_code)]
mod draw;
mod lent;
mod met;
mod program;
mod standin;

include!(env!("ORACLE_TAKEN"));

use cases::answers::answer;
use cases::queries::{drawn, NAMES};
use cases::read::read;
use cases::{harm, make};
use draw::Draw;
use program::Program;
use std::collections::BTreeMap;

/// Queries of one case, cases that are asked at once, and how many texts that differ are shown.
const QUERIES: u64 = 60;
const DAMAGED_QUERIES: u64 = 8;
const AT_ONCE: usize = 200;
const SHOWN: u64 = 5;

/// What was asked by a name: in all, answered by a refusal, by none, otherwise than the Rust, or left open.
#[derive(Default, Clone)]
struct Count {
    asked: u64,
    refused: u64,
    none: u64,
    differ: u64,
    open: u64,
}

/// A case with queries, somewhere among its lines.
fn probed(draw: &mut Draw, count: u64) -> String {
    let mut case = make::case(draw);
    let clocks = make::clocks(draw, &case);
    case.now = draw.one_of(&clocks);
    let mut lines: Vec<String> = case.text().lines().map(String::from).collect();
    let mut at = 0;
    for _ in 0..count {
        let name = draw.one_of(&NAMES);
        at += draw.below((lines.len() - at) as u64 + 1) as usize / 2;
        lines.insert(at, drawn(draw, &case, name));
        at += 1;
    }
    lines.join("\n") + "\n"
}

/// The name and the answer of each query; one answer without a name where the text is no case.
fn told(text: &[u8]) -> Vec<(String, Option<String>)> {
    let Some(read) = read(text, true) else {
        return vec![("no case".into(), Some("(refused 11)".into()))];
    };
    let name = |query: &str| query[1..query.len() - 1].split(' ').next().unwrap_or_default().to_string();
    read.case.queries.iter().map(|query| (name(query), answer(query, &read))).collect()
}

#[derive(Default)]
struct Counts {
    by_name: BTreeMap<String, Count>,
    asked: u64,
    differ: u64,
}

impl Counts {
    fn count(&mut self, text: &[u8], told: &[(String, Option<String>)], port: Option<&str>) {
        let lines: Option<Vec<&str>> = port.map(|port| port.split('\n').filter(|line| !line.is_empty()).collect());
        let whole = lines.as_ref().is_none_or(|lines| lines.len() == told.len());
        for (k, (name, answer)) in told.iter().enumerate() {
            let entry = self.by_name.entry(name.clone()).or_default();
            self.asked += 1;
            entry.asked += 1;
            let Some(answer) = answer else {
                entry.open += 1;
                continue;
            };
            entry.refused += answer.starts_with("(refused") as u64;
            entry.none += (answer == "(none)") as u64;
            let line = lines.as_ref().map_or(answer.as_str(), |lines| lines.get(k).copied().unwrap_or("nothing"));
            if line != answer || !whole {
                entry.differ += 1;
                self.differ += 1;
                if self.differ <= SHOWN {
                    let text = String::from_utf8_lossy(text);
                    println!("query {} of the case, {name}: {answer}\nthe probe: {line}\n{text}", k + 1);
                }
            }
        }
    }
}

fn main() {
    let words: Vec<String> = std::env::args().collect();
    let count: u64 = words[2].parse().expect("a count");
    let damaged = words.len() > 3;
    let program = Program::named(&words[1]);
    let mut draw = Draw::new(if damaged { 15 } else { 12 });
    let (mut counts, mut all) = (Counts::default(), 0);
    while counts.asked < count {
        let texts: Vec<Vec<u8>> = (0..AT_ONCE)
            .map(|_| match damaged {
                true => {
                    let text = probed(&mut draw, DAMAGED_QUERIES);
                    harm::harmed(&mut draw, &text)
                }
                false => probed(&mut draw, QUERIES).into_bytes(),
            })
            .collect();
        let answers = program.as_ref().map(|program| program.answers(&texts));
        for (k, text) in texts.iter().enumerate() {
            counts.count(text, &told(text), answers.as_ref().map(|answers| answers[k].as_str()));
        }
        all += texts.len();
    }
    println!("{} queries of {all} cases, {} differ", counts.asked, counts.differ);
    for (name, Count { asked, refused, none, differ, open }) in &counts.by_name {
        println!(
            "    {name:<12} {asked:>9} asked {refused:>9} refused {none:>9} none {open:>5} open {differ:>9} differ"
        );
    }
    std::process::exit((counts.differ > 0) as i32);
}
