//! Holds the places that a program gives beside the Rust's estimates: `places PROGRAM COUNT` asks the probe for the place at COUNT clocks.
//!
//! A place is to be the one that the Rust's estimate is drawn from, its coordinates, computed here from what was printed, those of the estimate, and over the clocks of
//! one case no place is to be astern of an earlier one.
#![allow(dead_code, unused_imports)]
mod cases;
#[path = "inputs/draw.rs"]
#[allow(dead_code)]
mod draw;
mod lent;
mod met;
mod program;
mod standin;

include!(env!("ORACLE_TAKEN"));

use cases::place::Place;
use cases::plan::Plan;
use cases::{asked, digits, make, meets, Case};
use met::Met;
use program::Program;

/// Clocks that are asked at once, and how many cases are shown.
const AT_ONCE: usize = 2000;
const SHOWN: u64 = 3;

/// A case, its clocks in order, and the Rust's line at each.
struct Sweep {
    case: Case,
    clocks: Vec<i64>,
    lines: Vec<String>,
}

impl Sweep {
    fn drawn(draw: &mut draw::Draw) -> Sweep {
        let mut case = make::case(draw);
        case.queries = vec!["(place)".into()];
        let clocks = make::sweep(draw, &case);
        let epoch = asked::epoch(&case);
        let lines = clocks.iter().map(|&now| {
            case.now = now;
            asked::board(&case, &epoch)
        });
        Sweep { lines: lines.collect(), clocks, case }
    }

    fn texts(&self) -> Vec<Vec<u8>> {
        let mut case = self.case.clone();
        let texts = self.clocks.iter().map(|&now| {
            case.now = now;
            case.text().into_bytes()
        });
        texts.collect()
    }
}

#[derive(Default)]
struct Counts {
    clocks: u64,
    sweeps: u64,
    pairs: u64,
    moved: u64,
    other: u64,
    apart: u64,
    astern: u64,
}

impl Counts {
    fn faults(&self) -> u64 {
        self.other + self.apart + self.astern
    }

    fn fault(&self, sweep: &Sweep, k: usize, what: &str) {
        if self.faults() <= SHOWN {
            println!("{what} at {}\n{}", sweep.clocks[k], sweep.case.text());
        }
    }

    /// Counts the answers to a sweep.
    fn count(&mut self, sweep: &Sweep, answers: &[String], met: &mut Met) {
        let epoch = asked::epoch(&sweep.case);
        let plan = Plan::of(&sweep.case, &epoch);
        let ordered = plan.times_ordered() && plan.lengths_fit();
        self.sweeps += ordered as u64;
        let mut before: Option<Option<Place>> = None;
        for (k, answer) in answers.iter().enumerate() {
            self.clocks += 1;
            let (now, line) = (sweep.clocks[k], &sweep.lines[k]);
            let wanted = plan.place(now);
            meets::note(met, &plan, now, wanted);
            let wanted = wanted.map_or("(none)".to_string(), |place| place.text());
            if *answer != wanted {
                self.other += 1;
                self.fault(sweep, k, &format!("{answer}, not {wanted}"));
            }
            let place = Place::parse(answer);
            if !agrees(place, &plan, line) {
                self.apart += 1;
                self.fault(sweep, k, &format!("{answer} beside {line}"));
            }
            let earlier = before.replace(place);
            if let (true, Some(earlier)) = (ordered, earlier) {
                self.pairs += 1;
                self.moved += (earlier != place) as u64;
                let ahead = match (earlier, place) {
                    (Some(earlier), Some(place)) => earlier.no_later_than(&place, &plan),
                    (None, None) => true,
                    _ => false,
                };
                if !ahead {
                    self.astern += 1;
                    self.fault(sweep, k, &format!("{answer} astern of {}", answers[k - 1]));
                }
            }
        }
    }
}

/// Whether the estimate's coordinates are those of the place, and silence stands beside none.
fn agrees(place: Option<Place>, plan: &Plan, line: &str) -> bool {
    let Some(place) = place else {
        return line == "(none)";
    };
    let words: Vec<&str> = line.split(' ').collect();
    let at = place.coordinates(plan);
    words.len() == 7 && at.is_some_and(|at| words[4] == digits(at.0) && words[5] == digits(at.1))
}

fn main() {
    let words: Vec<String> = std::env::args().collect();
    let count: u64 = words[2].parse().expect("a count");
    let program = Program::named(&words[1]);
    let mut draw = draw::Draw::new(10);
    let (mut counts, mut met, mut all) = (Counts::default(), Met::default(), 0);
    while counts.clocks < count {
        let (mut sweeps, mut texts) = (vec![], vec![]);
        while texts.len() < AT_ONCE && counts.clocks + (texts.len() as u64) < count {
            let sweep = Sweep::drawn(&mut draw);
            texts.extend(sweep.texts());
            sweeps.push(sweep);
        }
        let mut answers = match &program {
            Some(program) => program.answers(&texts),
            None => sweeps.iter().flat_map(restated).collect(),
        };
        for sweep in &sweeps {
            let rest = answers.split_off(sweep.clocks.len());
            counts.count(sweep, &answers, &mut met);
            answers = rest;
        }
        all += sweeps.len();
    }
    let Counts { clocks, sweeps, pairs, moved, other, apart, astern } = counts;
    println!("{clocks} clocks of {all} cases: {other} places other than the Rust's, {apart} apart from the estimate");
    println!("{sweeps} cases under the hypotheses, {pairs} pairs of clocks, in {moved} of which the place moves: {astern} astern");
    met.print();
    std::process::exit((counts.faults() > 0) as i32);
}

/// Places as this run finds them itself.
fn restated(sweep: &Sweep) -> Vec<String> {
    let epoch = asked::epoch(&sweep.case);
    let plan = Plan::of(&sweep.case, &epoch);
    sweep.clocks.iter().map(|&now| plan.place(now).map_or("(none)".into(), |place| place.text())).collect()
}
