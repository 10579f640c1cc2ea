//! Writes a fixed sample of cases and what the Board is to print of each, for a program that replays them.
//!
//!     sample_board FOLDER     writes FOLDER/questions and FOLDER/answers
//!
//! A case ends with a line `(end)`; an answer is a line. The answers are the Rust's, or the refusal's number; no program is asked.
#![allow(dead_code, unused_imports)]
mod cases;
#[path = "inputs/draw.rs"]
#[allow(dead_code)]
mod draw;
mod lent;
mod met;
mod standin;

include!(env!("ORACLE_TAKEN"));

use cases::plan::Plan;
use cases::told::told;
use cases::{asked, harm, make, meets};
use draw::Draw;
use met::Met;
use std::fs;
use std::path::Path;

/// How often each thing is to be met, how many cases are looked through for that, and how long a case may be, shorter ones first.
const TIMES: u64 = 3;
const LOOKED_THROUGH: u64 = 20_000;
const LONGEST: [usize; 3] = [600, 1_200, 1_000_000];

/// Cases by hand: document 01's own; a call whose stop is on no row, with a row of its sequence that has no position and a lower sequence after it; the end of a
/// leg of one second, to a call that departs before it arrives.
const BY_HAND: [&str; 3] = [
    "(feed f)
(trip t)
(now 250)
(stop f:a 0000000000000000 0000000000000000)
(stop f:b 0000000000000000 3ff0000000000000)
(update 1 f:a (arr 100) (dep 100))
(update 2 f:b (arr 400) (dep 400))
",
    "(feed f)
(trip t)
(now 950)
(update 5 f:a (arr 1000) (dep 1000))
(stop f:a 0000000000000000 0000000000000000)
(stop f:b 0000000000000000 3ff0000000000000)
(stop f:c)
(static t f s)
(call 5 2 0 0)
(call 3 1 100 100)
",
    "(feed f)
(trip t)
(now 101)
(update 1 f:a (arr 100) (dep 100))
(update 2 f:b (arr 101) (dep 50))
(stop f:a 0000000000000000 0000000000000000)
(stop f:b 0000000000000000 3ff0000000000000)
",
];

#[derive(Default)]
struct Sample {
    questions: String,
    answers: String,
    met: Met,
}

impl Sample {
    fn put(&mut self, text: &str, answer: &str, meets: &Met) {
        let end = if text.is_empty() || text.ends_with('\n') { "" } else { "\n" };
        self.questions.push_str(&format!("{text}{end}(end)\n"));
        self.answers.push_str(&format!("{answer}\n"));
        self.met.add(meets);
    }

    /// Clocks of a good case that meet something still wanted.
    fn look_at_case(&mut self, draw: &mut Draw, longest: usize) {
        let mut case = make::case(draw);
        let epoch = asked::epoch(&case);
        for now in make::clocks(draw, &case) {
            case.now = now;
            let text = case.text();
            let mut meets = Met::default();
            let plan = Plan::of(&case, &epoch);
            meets::note(&mut meets, &plan, now, plan.place(now));
            self.met.heed(&meets);
            if text.len() <= longest && self.met.wants(&meets, TIMES) {
                self.put(&text, &asked::board(&case, &epoch), &meets);
            }
        }
    }

    /// A damaged copy whose refusal is still wanted.
    fn look_at_damage(&mut self, draw: &mut Draw, longest: usize) {
        let mut case = make::case(draw);
        let clocks = make::clocks(draw, &case);
        case.now = draw.one_of(&clocks);
        let Ok(text) = String::from_utf8(harm::harmed(draw, &case.text())) else {
            return;
        };
        let Some(answer) = told(text.as_bytes()) else {
            return;
        };
        let mut meets = Met::default();
        for name in REFUSALS {
            meets.note(answer == format!("({name})"), name);
        }
        self.met.heed(&meets);
        if text.len() <= longest && self.met.wants(&meets, 2 * TIMES) {
            self.put(&text, &answer, &meets);
        }
    }
}

const REFUSALS: [&str; 9] = [
    "refused 2",
    "refused 3",
    "refused 4",
    "refused 5",
    "refused 6",
    "refused 7",
    "refused 8",
    "refused 10",
    "refused 11",
];

fn main() -> std::io::Result<()> {
    let folder = std::env::args().nth(1).expect("usage: sample_board FOLDER");
    let folder = Path::new(&folder);
    let (mut sample, mut draw) = (Sample::default(), Draw::new(14));
    for text in BY_HAND {
        sample.put(text, &told(text.as_bytes()).expect("no tie"), &Met::default());
    }
    for longest in LONGEST {
        for _ in 0..LOOKED_THROUGH {
            sample.look_at_case(&mut draw, longest);
            sample.look_at_damage(&mut draw, longest);
        }
    }
    sample.met.print();
    assert!(!sample.met.lacks(TIMES), "too few cases were looked through");
    fs::write(folder.join("questions"), &sample.questions)?;
    fs::write(folder.join("answers"), &sample.answers)?;
    println!("{} cases, {} bytes, in {}", sample.answers.lines().count(), sample.questions.len(), folder.display());
    Ok(())
}
