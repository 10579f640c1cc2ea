//! Questions and the Rust's answers as texts, for a program that replays them.
#![allow(dead_code)]
use std::fs;
use std::path::Path;

/// The lines so far. A question has one answer for each line of it that asks.
#[derive(Default)]
pub struct Sample {
    pub questions: String,
    pub answers: String,
}

impl Sample {
    pub fn add(&mut self, question: &str, answer: &str) {
        self.questions.push_str(question);
        self.questions.push('\n');
        self.answers.push_str(answer);
        self.answers.push('\n');
    }

    /// Writes FOLDER/questions and FOLDER/answers.
    pub fn write(&self, folder: &str) -> std::io::Result<()> {
        let folder = Path::new(folder);
        fs::write(folder.join("questions"), &self.questions)?;
        fs::write(folder.join("answers"), &self.answers)?;
        println!("{} questions and answers in {}", self.answers.lines().count(), folder.display());
        Ok(())
    }
}

/// A name and floats.
pub fn asked(name: &str, arguments: &[f64]) -> String {
    let mut words = vec![name.to_string()];
    words.extend(arguments.iter().map(|x| format!("{:016x}", x.to_bits())));
    words.join(" ")
}

pub fn digits(x: f64) -> String {
    if x.is_nan() {
        "7ff8000000000000".to_string()
    } else {
        format!("{:016x}", x.to_bits())
    }
}

pub fn digits_f32(x: f32) -> String {
    if x.is_nan() {
        "7fc00000".to_string()
    } else {
        format!("{:08x}", x.to_bits())
    }
}
