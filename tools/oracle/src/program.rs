//! Asks a program that reads one text from its standard input: many texts, two at a time.
use std::io::{Read, Write};
use std::process::{Child, Command, Stdio};
use std::sync::atomic::{AtomicUsize, Ordering};
use std::time::{Duration, Instant};

/// Programs that run at once.
const AT_ONCE: usize = 2;
/// A program that takes longer is said to hang.
const LONGEST: Duration = Duration::from_secs(20);

/// Its first word, and those that it is started with.
#[derive(Clone)]
pub struct Program(Vec<String>);

/// Waits for the end of a program that has written all it has to write.
fn ended(child: &mut Child) -> String {
    let start = Instant::now();
    loop {
        match child.try_wait().expect("a program that was started") {
            Some(status) if status.code().is_some() => return String::new(),
            Some(status) => return format!("ended by {status}"),
            None if start.elapsed() > LONGEST => {
                let _ = child.kill();
                let _ = child.wait();
                return "did not end".into();
            }
            None => std::thread::sleep(Duration::from_micros(200)),
        }
    }
}

impl Program {
    /// The words of a command, or none for `-`.
    pub fn named(command: &str) -> Option<Program> {
        let words: Vec<String> = command.split_whitespace().map(String::from).collect();
        (command != "-" && !words.is_empty()).then_some(Program(words))
    }

    /// What the program writes to its standard output, without the last newline; how it ended where it did not end by itself.
    fn ask(&self, text: &[u8]) -> String {
        let mut child = Command::new(&self.0[0])
            .args(&self.0[1..])
            .stdin(Stdio::piped())
            .stdout(Stdio::piped())
            .stderr(Stdio::null())
            .spawn()
            .expect("the program starts");
        // A program that ends early is told by its answer.
        let _ = child.stdin.take().expect("its input").write_all(text);
        let mut output = child.stdout.take().expect("its output");
        let reader = std::thread::spawn(move || {
            let mut out = Vec::new();
            let _ = output.read_to_end(&mut out);
            out
        });
        let end = ended(&mut child);
        let out = reader.join().expect("its output is read");
        if !end.is_empty() {
            return end;
        }
        let out: String = out.iter().map(|&byte| byte as char).collect();
        out.strip_suffix('\n').unwrap_or(&out).to_string()
    }

    /// The answers to texts, in their order.
    pub fn answers(&self, texts: &[Vec<u8>]) -> Vec<String> {
        let next = AtomicUsize::new(0);
        let mut all: Vec<(usize, String)> = std::thread::scope(|scope| {
            let work = || {
                let mut done = vec![];
                loop {
                    let k = next.fetch_add(1, Ordering::Relaxed);
                    let Some(text) = texts.get(k) else {
                        return done;
                    };
                    done.push((k, self.ask(text)));
                }
            };
            let workers: Vec<_> = (0..AT_ONCE).map(|_| scope.spawn(work)).collect();
            workers.into_iter().flat_map(|worker| worker.join().expect("answers")).collect()
        });
        all.sort();
        all.into_iter().map(|(_, answer)| answer).collect()
    }
}
