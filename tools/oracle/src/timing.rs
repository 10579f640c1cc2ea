//! How the benches time: by the thread's own time on the processor, since a busy machine sets a pass aside for others, which a clock on the wall would count.
#![allow(dead_code)]

const REPETITIONS: usize = 40;
/// What one repetition should take at least, in microseconds.
const ENOUGH: f64 = 200.0;
/// The system's clock of a thread's time.
const THREAD: i32 = 3;

#[repr(C)]
#[derive(Default)]
struct Moment {
    seconds: i64,
    nanoseconds: i64,
}

extern "C" {
    fn clock_gettime(clock: i32, moment: *mut Moment) -> i32;
}

fn nanoseconds() -> i64 {
    let mut moment = Moment::default();
    assert_eq!(unsafe { clock_gettime(THREAD, &mut moment) }, 0, "no clock of the thread's time");
    moment.seconds * 1_000_000_000 + moment.nanoseconds
}

pub type Pass<'a> = &'a mut dyn FnMut();

/// Microseconds of one pass, over so many.
fn spent(count: usize, pass: &mut Pass) -> f64 {
    let start = nanoseconds();
    for _ in 0..count {
        pass();
    }
    (nanoseconds() - start) as f64 / 1e3 / count as f64
}

/// Microseconds of each pass, the least of the repetitions, in which they take turns.
pub fn least<const N: usize>(mut passes: [Pass; N]) -> [f64; N] {
    let counts = passes.each_mut().map(|pass| (ENOUGH / spent(1, pass)).ceil().max(1.0) as usize);
    let mut times = [f64::INFINITY; N];
    for _ in 0..REPETITIONS {
        for k in 0..N {
            times[k] = times[k].min(spent(counts[k], &mut passes[k]));
        }
    }
    times
}

/// Prints the head of a table in this unit.
pub fn head(unit: &str) {
    println!("{unit:<52} {:>9} {:>9} {:>9}", "port", "Rust", "ratio");
}

/// Prints a line of a table: the port's time and the Rust's.
pub fn row(name: &str, [port, rust]: [f64; 2]) {
    println!("{name:<52} {port:>9.1} {rust:>9.1} {:>9.2}", port / rust);
}
