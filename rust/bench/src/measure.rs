//! Timing: two sides in turn over several rounds, the median of each, and a table in markdown.

use std::hint::black_box;
use std::time::{Duration, Instant};

/// Rounds; in each both sides are timed, and who goes first changes from round to round.
const ROUNDS: usize = 31;
/// About how long a side is timed in one round; a call that takes longer is made once.
const ROUND: Duration = Duration::from_millis(2);
/// An input on which a call of either side takes longer than this is timed over fewer rounds.
const SLOW: Duration = Duration::from_millis(100);
const SLOW_ROUNDS: usize = 5;

/// A table that is printed row by row.
pub struct Table;

impl Table {
    /// A table with its heading printed.
    pub fn open(title: &str) -> Table {
        println!("\n### {title}\n");
        println!("| Input | Library, µs | Rust, µs | Library / Rust |");
        println!("|---|---|---|---|");
        Table
    }

    /// Measures one input and prints its row; answers the library's time in microseconds.
    pub fn row<A, B>(&self, input: &str, mut library: impl FnMut() -> A, mut rust: impl FnMut() -> B) -> f64 {
        let (library, rust) = medians(&mut library, &mut rust);
        println!("| {input} | {library:.1} | {rust:.1} | {:.2} |", library / rust);
        library
    }
}

/// The medians of both sides, in microseconds for a call.
fn medians<A, B>(library: &mut impl FnMut() -> A, rust: &mut impl FnMut() -> B) -> (f64, f64) {
    let (library_pace, rust_pace) = (Pace::of(library), Pace::of(rust));
    let (mut library_times, mut rust_times) = (Vec::new(), Vec::new());
    let rounds = if library_pace.is_slow || rust_pace.is_slow { SLOW_ROUNDS } else { ROUNDS };
    for round in 0..rounds {
        if round % 2 == 0 {
            library_times.push(micros(library, library_pace.calls));
            rust_times.push(micros(rust, rust_pace.calls));
        } else {
            rust_times.push(micros(rust, rust_pace.calls));
            library_times.push(micros(library, library_pace.calls));
        }
    }
    (median(library_times), median(rust_times))
}

/// How many calls of a side fill a round, and whether one alone is slow.
struct Pace {
    calls: u32,
    is_slow: bool,
}

impl Pace {
    /// Found by some calls that are not counted.
    fn of<T>(call: &mut impl FnMut() -> T) -> Pace {
        let start = Instant::now();
        let mut calls = 0;
        while start.elapsed() < ROUND {
            black_box(call());
            calls += 1;
        }
        Pace { calls, is_slow: start.elapsed() > SLOW }
    }
}

/// Microseconds for a call, over so many calls.
fn micros<T>(call: &mut impl FnMut() -> T, calls: u32) -> f64 {
    let start = Instant::now();
    for _ in 0..calls {
        black_box(call());
    }
    start.elapsed().as_secs_f64() * 1e6 / f64::from(calls)
}

fn median(mut times: Vec<f64>) -> f64 {
    times.sort_by(f64::total_cmp);
    times[times.len() / 2]
}
