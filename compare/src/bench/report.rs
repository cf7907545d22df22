//! What the bench prints.

use super::counts::count;
use super::row::{Row, Title};
use super::times::{time, PASSES, ROUNDS};
use std::env::consts::ARCH;
use std::time::{Duration, Instant};

/// Measures and prints the times.
pub fn print_times(rows: &mut [Box<dyn Row + '_>]) {
    let mut progress = Progress::new();
    let times = time(rows, |pass| progress.say(pass));
    let rounds = PASSES * ROUNDS;
    println!(
        "Compiled for {ARCH}. Microseconds of a call, the best of {rounds} rounds that take turns, and how many
times as fast as the second implementation the library is (second / library):
"
    );
    print_table(rows, &times, 3, "times as fast");
}

/// Counts and prints the instructions. The program must call [`run_marked`](super::run_marked) on `word`.
pub fn print_counts(rows: &[Box<dyn Row + '_>], word: &str) -> Result<(), String> {
    let counts: Vec<[f64; 2]> = count(rows.len(), word)?
        .into_iter()
        .map(|sides| sides.map(|instructions| instructions as f64))
        .collect();
    println!(
        "Compiled for {ARCH}. Instructions of a call, as callgrind counts them, and how many times as many the
second implementation takes as the library (second / library):
"
    );
    print_table(rows, &counts, 0, "times as many");
    Ok(())
}

/// A line for each row, with the figures of the library and of the second implementation and their ratio.
fn print_table(
    rows: &[Box<dyn Row + '_>],
    figures: &[[f64; 2]],
    decimals: usize,
    ratio_name: &str,
) {
    println!(
        "{:<21} {:<28} {:>9} {:>9}  {ratio_name}  tables",
        "function", "case", "library", "second"
    );
    for (row, [library, second]) in rows.iter().zip(figures) {
        let Title {
            function,
            case,
            tables,
        } = row.title();
        println!(
            "{function:<21} {case:<28} {library:>9.decimals$} {second:>9.decimals$}  {:>13.2}  {tables}",
            second / library
        );
    }
    println!("\n{NOTES}");
}

const NOTES: &str = "\
tables: whether the second implementation makes its tables before it is measured, once, or inside, in each
call. The library keeps no state: what it makes it makes in the call. What a call writes is cleared first; the
second implementation makes it anew where it allocates it. Both are measured.";

/// How far a run is, on standard error, every few seconds.
struct Progress {
    said: Instant,
}

impl Progress {
    fn new() -> Progress {
        Progress {
            said: Instant::now(),
        }
    }

    fn say(&mut self, pass: usize) {
        if self.said.elapsed() > Duration::from_secs(2) {
            eprintln!("bench: pass {pass} of {PASSES}");
            self.said = Instant::now();
        }
    }
}
