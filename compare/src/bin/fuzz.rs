//! Made-up calls of every exported function for a given time, library against second implementation.
//! The exit status is 0 only if all went well; 2 means that the command was not understood.

use compare::fuzz::Fuzz;
use std::io::{stderr, IsTerminal, Write};
use std::process::ExitCode;
use std::time::{Duration, Instant, SystemTime, UNIX_EPOCH};

const USAGE: &str = "\
usage: fuzz SECONDS [SEED]        tries cases for that long; 0: one of each kind
       fuzz --case NUMBER SEED    runs that case of a seed
All are whole numbers. Without SEED one is taken from the clock, and said.";

enum Command {
    Run { seconds: u64, seed: u64 },
    Case { number: u64, seed: u64 },
}

fn main() -> ExitCode {
    let words: Vec<String> = std::env::args().skip(1).collect();
    let words: Vec<&str> = words.iter().map(String::as_str).collect();
    let well = match command(&words) {
        Ok(Command::Run { seconds, seed }) => run(seconds, seed),
        Ok(Command::Case { number, seed }) => run_case(number, seed),
        Err(why) => {
            eprintln!("fuzz: {why}\n{USAGE}");
            return ExitCode::from(2);
        }
    };
    if well {
        ExitCode::SUCCESS
    } else {
        ExitCode::FAILURE
    }
}

fn command(words: &[&str]) -> Result<Command, String> {
    let (seconds, seed) = match words {
        ["--case", number, seed] => {
            return Ok(Command::Case {
                number: whole("NUMBER", number)?,
                seed: whole("SEED", seed)?,
            })
        }
        ["--case", ..] => return Err("--case takes the case's number and a seed".to_string()),
        [seconds] => (seconds, clock_seed()),
        [seconds, seed] => (seconds, whole("SEED", seed)?),
        [] => return Err("SECONDS is missing".to_string()),
        [_, _, more, ..] => return Err(format!("one word too many: {more}")),
    };
    let seconds = whole("SECONDS", seconds)?;
    Ok(Command::Run { seconds, seed })
}

fn whole(name: &str, word: &str) -> Result<u64, String> {
    word.parse()
        .map_err(|_| format!("{name} is a whole number, and this is none: {word}"))
}

fn clock_seed() -> u64 {
    let now = SystemTime::now().duration_since(UNIX_EPOCH);
    now.map_or(0, |now| now.as_secs())
}

fn run(seconds: u64, seed: u64) -> bool {
    eprintln!("fuzz: seed {seed}, {seconds} seconds");
    let mut progress = Progress::new(seconds);
    let run = Fuzz::new(seed).run(|cases| progress.goes_on(cases));
    progress.end(run.cases);
    print!("{run}");
    run.is_well()
}

fn run_case(number: u64, seed: u64) -> bool {
    let outcome = Fuzz::new(seed).case(number);
    for (name, refusal) in &outcome.calls {
        println!("{name} gave {refusal}");
    }
    match &outcome.difference {
        Some(difference) => println!("{difference}"),
        None => println!("no difference"),
    }
    outcome.difference.is_none()
}

/// How far a run is, on standard error: on a terminal a line that is written over, else line after line.
struct Progress {
    start: Instant,
    total: Duration,
    terminal: bool,
    pause: Duration,
    due: Duration,
}

impl Progress {
    fn new(seconds: u64) -> Progress {
        let terminal = stderr().is_terminal();
        let pause = Duration::from_millis(if terminal { 500 } else { 10_000 });
        Progress {
            start: Instant::now(),
            total: Duration::from_secs(seconds),
            terminal,
            pause,
            due: pause,
        }
    }

    /// Whether there is time left; if so it is said, when due.
    fn goes_on(&mut self, cases: u64) -> bool {
        let elapsed = self.start.elapsed();
        let time_left = elapsed < self.total;
        if time_left && elapsed >= self.due {
            self.due = elapsed + self.pause;
            self.say(elapsed, cases);
        }
        time_left
    }

    fn end(&self, cases: u64) {
        self.say(self.start.elapsed(), cases);
        if self.terminal {
            eprintln!();
        }
    }

    fn say(&self, elapsed: Duration, cases: u64) {
        let (now, total) = (elapsed.as_secs(), self.total.as_secs());
        let rate = cases as f64 / elapsed.as_secs_f64();
        let line = format!("fuzz: {now}/{total} s, {cases} cases, {rate:.0} a second");
        if self.terminal {
            // back to the front, and what a longer line left is cleared
            eprint!("\r{line}\x1b[K");
            // a line that is not shown is shown the next time
            let _ = stderr().flush();
        } else {
            eprintln!("{line}");
        }
    }
}
