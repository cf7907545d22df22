//! `make bench`: the time of every exported function and of its counterpart in the second implementation,
//! on the same inputs, in rounds that take turns, the best of each. Nothing is asserted of a time.
//!
//! `make bench counts=1`, which runs `bench counts`: the instructions of a call instead, as valgrind's
//! callgrind counts them. They hardly change from run to run, whatever else the machine does.
//!
//! Both sides have to write the same, which is looked at outside the clock. What a call writes is cleared
//! first, and that is measured too; compare's own guards and copies are not.

#[cfg(bridged)]
fn main() {
    eprintln!(
        "bench: the library would run under an emulator, whose times mean nothing: run `make bench`"
    );
    std::process::exit(2);
}

#[cfg(not(bridged))]
fn main() -> std::process::ExitCode {
    use compare::bench;
    use compare::second::turbo::Encoder;
    use std::process::ExitCode;

    /// The word with which the program has callgrind run it.
    const MARKED: &str = "marked";

    let encoder = Encoder::new();
    let mut rows = bench::rows(&encoder);
    let words: Vec<String> = std::env::args().skip(1).collect();
    match words.iter().map(String::as_str).collect::<Vec<_>>()[..] {
        [] => bench::print_times(&mut rows),
        ["counts"] => {
            if let Err(why) = bench::print_counts(&rows, MARKED) {
                eprintln!("bench: {why}");
                return ExitCode::FAILURE;
            }
        }
        [MARKED] => bench::run_marked(&mut rows),
        _ => {
            eprintln!("usage: bench [counts]");
            return ExitCode::from(2);
        }
    }
    ExitCode::SUCCESS
}
