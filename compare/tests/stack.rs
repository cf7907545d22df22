//! The stack that each exported function takes, as stack.c measures it, against the figures of include/opl.h.

mod program;

use compare::fuzz::entries;
use compare::inputs;
use compare::rng::Rng;
use compare::second::signalling::sheet_of;
use program::{build, figure, file, made, run};
use std::fs;
use std::path::PathBuf;
use std::sync::OnceLock;

/// The most bytes that a function took in calls that gave this number.
struct Taken {
    function: String,
    number: u8,
    bytes: usize,
}

/// What the program prints.
fn taken() -> &'static [Taken] {
    static TAKEN: OnceLock<Vec<Taken>> = OnceLock::new();
    TAKEN.get_or_init(|| {
        let program = made("stack");
        build(&program, &[file("compare/stack.c")], "c11");
        let printed = run(&program, &sheets());
        println!("{printed}");
        printed.lines().map(line).collect()
    })
}

/// Sheets on either side of the bound, and any.
fn sheets() -> Vec<PathBuf> {
    let mut rng = Rng::new(700);
    let bound = inputs::points_at_the_bound().map(|(description, _)| sheet_of(&description));
    let any = (0..8).map(|_| inputs::sheet(&mut rng));
    bound
        .into_iter()
        .chain(any)
        .enumerate()
        .map(|(index, sheet)| {
            let name = made(&format!("{index}.sheet"));
            fs::write(&name, sheet).expect("a sheet is put there");
            name
        })
        .collect()
}

fn line(line: &str) -> Taken {
    let words: Vec<&str> = line.split(' ').collect();
    let [function, number, bytes] = words[..] else {
        panic!("a line of three words: {line}")
    };
    Taken {
        function: function.to_string(),
        number: number.parse().expect("a refusal number"),
        bytes: bytes.parse().expect("a number of bytes"),
    }
}

/// The most bytes that opl_encode took, or that any other function did.
fn most(encode: bool) -> usize {
    taken()
        .iter()
        .filter(|taken| (taken.function == "opl_encode") == encode)
        .map(|taken| taken.bytes)
        .max()
        .expect("it was called")
}

#[test]
fn every_function_is_measured_accepted_and_with_each_refusal() {
    for entry in entries() {
        for number in [0].iter().chain(entry.order) {
            let found = taken()
                .iter()
                .any(|taken| taken.function == entry.name && taken.number == *number);
            assert!(found, "{} was not measured with {number}", entry.name);
        }
    }
}

#[test]
fn opl_encode_takes_what_is_said_and_not_much_less() {
    let (said, took) = (figure("OPL_ENCODE_STACK"), most(true));
    assert!(
        took <= said,
        "opl_encode takes {took} bytes, {said} are said"
    );
    assert!(
        4 * said <= 5 * took,
        "{said} bytes are more than a quarter above {took}, which opl_encode takes"
    );
}

#[test]
fn each_other_function_takes_no_more_than_is_said() {
    let said = figure("OPL_OTHER_STACK");
    for Taken {
        function, bytes, ..
    } in taken()
        .iter()
        .filter(|taken| taken.function != "opl_encode")
    {
        assert!(
            *bytes <= said,
            "{function} takes {bytes} bytes, {said} are said"
        );
    }
    let took = most(false);
    assert!(
        said <= 4 * took,
        "{said} bytes are more than four times {took}, the most that one of them takes"
    );
}
