//! What compare/ reads of include/opl.h, and what it writes from that: every function, with every number and
//! buffer that it has.

use compare::calls::{every_entry, Argument};
use compare::fuzz::{Entry, Fuzz, Visitor};
use compare::prototypes::{c, functions, parse, values, Fault, Form, Parameter, Prototype};
use compare::rng::Rng;

const HEADER: &str = include_str!("../../include/opl.h");
/// The source that the header's functions are exported from.
const EXPORTED: &str = include_str!("../../crates/opl/src/lib.rt");

/// A header with all that one may have, and functions with parameters of every kind.
const MADE_UP: &str = r#"/* uint8_t opl_not_this(uint8_t *out, size_t n); */
#ifndef MADE_UP_H
#define TWO_LINES \
    uint8_t opl_nor_this(uint8_t *out, size_t n);
#ifdef __cplusplus
extern "C" {
#endif
enum made_up { ACCEPTED = 0, /* nothing */ LENGTH = 1 };
uint8_t opl_sum(const float *weights, size_t w, float *sums, size_t s, const int32_t *terms, size_t t);
/*
 * A state, and numbers between the buffers.
 */
uint8_t opl_state_go(const uint16_t *profile, size_t n, uint32_t type, uint8_t *state,
                     size_t k, uint8_t flag, // the last number
                     int8_t *out, size_t m);
uint8_t opl_all(uint32_t *a, size_t i, const int16_t *b, size_t j);
#ifdef __cplusplus
}
#endif
#endif
"#;

fn made_up() -> Vec<Prototype> {
    parse(MADE_UP).expect("it is understood")
}

/// A parameter in a few words: its name, its type in Rust, how it is lent and the name of its length.
fn words(parameter: &Parameter) -> String {
    let (name, scalar) = (&parameter.name, parameter.scalar.rust);
    match &parameter.form {
        Form::Number => format!("{name} {scalar}"),
        Form::Read { length } => format!("{name} {scalar} read {length}"),
        Form::Written { length } => format!("{name} {scalar} written {length}"),
    }
}

#[test]
fn parameters_of_every_kind_are_read() {
    let read = made_up().into_iter().map(|function| {
        let parameters: Vec<String> = function.parameters.iter().map(words).collect();
        let (line, name) = (function.line, function.name);
        format!("{line} {name}: {}", parameters.join(", "))
    });
    let due = [
        "9 opl_sum: weights f32 read w, sums f32 written s, terms i32 read t",
        "13 opl_state_go: profile u16 read n, type u32, state u8 written k, flag u8, out i8 written m",
        "16 opl_all: a u32 written i, b i16 read j",
    ];
    assert_eq!(read.collect::<Vec<String>>(), due);
}

/// A function's end, and what is said of it.
const FAULTS: [(&str, &str); 12] = [
    (";", "1: expected ( and parameters, found ;"),
    ("(void);", "int32_t, float), found void"),
    ("(size_t n);", "int32_t, float), found size_t"),
    (
        "(uint16_t a);",
        "1: expected * after uint16_t, as a number is uint8_t or uint32_t, found a",
    ),
    (
        "(const uint8_t a);",
        "1: expected * and the name of a buffer, found a",
    ),
    (
        "(uint8_t **a, size_t n);",
        "1: expected the name of a buffer, found *",
    ),
    (
        "(uint8_t *a);",
        "1: expected a length of type size_t after the buffer a, found )",
    ),
    (
        "(uint8_t a, uint8_t *b,\nuint32_t n);",
        "2: expected a length of type size_t after the buffer b, found uint32_t",
    ),
    (
        "(uint8_t a b);",
        "1: expected ) or another parameter, found b",
    ),
    ("(uint8_t a)\n\n", "2: expected ;, found the end"),
    (
        "(uint8_t a);\n/*\n*/ int opl_y(uint8_t a);",
        "3: expected a function that returns uint8_t, found int",
    ),
    (
        "(uint8_t a);\nuint8_t y(uint8_t a);",
        "2: expected a name that begins with opl_, found y",
    ),
];

#[test]
fn what_is_not_understood_is_said_with_its_line() {
    for (end, due) in FAULTS {
        let text = format!("uint8_t opl_x{end}");
        let Fault { line, what } = parse(&text).expect_err(&text);
        let said = format!("{line}: {what}");
        assert!(said.ends_with(due), "{text}\n{said}");
    }
}

/// Panics unless all of these parts are in the text.
#[track_caller]
fn has(text: &str, parts: &[&str]) {
    for part in parts {
        assert!(text.contains(part), "{part}\nis not in\n{text}");
    }
}

#[test]
fn functions_are_written_with_every_parameter() {
    let made_up = made_up();
    has(
        &functions::direct(&made_up),
        &[
            "fn opl_all(a: *mut u32, i: usize, b: *const i16, j: usize) -> u8;",
            "(\"opl_state_go\", [r#type, flag], [profile, state, out]) => opl_state_go(",
        ],
    );
    has(
        &functions::guarded(&made_up),
        &[
            "fn state_go(profile: &[u16], r#type: u32, state: &mut [u8], flag: u8, out: &mut [i8]) -> u8",
            "lend(\"opl_all\", &[], &mut [&mut Lent::written(a), &mut Lent::read(b)])",
        ],
    );
    has(
        &functions::bare(&made_up),
        &["direct::opl_all(a.as_mut_ptr(), a.len(), b.as_ptr(), b.len())"],
    );
}

#[test]
fn values_are_written_with_every_parameter() {
    let field = |name: &str, of: &str| format!("    pub {name}: {of},\n");
    let fields = [
        field("profile", "Vec<u16>"),
        field("r#type", "u32"),
        field("state", "Vec<u8>"),
        field("flag", "u8"),
        field("out", "Vec<i8>"),
    ];
    has(
        &values::calls(&made_up()),
        &[
            &format!("pub struct StateGo {{\n{}}}", fields.concat()),
            "opl::sum(&self.weights, &mut self.sums, &self.terms)",
            "vec![&mut self.state, &mut self.out]",
            "visitor.visit::<Sum>();\n    visitor.visit::<StateGo>();\n    visitor.visit::<All>();",
        ],
    );
}

#[test]
fn c_functions_are_written_with_every_parameter() {
    let buffer = |index: usize| format!("a->buffer[{index}].lent, a->buffer[{index}].n");
    let [profile, state, out] = [0, 1, 2].map(buffer);
    let (kind, flag) = ("(uint32_t)a->number[0]", "(uint8_t)a->number[1]");
    has(
        &c::calls(&made_up()),
        &[
            "enum { NUMBERS = 2, BUFFERS = 3 };",
            &format!("return opl_state_go({profile}, {kind}, {state}, {flag}, {out});"),
            "[STATE_GO] = {\"opl_state_go\", 2, 3, call_state_go}",
        ],
    );
}

fn declared() -> Vec<Prototype> {
    parse(HEADER).expect("it is understood")
}

/// Whatever in the header looks like a function is one that is read from it.
#[test]
fn every_function_of_the_header_is_read() {
    let functions = declared();
    let names: Vec<&str> = functions
        .iter()
        .map(|function| &function.name[..])
        .collect();
    let begins = HEADER
        .lines()
        .filter(|line| line.starts_with("uint8_t opl_"));
    assert_eq!(begins.count(), names.len());
    for name in &names {
        assert!(HEADER.contains(&format!("\nuint8_t {name}(")), "{name}");
    }
    assert!(names.contains(&"opl_preamble") && names.contains(&"opl_place"));
}

#[test]
fn every_function_of_the_header_is_fuzzed() {
    let run = Fuzz::new(710).run(|_| false);
    for Prototype { name, .. } in declared() {
        assert!(run.tally.count(&name, 0) > 0, "{name}\n{run}");
    }
}

/// The numbers and buffers of each call are those of its prototype.
#[test]
fn every_call_has_the_arguments_of_its_prototype() {
    struct Held(std::vec::IntoIter<Prototype>);
    impl Visitor for Held {
        fn visit<E: Entry>(&mut self) {
            let prototype = self.0.next().expect("a function");
            assert_eq!(prototype.name, E::NAME);
            let mut call = E::accepted(&mut Rng::new(711));
            assert_eq!(call.written().len(), prototype.written().count());
            assert_eq!(call.arguments().len(), prototype.parameters.len());
            for (parameter, (name, argument)) in prototype.parameters.iter().zip(call.arguments()) {
                let bits = parameter.scalar.rust[1..]
                    .parse::<usize>()
                    .expect("its bits");
                assert_eq!(parameter.name, name);
                match argument {
                    Argument::Number(_) => assert_eq!(parameter.form, Form::Number),
                    Argument::Buffer(buffer) => assert_eq!(4 * buffer.digits(), bits, "{name}"),
                }
            }
        }
    }
    let mut held = Held(declared().into_iter());
    every_entry(&mut held);
    assert!(held.0.next().is_none());
}

/// A function's name and the types of its parameters, of a prototype.
fn signature(prototype: &Prototype) -> (String, Vec<String>) {
    let types = prototype.parameters.iter().map(|parameter| {
        let scalar = parameter.scalar.rust;
        match parameter.form {
            Form::Number => scalar.to_string(),
            Form::Read { .. } => format!("&[{scalar}]"),
            Form::Written { .. } => format!("&mut [{scalar}]"),
        }
    });
    (prototype.name.clone(), types.collect())
}

/// The same of `NAME(PARAMETER: TYPE, ..)`, and whatever comes after.
fn exported_signature(text: &str) -> (String, Vec<String>) {
    let (name, rest) = text.split_once('(').expect("parameters");
    let (parameters, _) = rest.split_once(')').expect("the end of the parameters");
    let types = parameters
        .split(',')
        .filter_map(|parameter| parameter.split_once(':'));
    let types = types.map(|(_, of)| of.trim().to_string());
    (name.to_string(), types.collect())
}

#[test]
fn the_header_declares_what_is_exported() {
    let exported = EXPORTED.split("pub extern \"C\" fn ").skip(1);
    let mut exported: Vec<_> = exported.map(exported_signature).collect();
    let mut declared: Vec<_> = declared().iter().map(signature).collect();
    exported.sort();
    declared.sort();
    assert_eq!(exported, declared);
}
