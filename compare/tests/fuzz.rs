//! The fuzz: it finds no difference and reaches every refusal of every function; and it notices answers
//! that are wrong, which are made so here.

use compare::calls::{every_entry, Argument, Call, Preamble};
use compare::element::Buffer;
use compare::fuzz::{entries, Entry, Fuzz, Listed, Tally, Visitor};
use compare::rng::Rng;
use std::marker::PhantomData;
use std::process::{Command, Output};

/// 01's orders, and those of the requests that change it.
const ORDERS: &[(&str, &[u8])] = &[
    ("opl_preamble", &[1]),
    ("opl_preamble_form", &[1]),
    ("opl_signalling_read", &[1, 2, 5, 6, 7, 8, 9, 10, 11]),
    ("opl_signalling_write", &[1, 12, 14, 6, 13, 7, 9, 10, 11]),
    ("opl_payload_write", &[15, 17, 1]),
    ("opl_payload_read", &[1, 2, 5, 16, 15, 18]),
    ("opl_ip_write", &[19, 1]),
    ("opl_ip_read", &[1, 2, 5, 16, 15, 18, 19]),
    ("opl_ip_lost", &[1]),
    ("opl_encode", &[1, 3, 4, 1, 2]),
    ("opl_place", &[1, 3, 4, 1]),
    ("opl_mix", &[3, 21]),
    ("opl_profile", &[20, 1]),
    ("opl_pipe", &[20, 3, 21]),
];

#[test]
fn every_function_is_called_and_gives_every_number_of_its_order() {
    let run = Fuzz::new(700).run(|cases| cases < 600);
    assert!(run.is_well(), "{run}");
    assert_eq!(run.cases, 600);
    for (name, order) in ORDERS {
        for number in 0..=u8::MAX {
            let due = number == 0 || order.contains(&number);
            let met = run.tally.count(name, number) > 0;
            assert_eq!(met, due, "{name}, {number}\n{run}");
        }
    }
    let listed = entries().into_iter().map(|entry| (entry.name, entry.order));
    assert_eq!(listed.collect::<Vec<_>>(), ORDERS);
}

#[test]
fn every_declared_function_is_called() {
    let header = include_str!("../../include/opl.h");
    let declared = header
        .lines()
        .filter_map(|line| line.strip_prefix("uint8_t ")?.split('(').next());
    assert!(declared.eq(entries().iter().map(|entry| entry.name)));
}

/// A change to an entry's answers.
trait Change: Clone {
    fn library<E: Entry>(call: &mut E) -> u8 {
        call.library()
    }

    fn second<E: Entry>(call: &mut E) -> Result<(), u8> {
        call.second()
    }
}

/// The last thing that is written is another.
#[derive(Clone)]
struct OtherWritten;

impl Change for OtherWritten {
    fn second<E: Entry>(call: &mut E) -> Result<(), u8> {
        let mut before = call.clone();
        call.second()?;
        for (buffer, before) in call.written().into_iter().zip(before.written()).rev() {
            let is_written = |place: &usize| buffer.bits(*place) != before.bits(*place);
            if let Some(last) = (0..buffer.count()).rfind(is_written) {
                buffer.set_bits(last, buffer.bits(last) ^ 1);
                break;
            }
        }
        Ok(())
    }
}

#[derive(Clone)]
struct OtherRefusal;

impl Change for OtherRefusal {
    fn second<E: Entry>(call: &mut E) -> Result<(), u8> {
        call.second().map_err(|number| number % 16 + 1)
    }
}

#[derive(Clone)]
struct AllAccepted;

impl Change for AllAccepted {
    fn second<E: Entry>(call: &mut E) -> Result<(), u8> {
        call.second().or(Ok(()))
    }
}

#[derive(Clone)]
struct AllRefused;

impl Change for AllRefused {
    fn second<E: Entry>(call: &mut E) -> Result<(), u8> {
        call.second().and(Err(1))
    }
}

/// The library and the second implementation refuse all, and so agree.
#[derive(Clone)]
struct AllRefusedByBoth;

impl Change for AllRefusedByBoth {
    fn library<E: Entry>(_: &mut E) -> u8 {
        1
    }

    fn second<E: Entry>(_: &mut E) -> Result<(), u8> {
        Err(1)
    }
}

/// The second implementation refuses what is to be refused, and touches what was lent.
#[derive(Clone)]
struct RefusedAndTouched;

impl Change for RefusedAndTouched {
    fn second<E: Entry>(call: &mut E) -> Result<(), u8> {
        let refused = call.second();
        let mut written = call.written().into_iter();
        let touched = written.find(|buffer| refused.is_err() && buffer.count() > 0);
        if let Some(buffer) = touched {
            buffer.set_bits(0, buffer.bits(0) ^ 1);
        }
        refused
    }
}

/// What a call that breaks a rule of lent memory ends in.
#[derive(Clone)]
struct Breach;

impl Change for Breach {
    fn library<E: Entry>(_: &mut E) -> u8 {
        panic!("a call wrote outside its buffer")
    }
}

/// The entry with its answers so changed.
#[derive(Clone)]
struct Changed<E, C>(E, PhantomData<C>);

impl<E: Entry, C: Change> Call for Changed<E, C> {
    const NAME: &'static str = E::NAME;

    fn library(&mut self) -> u8 {
        C::library(&mut self.0)
    }

    fn arguments(&self) -> Vec<(&'static str, Argument<'_>)> {
        self.0.arguments()
    }

    fn written(&mut self) -> Vec<&mut dyn Buffer> {
        self.0.written()
    }
}

impl<E: Entry, C: Change> Entry for Changed<E, C> {
    const ORDER: &'static [u8] = E::ORDER;
    const SHARE: usize = E::SHARE;

    fn accepted(rng: &mut Rng) -> Self {
        Changed(E::accepted(rng), PhantomData)
    }

    fn break_rule(&mut self, rng: &mut Rng, rule: usize) {
        self.0.break_rule(rng, rule);
    }

    fn open(rng: &mut Rng) -> Self {
        Changed(E::open(rng), PhantomData)
    }

    fn second(&mut self) -> Result<(), u8> {
        C::second(&mut self.0)
    }
}

/// The change is noticed, with these words, in one round; and the case alone shows the same.
#[track_caller]
fn notices<E: Entry, C: Change>(words: &str) {
    let fuzz = Fuzz::over(701, &[Listed::of::<Changed<E, C>>()]);
    let run = fuzz.run(|_| false);
    assert!(!run.is_well());
    let difference = run.difference.expect("a difference");
    let text = difference.to_string();
    for part in [words, E::NAME, &format!("--case {} 701", difference.case)] {
        assert!(text.contains(part), "{part}: {text}");
    }
    let again = fuzz.case(difference.case).difference;
    assert_eq!(again.map(|again| again.to_string()), Some(text));
}

#[track_caller]
fn notices_all<E: Entry>() {
    notices::<E, OtherWritten>("first at offset");
    notices::<E, OtherRefusal>("the second implementation");
    notices::<E, AllAccepted>("the second implementation 0");
    notices::<E, AllRefused>("the library gives 0, the second implementation 1");
    notices::<E, AllRefusedByBoth>("made to give 0, and both give 1");
    notices::<E, RefusedAndTouched>("first at offset 0");
    notices::<E, Breach>("a call wrote outside its buffer");
}

#[test]
fn wrong_answers_are_noticed() {
    struct Noticing;
    impl Visitor for Noticing {
        fn visit<E: Entry>(&mut self) {
            notices_all::<E>();
        }
    }
    every_entry(&mut Noticing);
}

/// A made-up function that counts its calls in memory that its caller keeps. The second implementation counts no
/// further than 1.
#[derive(Clone)]
struct Counting {
    state: Vec<u16>,
}

impl Call for Counting {
    const NAME: &'static str = "opl_counting";

    fn library(&mut self) -> u8 {
        self.state[0] += 1;
        0
    }

    fn arguments(&self) -> Vec<(&'static str, Argument<'_>)> {
        vec![("state", Argument::Buffer(&self.state))]
    }

    fn written(&mut self) -> Vec<&mut dyn Buffer> {
        vec![&mut self.state]
    }
}

impl Entry for Counting {
    const ORDER: &'static [u8] = &[];
    const SHARE: usize = 1;

    fn accepted(_: &mut Rng) -> Counting {
        Counting { state: vec![0] }
    }

    fn break_rule(&mut self, _: &mut Rng, _: usize) {}

    fn second(&mut self) -> Result<(), u8> {
        self.state[0] = 1;
        Ok(())
    }
}

#[test]
fn a_state_is_carried_from_call_to_call() {
    let run = Fuzz::over(704, &[Listed::of::<Counting>()]).run(|_| false);
    let difference = run.difference.expect("a difference").to_string();
    let words = [
        "state: 1 of 0001",
        "state first at offset 0: the library has 0002, the second implementation 0001",
    ];
    for part in words {
        assert!(difference.contains(part), "{difference}");
    }
}

/// An entry that is never called has given nothing.
#[test]
fn a_number_that_never_came_is_noticed() {
    let mut run = Fuzz::over(702, &[Listed::of::<Preamble>()]).run(|_| false);
    assert!(run.is_well());
    run.tally = Tally::new(&[Listed::of::<Preamble>()]);
    assert!(!run.is_well());
    assert!(run
        .to_string()
        .contains("NEVER REACHED: opl_preamble gave no 1"));
}

fn fuzz(words: &[&str]) -> Output {
    let output = Command::new(env!("CARGO_BIN_EXE_fuzz"))
        .args(words)
        .output();
    output.expect("the program runs")
}

#[test]
fn the_program_tries_and_says_what_it_tried() {
    for words in [&["0", "703"][..], &["--case", "5", "703"]] {
        let Output { status, stdout, .. } = fuzz(words);
        let said = String::from_utf8(stdout).expect("text");
        assert_eq!(status.code(), Some(0), "{said}");
        assert!(said.ends_with("no difference\n"), "{said}");
    }
    let Output { stdout, stderr, .. } = fuzz(&["0", "703"]);
    let (said, progress) = (String::from_utf8(stdout), String::from_utf8(stderr));
    let (said, progress) = (said.expect("text"), progress.expect("text"));
    assert!(ORDERS.iter().all(|(name, _)| said.contains(name)), "{said}");
    assert!(progress.contains("0/0 s, "), "{progress}");
}

#[test]
fn the_program_refuses_other_words() {
    let wrong: [&[&str]; 7] = [
        &[],
        &["soon"],
        &["-1"],
        &["1.5", "1"],
        &["1", "2", "3"],
        &["--case", "1"],
        &["--case", "1", "x"],
    ];
    for words in wrong {
        let Output {
            status,
            stdout,
            stderr,
        } = fuzz(words);
        let why = String::from_utf8(stderr).expect("text");
        assert_eq!(status.code(), Some(2), "{words:?}: {why}");
        assert!(why.contains("usage: fuzz") && stdout.is_empty(), "{why}");
    }
}
