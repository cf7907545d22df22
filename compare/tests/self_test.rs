//! The self-test of the head-end of examples/: what it prints over the library, which words it refuses, and that it
//! fails over encoders with a fault (broken.c).

mod head_end;
mod program;

use compare::inputs::{codings, Coding};
use compare::second::patterns::pattern;
use head_end::{headend, headend_with};
use program::{figure, run, x86_64};
use std::path::{Path, PathBuf};
use std::sync::OnceLock;

/// The pairs under each pattern where no number is given.
const PAIRS: usize = 8;

/// The head-end with broken.c in place of sums.c.
fn broken() -> &'static Path {
    static BUILT: OnceLock<PathBuf> = OnceLock::new();
    BUILT.get_or_init(|| headend_with("broken", "sums.c", "compare/broken.c"))
}

/// The line of a coding under which all is well.
fn line(coding: Coding, pairs: usize) -> String {
    let Coding { pattern: id, block } = coding;
    let row = pattern(id).expect("one of the 28");
    let tail: usize = row.tail.iter().flatten().copied().map(usize::from).sum();
    let bytes = coding.codeword_bytes();
    format!("  {id:7}  {block:10}  {bytes:14}  {tail:9}  {pairs:5}  equal, and zeros for zeros\n")
}

/// What is printed before anything is refused, if so many codings are tested.
fn table(number: usize, pairs: usize) -> String {
    let heading = "the codeword of a sum of two words, and the sum of their codewords
  pattern  block bits  codeword bytes  tail bits  pairs  result\n";
    let lines = codings().take(number).map(|coding| line(coding, pairs));
    heading.to_string() + &lines.collect::<String>()
}

/// What is printed behind the table, as far as the first so many lines.
fn refusals(lines: usize) -> String {
    let all = "
what is refused, with what was lent left as it was
  sum of two payload words, read           refused 5, OPL_CRC: the CRC is wrong
  payload word with a spare bit, encoded   refused 2, OPL_SPARE: a spare bit is set
    its sum with a sound word, encoded     refused 2, OPL_SPARE: a spare bit is set\n";
    all.split_inclusive('\n').take(lines).collect()
}

/// All that is printed where all is well.
fn whole(pairs: usize) -> String {
    let (codings, lines) = (codings().count(), 5);
    let compared = codings * pairs;
    let end = format!(
        "\nall {compared} pairs: the codeword of the sum is the sum of the codewords, tail included\n"
    );
    table(codings, pairs) + &refusals(lines) + &end
}

/// A run that fails: what it prints, and what it says.
fn failed(program: &Path, words: &[&str], fault: &str) -> (String, String) {
    let mut command = x86_64("run", program);
    let output = command.args(words).env("FAULT", fault).output();
    let output = output.expect("a shell starts");
    let [printed, said] = [output.stdout, output.stderr]
        .map(|bytes| String::from_utf8(bytes).expect("it prints and says text"));
    let status = output.status;
    assert_eq!(status.code(), Some(1), "{fault} {words:?}: {said}");
    (printed, said)
}

#[test]
fn every_pattern_has_its_line() {
    assert_eq!(codings().count(), 29);
    assert_eq!(run(headend(), &["--self-test"]), whole(PAIRS));
    for pairs in [1, 2, 21] {
        let word = pairs.to_string();
        assert_eq!(run(headend(), &["--self-test", &word]), whole(pairs));
    }
}

#[test]
fn a_wrong_number_of_pairs_is_refused() {
    let far = ["10001", "65537", "4294967297", "18446744073709551617"];
    let none = ["", "-1", "+1", " 1", "1 ", "1x", "0x1", "1.0", "eight"];
    for word in ["0", "00"].into_iter().chain(far).chain(none) {
        let (printed, said) = failed(headend(), &["--self-test", word], "none");
        let why = "PAIRS is a number of pairs from 1 to 10000, and not";
        assert_eq!(said, format!("headend: {why} {word}\n"));
        assert_eq!(printed, "");
    }
}

#[test]
fn other_words_are_refused() {
    let usage = "headend: usage: headend [--units UNITS] [--ip IP BACK] SHEET PAYLOAD FRAMES [STREAM [COUNT]], \
        or headend --take-apart FRAMES [WORDS], or headend --self-test [PAIRS]\n";
    for words in [
        &[][..],
        &["--self-tests"],
        &["--self-test", "1", "1"],
        &["--self-test", "1", "1", "1", "1"],
        &["--self-tests", "1"],
        &["1", "--self-test"],
        &["--ip"],
        &["--ip", "1"],
        &["--ip", "1", "2", "3", "4"],
        &["--ip", "1", "2", "3", "4", "5", "6", "7", "8"],
    ] {
        let (printed, said) = failed(headend(), words, "none");
        assert_eq!((&printed[..], &said[..]), ("", usage), "{words:?}");
    }
}

/// What stands in place of the encoder is no fault by itself.
#[test]
fn without_a_fault_all_is_well() {
    let mut command = x86_64("run", broken());
    let output = command.args(["--self-test", "1"]).env("FAULT", "none");
    let output = output.output().expect("a shell starts");
    assert!(output.status.success());
    assert_eq!(String::from_utf8_lossy(&output.stdout), whole(1));
}

/// Where it says that the codeword of a sum is another than the sum of the codewords.
#[derive(Debug, PartialEq, Eq)]
struct Difference {
    pair: String,
    byte: usize,
    /// What stands in that byte of the one and of the other.
    found: u8,
    due: u8,
    part: String,
}

/// What it says over an encoder with a fault that shows in the coding of this number: payload words under the pattern
/// of that number, or the signalling block, 28. All codings before it are well.
#[track_caller]
fn difference(fault: &str, number: usize) -> Difference {
    let (printed, said) = failed(broken(), &["--self-test"], fault);
    assert_eq!(printed, table(number, PAIRS), "{fault}");
    let Coding { pattern, block } = coding(number);
    let begins = format!("headend: pattern {pattern}, block of {block} bits, pair ");
    let mut rest = said.strip_prefix(&begins).expect("it names the pattern");
    let mut up_to = |end: &str| {
        let (part, behind) = rest.split_once(end).expect("it is said in these words");
        rest = behind;
        part
    };
    let hex = |digits: &str| u8::from_str_radix(digits, 16).expect("a byte");
    let difference = Difference {
        pair: up_to(": byte ").to_string(),
        byte: up_to(" of the sum's codeword is ")
            .parse()
            .expect("a number"),
        found: hex(up_to(", and the sum of the codewords has ")),
        due: hex(up_to("; the first bit that differs is ")),
        part: up_to("\n").to_string(),
    };
    assert_eq!(rest, "", "it says no more");
    difference
}

fn coding(number: usize) -> Coding {
    codings().nth(number).expect("there are 29")
}

/// A difference between the codeword of zeros and zeros.
fn from_zeros(byte: usize, found: u8, part: &str) -> Difference {
    Difference {
        pair: "0 (zeros)".to_string(),
        byte,
        found,
        due: 0x00,
        part: part.to_string(),
    }
}

#[test]
fn a_constant_in_the_tail_is_noticed() {
    let last = coding(17).codeword_bytes() - 1;
    let due = from_zeros(last, 0x01, "in the tail");
    assert_eq!(difference("tail_bit_stuck", 17), due);
    let last = figure("OPL_SIGNALLING_CODEWORD_BYTES") - 1;
    let due = from_zeros(last, 0x01, "in the tail");
    assert_eq!(difference("tail_bit_inverted", 28), due);
}

/// Zeros give zeros, and so it is one of the pairs that shows it.
#[test]
fn a_product_of_bits_is_noticed() {
    let last = coding(27).codeword_bytes() - 1;
    for (fault, number, byte, bit, part) in [
        ("product_added", 5, 1_000, 0x10, "before the tail"),
        ("product_added_to_the_tail", 27, last, 0x01, "in the tail"),
    ] {
        let found = difference(fault, number);
        let pair: usize = found.pair.parse().expect("a number, without zeros");
        assert!((1..=PAIRS).contains(&pair), "{found:?}");
        assert_eq!((found.byte, &found.part[..]), (byte, part));
        assert_eq!(found.found ^ found.due, bit);
    }
}

/// Codewords are ones before the call.
#[test]
fn a_codeword_that_is_not_written_is_noticed() {
    let due = from_zeros(0, 0xFF, "before the tail");
    assert_eq!(difference("nothing_written", 9), due);
    // pattern 3 sends 21 bits of the tail
    let last = coding(3).codeword_bytes() - 1;
    let due = from_zeros(last, 0xFF, "in the tail");
    assert_eq!(difference("last_byte_not_written", 3), due);
    let at_times = difference("nothing_written_at_times", 0);
    assert!(at_times.byte == 0 && at_times.pair != "0 (zeros)");
}

#[test]
fn a_refusal_that_is_not_due_is_noticed() {
    let (printed, said) = failed(broken(), &["--self-test"], "crc_looked_at");
    let refused = "opl_encode refused pattern 0, block of 12282 bits";
    assert_eq!(
        said,
        format!("headend: {refused}: 5, OPL_CRC: the CRC is wrong\n")
    );
    assert_eq!(printed, table(0, PAIRS));
}

#[test]
fn what_should_be_refused_and_is_not_is_noticed() {
    let (printed, said) = failed(broken(), &["--self-test"], "spare_bits_passed_over");
    let given = "payload word with a spare bit, encoded";
    let answer = "the answer was 0, OPL_ACCEPTED: no refusal, and not 2";
    assert_eq!(said, format!("headend: {given}: {answer}\n"));
    assert_eq!(printed, table(29, PAIRS) + &refusals(3));
}

#[test]
fn a_refusal_that_touches_is_noticed() {
    let (printed, said) = failed(broken(), &["--self-test"], "refused_and_touched");
    assert_eq!(said, "headend: a refused call touched its buffer\n");
    assert_eq!(printed, table(29, PAIRS) + &refusals(4));
}
