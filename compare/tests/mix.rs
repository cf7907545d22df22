//! opl_mix against the second mixer: the number and every byte of the mixed codeword.

use compare::inputs::{self, Coding};
use compare::lent::first_difference;
use compare::opl;
use compare::rng::Rng;
use compare::second::bits::set_bit;
use compare::second::mixer::{mix, unmix};

/// The mixed codeword, lent with that length and filled at random before, or the number with which both mixers refuse.
/// Panics unless they agree on it and on every byte.
#[track_caller]
fn both(rng: &mut Rng, pattern: u32, codeword: &[u8], length: usize) -> Result<Vec<u8>, u8> {
    let held = rng.bytes(length);
    let second = mix(pattern, codeword, length);
    let mut mixed = held.clone();
    let refusal = opl::mix(pattern, codeword, &mut mixed);
    let input = format!("pattern {pattern}, {} bytes into {length}", codeword.len());
    let number = second.as_ref().err().copied().unwrap_or(0);
    assert_eq!(refusal, number, "{input}");
    let due = second.as_ref().unwrap_or(&held);
    assert_eq!(first_difference(&mixed, due), None, "{input}");
    second
}

/// All that is mixed: the pattern, and the bytes of its codeword.
fn kinds() -> impl Iterator<Item = (u32, usize)> {
    inputs::codings().map(|coding| (coding.pattern, coding.codeword_bytes()))
}

/// The bytes of a payload word's codeword.
fn payload_bytes(pattern: u32) -> usize {
    let block = 12_282;
    Coding { pattern, block }.codeword_bytes()
}

#[test]
fn random_codewords() {
    let mut rng = Rng::new(820);
    for (pattern, n) in kinds() {
        for _ in 0..6 {
            let codeword = inputs::codewords(&mut rng, n);
            let mixed = both(&mut rng, pattern, &codeword, n).expect("it is accepted");
            assert!(unmix(pattern, &mixed) == Ok(codeword));
        }
    }
}

/// Some bits alone, the first and the last among them; and all but one.
#[test]
fn codewords_of_a_single_bit() {
    let mut rng = Rng::new(821);
    for (pattern, n) in kinds() {
        let some = (0..4).map(|_| rng.below(8 * n));
        let places: Vec<usize> = some.chain([0, 1, 8 * n - 2, 8 * n - 1]).collect();
        for at in places {
            for value in [true, false] {
                let mut codeword = vec![if value { 0 } else { 0xFF }; n];
                set_bit(&mut codeword, at, value);
                let mixed = both(&mut rng, pattern, &codeword, n).expect("it is accepted");
                let ones: u32 = mixed.iter().map(|byte| byte.count_ones()).sum();
                assert_eq!(ones == 1, value, "bit {at}");
            }
        }
    }
}

/// A turbo codeword of each kind, as the library encodes it.
#[test]
fn encoded_words() {
    let mut rng = Rng::new(822);
    for coding in inputs::codings() {
        let word = inputs::infoword(&mut rng, coding.infoword_bytes());
        let mut codeword = vec![0; coding.codeword_bytes()];
        assert_eq!(opl::encode(coding.pattern, &word, &mut codeword), 0);
        assert!(both(&mut rng, coding.pattern, &codeword, codeword.len()).is_ok());
    }
}

/// Above 27, and numbers that are a pattern when cut to 5, 6, 8 or 16 bits; before any length.
#[test]
fn patterns_that_are_refused() {
    let mut rng = Rng::new(823);
    let numbers = (28..=66)
        .chain([127, 128, 255, 256, 256 + 13, 256 + 27])
        .chain([65_535, 65_536, 65_536 + 27, 1 << 24, 1 << 31, u32::MAX]);
    for number in numbers {
        for [n, length] in [
            [0, 0],
            [480, 480],
            [1_792, 1_792],
            [7_680, 7_680],
            [1, 7_680],
        ] {
            let codeword = rng.bytes(n);
            assert_eq!(both(&mut rng, number, &codeword, length), Err(3));
        }
    }
}

/// Each length that a codeword has, with each pattern: one goes with it, and 480 bytes go with pattern 0 too.
#[test]
fn lengths_of_other_patterns() {
    let mut rng = Rng::new(824);
    for pattern in 0..28 {
        for (_, n) in kinds() {
            let fits = n == payload_bytes(pattern) || (n, pattern) == (480, 0);
            let codeword = rng.bytes(n);
            let found = both(&mut rng, pattern, &codeword, n);
            assert_eq!(found.err(), (!fits).then_some(21), "{n} bytes");
        }
    }
}

#[test]
fn wrong_lengths() {
    let mut rng = Rng::new(825);
    for (pattern, n) in kinds() {
        let other = if n == 480 { 7_680 } else { 480 };
        let wrong = [0, 1, n - 1, n + 1, n / 2, 2 * n, 8 * n, n + 256, n + 65_536];
        for wrong in wrong.into_iter().chain([other]) {
            for [n, length] in [[n, wrong], [wrong, n]] {
                let codeword = vec![0x5A; n];
                assert_eq!(both(&mut rng, pattern, &codeword, length), Err(21));
            }
        }
        for wrong in [0, 1, n - 1, n + 1, n + 65_536] {
            let codeword = vec![0x5A; wrong];
            assert_eq!(both(&mut rng, pattern, &codeword, wrong), Err(21));
        }
    }
}
