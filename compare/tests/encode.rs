//! opl_encode against the second encoder: the number and every byte of the codeword. Sums of words have tests of their
//! own, sums.rs.

mod codewords;

use codewords::both_encode;
use compare::inputs::{self, Coding};
use compare::opl;
use compare::rng::Rng;
use compare::second::bits::set_bit;

/// The number that both encoders give for a codeword of that length.
#[track_caller]
fn both(rng: &mut Rng, pattern: u32, infoword: &[u8], length: usize) -> u8 {
    both_encode(rng, pattern, infoword, length)
        .err()
        .unwrap_or(0)
}

/// All that is encoded: the pattern, the bytes of the infoword, the bytes of the codeword.
fn kinds() -> impl Iterator<Item = (u32, usize, usize)> {
    let kind = |coding: Coding| {
        let (infoword, codeword) = (coding.infoword_bytes(), coding.codeword_bytes());
        (coding.pattern, infoword, codeword)
    };
    inputs::codings().map(kind)
}

/// The bytes of a payload word's codeword.
fn payload_bytes(pattern: u32) -> usize {
    let block = 12_282;
    Coding { pattern, block }.codeword_bytes()
}

#[test]
fn random_words() {
    let mut rng = Rng::new(400);
    for (pattern, n, length) in kinds() {
        for _ in 0..12 {
            let word = inputs::infoword(&mut rng, n);
            assert_eq!(both(&mut rng, pattern, &word, length), 0);
        }
    }
}

#[test]
fn words_of_zeros_and_of_ones() {
    let mut rng = Rng::new(401);
    for (pattern, n, length) in kinds() {
        let mut word = vec![0xFF; n];
        word[n - 1] = 0xC0;
        assert_eq!(both(&mut rng, pattern, &word, length), 0);
        // an all-zero word gives an all-zero codeword under each pattern
        let mut codeword = rng.bytes(length);
        assert_eq!(opl::encode(pattern, &vec![0; n], &mut codeword), 0);
        assert!(codeword.iter().all(|byte| *byte == 0), "pattern {pattern}");
    }
}

/// Each bit of a signalling word, and some of a payload word under each pattern, the first, the last and
/// those on either side of the last whole period too.
#[test]
fn words_with_a_single_bit() {
    let mut rng = Rng::new(402);
    for (pattern, n, length) in kinds() {
        let bits = 8 * n - 6;
        let places: Vec<usize> = if n == 96 {
            (0..bits).collect()
        } else {
            let some = (0..20).map(|_| rng.below(bits));
            some.chain(0..4).chain(bits - 15..bits).collect()
        };
        for at in places {
            let mut word = vec![0; n];
            set_bit(&mut word, at, true);
            assert_eq!(both(&mut rng, pattern, &word, length), 0, "bit {at}");
        }
    }
}

/// Several words one after the other, each with its own codeword, and one word twice.
#[test]
fn one_word_after_another() {
    let mut rng = Rng::new(403);
    let words: Vec<Vec<u8>> = (0..3).map(|_| inputs::infoword(&mut rng, 1_536)).collect();
    for word in words.iter().chain(&words) {
        assert_eq!(both(&mut rng, 13, word, payload_bytes(13)), 0);
    }
}

#[test]
fn lengths_of_an_infoword() {
    let mut rng = Rng::new(405);
    // around both, and lengths that meet them when cut to 8 or 16 bits
    let lengths = [
        0,
        1,
        94,
        95,
        97,
        98,
        192,
        256 + 96,
        480,
        1_532,
        1_534,
        1_535,
        1_537,
        1_538,
        3_072,
        65_536 + 96,
        65_536 + 1_536,
    ];
    for n in lengths {
        for pattern in [0, 13, 28, u32::MAX] {
            for length in [0, 480, 3_072, 7_680] {
                let word = vec![0; n];
                assert_eq!(both(&mut rng, pattern, &word, length), 1);
            }
        }
        // 1 comes before a spare bit too
        assert_eq!(both(&mut rng, 0, &vec![0xFF; n], 7_680), 1);
    }
}

/// Above 27, and numbers that are a pattern when cut to 5, 6, 8 or 16 bits.
#[test]
fn patterns_that_are_refused() {
    let mut rng = Rng::new(406);
    let numbers = (28..=66)
        .chain([127, 128, 254, 255, 256, 257, 256 + 13, 256 + 27])
        .chain([65_535, 65_536, 65_536 + 27, 1 << 24, 1 << 31, u32::MAX]);
    for number in numbers {
        for n in [96, 1_536] {
            for length in [0, 480, 7_680, 1_792] {
                let word = inputs::infoword(&mut rng, n);
                assert_eq!(both(&mut rng, number, &word, length), 3);
            }
            // 3 comes before a spare bit
            assert_eq!(both(&mut rng, number, &vec![0xFF; n], 480), 3);
        }
    }
}

#[test]
fn signalling_words_take_pattern_0_only() {
    let mut rng = Rng::new(407);
    for number in 1..28 {
        let sixteenth = payload_bytes(number) / 16;
        for length in [0, 480, sixteenth, payload_bytes(number)] {
            let word = inputs::infoword(&mut rng, 96);
            assert_eq!(both(&mut rng, number, &word, length), 4);
            // 4 comes before a spare bit
            assert_eq!(both(&mut rng, number, &[0xFF; 96], length), 4);
        }
    }
}

#[test]
fn lengths_of_a_codeword() {
    let mut rng = Rng::new(408);
    for (pattern, n, length) in kinds() {
        let other = if n == 96 { 7_680 } else { 480 };
        let wrong = [
            0,
            1,
            length - 1,
            length + 1,
            length / 2,
            2 * length,
            8 * length,
            length + 256,
            length + 65_536,
            other,
        ];
        for wrong in wrong {
            let word = inputs::infoword(&mut rng, n);
            assert_eq!(both(&mut rng, pattern, &word, wrong), 1);
            // 1 comes before a spare bit
            assert_eq!(both(&mut rng, pattern, &vec![0xFF; n], wrong), 1);
        }
    }
}

#[test]
fn every_spare_bit() {
    let mut rng = Rng::new(409);
    for (pattern, n, length) in kinds() {
        for spare in (0..6).map(|place| 1 << place).chain([0x3F]) {
            let mut word = inputs::infoword(&mut rng, n);
            word[n - 1] |= spare;
            assert_eq!(both(&mut rng, pattern, &word, length), 2);
        }
        // the two bits above them are information
        for last in [0x00, 0x40, 0x80, 0xC0] {
            let mut word = inputs::infoword(&mut rng, n);
            word[n - 1] = last;
            assert_eq!(both(&mut rng, pattern, &word, length), 0);
        }
    }
}
