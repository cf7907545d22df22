//! opl_place against the second placement: the number and every place of the lane.

use compare::inputs::{self, Coding};
use compare::lent::first_difference;
use compare::opl;
use compare::rng::Rng;
use compare::second::bits::bits;
use compare::second::turbo::{encode, place};

/// The number that both placements give for a lane of that many places, filled at random. Panics unless
/// they agree on it and on every place.
#[track_caller]
fn both(rng: &mut Rng, pattern: u32, values: &[i8], places: usize) -> u8 {
    let held: Vec<i16> = (0..places).map(|_| rng.next_u64() as i16).collect();
    let (number, expected) = match place(pattern, values, places) {
        Ok(lane) => (0, lane),
        Err(number) => (number, held.clone()),
    };
    let mut lane = held;
    let refusal = opl::place(pattern, values, &mut lane);
    let input = format!("pattern {pattern}, {} values", values.len());
    assert_eq!(refusal, number, "{input} into {places}");
    assert_eq!(first_difference(&lane, &expected), None, "{input}");
    number
}

/// All that is placed: the pattern, N, the number of values.
fn kinds() -> impl Iterator<Item = (u32, usize, usize)> {
    inputs::codings().map(|coding| (coding.pattern, coding.block, coding.code_bits()))
}

fn code_bits(pattern: u32) -> usize {
    let block = 12_282;
    Coding { pattern, block }.code_bits()
}

fn random_values(rng: &mut Rng, n: usize) -> Vec<i8> {
    rng.bytes(n).into_iter().map(|byte| byte as i8).collect()
}

#[test]
fn random_values_under_each_pattern() {
    let mut rng = Rng::new(500);
    for (pattern, block, n) in kinds() {
        for _ in 0..6 {
            let values = random_values(&mut rng, n);
            assert_eq!(both(&mut rng, pattern, &values, 5 * (block + 6)), 0);
        }
    }
}

#[test]
fn the_same_value_everywhere() {
    let mut rng = Rng::new(501);
    for (pattern, block, n) in kinds() {
        for value in [-128, -1, 0, 1, 127] {
            assert_eq!(both(&mut rng, pattern, &vec![value; n], 5 * (block + 6)), 0);
        }
    }
}

/// One value alone: each of a signalling word's, and of a payload word's some, and all of the tail.
#[test]
fn a_single_value() {
    let mut rng = Rng::new(502);
    for (pattern, block, n) in kinds() {
        let mut places: Vec<usize> = (n - 50..n).chain((0..10).map(|_| rng.below(n))).collect();
        if block == 762 {
            places = (0..n).step_by(7).chain(n - 50..n).collect();
        }
        for at in places {
            let mut values = vec![0; n];
            values[at] = if rng.flag() { -128 } else { 127 };
            assert_eq!(both(&mut rng, pattern, &values, 5 * (block + 6)), 0);
        }
    }
}

/// -128 in all three copies of a tail X gives -384, and 127 gives 381.
#[test]
fn three_copies_of_a_tail_symbol() {
    for block in [12_282, 762] {
        for (value, sum) in [(-128, -384), (127, 381)] {
            for group in 0..6 {
                let mut values = vec![0; 5 * (block + 6)];
                let first = 5 * (block + group);
                values[first..first + 3].fill(value);
                let mut lane = vec![-1; 5 * (block + 6)];
                assert_eq!(opl::place(0, &values, &mut lane), 0);
                assert_eq!(lane[first], sum);
                assert_eq!(lane.iter().filter(|place| **place != 0).count(), 1);
            }
        }
    }
}

/// A codeword's bits, placed as values.
#[test]
fn placed_codewords() {
    let mut rng = Rng::new(503);
    for (pattern, block, n) in kinds() {
        let word = inputs::infoword(&mut rng, (block + 6) / 8);
        let codeword = encode(pattern, &word, n / 8).expect("a right length");
        let values: Vec<i8> = bits(&codeword, 0, n).map(i8::from).collect();
        assert_eq!(both(&mut rng, pattern, &values, 5 * (block + 6)), 0);
    }
}

#[test]
fn lengths_of_a_lane() {
    let mut rng = Rng::new(504);
    // around both, and lengths that meet them when cut to 8 or 16 bits
    let lengths = [
        0,
        1,
        480,
        3_810,
        3_835,
        3_839,
        3_841,
        3_845,
        7_680,
        12_288,
        61_410,
        61_439,
        61_441,
        65_536 + 3_840,
        65_536 + 61_440,
        122_880,
    ];
    for places in lengths {
        for pattern in [0, 13, 28, u32::MAX] {
            for n in [0, 3_840, 24_576, 61_440] {
                assert_eq!(both(&mut rng, pattern, &vec![1; n], places), 1);
            }
        }
    }
}

/// Above 27, and numbers that are a pattern when cut to 5, 6, 8 or 16 bits.
#[test]
fn patterns_that_are_refused() {
    let mut rng = Rng::new(505);
    let numbers = [28, 29, 31, 32, 45, 63, 64, 127, 128, 255, 256, 256 + 27]
        .into_iter()
        .chain([65_535, 65_536, 65_536 + 27, 1 << 24, 1 << 31, u32::MAX]);
    for number in numbers {
        for places in [3_840, 61_440] {
            for n in [0, places] {
                assert_eq!(both(&mut rng, number, &vec![1; n], places), 3);
            }
        }
    }
}

#[test]
fn signalling_lanes_take_pattern_0_only() {
    let mut rng = Rng::new(506);
    for number in 1..28 {
        for n in [0, 3_840, code_bits(number) / 16, code_bits(number)] {
            assert_eq!(both(&mut rng, number, &vec![1; n], 3_840), 4);
        }
    }
}

#[test]
fn numbers_of_values() {
    let mut rng = Rng::new(507);
    for (pattern, block, n) in kinds() {
        let other = if block == 762 { 61_440 } else { 3_840 };
        let wrong = [
            0,
            1,
            n - 8,
            n - 1,
            n + 1,
            n + 8,
            n / 8,
            2 * n,
            n + 65_536,
            other,
        ];
        for wrong in wrong {
            let values = random_values(&mut rng, wrong);
            assert_eq!(both(&mut rng, pattern, &values, 5 * (block + 6)), 1);
        }
    }
}
