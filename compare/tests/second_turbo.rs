//! The second implementation's turbo encoder and placement.

use compare::inputs;
use compare::rng::Rng;
use compare::second::bits::{bit, bits};
use compare::second::interleaver::addresses;
use compare::second::patterns::pattern;
use compare::second::turbo::{encode, lane, place, Encoder};

fn code_bits(number: u32) -> usize {
    pattern(number).unwrap().code_bits(12_282)
}

/// Infoword length and pattern: all that is encoded.
fn kinds() -> impl Iterator<Item = (usize, u32, usize)> {
    (0..28)
        .map(|number| (1_536, number, code_bits(number) / 8))
        .chain([(96, 0, 480)])
}

#[test]
fn sum_of_words_gives_sum_of_codewords() {
    let mut rng = Rng::new(30);
    for (length, number, code) in kinds() {
        let words = [(); 2].map(|()| inputs::infoword(&mut rng, length));
        let coded = |word: &Vec<u8>| encode(number, word, code).unwrap();
        assert_eq!(
            coded(&inputs::sum(&words)),
            inputs::sum(&words.each_ref().map(coded)),
            "{number}"
        );
    }
}

#[test]
fn the_fast_encoder_gives_the_same() {
    let mut rng = Rng::new(31);
    let encoder = Encoder::new();
    for (length, number, code) in kinds() {
        assert_eq!(encoder.codeword_len(number, length), Some(code));
        for _ in 0..6 {
            let word = inputs::infoword(&mut rng, length);
            let mut out = rng.bytes(code);
            assert_eq!(encoder.encode(number, &word, &mut out), Ok(()));
            assert_eq!(encode(number, &word, code), Ok(out), "{number}");
        }
    }
    for (length, number) in [(1_536, 28), (96, 1), (96, 28), (0, 0), (95, 0), (1_537, 27)] {
        assert_eq!(encoder.codeword_len(number, length), None);
    }
}

/// The codeword of one set bit, by hand: its X, and the answers of both
/// encoders to an impulse, worked as polynomials modulo 1 + D^2 + D^3.
#[test]
fn codeword_of_a_single_bit() {
    for (length, block, code) in [(1_536, 12_282, 7_680), (96, 762, 480)] {
        let addresses = addresses(block);
        for at in [0, 1, block / 2, block - 2, block - 1] {
            let mut word = vec![0; length];
            word[at / 8] |= 0x80 >> (at % 8);
            let codeword = encode(0, &word, code).unwrap();
            let answer = |start: usize, numerator: [u8; 4]| -> Vec<u8> {
                // numerator * D^start divided by 1 + D^2 + D^3, N terms.
                let mut q = vec![0u8; block + 3];
                q[start..start + 4].copy_from_slice(&numerator);
                for index in 0..block {
                    for back in [2, 3] {
                        if index >= back {
                            q[index] ^= q[index - back];
                        }
                    }
                }
                q.truncate(block);
                q
            };
            let second = addresses.iter().position(|address| *address == at).unwrap();
            let streams = [
                answer(at, [1, 1, 0, 1]),
                answer(at, [1, 1, 1, 1]),
                answer(second, [1, 1, 0, 1]),
                answer(second, [1, 1, 1, 1]),
            ];
            for index in 0..block {
                assert_eq!(bit(&codeword, 5 * index), index == at);
                for (place, stream) in streams.iter().enumerate() {
                    let got = u8::from(bit(&codeword, 5 * index + 1 + place));
                    assert_eq!(got, stream[index], "{at} {index} {place}");
                }
            }
        }
    }
}

/// The text of clauses 4.4.2 and 4.4.3 for rates 1/2, 1/3, 1/4 and 1/5.
#[test]
fn symbols_as_the_clauses_name_them() {
    let mut rng = Rng::new(32);
    let word = inputs::infoword(&mut rng, 1_536);
    let info: Vec<bool> = bits(&word, 0, 12_282).collect();
    let groups = lane(&info);
    // Places within a group for even and odd data bit periods, and the places
    // of the tail periods of encoder 1 and 2.
    type Places = &'static [usize];
    let rows: [(u32, Places, Places, Places, Places); 5] = [
        (
            0,
            &[0, 1, 2, 3, 4],
            &[0, 1, 2, 3, 4],
            &[0, 0, 0, 1, 2],
            &[0, 0, 0, 3, 4],
        ),
        (
            2,
            &[0, 1, 2, 4],
            &[0, 1, 3, 4],
            &[0, 0, 1, 2],
            &[0, 0, 3, 4],
        ),
        (5, &[0, 1, 3], &[0, 1, 3], &[0, 0, 1], &[0, 0, 3]),
        (13, &[0, 1], &[0, 3], &[0, 1], &[0, 3]),
        (14, &[0, 3], &[0, 1], &[0, 2], &[0, 4]),
    ];
    for (number, even, odd, tail, tail_2) in rows {
        let mut expected = Vec::new();
        for (index, group) in groups.iter().enumerate() {
            let places = match index {
                12_285.. => tail_2,
                12_282.. => tail,
                _ if index % 2 == 0 => even,
                _ => odd,
            };
            expected.extend(places.iter().map(|place| group[*place]));
        }
        let codeword = encode(number, &word, code_bits(number) / 8).unwrap();
        assert!(
            bits(&codeword, 0, code_bits(number)).eq(expected),
            "{number}"
        );
    }
}

#[test]
fn the_lane_of_a_word() {
    let mut rng = Rng::new(33);
    for (length, block) in [(1_536, 12_282), (96, 762)] {
        let word = inputs::infoword(&mut rng, length);
        let info: Vec<bool> = bits(&word, 0, block).collect();
        let groups = lane(&info);
        assert_eq!(groups.len(), block + 6);
        assert!(groups
            .iter()
            .zip(&info)
            .all(|(group, bit)| group[0] == *bit));
        assert!(groups[block..block + 3]
            .iter()
            .all(|group| !group[3] && !group[4]));
        assert!(groups[block + 3..]
            .iter()
            .all(|group| !group[1] && !group[2]));
    }
}

#[test]
fn placed_code_bits_are_the_lane_times_its_copies() {
    let mut rng = Rng::new(34);
    for (length, number, code) in kinds() {
        let block = 8 * length - 6;
        let word = inputs::infoword(&mut rng, length);
        let codeword = encode(number, &word, code).unwrap();
        let values: Vec<i8> = bits(&codeword, 0, 8 * code).map(i8::from).collect();
        let placed = place(number, &values, 5 * (block + 6)).unwrap();
        let info: Vec<bool> = bits(&word, 0, block).collect();
        let copies = pattern(number).unwrap().copies(block);
        let expected: Vec<i16> = lane(&info)
            .iter()
            .flatten()
            .zip(copies.iter().flatten())
            .map(|(bit, times)| i16::from(*bit) * i16::from(*times))
            .collect();
        assert_eq!(placed, expected, "{number}");
    }
}

/// Values that tell code bits apart: each goes to one place only, in order.
#[test]
fn each_value_goes_to_one_place() {
    for (length, number, code) in kinds() {
        let places = 5 * 8 * length;
        let values: Vec<i8> = (0..8 * code).map(|index| (index % 127 + 1) as i8).collect();
        let placed = place(number, &values, places).unwrap();
        let sum: i64 = placed.iter().map(|value| i64::from(*value)).sum();
        assert_eq!(
            sum,
            values.iter().map(|value| i64::from(*value)).sum::<i64>()
        );
        let data_end = places - 30;
        let kept: Vec<i16> = placed[..data_end]
            .iter()
            .copied()
            .filter(|value| *value != 0)
            .collect();
        assert!(kept
            .iter()
            .zip(&values)
            .all(|(place, value)| *place == i16::from(*value)));
        // Tail places without a symbol stay zero.
        for group in 0..3 {
            assert_eq!(placed[data_end + 5 * group + 3..][..2], [0, 0]);
            assert_eq!(placed[data_end + 15 + 5 * group + 1..][..2], [0, 0]);
        }
    }
}

#[test]
fn tail_sums_stay_within_bounds() {
    for (length, number, code) in kinds() {
        for (value, most) in [(-128i8, -384i16), (127, 381)] {
            let placed = place(number, &vec![value; 8 * code], 5 * 8 * length).unwrap();
            let far = if value < 0 {
                placed.iter().min()
            } else {
                placed.iter().max()
            };
            let copies = pattern(number)
                .unwrap()
                .tail
                .iter()
                .flatten()
                .max()
                .copied()
                .unwrap();
            assert_eq!(far, Some(&(most / 3 * i16::from(copies))), "{number}");
        }
    }
}

#[test]
fn refusals_of_the_encoder() {
    let payload = vec![0u8; 1_536];
    let mut spare = payload.clone();
    let encoder = Encoder::new();
    let refused = |number: u32, word: &[u8], length: usize, refusal: u8| {
        assert_eq!(encode(number, word, length), Err(refusal));
        // A refusal leaves the buffer as it was.
        let mut out = vec![0xA5; length];
        assert_eq!(encoder.encode(number, word, &mut out), Err(refusal));
        assert!(out.iter().all(|byte| *byte == 0xA5));
    };
    for length in [0, 1, 95, 97, 1_535, 1_537, 3_072] {
        refused(28, &vec![0xFF; length], 0, 1);
        refused(0, &vec![0; length], 7_680, 1);
    }
    for number in [28, 63, 64, 255, 256, 261, u32::MAX] {
        refused(number, &[0xFF; 1_536], 0, 3);
        refused(number, &[0xFF; 96], 0, 3);
    }
    for number in 1..28 {
        refused(number, &[0xFF; 96], 0, 4);
        refused(number, &[0; 96], code_bits(number) / 128, 4);
    }
    for number in 0..28 {
        let code = code_bits(number) / 8;
        for length in [0, code - 1, code + 1, 480] {
            refused(number, &[0xFF; 1_536], length, 1);
        }
    }
    for length in [0, 479, 481, 7_680] {
        refused(0, &[0xFF; 96], length, 1);
    }
    for place in 0..6 {
        spare[1_535] = 1 << place;
        for number in 0..28 {
            refused(number, &spare, code_bits(number) / 8, 2);
        }
        let mut signalling = vec![0xFF; 96];
        signalling[95] = 1 << place;
        refused(0, &signalling, 480, 2);
    }
    // The bits above the spare ones are information.
    spare[1_535] = 0xC0;
    assert!(encode(0, &spare, 7_680).is_ok());
}

#[test]
fn refusals_of_the_placement() {
    for length in [0, 1, 3_839, 3_841, 61_439, 61_441] {
        assert_eq!(place(28, &[], length), Err(1));
        assert_eq!(place(0, &vec![0; 61_440], length), Err(1));
    }
    for number in [28, 256, u32::MAX] {
        assert_eq!(place(number, &[], 61_440), Err(3));
        assert_eq!(place(number, &[], 3_840), Err(3));
    }
    for number in 1..28 {
        assert_eq!(place(number, &[], 3_840), Err(4));
    }
    for number in 0..28 {
        let count = code_bits(number);
        for length in [0, count - 1, count + 1, count / 8] {
            assert_eq!(place(number, &vec![1; length], 61_440), Err(1));
        }
        assert!(place(number, &vec![1; count], 61_440).is_ok());
    }
    assert_eq!(place(0, &vec![1; 61_440], 3_840), Err(1));
    assert!(place(0, &vec![1; 3_840], 3_840).is_ok());
}
