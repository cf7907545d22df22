//! opl_signalling_read against the second reader: the number and every byte of the room.

use compare::inputs::{self, plain, plain_pipe};
use compare::opl;
use compare::rng::Rng;
use compare::second::bits::set_bit;
use compare::second::description::{Description, Pipe, Section};
use compare::second::signalling::{read, seal, sheet_of, word_of, BODY_BITS, WORD_BITS};
use std::collections::BTreeSet;

/// The number that both readers give for a word and that much room, filled at random. Panics unless
/// they agree on it and on every byte of the room.
#[track_caller]
fn both(rng: &mut Rng, word: &[u8], room: usize) -> u8 {
    let held = rng.bytes(room);
    let mut expected = held.clone();
    let number = match read(word, room) {
        Ok(sheet) => {
            expected[..sheet.len()].copy_from_slice(&sheet);
            0
        }
        Err(number) => number,
    };
    let mut sheet = held;
    let refusal = opl::signalling_read(word, &mut sheet);
    assert!(
        refusal == number && sheet == expected,
        "word {word:02X?}\nlibrary {refusal}, room {sheet:02X?}\nsecond {number}, room {expected:02X?}"
    );
    number
}

/// The same for the word of a description.
#[track_caller]
fn both_of(rng: &mut Rng, description: &Description) -> u8 {
    both(rng, &word_of(description), 128)
}

#[test]
fn valid_words() {
    let mut rng = Rng::new(100);
    let [mut p_met, mut s_met, mut d_met] = [(); 3].map(|()| BTreeSet::new());
    let mut patterns = BTreeSet::new();
    let mut unused = BTreeSet::new();
    let mut tails = BTreeSet::new();
    let mut sheets = BTreeSet::new();
    for _ in 0..10_000 {
        let description = inputs::description(&mut rng);
        let room = rng.range(128, 300);
        assert_eq!(both(&mut rng, &word_of(&description), room), 0);
        let (p, s, d) = description.counts();
        p_met.insert(p);
        s_met.insert(s);
        d_met.insert(d);
        tails.insert(description.tail.fields.in_use());
        sheets.insert(sheet_of(&description).len());
        for Pipe { fields, .. } in &description.pipes {
            if fields.in_use() {
                patterns.insert(fields.punct_pat_id);
            } else {
                unused.insert((fields.num_sts_1, fields.num_disperser_sections_1));
            }
        }
    }
    assert!(p_met.into_iter().eq(0..=14));
    assert!(s_met.into_iter().eq(0..=34));
    assert!(d_met.into_iter().eq(0..=32));
    assert!(patterns.into_iter().eq(0..64));
    assert_eq!(unused.len(), 256);
    assert_eq!(tails.len(), 2);
    assert_eq!((sheets.first(), sheets.last()), (Some(&21), Some(&121)));
}

#[test]
fn every_refusal() {
    let mut rng = Rng::new(101);
    for number in inputs::WORD_REFUSALS {
        for _ in 0..500 {
            let (word, room) = inputs::refused_word(&mut rng, number).expect("the reader gives it");
            assert_eq!(both(&mut rng, &word, room), number);
        }
    }
}

#[test]
fn damaged_words() {
    let mut rng = Rng::new(102);
    let mut met = [0; 17];
    for _ in 0..15_000 {
        let word = inputs::mutated_word(&mut rng);
        met[usize::from(both(&mut rng, &word, 128))] += 1;
    }
    for number in inputs::WORD_REFUSALS.into_iter().chain([0]) {
        assert!(met[usize::from(number)] > 50, "{number}: {met:?}");
    }
}

#[test]
fn every_bit_of_a_word() {
    let mut rng = Rng::new(103);
    for _ in 0..3 {
        let word = inputs::word(&mut rng);
        for index in 0..768 {
            let mut other = word;
            other[index / 8] ^= 0x80 >> (index % 8);
            let number = if index < WORD_BITS { 5 } else { 2 };
            assert_eq!(both(&mut rng, &other, 128), number, "bit {index}");
            // and with the CRC put right again
            seal(&mut other);
            both(&mut rng, &other, 128);
        }
    }
}

#[test]
fn random_bytes() {
    let mut rng = Rng::new(104);
    let mut met = BTreeSet::new();
    for _ in 0..600 {
        let mut word = rng.bytes(96);
        met.insert(both(&mut rng, &word, 128));
        word[95] &= 0xC0;
        met.insert(both(&mut rng, &word, 128));
        seal(&mut word);
        met.insert(both(&mut rng, &word, 128));
        word[0] &= 0x0F;
        seal(&mut word);
        met.insert(both(&mut rng, &word, 128));
    }
    assert!(met.is_superset(&BTreeSet::from([2, 5, 6, 7, 8])), "{met:?}");
}

#[test]
fn lengths() {
    let mut rng = Rng::new(105);
    // around the bounds, and lengths that meet them when cut to 8 or 16 bits
    let words = [0, 1, 95, 97, 191, 192, 256 + 96, 1_536, 65_536 + 96];
    let rooms = [
        0,
        1,
        96,
        121,
        127,
        128,
        129,
        300,
        256 + 127,
        65_536,
        65_536 + 127,
        65_536 + 128,
    ];
    let word = inputs::word(&mut rng).to_vec();
    for room in rooms {
        let number = u8::from(room < 128);
        assert_eq!(both(&mut rng, &word, room), number, "room {room}");
    }
    for n in words {
        // the same bytes, cut or followed by zeros
        let mut word = word.clone();
        word.resize(n, 0);
        for room in rooms {
            assert_eq!(both(&mut rng, &word, room), 1, "{n} bytes, room {room}");
        }
    }
}

#[test]
fn points_at_the_bound() {
    let mut rng = Rng::new(106);
    for (description, number) in inputs::points_at_the_bound() {
        assert_eq!(both_of(&mut rng, &description), number);
    }
}

/// The reason for the library: a pipe of width 0 whose count fields are not zero, and pipes below it.
#[test]
fn a_pipe_of_width_0_owns_nothing() {
    let multiplex = [0x00, 0x00, 0x09, 0x00, 0x00, 0x05, 0x03];
    let pipes = [
        [0x14, 0x12, 0x08, 0x00, 0x00, 0x00], // pattern 5, width 18, 2 streams, 1 section
        [0x34, 0x00, 0xFF, 0x00, 0x00, 0x00], // pattern 13, width 0, count fields 31 and 7
        [0x34, 0x0C, 0x09, 0x00, 0x00, 0x00], // pattern 13, width 12, 2 streams, 2 sections
    ];
    let tail = [0x00, 0x01]; // width 1
    let streams = [1, 11, 2, 12, 3, 13, 4, 14, 5, 15];
    let mut word = [0; 96];
    let mut bytes = [&multiplex[..], &pipes.concat(), &tail, &streams].concat();
    bytes.extend([0xF0, 0x07, 0x00, 0x70, 0x00]); // 16 pairs of taps, then 8 and 8; 12 bits each
    word[..bytes.len()].copy_from_slice(&bytes);
    seal(&mut word);
    let header = [3, 5, 3, 0, 0, 21, 0, 39, 0, 49, 0, 55];
    let sections = [0x0F, 0x00, 0x07, 0x00, 0x07, 0x00];
    let sheet = [
        &header[..],
        &multiplex,
        &tail,
        &pipes.concat(),
        &streams,
        &sections,
    ]
    .concat();
    let mut room = vec![0xA5; 128];
    assert_eq!(opl::signalling_read(&word, &mut room), 0);
    assert_eq!(room[..55], sheet);
    assert_eq!(room[55..], [0xA5; 73]);
    assert_eq!(both(&mut Rng::new(107), &word, 128), 0);
}

#[test]
fn every_bit_after_the_lists() {
    let mut rng = Rng::new(108);
    let description = plain(vec![plain_pipe(0..3), Pipe::default()], Some(3));
    for index in description.bits()..BODY_BITS {
        let mut word = word_of(&description);
        set_bit(&mut word, index, true);
        seal(&mut word);
        assert_eq!(both(&mut rng, &word, 128), 8, "bit {index}");
    }
}

#[test]
fn every_pattern_with_every_width() {
    let mut rng = Rng::new(109);
    let mut description = plain(vec![plain_pipe(0..1)], None);
    let mut met = BTreeSet::new();
    for pattern in 0..64 {
        for width in 1..1_024 {
            let fields = &mut description.pipes[0].fields;
            fields.punct_pat_id = pattern;
            fields.pipe_width_cus = width;
            met.insert(both_of(&mut rng, &description));
        }
    }
    assert_eq!(met, BTreeSet::from([0, 9]));
}

#[test]
fn every_pair_of_tap_counts() {
    let mut rng = Rng::new(110);
    for pattern in [5, 63] {
        for pair in 0..256 {
            let mut pipe = plain_pipe(0..1);
            pipe.fields.punct_pat_id = pattern;
            pipe.fields.num_disperser_sections_1 = 1;
            let section = |num_taps_div2_1| Section {
                num_taps_div2_1,
                tap_diff: 7,
                gap_width: 31,
            };
            pipe.sections = vec![section(pair / 16), section(pair % 16)];
            // 32 taps are 16 pairs, and each field is one less
            let number = if pair / 16 + pair % 16 == 14 { 0 } else { 10 };
            assert_eq!(
                both_of(&mut rng, &plain(vec![pipe], None)),
                number,
                "{pair}"
            );
        }
    }
}

#[test]
fn every_pair_of_stream_ids() {
    let mut rng = Rng::new(111);
    let description = plain(vec![plain_pipe(0..32), plain_pipe(32..33)], Some(33));
    let word = word_of(&description);
    // two pipes and the tail stand before the streams
    let stream = |at: usize| 7 + 12 + 2 + 2 * at;
    for one in 0..34 {
        for other in 0..one {
            let mut twice = word;
            twice[stream(one)] = twice[stream(other)];
            seal(&mut twice);
            assert_eq!(both(&mut rng, &twice, 128), 11, "{other} {one}");
            // a width that is another stream's id, or width, is no fault
            let mut widths = word;
            widths[stream(one) + 1] = word[stream(other)];
            seal(&mut widths);
            assert_eq!(both(&mut rng, &widths, 128), 0, "{other} {one}");
        }
    }
}
