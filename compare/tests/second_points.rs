//! The second implementation at 01's "Points on either side", one test each, and at the examples of
//! its text.

use compare::inputs::{plain, plain_pipe};
use compare::second::description::{list_bits, Description, Pipe};
use compare::second::interleaver::{addresses, tentative};
use compare::second::patterns::pattern;
use compare::second::turbo::{self, Constituent};
use compare::second::{bits, signalling};

/// Both ways accept it.
fn fits(description: &Description) {
    let word = signalling::word_of(description);
    let sheet = signalling::sheet_of(description);
    assert_eq!(signalling::read(&word, 128), Ok(sheet.clone()));
    assert_eq!(signalling::write(&sheet, 96), Ok(word));
    assert_eq!(signalling::check(&sheet), Ok(description.counts()));
}

/// Both ways refuse it.
fn refused(description: &Description, number: u8) {
    let word = signalling::word_of(description);
    let sheet = signalling::sheet_of(description);
    assert_eq!(signalling::read(&word, 128), Err(number));
    assert_eq!(signalling::write(&sheet, 96), Err(number));
    assert_eq!(signalling::check(&sheet), Err(number));
    assert_eq!(signalling::listing(&sheet), format!("refused {number}\n"));
}

#[test]
fn fourteen_pipes_not_in_use_fit() {
    let description = plain(vec![Pipe::default(); 14], None);
    assert_eq!(description.bits(), 744);
    fits(&description);
}

#[test]
fn fifteen_pipes_do_not() {
    let description = plain(vec![Pipe::default(); 15], None);
    assert_eq!(description.bits(), 792);
    refused(&description, 7);
}

#[test]
fn thirty_four_streams_fit() {
    let description = plain(vec![plain_pipe(0..32), plain_pipe(32..33)], Some(33));
    assert_eq!(description.counts(), (2, 34, 2));
    assert_eq!(description.bits(), 736);
    fits(&description);
    assert_eq!(signalling::sheet_of(&description).len(), 21 + 12 + 68 + 4);
}

#[test]
fn thirty_five_do_not() {
    let description = plain(vec![plain_pipe(0..32), plain_pipe(32..34)], Some(34));
    assert_eq!(description.counts(), (2, 35, 2));
    assert_eq!(description.bits(), 752);
    refused(&description, 7);
    assert_eq!(list_bits(2, 35, 2), 752);
}

#[test]
fn impulse_into_a_fresh_encoder() {
    let mut encoder = Constituent::default();
    let out: Vec<turbo::Symbols> = [true, false, false, false, false]
        .into_iter()
        .map(|u| encoder.clock(u))
        .collect();
    let row = |take: fn(&turbo::Symbols) -> bool| -> Vec<u8> {
        out.iter().map(|symbols| u8::from(take(symbols))).collect()
    };
    assert_eq!(row(|s| s.x), [1, 0, 0, 0, 0]);
    assert_eq!(row(|s| s.y0), [1, 1, 1, 1, 0]);
    assert_eq!(row(|s| s.y1), [1, 1, 0, 1, 1]);
}

#[test]
fn tail_from_one_zero_zero() {
    let mut encoder = Constituent {
        a1: true,
        a2: false,
        a3: false,
    };
    let out: Vec<[u8; 3]> = (0..3)
        .map(|_| encoder.clock_tail())
        .map(|symbols| [symbols.x, symbols.y0, symbols.y1].map(u8::from))
        .collect();
    assert_eq!(out, [[0, 1, 1], [1, 0, 1], [1, 1, 1]]);
    assert_eq!(encoder, Constituent::default());
}

#[test]
fn tail_ends_in_zero_from_every_state() {
    for state in 0..8 {
        let mut encoder = Constituent {
            a1: state & 4 != 0,
            a2: state & 2 != 0,
            a3: state & 1 != 0,
        };
        for _ in 0..3 {
            encoder.clock_tail();
        }
        assert_eq!(encoder, Constituent::default());
    }
}

#[test]
fn counters_that_give_address_0() {
    assert_eq!(tentative(9, 16_352), 0);
    assert_eq!(tentative(5, 992), 0);
    assert_eq!(
        addresses(12_282)
            .iter()
            .filter(|address| **address == 0)
            .count(),
        1
    );
    assert_eq!(
        addresses(762)
            .iter()
            .filter(|address| **address == 0)
            .count(),
        1
    );
}

#[test]
fn counter_31_is_dropped() {
    assert!(tentative(9, 31) >= 12_282);
    assert!(tentative(5, 31) >= 762);
}

#[test]
fn pipe_record_of_pattern_5_width_18() {
    let mut to = bits::BitWriter::new();
    plain_pipe(0..1).fields.write(&mut to);
    assert_eq!(to.into_bytes(), [0x14, 0x12, 0, 0, 0, 0]);
}

#[test]
fn code_bits_of_pattern_5() {
    assert_eq!(pattern(5).unwrap().code_bits(12_282), 36_864);
    assert_eq!(
        turbo::encode(5, &[0; 1536], 36_864 / 8).unwrap().len() * 8,
        36_864
    );
}

#[test]
fn all_zero_word_gives_all_zero_codeword() {
    for number in 0..28 {
        let length = pattern(number).unwrap().code_bits(12_282) / 8;
        assert_eq!(
            turbo::encode(number, &[0; 1536], length),
            Ok(vec![0; length]),
            "{number}"
        );
    }
    assert_eq!(turbo::encode(0, &[0; 96], 480), Ok(vec![0; 480]));
}

#[test]
fn three_copies_of_minus_128() {
    // Pattern 0 sends X of each tail period three times: values 5N, 5N+1,
    // 5N+2 are the first tail X.
    for (block, lane) in [(12_282, 61_440), (762, 3_840)] {
        let mut values = vec![0i8; 5 * (block + 6)];
        values[5 * block..5 * block + 3].fill(-128);
        let placed = turbo::place(0, &values, lane).unwrap();
        assert_eq!(placed[5 * block], -384);
        assert_eq!(placed.iter().filter(|value| **value != 0).count(), 1);
        values[5 * block..5 * block + 3].fill(127);
        assert_eq!(turbo::place(0, &values, lane).unwrap()[5 * block], 381);
    }
}

#[test]
fn listing_of_the_example() {
    let sheet = [
        0x00, 0x00, 0x00, 0x00, 0x00, 0x15, 0x00, 0x15, 0x00, 0x15, 0x00, 0x15, 0x00, 0x00, 0x09,
        0x00, 0x00, 0x05, 0x00, 0x00, 0x00,
    ];
    assert_eq!(
        signalling::listing(&sheet),
        "multiplex operator=9 frame=5 pipes=0 streams=0 sections=0\ntail unused\nok\n"
    );
}

#[test]
fn bounds_that_follow() {
    // "So p is at most 14, s at most 34 and d at most 32", "an accepted
    // word's sheet has at most 121" bytes: by all counts that pipes can own.
    let (mut p_most, mut s_most, mut d_most, mut sheet_most) = (0, 0, 0, 0);
    for p in 0..16 {
        for used in 0..=p {
            for tail in 0..2 {
                for s in used..=32 * used {
                    for d in used..=8 * used {
                        if list_bits(p, s + tail, d) <= 750 {
                            p_most = p_most.max(p);
                            s_most = s_most.max(s + tail);
                            d_most = d_most.max(d);
                            sheet_most = sheet_most.max(21 + 6 * p + 2 * (s + tail) + 2 * d);
                        }
                    }
                }
            }
        }
    }
    assert_eq!((p_most, s_most, d_most), (14, 34, 32));
    assert_eq!(sheet_most, 121);
}
