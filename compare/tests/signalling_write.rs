//! opl_signalling_write against the second writer: the number and every byte of the word; and the ways
//! back, read after write and write after read.

use compare::inputs::{self, plain, plain_pipe};
use compare::opl;
use compare::rng::Rng;
use compare::second::bits::{bit, set_bit};
use compare::second::description::{Pipe, Section};
use compare::second::signalling::{sheet_of, word_of, write};
use std::collections::BTreeSet;

/// The number that both writers give for a sheet and a word of that length, filled at random. Panics
/// unless they agree on it and on every byte of the word.
#[track_caller]
fn both(rng: &mut Rng, sheet: &[u8], length: usize) -> u8 {
    let held = rng.bytes(length);
    let mut expected = held.clone();
    let number = match write(sheet, length) {
        Ok(word) => {
            expected.copy_from_slice(&word);
            0
        }
        Err(number) => number,
    };
    let mut word = held;
    let refusal = opl::signalling_write(sheet, &mut word);
    assert!(
        refusal == number && word == expected,
        "{} bytes of sheet {:02X?}\nlibrary {refusal}, word {word:02X?}\nsecond {number}, word {expected:02X?}",
        sheet.len(),
        &sheet[..sheet.len().min(3_000)],
    );
    number
}

/// A sheet's header for these counts, and records of zeros.
fn zeros(p: usize, s: usize, d: usize) -> Vec<u8> {
    let offsets = [
        21,
        21 + 6 * p,
        21 + 6 * p + 2 * s,
        21 + 6 * p + 2 * s + 2 * d,
    ];
    let mut sheet: Vec<u8> = [p, s, d, 0].map(|count| count as u8).to_vec();
    sheet.extend(offsets.iter().flat_map(|at| (*at as u16).to_be_bytes()));
    sheet.resize(offsets[3], 0);
    sheet
}

#[test]
fn valid_sheets() {
    let mut rng = Rng::new(200);
    let mut lengths = BTreeSet::new();
    for _ in 0..10_000 {
        let sheet = inputs::sheet(&mut rng);
        assert_eq!(both(&mut rng, &sheet, 96), 0);
        lengths.insert(sheet.len());
    }
    assert_eq!((lengths.first(), lengths.last()), (Some(&21), Some(&121)));
}

#[test]
fn read_after_write() {
    let mut rng = Rng::new(201);
    for _ in 0..5_000 {
        let sheet = inputs::sheet(&mut rng);
        let mut word = rng.bytes(96);
        assert_eq!(opl::signalling_write(&sheet, &mut word), 0);
        let mut room = rng.bytes(128);
        assert_eq!(opl::signalling_read(&word, &mut room), 0);
        assert_eq!(room[..sheet.len()], sheet);
    }
}

#[test]
fn write_after_read() {
    let mut rng = Rng::new(202);
    for _ in 0..5_000 {
        let word = inputs::word(&mut rng);
        let mut room = rng.bytes(128);
        assert_eq!(opl::signalling_read(&word, &mut room), 0);
        let length = usize::from(u16::from_be_bytes([room[10], room[11]]));
        let mut again = rng.bytes(96);
        assert_eq!(opl::signalling_write(&room[..length], &mut again), 0);
        assert_eq!(again, word);
    }
}

#[test]
fn every_refusal() {
    let mut rng = Rng::new(203);
    for number in inputs::SHEET_REFUSALS {
        for _ in 0..500 {
            let (sheet, length) =
                inputs::refused_sheet(&mut rng, number).expect("the writer gives it");
            assert_eq!(both(&mut rng, &sheet, length), number);
        }
    }
}

/// Damage anywhere, faults in a description, random records under a sound header, random bytes.
#[test]
fn damaged_sheets() {
    let mut rng = Rng::new(204);
    let mut met = [0; 17];
    for _ in 0..15_000 {
        let sheet = inputs::mutated_sheet(&mut rng);
        met[usize::from(both(&mut rng, &sheet, 96))] += 1;
    }
    for number in inputs::SHEET_REFUSALS.into_iter().filter(|n| *n != 1) {
        assert!(met[usize::from(number)] > 50, "{number}: {met:?}");
    }
    assert!(met[0] > 50, "{met:?}");
}

#[test]
fn every_bit_of_a_sheet() {
    let mut rng = Rng::new(205);
    for _ in 0..6 {
        let sheet = inputs::sheet(&mut rng);
        for index in 0..8 * sheet.len() {
            let mut other = sheet.clone();
            let flipped = !bit(&other, index);
            set_bit(&mut other, index, flipped);
            let number = both(&mut rng, &other, 96);
            assert!(index >= 96 || number == 12, "bit {index}: {number}");
        }
    }
}

#[test]
fn every_value_of_a_header_byte() {
    let mut rng = Rng::new(206);
    let sheet = sheet_of(&plain(vec![plain_pipe(0..3), Pipe::default()], Some(3)));
    for at in 0..12 {
        for value in (0..=255).filter(|value| *value != sheet[at]) {
            let mut other = sheet.clone();
            other[at] = value;
            assert_eq!(both(&mut rng, &other, 96), 12, "byte {at} is {value}");
        }
    }
}

/// Every length around 21, 2,571 and 65,535, and lengths that meet 21 when cut to 16 bits: bytes of a
/// valid sheet cut or followed by zeros, zeros, random bytes, and a header that gives the length as far
/// as two bytes can.
#[test]
fn lengths_of_a_sheet() {
    let mut rng = Rng::new(207);
    let lengths = (0..=45)
        .chain(2_555..=2_590)
        .chain(65_520..=65_580)
        .chain([131_072, 131_072 + 21]);
    let smallest = zeros(0, 0, 0);
    for n in lengths {
        let mut sheet = inputs::sheet(&mut rng);
        let right = sheet.len() == n;
        sheet.resize(n, 0);
        let number = both(&mut rng, &sheet, 96);
        assert!(right || number == 12, "{n} bytes: {number}");
        sheet.fill(0);
        assert_eq!(both(&mut rng, &sheet, 96), 12, "{n} bytes");
        let sheet = rng.bytes(n);
        assert_eq!(both(&mut rng, &sheet, 96), 12, "{n} bytes");
        let mut sheet = smallest.clone();
        sheet.resize(n, 0);
        if let Some(total) = sheet.get_mut(10..12) {
            total.copy_from_slice(&(n as u16).to_be_bytes());
        }
        let number = if n == 21 { 0 } else { 12 };
        assert_eq!(both(&mut rng, &sheet, 96), number, "{n} bytes");
    }
}

/// Sound headers at the top of their range, the longest of 2,571 bytes, and the same cut and lengthened.
#[test]
fn the_longest_sheets() {
    let mut rng = Rng::new(208);
    for p in 252..=255 {
        for s in 252..=255 {
            for d in 252..=255 {
                let mut sheet = zeros(p, s, d);
                assert_eq!(both(&mut rng, &sheet, 96), 13, "{p} {s} {d}");
                let last = sheet.pop();
                assert_eq!(both(&mut rng, &sheet, 96), 12, "{p} {s} {d}");
                sheet.extend(last.into_iter().chain([0]));
                assert_eq!(both(&mut rng, &sheet, 96), 12, "{p} {s} {d}");
            }
        }
    }
    assert_eq!(zeros(255, 255, 255).len(), 2_571);
}

#[test]
fn lengths_of_a_word() {
    let mut rng = Rng::new(209);
    let good = inputs::sheet(&mut rng);
    for length in [
        0,
        1,
        48,
        95,
        97,
        128,
        256 + 96,
        762,
        1_536,
        65_536,
        65_536 + 96,
    ] {
        assert_eq!(both(&mut rng, &good, length), 1, "{length}");
        assert_eq!(both(&mut rng, &[], length), 1, "{length}");
        let bad = inputs::mutated_sheet(&mut rng);
        assert_eq!(both(&mut rng, &bad, length), 1, "{length}");
    }
}

/// Counts in the header against what one pipe and the tail own.
#[test]
fn counts_around_what_is_owned() {
    let mut rng = Rng::new(210);
    let mut met = BTreeSet::new();
    for (width, streams, sections, tail) in [
        (18, 1, 1, 0),
        (18, 3, 2, 1),
        (18, 32, 8, 1),
        (0, 3, 2, 0),
        (0, 32, 8, 1),
    ] {
        let (s, d) = if width > 0 {
            (streams + tail, sections)
        } else {
            (tail, 0)
        };
        for p in 0..3 {
            for s in (0..s + 4).chain([streams, streams + 1]) {
                for d in (0..d + 3).chain([sections]) {
                    let mut sheet = zeros(p, s, d);
                    sheet[18] = 1; // Num_Pipes_1
                    sheet[20] = tail as u8;
                    if p > 0 {
                        let counts = (streams - 1) << 3 | (sections - 1);
                        sheet[21..24].copy_from_slice(&[0x14, width, counts as u8]);
                    }
                    met.insert(both(&mut rng, &sheet, 96));
                }
            }
        }
    }
    assert!(met.contains(&13) && met.contains(&0), "{met:?}");
}

/// Each of the top bits of each section, whatever else is wrong with what comes after 14 in the order.
#[test]
fn top_bits_of_sections() {
    let mut rng = Rng::new(211);
    let mut description = plain(vec![plain_pipe(0..1)], None);
    description.pipes[0].sections = vec![Section::default(); 8];
    description.pipes[0].fields.num_disperser_sections_1 = 7;
    for (version, pipes) in [(0, 1), (1, 1), (0, 2), (15, 15)] {
        description.multiplex.sig_pipe_ver = version;
        description.multiplex.num_pipes_1 = pipes;
        let sheet = sheet_of(&description);
        for section in 0..8 {
            for top in 1..16 {
                let mut other = sheet.clone();
                other[sheet.len() - 16 + 2 * section] |= top << 4;
                assert_eq!(both(&mut rng, &other, 96), 14, "section {section}, {top}");
            }
        }
    }
}

#[test]
fn points_at_the_bound() {
    let mut rng = Rng::new(212);
    for (description, number) in inputs::points_at_the_bound() {
        assert_eq!(both(&mut rng, &sheet_of(&description), 96), number);
    }
}

/// Two sheets that differ give words that differ.
#[test]
fn words_of_different_sheets() {
    let mut rng = Rng::new(213);
    let mut words = BTreeSet::new();
    let mut sheets = BTreeSet::new();
    for _ in 0..2_000 {
        let description = inputs::description(&mut rng);
        let mut word = [0; 96];
        assert_eq!(opl::signalling_write(&sheet_of(&description), &mut word), 0);
        assert_eq!(word, word_of(&description));
        words.insert(word);
        sheets.insert(sheet_of(&description));
    }
    assert_eq!(words.len(), sheets.len());
}
