//! The second implementation's signalling word, sheet and listing, over made-up descriptions.

use compare::inputs;
use compare::rng::Rng;
use compare::second::description::{Description, Pipe};
use compare::second::signalling::{
    check, is_sealed, listing, read, seal, sheet_of, word_of, write,
};
use std::collections::BTreeSet;

#[test]
fn round_trips() {
    let mut rng = Rng::new(1);
    for _ in 0..20_000 {
        let description = inputs::description(&mut rng);
        assert!(description.is_whole());
        let word = word_of(&description);
        let sheet = sheet_of(&description);
        assert_eq!(read(&word, 128).as_ref(), Ok(&sheet));
        assert_eq!(write(&sheet, 96), Ok(word));
        assert_eq!(check(&sheet), Ok(description.counts()));
        assert!(sheet.len() <= 121);
        assert!(is_sealed(&word));
    }
}

#[test]
fn the_generator_covers_the_range() {
    let mut rng = Rng::new(2);
    let mut p_seen = BTreeSet::new();
    let mut s_seen = BTreeSet::new();
    let mut d_seen = BTreeSet::new();
    let mut patterns_used = BTreeSet::new();
    let mut patterns_unused = BTreeSet::new();
    let mut counts_unused = BTreeSet::new();
    let mut streams_used = BTreeSet::new();
    let mut sections_used = BTreeSet::new();
    let mut tails = BTreeSet::new();
    let mut free = BTreeSet::new();
    let mut ids = BTreeSet::new();
    let mut sheets = 0;
    for _ in 0..60_000 {
        let description = inputs::description(&mut rng);
        let (p, s, d) = description.counts();
        p_seen.insert(p);
        s_seen.insert(s);
        d_seen.insert(d);
        free.insert(750 - description.bits());
        tails.insert(description.tail.fields.in_use());
        ids.extend(description.streams().map(|stream| stream.sts_id));
        sheets = sheets.max(sheet_of(&description).len());
        for pipe in &description.pipes {
            if pipe.fields.in_use() {
                patterns_used.insert(pipe.fields.punct_pat_id);
                streams_used.insert(pipe.streams.len());
                sections_used.insert(pipe.sections.len());
            } else {
                patterns_unused.insert(pipe.fields.punct_pat_id);
                counts_unused.insert((pipe.fields.num_sts_1, pipe.fields.num_disperser_sections_1));
            }
        }
    }
    assert!(p_seen.into_iter().eq(0..=14));
    assert!(s_seen.into_iter().eq(0..=34));
    assert!(d_seen.into_iter().eq(0..=32));
    assert!(patterns_used.into_iter().eq(0..64));
    assert!(patterns_unused.into_iter().eq(0..64));
    assert_eq!(counts_unused.len(), 256);
    assert!(streams_used.into_iter().eq(1..=32));
    assert!(sections_used.into_iter().eq(1..=8));
    assert_eq!(tails.len(), 2);
    assert_eq!(ids.len(), 256);
    assert_eq!(sheets, 121);
    // The lists end at each place that counts can give, up to 748.
    assert_eq!(free.first(), Some(&2));
    assert_eq!(free.last(), Some(&(750 - 72)));
}

#[test]
fn every_refusal_of_the_reader() {
    let mut rng = Rng::new(3);
    for number in inputs::WORD_REFUSALS {
        for _ in 0..1_000 {
            let (word, room) = inputs::refused_word(&mut rng, number).unwrap();
            assert_eq!(read(&word, room), Err(number), "{word:02X?} {room}");
        }
    }
    for number in [0, 3, 4, 12, 13, 14, 15, 16, 17] {
        assert_eq!(inputs::refused_word(&mut rng, number), None);
    }
}

#[test]
fn every_refusal_of_the_writer() {
    let mut rng = Rng::new(4);
    for number in inputs::SHEET_REFUSALS {
        for _ in 0..1_000 {
            let (sheet, length) = inputs::refused_sheet(&mut rng, number).unwrap();
            assert_eq!(write(&sheet, length), Err(number), "{sheet:02X?} {length}");
            if number != 1 {
                assert_eq!(check(&sheet), Err(number));
                assert_eq!(listing(&sheet), format!("refused {number}\n"));
            }
        }
    }
    for number in [0, 2, 3, 4, 5, 8, 15, 16, 17] {
        assert_eq!(inputs::refused_sheet(&mut rng, number), None);
    }
}

/// What is accepted goes back to what it was, whatever it was made from.
#[test]
fn damaged_words() {
    let mut rng = Rng::new(5);
    let mut met = [0u32; 17];
    for _ in 0..60_000 {
        let word = inputs::mutated_word(&mut rng);
        match read(&word, 128) {
            Ok(sheet) => {
                met[0] += 1;
                assert_eq!(write(&sheet, 96).unwrap()[..], word[..]);
                assert!(listing(&sheet).ends_with("\nok\n"));
            }
            Err(number) => met[usize::from(number)] += 1,
        }
    }
    assert!(met[0] > 1_000);
    for number in inputs::WORD_REFUSALS {
        assert!(met[usize::from(number)] > 100, "{number}: {met:?}");
    }
}

#[test]
fn damaged_sheets() {
    let mut rng = Rng::new(6);
    let mut met = [0u32; 17];
    for _ in 0..60_000 {
        let sheet = inputs::mutated_sheet(&mut rng);
        match write(&sheet, 96) {
            Ok(word) => {
                met[0] += 1;
                assert_eq!(read(&word, 128), Ok(sheet));
            }
            Err(number) => met[usize::from(number)] += 1,
        }
    }
    assert!(met[0] > 1_000);
    for number in inputs::SHEET_REFUSALS
        .into_iter()
        .filter(|number| *number != 1)
    {
        assert!(met[usize::from(number)] > 100, "{number}: {met:?}");
    }
}

/// A description with room for faults, and the places of its first and its last pipe in use.
fn rich(rng: &mut Rng) -> (Description, usize, usize) {
    loop {
        let description = inputs::description(rng);
        let in_use = |pipe: &Pipe| pipe.fields.in_use();
        let first = description.pipes.iter().position(in_use);
        let last = description.pipes.iter().rposition(in_use);
        match (first, last) {
            (Some(first), Some(last)) if first < last && description.bits() < 700 => {
                return (description, first, last);
            }
            _ => {}
        }
    }
}

/// Each fault is put on top of the one that comes after it in the order; from
/// then on it hides it.
#[test]
fn order_of_the_reader() {
    let mut rng = Rng::new(7);
    for _ in 0..300 {
        let (mut description, first, last) = rich(&mut rng);
        let expect = |description: &Description, number| {
            assert_eq!(read(&word_of(description), 128), Err(number));
        };
        // 11, the two ids far apart.
        let id = description.pipes[last].streams[0].sts_id;
        description.pipes[first].streams[0].sts_id = id;
        expect(&description, 11);
        // 10 in the last pipe in use.
        description.pipes[last].sections[0].num_taps_div2_1 ^= 1;
        expect(&description, 10);
        // 9 in the same, or taps wrong in the first and width in the last.
        description.pipes[last].fields.punct_pat_id = 5;
        description.pipes[last].fields.pipe_width_cus = 19;
        expect(&description, 9);
        description.pipes[first].sections[0].num_taps_div2_1 ^= 2;
        expect(&description, 9);
        // 8.
        let mut word = word_of(&description);
        word[93] |= 0x04;
        seal(&mut word);
        assert_eq!(read(&word, 128), Err(8));
        // 7: Num_Pipes_1 is 15, the rest as it was.
        word[6] |= 0x0F;
        seal(&mut word);
        assert_eq!(read(&word, 128), Err(7));
        // 6, 5, 2, 1.
        word[0] |= 0x10;
        seal(&mut word);
        assert_eq!(read(&word, 128), Err(6));
        word[95] ^= 0x40;
        assert_eq!(read(&word, 128), Err(5));
        word[95] |= 0x01;
        assert_eq!(read(&word, 128), Err(2));
        assert_eq!(read(&word, 127), Err(1));
        assert_eq!(read(&word[..95], 128), Err(1));
    }
}

#[test]
fn order_of_the_writer() {
    let mut rng = Rng::new(8);
    for _ in 0..300 {
        let (mut description, first, last) = rich(&mut rng);
        let expect = |description: &Description, number| {
            assert_eq!(write(&sheet_of(description), 96), Err(number));
        };
        let id = description.pipes[last].streams[0].sts_id;
        description.pipes[first].streams[0].sts_id = id;
        expect(&description, 11);
        description.pipes[first].sections[0].num_taps_div2_1 ^= 1;
        expect(&description, 10);
        description.pipes[last].fields.punct_pat_id = 27;
        description.pipes[last].fields.pipe_width_cus = 6;
        expect(&description, 9);
        // 7: streams enough to pass the bound.
        let pipe = description.pipes[first].clone();
        while description.bits() <= 750 {
            description.pipes.push(pipe.clone());
            description.multiplex.num_pipes_1 += 1;
        }
        assert!(description.multiplex.num_pipes_1 <= 15 && description.is_whole());
        expect(&description, 7);
        // 13, 6.
        description.tail.fields.pipe_width_cus = 1 - description.tail.fields.owned_streams() as u32;
        expect(&description, 13);
        description.multiplex.sig_pipe_ver = 8;
        expect(&description, 6);
        // 14, 12, 1.
        let mut sheet = sheet_of(&description);
        let section = sheet.len() - 2;
        sheet[section] |= 0x10;
        assert_eq!(write(&sheet, 96), Err(14));
        sheet[3] = 1;
        assert_eq!(write(&sheet, 96), Err(12));
        assert_eq!(write(&sheet, 95), Err(1));
        assert_eq!(write(&[], 0), Err(1));
    }
}

#[test]
fn single_bits_are_noticed() {
    let mut rng = Rng::new(9);
    for _ in 0..20 {
        let word = inputs::word(&mut rng);
        for index in 0..768 {
            let mut other = word;
            other[index / 8] ^= 0x80 >> (index % 8);
            assert_eq!(read(&other, 128), Err(if index < 762 { 5 } else { 2 }));
        }
    }
}

#[test]
fn short_and_long_sheets() {
    assert_eq!(write(&[], 96), Err(12));
    assert_eq!(check(&[0; 20]), Err(12));
    assert_eq!(listing(&[]), "refused 12\n");
    assert_eq!(listing(&[0; 20]), "refused 12\n");
    // The longest sheet whose header is sound: 2,571 bytes, refused by what it
    // says; one more is refused 12.
    let mut sheet = vec![0u8; 2_571];
    sheet[..3].fill(255);
    for (at, number) in [(4, 21u16), (6, 1_551), (8, 2_061), (10, 2_571)] {
        sheet[at..at + 2].copy_from_slice(&number.to_be_bytes());
    }
    assert_eq!(listing(&sheet), "refused 13\n");
    sheet.push(0);
    assert_eq!(listing(&sheet), "refused 12\n");
    assert_eq!(listing(&vec![0; 100_000]), "refused 12\n");
}

#[test]
fn header_bytes_each_decide() {
    let mut rng = Rng::new(10);
    for _ in 0..200 {
        let sheet = inputs::sheet(&mut rng);
        for at in 0..12 {
            for bit in 0..8 {
                let mut other = sheet.clone();
                other[at] ^= 1 << bit;
                assert_eq!(check(&other), Err(12));
            }
        }
        let mut longer = sheet.clone();
        longer.push(0);
        assert_eq!(check(&longer), Err(12));
        assert_eq!(check(&sheet[..sheet.len() - 1]), Err(12));
    }
}

/// A pipe of width 0 owns nothing, whatever its count fields say; patterns 28
/// to 63 are carried with any width; the tail has neither rule 9 nor 10.
#[test]
fn a_listing_with_pipes() {
    // Two bytes each: pattern and width; then count fields and the rest.
    let pipes = [
        [0x14, 0x12, 0x08, 0x00, 0x00, 0x00], // pattern 5, width 18, 2 streams, 1 section
        [0x6C, 0x00, 0xFF, 0x00, 0x00, 0x00], // pattern 27, width 0, counts 31 and 7
        [0xFC, 0x01, 0x01, 0xC0, 0x00, 0x0F], // pattern 63, width 1, 1 stream, 2 sections
    ];
    let mut sheet = vec![3, 4, 3, 0, 0, 21, 0, 39, 0, 47, 0, 53];
    sheet.extend([0x07, 0xFF, 0xFE, 0x3F, 0xFF, 0xFF, 0xF3]);
    sheet.extend([0x03, 0xFF]); // tail: flag set, width 511
    sheet.extend(pipes.concat());
    sheet.extend([0, 9, 255, 9, 7, 9, 1, 9]);
    sheet.extend([0x0F, 0xFF, 0x07, 0x00, 0x07, 0x00]);
    assert_eq!(
        listing(&sheet),
        "multiplex operator=254 frame=4194303 pipes=3 streams=4 sections=3\n\
         pipe 1 pattern=5 width=18 streams=2 sections=1\n\
         pipe 2 pattern=27 width=0 streams=0 sections=0\n\
         pipe 3 pattern=63 width=1 streams=1 sections=2\n\
         tail width=511\n\
         ok\n"
    );
    let word = write(&sheet, 96).unwrap();
    assert_eq!(word[..7], sheet[12..19]);
    assert_eq!(word[7..25], sheet[21..39]);
    assert_eq!(word[25..27], sheet[19..21]);
    assert_eq!(word[27..35], sheet[39..47]);
    assert_eq!(word[35..40], [0xFF, 0xF7, 0x00, 0x70, 0x00]);
    assert!(word[40..93].iter().all(|byte| *byte == 0));
    assert_eq!(read(&word, 1_000), Ok(sheet));
}
