//! opl_payload_read of stream type 2 against the second implementation: which parts hold, RFU of 32 bits, and the CRC
//! over 46 bits. That the reader leaves the lent word alone, and so hands out the packets as they came, is looked at
//! with every call.

mod payload_words;

use compare::inputs::{self, flip_bit, flip_places};
use compare::rng::Rng;
use compare::second::payload::{rfu_bits, seal, seal_over};
use payload_words::{both_read, both_write, Writing};

/// A header's parity where all parts hold.
const ALL: u8 = 0b1111;

/// The word of that many packets, any bytes, with this id.
fn written(rng: &mut Rng, id: u8, count: u32) -> Vec<u8> {
    let payload = &rng.bytes(188 * count as usize);
    let null_packet = &rng.bytes(188);
    let writing = Writing {
        ty: 2,
        id,
        count,
        payload,
        null_packet,
    };
    both_write(rng, writing, 1_536).expect("it is accepted")
}

/// The parity that both readers report of a word with this id and with RFU 0.
#[track_caller]
fn parity(rng: &mut Rng, id: u8, word: &[u8]) -> u8 {
    let header = both_read(rng, word, 16).expect("it is accepted");
    assert_eq!(header[..7], [0, 0, 0, 0, id, 2, 0]);
    assert_eq!(header[8..], [0; 8]);
    header[7]
}

/// All parts but this one.
fn all_but(part: usize) -> u8 {
    ALL & !(1 << part)
}

#[test]
fn all_parts_of_a_written_word_hold() {
    let mut rng = Rng::new(330);
    for count in 0..=8 {
        for id in 0..=255 {
            let word = written(&mut rng, id, count);
            assert_eq!(parity(&mut rng, id, &word), ALL);
        }
    }
}

/// Each of the 4 x 3,057 bits that belong to a part.
#[test]
fn one_changed_bit_makes_just_its_part_fail() {
    let mut rng = Rng::new(331);
    let mut word = written(&mut rng, 7, 8);
    let packets = (0..12_032).map(|index| (index, index / 3_008));
    let parities = (0..196).map(|index| (12_032 + index, index / 49));
    for (index, part) in packets.chain(parities) {
        flip_bit(&mut word, index);
        let found = parity(&mut rng, 7, &word);
        assert_eq!(found, all_but(part), "bit {index}");
        flip_bit(&mut word, index);
    }
    assert_eq!(parity(&mut rng, 7, &word), ALL);
}

#[test]
fn an_odd_number_of_changed_bits_makes_just_its_part_fail() {
    let mut rng = Rng::new(332);
    for _ in 0..250 {
        for part in 0..4 {
            let mut word = written(&mut rng, 7, 6);
            let places = inputs::odd_places(&mut rng);
            flip_places(&mut word, part, &places);
            let found = parity(&mut rng, 7, &word);
            assert_eq!(found, all_but(part), "{} bits", places.len());
        }
    }
}

/// Up to 8 show always, as the minimum distance is 10. Of more it is the second implementation that knows.
#[test]
fn an_even_number_of_changed_bits() {
    let mut rng = Rng::new(333);
    let sound = written(&mut rng, 7, 8);
    for part in 0..4 {
        for number in [2, 4, 6, 8] {
            for _ in 0..50 {
                let mut word = sound.clone();
                flip_places(&mut word, part, &inputs::distinct_places(&mut rng, number));
                let found = parity(&mut rng, 7, &word);
                assert_eq!(found, all_but(part), "{number} bits");
            }
        }
        for _ in 0..50 {
            let mut word = sound.clone();
            let number = 2 * rng.range(5, 1_528);
            flip_places(&mut word, part, &inputs::distinct_places(&mut rng, number));
            let found = parity(&mut rng, 7, &word);
            assert_eq!(found | 1 << part, ALL, "{number} bits");
        }
    }
}

/// A change that is a codeword itself leaves the part as it was: it holds if it held before.
#[test]
fn a_codeword_that_is_added_does_not_show() {
    let mut rng = Rng::new(334);
    let mut word = written(&mut rng, 7, 8);
    for damaged in [false, true] {
        if damaged {
            flip_places(&mut word, 2, &[1_000]);
        }
        let due = if damaged { all_but(2) } else { ALL };
        for part in 0..4 {
            for _ in 0..50 {
                flip_places(&mut word, part, &inputs::codeword_places(&mut rng));
                assert_eq!(parity(&mut rng, 7, &word), due);
            }
        }
    }
}

/// The generator alone, at any place: it divides the sum, but the parity bit does not agree, unless it is changed too.
/// And a bit together with the parity bit: their sum is even, but the generator does not agree.
#[test]
fn both_generator_and_parity_bit_have_to_agree() {
    const GENERATOR: [usize; 19] = [
        48, 44, 41, 37, 36, 34, 32, 29, 27, 26, 21, 17, 16, 13, 7, 5, 3, 1, 0,
    ];
    let mut rng = Rng::new(335);
    let mut word = written(&mut rng, 7, 3);
    for part in 0..4 {
        for by in (0..3_008).step_by(31).chain([3_007]) {
            // x^0 of c_o(x) stands at bit 3,055 of the codeword, p0 at bit 3,056
            let places = GENERATOR.map(|power| 3_055 - by - power);
            flip_places(&mut word, part, &places);
            let found = parity(&mut rng, 7, &word);
            assert_eq!(found, all_but(part), "the generator times x^{by}");
            flip_places(&mut word, part, &[3_056]);
            assert_eq!(parity(&mut rng, 7, &word), ALL, "times x^{by}, and p0");
            flip_places(&mut word, part, &[by, 3_056]);
            let found = parity(&mut rng, 7, &word);
            assert_eq!(found, all_but(part), "bit {by}");
            flip_places(&mut word, part, &[by]);
            assert_eq!(parity(&mut rng, 7, &word), all_but(part), "p0 alone");
            flip_places(&mut word, part, &[3_056]);
        }
    }
}

/// Each choice of parts that are damaged.
#[test]
fn every_set_of_parts() {
    let mut rng = Rng::new(336);
    for holding in 0..=ALL {
        for _ in 0..20 {
            let mut word = written(&mut rng, 7, 8);
            for part in (0..4).filter(|part| holding >> part & 1 == 0) {
                flip_places(&mut word, part, &inputs::odd_places(&mut rng));
            }
            assert_eq!(parity(&mut rng, 7, &word), holding);
        }
    }
}

/// Any packets, and behind them any parity bits: what is no codeword at all, and what holds by chance in no part.
#[test]
fn any_packets_with_any_parity() {
    let mut rng = Rng::new(337);
    for _ in 0..500 {
        let mut word = rng.bytes(1_536);
        let (rfu, id) = (rng.field(32), rng.field(8));
        inputs::set_payload_header(&mut word, rfu, id, 2, 0);
        assert!(both_read(&mut rng, &word, 16).is_ok());
        // the parity of one word behind the packets of another
        let other = written(&mut rng, 7, 8);
        word[1_504..].copy_from_slice(&other[1_504..]);
        assert_eq!(parity(&mut rng, 7, &word), 0);
    }
    for _ in 0..500 {
        let word = inputs::payload_word_of(&mut rng, 2);
        assert!(both_read(&mut rng, &word, 16).is_ok());
    }
}

/// Parts that change places take their packets with them, but not their parity.
#[test]
fn parts_have_their_own_parity() {
    let mut rng = Rng::new(338);
    let word = written(&mut rng, 7, 8);
    for one in 0..4 {
        for other in 0..4 {
            let mut moved = word.clone();
            moved[376 * one..376 * (one + 1)]
                .copy_from_slice(&word[376 * other..376 * (other + 1)]);
            let due = if one == other { ALL } else { all_but(one) };
            assert_eq!(parity(&mut rng, 7, &moved), due, "{other} as {one}");
        }
    }
}

/// The bits of the header, from RFU on, and those of the CRC and the spare bits behind it.
const HEADER: std::ops::Range<usize> = 12_228..12_274;
const CRC: std::ops::Range<usize> = 12_274..12_282;
const SPARE: std::ops::Range<usize> = 12_282..12_288;

/// A written word has RFU 0. Then a changed bit of the type is noticed too, for all that the CRC is over 18 bits for types
/// 0 and 6.
#[test]
fn one_changed_header_bit() {
    let mut rng = Rng::new(339);
    let mut word = written(&mut rng, 0xA5, 8);
    for index in HEADER.chain(CRC) {
        flip_bit(&mut word, index);
        assert_eq!(both_read(&mut rng, &word, 16), Err(5), "bit {index}");
        flip_bit(&mut word, index);
    }
    for index in SPARE {
        flip_bit(&mut word, index);
        assert_eq!(both_read(&mut rng, &word, 16), Err(2), "bit {index}");
        flip_bit(&mut word, index);
    }
}

/// With some other RFU a changed bit of the type is not noticed as such: the CRC over 46 bits is then that over the last
/// 18 with the type that it makes, 0 or 6. The stream id plays no part in that. Type 3 has a CRC over 46 bits too, and so
/// the bit that makes it is noticed whatever RFU is.
#[test]
fn a_changed_type_bit_that_the_crc_does_not_show() {
    let mut rng = Rng::new(345);
    for (rfu, index, due) in [
        (0x620, 12_269, Ok([0, 0])),
        (0x860, 12_268, Err(15)),
        (0x100, 12_270, Err(5)),
    ] {
        for id in 0..256 {
            let mut word = inputs::transport_word(&mut rng);
            inputs::set_payload_header(&mut word, rfu, id, 2, 0);
            let header = both_read(&mut rng, &word, 16).expect("it is accepted");
            assert_eq!(header[4..8], [id as u8, 2, 0, ALL]);
            flip_bit(&mut word, index);
            let found = both_read(&mut rng, &word, 16);
            let type_and_parity = found.map(|header| [header[5], header[7]]);
            assert_eq!(type_and_parity, due, "RFU {rfu:X}, id {id}");
        }
    }
}

/// With the CRC put right again, over the bits that the changed type asks for: types 6, 0 and 3, or Encap_Ver not 0. As
/// RFU is 0, First_Header_Address of type 3 is.
#[test]
fn one_changed_header_bit_that_is_sealed() {
    let mut rng = Rng::new(340);
    let word = written(&mut rng, 0xA5, 8);
    for index in HEADER {
        let mut sealed = word.clone();
        flip_bit(&mut sealed, index);
        seal(&mut sealed);
        let due = match index {
            12_268 => Some(15),
            12_271..=12_273 => Some(16),
            _ => None,
        };
        let found = both_read(&mut rng, &sealed, 16);
        assert_eq!(found.err(), due, "bit {index}");
        // what is left of the words that are accepted: type 0 at its place, else type 2 or 3
        let parity = found.map_or(ALL, |header| header[7]);
        assert_eq!(parity, if index == 12_269 { 0 } else { ALL });
    }
}

/// Words with any RFU, of which one and two header bits are changed, without and with the CRC put right again.
#[test]
fn changed_header_bits_of_any_word() {
    let mut rng = Rng::new(341);
    let word = inputs::payload_word_of(&mut rng, 2);
    for one in HEADER.start..SPARE.end {
        for other in one..SPARE.end {
            let mut damaged = word.clone();
            flip_bit(&mut damaged, one);
            if other != one {
                flip_bit(&mut damaged, other);
            }
            let _ = both_read(&mut rng, &damaged, 16);
            seal(&mut damaged);
            let _ = both_read(&mut rng, &damaged, 16);
        }
    }
}

#[test]
fn rfu_is_reported_as_it_stands() {
    let mut rng = Rng::new(342);
    let ones = (0..32).map(|place| 1 << place);
    let any: Vec<u32> = (0..200).map(|_| rng.field(32)).collect();
    for rfu in ones.chain([u32::MAX, 0x0123_4567]).chain(any) {
        let mut word = written(&mut rng, 7, 8);
        inputs::set_payload_header(&mut word, rfu, 7, 2, 0);
        let header = both_read(&mut rng, &word, 16).expect("it is accepted");
        assert_eq!(header[..4], rfu.to_be_bytes());
        assert_eq!(header[4..8], [7, 2, 0, ALL]);
    }
}

/// Whether the CRCs over 18 and over 46 bits of a word are one.
fn crcs_agree(word: &[u8]) -> bool {
    let [one, other] = [18, 46].map(|covered| {
        let mut sealed = word.to_vec();
        seal_over(&mut sealed, covered);
        sealed
    });
    one == other
}

/// Every type with a CRC over 18 and over 46 bits: just one of them is right, and wrong is 5 before all else. Now and
/// then the two are the same CRC.
#[test]
fn the_crc_goes_by_the_type() {
    let mut rng = Rng::new(343);
    let (mut apart, mut alike) = (0, 0);
    for _ in 0..100 {
        for ty in 0..8 {
            for encap in [0, 0, 1, 4, 7] {
                let mut word = inputs::payload_word_of(&mut rng, 2);
                let (rfu, id) = (rng.field(rfu_bits(ty)), rng.field(8));
                inputs::set_payload_header(&mut word, rfu, id, ty, encap);
                let due = match (encap, ty) {
                    (0, 0..=3) => None,
                    (0, _) => Some(15),
                    _ => Some(16),
                };
                assert_eq!(both_read(&mut rng, &word, 16).err(), due, "type {ty}");
                let agree = crcs_agree(&word);
                let other = if matches!(ty, 2 | 3) { 18 } else { 46 };
                seal_over(&mut word, other);
                let due = if agree { due } else { Some(5) };
                assert_eq!(both_read(&mut rng, &word, 16).err(), due, "type {ty}");
                match agree {
                    true => alike += 1,
                    false => apart += 1,
                }
            }
        }
    }
    assert!(apart > 3_900 && alike > 0, "{apart}, {alike}");
}

/// 1 2 5 16 15, whether the parts hold or not.
#[test]
fn order_of_refusals() {
    let mut rng = Rng::new(344);
    for damaged in [false, true] {
        let mut word = written(&mut rng, 7, 8);
        if damaged {
            (0..4).for_each(|part| flip_places(&mut word, part, &[part]));
        }
        inputs::set_payload_header(&mut word, 0, 7, 4, 0);
        assert_eq!(both_read(&mut rng, &word, 16), Err(15));
        for ty in [2, 4] {
            inputs::set_payload_header(&mut word, 0, 7, ty, 1);
            assert_eq!(both_read(&mut rng, &word, 16), Err(16));
        }
        word[1_534] ^= 1;
        assert_eq!(both_read(&mut rng, &word, 16), Err(5));
        word[1_535] ^= 1;
        assert_eq!(both_read(&mut rng, &word, 16), Err(2));
        assert_eq!(both_read(&mut rng, &word, 15), Err(1));
        word.push(0);
        assert_eq!(both_read(&mut rng, &word, 16), Err(1));
    }
}
