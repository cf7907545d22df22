//! opl_payload_read of stream type 3 against the second implementation: First_Header_Address, RFU of 20 bits, parity, and
//! the CRC over 46 bits, by which types 2 and 3 differ from all others. What the payload holds is not looked at.

mod payload_words;

use compare::inputs::{self, flip_bit, flip_places};
use compare::opl;
use compare::rng::Rng;
use compare::second::payload::{self, seal};
use payload_words::{both_read, both_write, Writing};
use std::ops::Range;

/// The bits of the header, from RFU on, those of the stream type in it, and those of the CRC behind it.
const HEADER: Range<usize> = 12_228..12_274;
const TYPE: Range<usize> = 12_268..12_271;
const CRC: Range<usize> = 12_274..12_282;

/// A header's parity where all parts hold.
const ALL: u8 = 0b1111;

/// A word that the library wrote, with this First_Header_Address: so many bytes are to come of a packet.
fn written(rng: &mut Rng, id: u8, address: u16) -> Vec<u8> {
    let to_come = u32::from(address).min(1_600);
    let queue = inputs::ip_packet(rng, 4_095);
    let sent = match to_come {
        0 => 0,
        _ => 4_097 - to_come,
    };
    let mut word = rng.bytes(1_536);
    let refusal = opl::ip_write(id, sent, &queue, &mut word, &mut [0; 8]);
    assert_eq!(refusal, 0);
    word
}

/// The addresses that a written word may have.
fn addresses() -> impl Iterator<Item = u16> {
    (0..1_503).chain([0xFFF])
}

#[test]
fn every_address_of_a_written_word() {
    let mut rng = Rng::new(360);
    for address in addresses() {
        let id = rng.byte();
        let word = written(&mut rng, id, address);
        let header = both_read(&mut rng, &word, 16).expect("it is accepted");
        assert_eq!(header[..8], [0, 0, 0, 0, id, 3, 0, ALL]);
        assert_eq!(header[8..10], address.to_be_bytes());
        assert_eq!(header[10..], [0; 6]);
    }
}

/// Any bytes with each of the 4,096 addresses: 1,503 to 4,094 are refused.
#[test]
fn every_address() {
    let mut rng = Rng::new(361);
    for address in 0..=0xFFF {
        let mut word = rng.bytes(1_536);
        let (rfu, id) = (rng.field(20), rng.field(8));
        inputs::set_ip_header(&mut word, rfu, address, id);
        let due = (1_503..0xFFF).contains(&address).then_some(18);
        let found = both_read(&mut rng, &word, 16);
        assert_eq!(found.err(), due, "{address}");
        if let Ok(header) = found {
            assert_eq!(header[..4], rfu.to_be_bytes());
            assert_eq!(header[4..7], [id as u8, 3, 0]);
            assert_eq!(header[8..10], address.to_be_bytes());
            assert_eq!(header[10..], [0; 6]);
        }
    }
}

#[test]
fn rfu_is_reported_as_it_stands() {
    let mut rng = Rng::new(362);
    let ones = (0..20).map(|place| 1 << place);
    let any: Vec<u32> = (0..200).map(|_| rng.field(20)).collect();
    for rfu in ones.chain([0xF_FFFF, 0x1_2345]).chain(any) {
        let address = inputs::address(&mut rng);
        let mut word = written(&mut rng, 7, address);
        inputs::set_ip_header(&mut word, rfu, address, 7);
        let header = both_read(&mut rng, &word, 16).expect("it is accepted");
        assert_eq!(header[..4], rfu.to_be_bytes());
        assert_eq!(header[4..8], [7, 3, 0, ALL]);
        assert_eq!(header[8..10], address.to_be_bytes());
    }
}

/// Each choice of parts that are damaged.
#[test]
fn every_set_of_parts() {
    let mut rng = Rng::new(363);
    for holding in 0..=ALL {
        for _ in 0..20 {
            let address = inputs::address(&mut rng);
            let mut word = written(&mut rng, 7, address);
            for part in (0..4).filter(|part| holding >> part & 1 == 0) {
                flip_places(&mut word, part, &inputs::odd_places(&mut rng));
            }
            let header = both_read(&mut rng, &word, 16).expect("it is accepted");
            assert_eq!(header[7], holding);
        }
    }
}

/// All of the 46 bits are covered, those of First_Header_Address too.
#[test]
fn one_changed_header_bit() {
    let mut rng = Rng::new(364);
    for address in [0, 1, 0x5DD, 0x5DE, 0xFFF] {
        let id = rng.byte();
        let word = written(&mut rng, id, address);
        for index in HEADER.chain(CRC) {
            is_noticed(&mut rng, &word, index);
        }
    }
}

/// A bit of the type makes it 2, with a CRC over 46 bits too, or 1 or 7, with one over 18: no address that is written has
/// the two CRCs agree.
#[test]
fn one_changed_type_bit() {
    let mut rng = Rng::new(369);
    for address in addresses() {
        let id = rng.byte();
        let word = written(&mut rng, id, address);
        for index in TYPE {
            is_noticed(&mut rng, &word, index);
        }
    }
}

/// With this bit of a word changed, both readers find the CRC wrong.
#[track_caller]
fn is_noticed(rng: &mut Rng, word: &[u8], index: usize) {
    let mut word = word.to_vec();
    flip_bit(&mut word, index);
    assert_eq!(both_read(rng, &word, 16), Err(5), "bit {index}");
}

/// With the CRC put right again: types 7, 1 and 2, Encap_Ver not 0, or another address.
#[test]
fn one_changed_header_bit_that_is_sealed() {
    let mut rng = Rng::new(365);
    let address = 0x5DE;
    let word = written(&mut rng, 0xA5, address);
    for index in HEADER {
        let mut sealed = word.clone();
        flip_bit(&mut sealed, index);
        seal(&mut sealed);
        let changed = match index {
            12_248..=12_259 => address ^ 1 << (12_259 - index),
            _ => address,
        };
        let due = match index {
            12_268 => Some(15),
            12_271..=12_273 => Some(16),
            _ if changed > 1_502 => Some(18),
            _ => None,
        };
        let found = both_read(&mut rng, &sealed, 16);
        assert_eq!(found.err(), due, "bit {index}");
        if let Ok(header) = found {
            let (ty, parity, address) = match index {
                12_269 => (1, 0, 0),
                12_270 => (2, ALL, 0),
                _ => (3, ALL, changed),
            };
            assert_eq!((header[5], header[7]), (ty, parity), "bit {index}");
            assert_eq!(header[8..10], address.to_be_bytes(), "bit {index}");
        }
    }
}

/// A word of type 1 that the library wrote, with this payload.
fn transparent(rng: &mut Rng, id: u8, payload: &[u8]) -> Vec<u8> {
    let writing = Writing {
        ty: 1,
        id,
        count: 0,
        payload,
        null_packet: &[],
    };
    both_write(rng, writing, 1_536).expect("it is accepted")
}

/// What is read of a word when the bit that makes its type 3 is changed.
#[track_caller]
fn with_type_3(rng: &mut Rng, mut word: Vec<u8>) -> Result<[u8; 16], u8> {
    flip_bit(&mut word, 12_269);
    both_read(rng, &word, 16)
}

/// HeaderCRC alone does not tell words of types 1 and 3 apart: of type 1 it covers 18 bits, of type 3 the last 28 of the
/// payload too. So by its payload a written word of type 1 can be one of type 3 but for the middle bit of its type, also
/// where that payload is all zeros but for its last two bytes. The stream id plays no part in it.
#[test]
fn a_transparent_word_whose_type_becomes_3() {
    let mut rng = Rng::new(366);
    let mut payload = vec![0; 1_532];
    let mut word = transparent(&mut rng, 9, &payload);
    flip_bit(&mut word, 12_269);
    let mut accepted = Vec::new();
    for end in 0..=u16::MAX {
        word[1_530..1_532].copy_from_slice(&end.to_be_bytes());
        if payload::read(&word).is_ok() {
            accepted.push(end);
        }
    }
    // an address of up to 1,502 has 94 of the 256 last bytes, and the CRC is right with one in 256 of all
    assert_eq!(accepted.len(), 94);
    assert_eq!(accepted[0], 0x014D);
    for end in accepted {
        let id = rng.byte();
        payload[1_530..].copy_from_slice(&end.to_be_bytes());
        let word = transparent(&mut rng, id, &payload);
        let header = with_type_3(&mut rng, word).expect("it is accepted");
        assert_eq!(header[4..8], [id, 3, 0, ALL]);
        assert_eq!(header[8..10], [(end as u8) >> 4, (end as u8) << 4]);
    }
    // each other bit of the header is noticed, and so is this one with most payloads
    let mut refused = 0;
    for _ in 0..100 {
        let (id, payload) = (rng.byte(), rng.bytes(1_532));
        let word = transparent(&mut rng, id, &payload);
        refused += u32::from(with_type_3(&mut rng, word.clone()) == Err(5));
        for index in (12_256..CRC.end).filter(|index| *index != 12_269) {
            is_noticed(&mut rng, &word, index);
        }
    }
    assert!(refused > 90, "{refused}");
}

/// Of types 0 and 2 no word that was written is so: what stands before the last 18 bits is zero.
#[test]
fn one_changed_header_bit_of_dummies_and_packets() {
    let mut rng = Rng::new(367);
    for (ty, from) in [(0, 12_256), (2, 12_228)] {
        for id in (0..=255).step_by(5) {
            let count = rng.below(9) as u32;
            let length = if ty == 0 { 0 } else { 188 * count as usize };
            let writing = Writing {
                ty,
                id,
                count,
                payload: &rng.bytes(length),
                null_packet: &rng.bytes(188),
            };
            let word = both_write(&mut rng, writing, 1_536).expect("it is accepted");
            for index in from..CRC.end {
                is_noticed(&mut rng, &word, index);
            }
        }
    }
}

/// 1 2 5 16 15 18, whether the parts hold or not, and whatever the payload is.
#[test]
fn order_of_refusals() {
    let mut rng = Rng::new(368);
    for damaged in [false, true] {
        let mut word = written(&mut rng, 7, 0);
        if damaged {
            (0..4).for_each(|part| flip_places(&mut word, part, &[part]));
        }
        inputs::set_ip_header(&mut word, 0, 1_503, 7);
        assert_eq!(both_read(&mut rng, &word, 16), Err(18));
        for ty in 4..8 {
            inputs::set_payload_header(&mut word, 0, 7, ty, 0);
            assert_eq!(both_read(&mut rng, &word, 16), Err(15));
        }
        for ty in 3..8 {
            inputs::set_payload_header(&mut word, 0, 7, ty, 1);
            assert_eq!(both_read(&mut rng, &word, 16), Err(16));
        }
        word[1_534] ^= 1;
        assert_eq!(both_read(&mut rng, &word, 16), Err(5));
        word[1_535] ^= 1;
        assert_eq!(both_read(&mut rng, &word, 16), Err(2));
        assert_eq!(both_read(&mut rng, &word, 15), Err(1));
        word.push(0);
        assert_eq!(both_read(&mut rng, &word, 16), Err(1));
    }
}
