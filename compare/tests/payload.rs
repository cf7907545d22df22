//! opl_payload_write and opl_payload_read against the second implementation: types 0 and 1, and what all types share.
//! Words of type 2 have tests of their own besides, transport_write.rs and transport_read.rs, and so has the header of
//! type 3, ip_header.rs.

mod payload_words;

use compare::inputs;
use compare::opl;
use compare::rng::Rng;
use compare::second::payload::{payload_of, rfu_bits, seal};
use payload_words::{both_read, both_write, Writing};

/// The word of type 0 or 1 that both write, or the number. Count and null packet are anything, as they are not looked
/// at.
#[track_caller]
fn written(rng: &mut Rng, ty: u32, id: u8, payload: &[u8], length: usize) -> Result<Vec<u8>, u8> {
    let count = rng.field(32);
    let null_length = [0, 188, rng.below(400)][rng.below(3)];
    let writing = Writing {
        ty,
        id,
        count,
        payload,
        null_packet: &rng.bytes(null_length),
    };
    both_write(rng, writing, length)
}

#[test]
fn every_id_of_both_types() {
    let mut rng = Rng::new(300);
    for id in 0..=255 {
        let payload = rng.bytes(1_532);
        assert!(written(&mut rng, 1, id, &payload, 1_536).is_ok());
        assert!(written(&mut rng, 0, id, &[], 1_536).is_ok());
    }
    for payload in [[0x00; 1_532], [0xFF; 1_532]] {
        assert!(written(&mut rng, 1, 0xA5, &payload, 1_536).is_ok());
    }
}

/// RFU 0000, id 1010 0101, type 00 and a last bit, Encap_Ver 000, the CRC-8 of those 18 bits and six spare bits.
#[test]
fn words_with_known_headers() {
    let mut rng = Rng::new(310);
    for (ty, payload, end) in [
        (0, &[][..], [0x0A, 0x50, 0x20, 0x40]),
        (1, &[0xFF; 1_532][..], [0x0A, 0x52, 0x35, 0x80]),
    ] {
        let word = written(&mut rng, ty, 0xA5, payload, 1_536).expect("it is accepted");
        assert_eq!(word[1_532..], end, "type {ty}");
        let byte = if ty == 0 { 0x00 } else { 0xFF };
        assert!(word[..1_532].iter().all(|payload| *payload == byte));
    }
}

#[test]
fn count_and_null_packet_are_not_looked_at() {
    let mut rng = Rng::new(311);
    for (ty, n) in [(0, 0), (1, 1_532)] {
        let payload = rng.bytes(n);
        let plain = Writing {
            ty,
            id: 77,
            count: 0,
            payload: &payload,
            null_packet: &[],
        };
        let word = both_write(&mut rng, plain, 1_536);
        for count in [0, 1, 7, 8, 9, 255, 256, 1 << 30, u32::MAX] {
            for k in [0, 1, 187, 188, 189, 1_504, 65_536 + 188] {
                let null_packet = &rng.bytes(k);
                let other = Writing {
                    count,
                    null_packet,
                    ..plain
                };
                let again = both_write(&mut rng, other, 1_536);
                assert!(again == word, "type {ty}, count {count}, {k} bytes");
                // nor where a length is wrong
                assert_eq!(both_write(&mut rng, other, 1_535), Err(1));
            }
        }
    }
}

#[test]
fn what_is_written_is_read() {
    let mut rng = Rng::new(301);
    for id in 0..=255 {
        for (ty, n) in [(0, 0), (1, 1_532)] {
            let payload = rng.bytes(n);
            let word = written(&mut rng, ty, id, &payload, 1_536).expect("it is accepted");
            let mut header = [0xA5; 16];
            assert_eq!(opl::payload_read(&word, &mut header), 0);
            assert_eq!(header[..8], [0, 0, 0, 0, id, ty as u8, 0, 0]);
            assert_eq!(header[8..], [0; 8]);
            assert_eq!(payload_of(&word), Ok(&payload[..]));
        }
    }
}

/// A word of type 1 that is accepted with RFU 0 is what the writer writes from its fields and bytes.
#[test]
fn what_is_read_is_written() {
    let mut rng = Rng::new(302);
    for _ in 0..500 {
        let mut word = rng.bytes(1_536);
        let id = rng.field(8);
        inputs::set_payload_header(&mut word, 0, id, 1, 0);
        let mut header = [0; 16];
        assert_eq!(opl::payload_read(&word, &mut header), 0);
        let payload = payload_of(&word).expect("the second reader accepts it too");
        let again = written(&mut rng, u32::from(header[5]), header[4], payload, 1_536);
        assert!(again.as_ref() == Ok(&word));
    }
}

#[test]
fn words_of_all_kinds() {
    let mut rng = Rng::new(303);
    for _ in 0..1_000 {
        let word = inputs::payload_word(&mut rng);
        assert!(both_read(&mut rng, &word, 16).is_ok());
    }
    for number in inputs::PAYLOAD_REFUSALS {
        for _ in 0..300 {
            let word = inputs::refused_payload_word(&mut rng, number).expect("the reader gives it");
            assert_eq!(both_read(&mut rng, &word, 16), Err(number));
        }
    }
    for _ in 0..1_000 {
        let word = inputs::mutated_payload_word(&mut rng);
        let _ = both_read(&mut rng, &word, 16);
    }
}

/// Every id with every type and Encap_Ver, and these with every RFU of four bits, or with 16 of 32 or 20 bits.
#[test]
fn every_header_field() {
    let mut rng = Rng::new(304);
    let mut word = rng.bytes(1_536);
    for ty in 0..8 {
        for encap in 0..8 {
            let number = match (encap, ty) {
                (0, 0..=3) => 0,
                (0, _) => 15,
                _ => 16,
            };
            let mut is_due = |rng: &mut Rng, rfu: u32, id: u32| {
                inputs::set_payload_header(&mut word, rfu, id, ty, encap);
                let header = both_read(rng, &word, 16);
                assert_eq!(header.err().unwrap_or(0), number);
                if let Ok(header) = header {
                    assert_eq!(header[..4], rfu.to_be_bytes());
                    assert_eq!(header[4..7], [id as u8, ty as u8, 0]);
                }
            };
            for id in 0..256 {
                let rfu = rng.field(rfu_bits(ty));
                is_due(&mut rng, rfu, id);
            }
            for low in 0..16 {
                let (high, id) = (rng.field(rfu_bits(ty)) & !15, rng.field(8));
                is_due(&mut rng, high | low, id);
            }
        }
    }
}

/// One and two bits of the header, the CRC and the spare bits changed, without and with the CRC put
/// right again.
#[test]
fn damaged_header_bits() {
    let mut rng = Rng::new(305);
    for ty in [0, 1, 0, 1] {
        let word = inputs::payload_word_of(&mut rng, ty);
        for one in 12_256..12_288 {
            for other in one..12_288 {
                let mut damaged = word.clone();
                inputs::flip_bit(&mut damaged, one);
                if other != one {
                    inputs::flip_bit(&mut damaged, other);
                }
                let number = both_read(&mut rng, &damaged, 16).err();
                // the middle bit of the type makes it 2 or 3, and so may ask for another CRC
                if other == one && one != 12_269 {
                    let due = if one < 12_282 { 5 } else { 2 };
                    assert_eq!(number, Some(due), "bit {one}");
                }
                seal(&mut damaged);
                let _ = both_read(&mut rng, &damaged, 16);
            }
        }
    }
}

/// The bytes before the header are not looked at, be they packets with their parity.
#[test]
fn any_payload_bytes() {
    let mut rng = Rng::new(306);
    for ty in [0, 1] {
        let mut word = inputs::payload_word_of(&mut rng, ty);
        let header = both_read(&mut rng, &word, 16).expect("it is accepted");
        assert_eq!(header[7..], [0; 9]);
        for _ in 0..250 {
            let mut other = word.clone();
            let at = rng.below(1_532);
            other[at] = rng.byte();
            assert_eq!(both_read(&mut rng, &other, 16), Ok(header));
        }
        let packets = inputs::transport_word(&mut rng);
        word[..1_532].copy_from_slice(&packets[..1_532]);
        assert_eq!(both_read(&mut rng, &word, 16), Ok(header));
    }
}

#[test]
fn types_that_are_refused() {
    let mut rng = Rng::new(307);
    // above 2, and numbers that are 0, 1 or 2 when cut to 3, 8 or 16 bits
    let types = [
        3,
        4,
        7,
        8,
        9,
        10,
        255,
        256,
        257,
        258,
        65_536,
        65_537,
        65_538,
        1 << 31,
        u32::MAX,
    ];
    for ty in types {
        for n in [0, 1, 1_504, 1_532] {
            for length in [0, 1_536] {
                let payload = rng.bytes(n);
                assert_eq!(written(&mut rng, ty, 7, &payload, length), Err(15));
            }
        }
    }
}

#[test]
fn lengths_of_the_writer() {
    let mut rng = Rng::new(308);
    let payloads = [
        0,
        1,
        255,
        1_504,
        1_531,
        1_532,
        1_533,
        1_536,
        65_535,
        65_536,
        65_536 + 1_532,
    ];
    let words = [0, 1, 96, 1_532, 1_535, 1_536, 1_537, 3_072, 65_536 + 1_536];
    for n in payloads {
        for length in words {
            for ty in 0..2 {
                let payload = rng.bytes(n);
                let right = n == 1_532 * ty as usize && length == 1_536;
                let number = written(&mut rng, ty, 7, &payload, length).err();
                assert_eq!(number, (!right).then_some(1));
            }
        }
    }
}

#[test]
fn lengths_of_the_reader() {
    let mut rng = Rng::new(309);
    let words = [
        0,
        1,
        4,
        96,
        1_504,
        1_532,
        1_535,
        1_536,
        1_537,
        3_072,
        65_536,
        65_536 + 1_536,
    ];
    let headers = [0, 1, 7, 15, 16, 17, 32, 256 + 16, 65_536 + 16];
    for n in words {
        for length in headers {
            let right = n == 1_536 && length == 16;
            for ty in 0..4 {
                let mut word = inputs::payload_word_of(&mut rng, ty);
                word.resize(n, 0);
                let number = both_read(&mut rng, &word, length).err();
                assert_eq!(number, (!right).then_some(1));
            }
            // and 1 comes before all others
            let word = rng.bytes(n);
            let number = both_read(&mut rng, &word, length).err();
            assert!(
                right || number == Some(1),
                "{n} bytes, header {length}: {number:?}"
            );
        }
    }
}
