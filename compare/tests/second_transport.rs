//! The second implementation's payload word of type 2: eight packets, their parity, and the longer header.

use compare::inputs;
use compare::rng::Rng;
use compare::second::bits::bit;
use compare::second::payload::{payload_of, read, report, seal, seal_over, write, Header};

const NULL: [u8; 188] = [0xFF; 188];

/// What is read of a word of packets.
fn header(rfu: u32, id: u8, parity: u8) -> Header {
    Header {
        rfu,
        id,
        ty: 2,
        encap: 0,
        parity,
        address: 0,
    }
}

#[test]
fn written_words_are_read() {
    let mut rng = Rng::new(40);
    for count in 0..=8 {
        for id in [0, 1, 0xA5, 0xFF] {
            let (payload, null_packet) = (rng.bytes(188 * count), rng.bytes(188));
            let word = write(2, id, count as u32, &payload, &null_packet, 1_536).unwrap();
            let packets = [payload, null_packet.repeat(8 - count)].concat();
            assert_eq!((word.len(), packets.len()), (1_536, 1_504));
            assert_eq!(word[..1_504], packets);
            assert_eq!(read(&word), Ok(header(0, id, 0b1111)));
            assert_eq!(payload_of(&word), Ok(&packets[..]));
        }
    }
}

/// The parity of a part of which only the last bit is set, worked out apart from the code here: x^48 modulo the
/// generator, and the parity bit.
const PARITY_OF_LAST_BIT: &str = "0001001000110101001011000010001100100000101010111";

/// Where one part has its last bit set and the others nothing, the bits that are set are known.
#[test]
fn parts_stand_in_order() {
    for part in 0..4 {
        let mut payload = [0; 1_504];
        payload[376 * part + 375] = 1;
        let word = write(2, 0, 8, &payload, &NULL, 1_536).unwrap();
        let digits = |from, to| -> String {
            let digit = |index| if bit(&word, index) { '1' } else { '0' };
            (from..to).map(digit).collect()
        };
        for other in 0..4 {
            let from = 12_032 + 49 * other;
            let due = match other == part {
                true => PARITY_OF_LAST_BIT.to_string(),
                false => "0".repeat(49),
            };
            assert_eq!(digits(from, from + 49), due, "part {part}, parity {other}");
        }
        // RFU, id 0, type 2 and Encap_Ver 0
        assert_eq!(digits(12_228, 12_274), format!("{:046b}", 0b010_000));
    }
}

/// Flips a bit, and gives the parity that is then read.
fn parity_with_bit_flipped(word: &mut [u8], index: usize) -> u8 {
    inputs::flip_bit(word, index);
    let header = read(word).unwrap();
    inputs::flip_bit(word, index);
    header.parity
}

#[test]
fn every_bit_belongs_to_one_part() {
    let mut word = inputs::transport_word(&mut Rng::new(41));
    for index in 0..12_032 {
        let due = 0b1111 & !(1 << (index / 3_008));
        assert_eq!(parity_with_bit_flipped(&mut word, index), due, "{index}");
    }
    for index in 0..196 {
        let due = 0b1111 & !(1 << (index / 49));
        let found = parity_with_bit_flipped(&mut word, 12_032 + index);
        assert_eq!(found, due, "parity bit {index}");
    }
}

#[test]
fn rfu_is_taken_as_it_stands() {
    let mut rng = Rng::new(42);
    let ones = (0..32).map(|place| 1 << place);
    for rfu in ones.chain([0, 0xFFFF_FFFF, 0x0123_4567, 0x89AB_CDEF]) {
        let mut word = inputs::transport_word(&mut rng);
        inputs::set_payload_header(&mut word, rfu, 9, 2, 0);
        assert_eq!(read(&word), Ok(header(rfu, 9, 0b1111)));
        let report = report(&word, 16).unwrap();
        assert_eq!(report[..4], rfu.to_be_bytes());
        assert_eq!(report[4..], [9, 2, 0, 0b1111, 0, 0, 0, 0, 0, 0, 0, 0]);
    }
}

/// Each bit of the 46 that the CRC is over, and of the CRC. A bit of the type makes it 6 or 0, with a CRC over 18 bits,
/// which is another one where RFU is 0; or 3, with one over 46 bits too.
#[test]
fn a_changed_header_bit_is_noticed() {
    let word = inputs::transport_word(&mut Rng::new(43));
    for index in 12_228..12_282 {
        let mut damaged = word.clone();
        inputs::flip_bit(&mut damaged, index);
        assert_eq!(read(&damaged), Err(5), "bit {index}");
        seal(&mut damaged);
        let due = match index {
            12_268 => Err(15),
            12_271..=12_273 => Err(16),
            _ => Ok(()),
        };
        assert_eq!(read(&damaged).map(drop), due, "bit {index}, sealed");
    }
}

/// The CRC is over 46 bits for types 2 and 3 alone. With RFU and address 0 both CRCs of a word differ, as the register of
/// ones is another after 28 zeros.
#[test]
fn the_crc_of_another_type_is_wrong() {
    let mut word = vec![0; 1_536];
    for id in 0..256 {
        for ty in 0..8 {
            inputs::set_payload_header(&mut word, 0, id, ty, 0);
            let right = if matches!(ty, 2 | 3) { 46 } else { 18 };
            seal_over(&mut word, right);
            assert_ne!(read(&word), Err(5), "type {ty}");
            seal_over(&mut word, 46 + 18 - right);
            assert_eq!(read(&word), Err(5), "type {ty}");
        }
    }
}

#[test]
fn every_refusal_of_the_writer() {
    let packets = [1; 9 * 188];
    for count in 0..=8 {
        let payload = &packets[..188 * count];
        let write =
            |payload: &[u8], null: &[u8], n| write(2, 0, count as u32, payload, null, n).err();
        assert_eq!(write(payload, &NULL, 1_536), None);
        assert_eq!(write(payload, &NULL[1..], 1_536), Some(1));
        assert_eq!(write(payload, &[], 1_536), Some(1));
        assert_eq!(write(payload, &NULL, 1_535), Some(1));
        assert_eq!(write(&packets[..188 * count + 1], &NULL, 1_536), Some(1));
        assert_eq!(write(&packets[..188 * (count + 1)], &NULL, 1_536), Some(1));
    }
    // 15, 17, 1
    for count in [9, 10, 256, 1 << 30, u32::MAX] {
        assert_eq!(write(2, 0, count, &packets, &NULL, 1_536), Err(17));
        assert_eq!(write(2, 0, count, &[], &[], 0), Err(17));
        assert_eq!(write(3, 0, count, &[], &[], 0), Err(15));
    }
}

/// Bits 0 to 12,227 of two words added, with the header of one: the parts of the sum hold.
#[test]
fn parts_of_a_sum_hold() {
    let mut rng = Rng::new(44);
    for _ in 0..50 {
        let [mut word, other] = [(); 2].map(|()| inputs::transport_word(&mut rng));
        let id = read(&word).unwrap().id;
        inputs::add_parts(&mut word, &other);
        assert_eq!(read(&word), Ok(header(0, id, 0b1111)));
    }
}
