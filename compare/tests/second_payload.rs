//! The second implementation's payload word: types 0 and 1, and what all types share.

use compare::inputs;
use compare::rng::Rng;
use compare::second::ip;
use compare::second::payload::{payload_of, read, seal, write, Header};

/// Of type 0 or 1, without a null packet.
fn plain(ty: u32, id: u8, payload: &[u8], length: usize) -> Result<Vec<u8>, u8> {
    write(ty, id, 0, payload, &[], length)
}

/// What is read of a word of type 0 or 1.
fn plain_header(rfu: u32, id: u8, ty: u8) -> Header {
    Header {
        rfu,
        id,
        ty,
        encap: 0,
        parity: 0,
        address: 0,
    }
}

#[test]
fn written_words_are_read() {
    let mut rng = Rng::new(20);
    for id in 0..=255u8 {
        let payload = rng.bytes(1_532);
        let word = plain(1, id, &payload, 1_536).unwrap();
        assert_eq!(word.len(), 1_536);
        assert_eq!(word[..1_532], payload[..]);
        assert_eq!(read(&word), Ok(plain_header(0, id, 1)));
        assert_eq!(payload_of(&word), Ok(&payload[..]));
        let dummy = plain(0, id, &[], 1_536).unwrap();
        assert!(dummy[..1_532].iter().all(|byte| *byte == 0));
        assert_eq!(read(&dummy), Ok(plain_header(0, id, 0)));
        assert_eq!(payload_of(&dummy), Ok(&[][..]));
    }
}

/// The header's digits, its CRC by the register of annex B, worked bit by bit here, and the spare bits; zeros in front
/// where these are no whole bytes.
fn header_bytes(header: &str) -> Vec<u8> {
    let mut digits: Vec<u8> = header.bytes().map(|digit| digit - b'0').collect();
    let mut register = [1u8; 8]; // b0 to b7
    for bit in &digits {
        let back = register[7] ^ bit;
        for stage in (1..8).rev() {
            register[stage] = register[stage - 1];
        }
        register[0] = back;
        for stage in [1, 2, 3, 5] {
            register[stage] ^= back;
        }
    }
    digits.extend(register.iter().rev().map(|stage| 1 - stage));
    digits.extend([0; 6]);
    let bytes = digits.rchunks(8).rev();
    bytes
        .map(|byte| byte.iter().fold(0, |value, bit| value << 1 | bit))
        .collect()
}

/// RFU 0000, id 1010 0101, type 001, Encap_Ver 000.
#[test]
fn header_bits_by_hand() {
    let word = plain(1, 0xA5, &[0xFF; 1_532], 1_536).unwrap();
    assert_eq!(word[1_532..], header_bytes("000010100101001000"));
    assert_eq!(word[1_532..], [0x0A, 0x52, 0x35, 0x80]);
}

/// RFU of 32 bits, id 1010 0101, type 010, Encap_Ver 000. Four bits of the parity stand before them.
#[test]
fn header_bits_of_packets_by_hand() {
    let header = format!("{:032b}10100101010000", 0);
    assert_eq!(header.len(), 46);
    let word = write(2, 0xA5, 8, &[0; 1_504], &[0; 188], 1_536).unwrap();
    assert_eq!(word[1_528..], header_bytes(&header));
    assert_eq!(word[1_528..], [0, 0, 0, 0, 0x0A, 0x54, 0x22, 0x40]);
    assert!(word[..1_528].iter().all(|byte| *byte == 0));
}

/// RFU of 20 bits, First_Header_Address of 12, id 1010 0101, type 011, Encap_Ver 000: where 1,000 and where 1,600 bytes of
/// a packet are still to come. Four bits of the parity stand before them.
#[test]
fn header_bits_of_an_ip_stream_by_hand() {
    let mut queue = vec![1, 0, 0x0F, 0xFF];
    queue.resize(4 + 4_095, 0);
    for (sent, address) in [(3_097, "001111101000"), (2_497, "111111111111")] {
        let header = format!("{:020b}{address}10100101011000", 0);
        assert_eq!(header.len(), 46);
        let word = ip::write(0xA5, sent, &queue, 1_536, 8).unwrap().word;
        let due = header_bytes(&header);
        assert_eq!(word[1_528] & 0x0F, due[0]);
        assert_eq!(word[1_529..], due[1..]);
    }
}

#[test]
fn rfu_and_dummy_bytes_are_taken_as_they_stand() {
    let mut rng = Rng::new(21);
    for rfu in 0..16 {
        for ty in 0..2 {
            let mut word = rng.bytes(1_536);
            inputs::set_payload_header(&mut word, rfu, 77, ty, 0);
            assert_eq!(read(&word), Ok(plain_header(rfu, 77, ty as u8)));
            let payload = payload_of(&word).unwrap();
            assert_eq!(payload, if ty == 0 { &[][..] } else { &word[..1_532] });
        }
    }
    for _ in 0..500 {
        let word = inputs::payload_word(&mut rng);
        let header = read(&word).unwrap();
        if header.ty == 1 && header.rfu == 0 {
            let again = plain(1, header.id, payload_of(&word).unwrap(), 1_536);
            assert_eq!(again, Ok(word));
        }
    }
}

#[test]
fn every_refusal_of_the_reader() {
    let mut rng = Rng::new(22);
    for number in inputs::PAYLOAD_REFUSALS {
        for _ in 0..500 {
            let word = inputs::refused_payload_word(&mut rng, number).unwrap();
            assert_eq!(read(&word), Err(number));
            assert_eq!(payload_of(&word), Err(number));
        }
    }
    assert_eq!(inputs::refused_payload_word(&mut rng, 6), None);
    // The order: 1 2 5 16 15 18, each on top of the next.
    let mut word = vec![0; 1_536];
    inputs::set_ip_header(&mut word, 0, 1_503, 0);
    assert_eq!(read(&word), Err(18));
    inputs::set_payload_header(&mut word, 0, 0, 4, 0);
    assert_eq!(read(&word), Err(15));
    inputs::set_payload_header(&mut word, 0, 0, 4, 1);
    assert_eq!(read(&word), Err(16));
    word[1_534] ^= 1;
    assert_eq!(read(&word), Err(5));
    word[1_535] ^= 1;
    assert_eq!(read(&word), Err(2));
    word.push(0);
    assert_eq!(read(&word), Err(1));
}

/// All before them is zero: packets of zeros with the parity that they have, and the rest of a longer RFU. Of type 3 the
/// first four bits are the last of First_Header_Address.
#[test]
fn every_header_of_18_bits() {
    let mut word = vec![0u8; 1_536];
    for header in 0..1u32 << 18 {
        let (rfu, id, ty, encap) = (header >> 14, header >> 6 & 255, header >> 3 & 7, header & 7);
        word[1_532] = (header >> 10) as u8;
        word[1_533] = (header >> 2) as u8;
        word[1_534] = (header << 6) as u8;
        seal(&mut word);
        let expected = match (encap, ty) {
            (0, 0..=1) => Ok(plain_header(rfu, id as u8, ty as u8)),
            (0, 2) => Ok(Header {
                parity: 0b1111,
                ..plain_header(rfu, id as u8, 2)
            }),
            (0, 3) => Ok(Header {
                parity: 0b1111,
                address: rfu as u16,
                ..plain_header(0, id as u8, 3)
            }),
            (0, _) => Err(15),
            _ => Err(16),
        };
        assert_eq!(read(&word), expected);
    }
}

#[test]
fn every_refusal_of_the_writer() {
    let payload = vec![1; 1_532];
    for ty in [3, 4, 7, 8, 255, 256, 257, 258, 1 << 16, u32::MAX] {
        assert_eq!(plain(ty, 0, &payload, 1_536), Err(15));
        assert_eq!(plain(ty, 0, &[], 0), Err(15));
    }
    assert_eq!(plain(0, 0, &payload, 1_536), Err(1));
    assert_eq!(plain(0, 0, &[0], 1_536), Err(1));
    assert_eq!(plain(1, 0, &[], 1_536), Err(1));
    assert_eq!(plain(1, 0, &payload[1..], 1_536), Err(1));
    for length in [0, 1_532, 1_535, 1_537] {
        assert_eq!(plain(0, 0, &[], length), Err(1));
        assert_eq!(plain(1, 0, &payload, length), Err(1));
    }
}

#[test]
fn count_and_null_packet_are_for_type_2_alone() {
    let payload = vec![1; 1_532];
    for count in [0, 8, 9, u32::MAX] {
        for null_packet in [&[][..], &[7; 188], &[7; 189]] {
            let dummy = write(0, 9, count, &[], null_packet, 1_536);
            assert_eq!(dummy, plain(0, 9, &[], 1_536));
            let transparent = write(1, 9, count, &payload, null_packet, 1_536);
            assert_eq!(transparent, plain(1, 9, &payload, 1_536));
        }
    }
}
