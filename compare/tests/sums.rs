//! Sums of words (02, 2026-04): under each pattern the codeword of the bitwise sum of words is the sum of their
//! codewords, tail included, where the words have zero spare bits. The library is held to that, and with each word to
//! the second encoder too.

mod codewords;
mod payload_words;

use codewords::both_encode;
use compare::inputs::{self, codings, sum, Coding};
use compare::lent::first_difference;
use compare::rng::Rng;
use compare::second::payload::{self, DUMMY, HEADER_BYTES, IP, TRANSPARENT, TRANSPORT};
use compare::second::refusal::{ADDRESS, CRC, SPARE};
use compare::second::turbo::PAYLOAD_BLOCK;
use payload_words::{both_read, both_write, Writing};

/// The stream types of payload words.
const TYPES: [u32; 3] = [DUMMY, TRANSPARENT, TRANSPORT];

/// Each of the six spare bits, in the last byte of a word.
const SPARE_BITS: [u8; 6] = [0x01, 0x02, 0x04, 0x08, 0x10, 0x20];

/// The codeword, or the number with which both encoders refuse.
#[track_caller]
fn encoded(rng: &mut Rng, coding: Coding, word: &[u8]) -> Result<Vec<u8>, u8> {
    both_encode(rng, coding.pattern, word, coding.codeword_bytes())
}

/// The codeword of the sum of these words. Panics unless it is the sum of theirs.
#[track_caller]
fn of_sum(rng: &mut Rng, coding: Coding, words: &[&[u8]]) -> Vec<u8> {
    let mut codeword = |word: &[u8]| encoded(rng, coding, word).expect("it is accepted");
    let codewords: Vec<Vec<u8>> = words.iter().map(|word| codeword(word)).collect();
    let found = codeword(&sum(words));
    let differs = first_difference(&found, &sum(&codewords));
    assert_eq!(differs, None, "{coding:?}, {} words", words.len());
    found
}

fn infoword(rng: &mut Rng, coding: Coding) -> Vec<u8> {
    inputs::infoword(rng, coding.infoword_bytes())
}

fn zeros(coding: Coding) -> Vec<u8> {
    vec![0; coding.infoword_bytes()]
}

/// A sound word but for these bits of its last byte.
fn with_spare_bits(rng: &mut Rng, coding: Coding, bits: u8) -> Vec<u8> {
    let mut word = infoword(rng, coding);
    *word.last_mut().expect("it has bytes") |= bits;
    word
}

#[test]
fn random_pairs() {
    let mut rng = Rng::new(420);
    for coding in codings() {
        for _ in 0..12 {
            let [one, other] = [(); 2].map(|()| infoword(&mut rng, coding));
            of_sum(&mut rng, coding, &[&one, &other]);
        }
    }
}

#[test]
fn three_words_and_more() {
    let mut rng = Rng::new(421);
    for coding in codings() {
        for number in [3, 5] {
            let words: Vec<Vec<u8>> = (0..number).map(|_| infoword(&mut rng, coding)).collect();
            let words: Vec<&[u8]> = words.iter().map(Vec::as_slice).collect();
            of_sum(&mut rng, coding, &words);
        }
    }
}

#[test]
fn a_word_and_itself_give_zeros() {
    let mut rng = Rng::new(422);
    for coding in codings() {
        let word = infoword(&mut rng, coding);
        let codeword = of_sum(&mut rng, coding, &[&word, &word]);
        assert!(codeword.iter().all(|byte| *byte == 0), "{coding:?}");
    }
}

#[test]
fn a_word_and_zeros_give_its_codeword() {
    let mut rng = Rng::new(423);
    for coding in codings() {
        let word = infoword(&mut rng, coding);
        let codeword = of_sum(&mut rng, coding, &[&word, &zeros(coding)]);
        assert!(encoded(&mut rng, coding, &word).as_ref() == Ok(&codeword));
    }
}

/// Bits of a block: the first, those in the middle, and all of its last two whole bytes and of what shares a byte with
/// the spare bits.
fn places(block: usize) -> impl Iterator<Item = usize> {
    let (middle, last) = (block / 2, block / 8 * 8 - 16);
    (0..2).chain(middle - 1..=middle).chain(last..block)
}

#[test]
fn a_word_and_a_single_bit() {
    let mut rng = Rng::new(424);
    for coding in codings() {
        for place in places(coding.block) {
            let (word, mut bit) = (infoword(&mut rng, coding), zeros(coding));
            inputs::flip_bit(&mut bit, place);
            of_sum(&mut rng, coding, &[&word, &bit]);
        }
    }
}

/// Where just one of two words has a spare bit set, their sum has it too. What is refused touches nothing.
#[test]
fn a_spare_bit_of_one_word_is_one_of_the_sum() {
    let mut rng = Rng::new(425);
    for coding in codings() {
        for bit in SPARE_BITS {
            let sound = infoword(&mut rng, coding);
            let spare = with_spare_bits(&mut rng, coding, bit);
            assert!(encoded(&mut rng, coding, &sound).is_ok());
            for word in [&spare, &sum(&[&sound, &spare])] {
                assert_eq!(encoded(&mut rng, coding, word), Err(SPARE));
            }
        }
    }
}

/// The premise is no more than that: two words that are refused may have a sum that is not. It is then the sum of what
/// is left of both without their spare bits.
#[test]
fn the_same_spare_bit_of_both_words_is_none_of_the_sum() {
    let mut rng = Rng::new(426);
    for coding in codings() {
        for bit in SPARE_BITS {
            let words = [(); 2].map(|()| with_spare_bits(&mut rng, coding, bit));
            for word in &words {
                assert_eq!(encoded(&mut rng, coding, word), Err(SPARE));
            }
            let mut spare = zeros(coding);
            spare[coding.infoword_bytes() - 1] = bit;
            let [one, other] = words.each_ref().map(|word| sum(&[word, &spare]));
            let due = of_sum(&mut rng, coding, &[&one, &other]);
            assert!(encoded(&mut rng, coding, &sum(&words)) == Ok(due));
        }
    }
}

#[test]
fn different_spare_bits_of_both_words_are_two_of_the_sum() {
    let mut rng = Rng::new(427);
    for coding in codings() {
        for (at, bit) in SPARE_BITS.into_iter().enumerate() {
            let other = SPARE_BITS[(at + 1) % SPARE_BITS.len()];
            let words = [bit, other].map(|bit| with_spare_bits(&mut rng, coding, bit));
            assert_eq!(encoded(&mut rng, coding, &sum(&words)), Err(SPARE));
        }
    }
}

/// A payload word as it is sent: of any stream, with any payload.
fn payload_word(rng: &mut Rng, ty: u32) -> Vec<u8> {
    let (id, count) = (rng.byte(), rng.below(9) as u32);
    let length = match ty {
        DUMMY => 0,
        TRANSPARENT => payload::PAYLOAD_BYTES,
        _ => count as usize * payload::TS_PACKET_BYTES,
    };
    let writing = Writing {
        ty,
        id,
        count,
        payload: &rng.bytes(length),
        null_packet: &rng.bytes(payload::TS_PACKET_BYTES),
    };
    both_write(rng, writing, payload::WORD_BYTES).expect("it is accepted")
}

/// The header of a payload word that is read, or the number.
#[track_caller]
fn header(rng: &mut Rng, word: &[u8]) -> Result<[u8; HEADER_BYTES], u8> {
    both_read(rng, word, HEADER_BYTES)
}

/// Whether words of these types, one of them 1 and the other 2, have a sum that says type 3.
fn say_ip(types: &[u32; 2]) -> bool {
    types[0] ^ types[1] == IP
}

/// The encoder looks at no CRC, so it takes the sum of two payload words, under each pattern. The reader does not:
/// HeaderCRC starts from ones and is inverted, and the sum of two is that no more.
#[test]
fn two_payload_words_are_encoded_and_not_read() {
    let mut rng = Rng::new(428);
    let payload = codings().filter(|coding| coding.block == PAYLOAD_BLOCK);
    let pairs = TYPES.map(|one| TYPES.map(|other| [one, other]));
    let pairs = pairs.iter().flatten().filter(|pair| !say_ip(pair));
    for (coding, types) in payload.zip(pairs.cycle()) {
        let [one, other] = types.map(|ty| payload_word(&mut rng, ty));
        for word in [&one, &other] {
            assert!(header(&mut rng, word).is_ok(), "{types:?}");
        }
        of_sum(&mut rng, coding, &[&one, &other]);
        let refused = header(&mut rng, &sum(&[one, other]));
        assert_eq!(refused, Err(CRC), "{types:?}");
    }
}

/// Whichever stream they are of, a word and itself too.
#[test]
fn two_payload_words_of_any_streams_are_not_read() {
    let mut rng = Rng::new(429);
    for _ in 0..200 {
        let types = [(); 2].map(|()| TYPES[rng.below(TYPES.len())]);
        let words = types.map(|ty| payload_word(&mut rng, ty));
        if !say_ip(&types) {
            assert_eq!(header(&mut rng, &sum(&words)), Err(CRC), "{types:?}");
        }
        let twice = sum(&[&words[0], &words[0]]);
        assert_eq!(header(&mut rng, &twice), Err(CRC), "{types:?}");
    }
}

/// One of type 1 and one of type 2 have a sum that says type 3, whose CRC covers 28 bits before the last 18 too. They are
/// the last of the payload of type 1, as RFU of type 2 is zero: with some of them the CRC is right, whatever the streams
/// are. Its last byte is then part of First_Header_Address, by which the sum is accepted or not.
#[test]
fn a_transparent_and_a_transport_word_may_be_read_as_an_ip_stream() {
    let mut rng = Rng::new(432);
    for (end, due) in [
        ([0x04, 0x0D], Ok(0x0D0)),
        ([0x03, 0xC0], Err(ADDRESS)),
        ([0x04, 0x0C], Err(CRC)),
        ([0x00, 0x00], Err(CRC)),
    ] {
        for _ in 0..20 {
            let mut payload = rng.bytes(payload::PAYLOAD_BYTES);
            payload[1_528] &= 0xF0;
            payload[1_529] = 0;
            payload[1_530..].copy_from_slice(&end);
            let writing = Writing {
                ty: TRANSPARENT,
                id: rng.byte(),
                count: 0,
                payload: &payload,
                null_packet: &[],
            };
            let one = both_write(&mut rng, writing, payload::WORD_BYTES).expect("it is accepted");
            let other = payload_word(&mut rng, TRANSPORT);
            let found = header(&mut rng, &sum(&[one, other]));
            let address = found.map(|header| u16::from_be_bytes([header[8], header[9]]));
            assert_eq!(address, due, "{end:02X?}");
            assert!(found.map_or(true, |header| header[5] == IP as u8));
        }
    }
}

/// That is so of words that were written, whose RFU is zero. Of two of type 2 with any RFU the sum says type 0, whose CRC
/// covers 18 bits: by the 28 bits of RFU before those the CRC of zeros can be made up for.
#[test]
fn two_words_with_rfu_may_be_read_as_a_dummy() {
    let mut rng = Rng::new(431);
    for _ in 0..20 {
        let one = payload_word(&mut rng, TRANSPORT);
        let mut other = payload_word(&mut rng, TRANSPORT);
        let ids = [&one, &other].map(|word| header(&mut rng, word).expect("it is read")[4]);
        inputs::set_payload_header(&mut other, 0xB10, ids[1].into(), TRANSPORT, 0);
        assert!(header(&mut rng, &other).is_ok());
        let found = header(&mut rng, &sum(&[one, other])).expect("it is accepted");
        assert_eq!(found[4..8], [ids[0] ^ ids[1], DUMMY as u8, 0, 0]);
    }
}

/// Of three words the header is that of their sum again, and so is the parity of their packets.
#[test]
fn three_payload_words_of_one_type_are_read() {
    let mut rng = Rng::new(430);
    for ty in TYPES {
        let parity = match ty {
            TRANSPORT => (1 << payload::PARTS) - 1,
            _ => 0,
        };
        for _ in 0..50 {
            let words = [(); 3].map(|()| payload_word(&mut rng, ty));
            let ids = words
                .each_ref()
                .map(|word| header(&mut rng, word).expect("it is read")[4]);
            let id = ids[0] ^ ids[1] ^ ids[2];
            let found = header(&mut rng, &sum(&words)).expect("it is accepted");
            assert_eq!(found[..8], [0, 0, 0, 0, id, ty as u8, 0, parity]);
        }
    }
}
