//! Words of stream type 2, and what may happen to them on their way.

use super::flip_bit;
use crate::rng::Rng;
use crate::second::bits::bit;
use crate::second::parity::{codeword, CODEWORD_BITS, MESSAGE_BITS};
use crate::second::payload::{self, codeword_at};
use crate::second::payload::{PARTS, TRANSPORT, TS_PACKETS, TS_PACKET_BYTES, WORD_BYTES};

/// That many packets: any bytes, or now and then bytes of one value.
pub fn packets(rng: &mut Rng, count: u32) -> Vec<u8> {
    let length = count as usize * TS_PACKET_BYTES;
    match rng.below(8) {
        0 => vec![[0x00, 0xFF, 0x47][rng.below(3)]; length],
        _ => rng.bytes(length),
    }
}

/// A word as the writer writes it, of any count.
pub fn transport_word(rng: &mut Rng) -> Vec<u8> {
    let (id, count) = (rng.byte(), rng.range(0, TS_PACKETS as usize) as u32);
    let [payload, null_packet] = [count, 1].map(|count| packets(rng, count));
    let word = payload::write(TRANSPORT, id, count, &payload, &null_packet, WORD_BYTES);
    word.expect("the lengths are right")
}

/// Changes some of the parts or none: a few bits, of the parity alone or of all; any parity bits; or a codeword added,
/// with which it still holds if it held before.
pub fn damage(rng: &mut Rng, word: &mut [u8]) {
    for part in 0..PARTS {
        match rng.below(8) {
            0 => flip_places(word, part, &few_places(rng, 0)),
            1 => flip_places(word, part, &few_places(rng, MESSAGE_BITS)),
            2 => flip_places(word, part, &any_places(rng, MESSAGE_BITS)),
            3 => flip_places(word, part, &codeword_places(rng)),
            _ => {}
        }
    }
}

/// Flips these bits of a part's codeword.
pub fn flip_places(word: &mut [u8], part: usize, places: &[usize]) {
    for place in places {
        flip_bit(word, codeword_at(part, *place));
    }
}

/// Adds the packets and the parity of another word.
pub fn add_parts(word: &mut [u8], other: &[u8]) {
    for part in 0..PARTS {
        for index in (0..CODEWORD_BITS).map(|place| codeword_at(part, place)) {
            if bit(other, index) {
                flip_bit(word, index);
            }
        }
    }
}

/// An odd number of places in a codeword, no two of them the same.
pub fn odd_places(rng: &mut Rng) -> Vec<usize> {
    let most = [1, 9, CODEWORD_BITS][rng.below(3)];
    let number = rng.range(0, most / 2) * 2 + 1;
    distinct_places(rng, number)
}

/// That many places in a codeword, no two of them the same.
pub fn distinct_places(rng: &mut Rng, number: usize) -> Vec<usize> {
    let mut places: Vec<usize> = (0..CODEWORD_BITS).collect();
    rng.shuffle(&mut places);
    places.truncate(number);
    places
}

/// The places of the ones in the codeword of a message of few bits, or of any.
pub fn codeword_places(rng: &mut Rng) -> Vec<usize> {
    let mut message = vec![false; MESSAGE_BITS];
    let ones = [1, 2, 5, MESSAGE_BITS][rng.below(4)];
    for _ in 0..ones {
        message[rng.below(MESSAGE_BITS)] ^= true;
    }
    let codeword = codeword(&message);
    (0..CODEWORD_BITS)
        .filter(|&place| codeword[place])
        .collect()
}

/// Few places from this one on.
fn few_places(rng: &mut Rng, from: usize) -> Vec<usize> {
    let number = rng.range(1, 12);
    (0..number)
        .map(|_| rng.range(from, CODEWORD_BITS - 1))
        .collect()
}

/// Each place from this one on, or not.
fn any_places(rng: &mut Rng, from: usize) -> Vec<usize> {
    (from..CODEWORD_BITS).filter(|_| rng.flag()).collect()
}
