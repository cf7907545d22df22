//! Made-up inputs: valid ones over the whole range, damaged ones, and ones that provoke a chosen
//! refusal. All of it follows from the seed.

mod descriptions;
mod ip_queues;
mod ip_words;
mod payload;
mod pipes;
mod preamble;
mod sheets;
mod transport;
mod turbo;
mod words;

pub use descriptions::{description, plain, plain_pipe, points_at_the_bound};
pub use ip_queues::{
    handed_out, ip_data, ip_length, ip_packet, ip_queue, mutated_sending, plain_packet,
    refused_sending, sending, Sending,
};
pub use ip_words::{
    ip_word, memory, mutated_receiving, none_open, not_open, open_packet, receiving, stray,
    NotOpen, Receiving, Stray, NOT_OPEN, STRAYS,
};
pub use payload::{
    address, mutated_payload_word, payload_word, payload_word_of, refused_payload_word,
    set_ip_header, set_payload_header, wrong_address, PAYLOAD_REFUSALS,
};
pub use pipes::{
    codewords, flat_pipe, framed_pipe, framed_pipe_of, lose_profile, pipe_bytes, profiled_pipe,
    set_pattern, set_width, wrong_pattern, wrong_width, NoProfile, NO_PROFILE,
};
pub use preamble::{preamble_bytes, preamble_choice};
pub use sheets::{mutated_sheet, refused_sheet, sheet, SHEET_REFUSALS};
pub use transport::{
    add_parts, codeword_places, distinct_places, flip_places, odd_places, packets, transport_word,
};
pub use turbo::{coding, codings, infoword, values, Coding};
pub use words::{mutated_word, refused_word, room, word, WORD_REFUSALS};

use crate::rng::Rng;

/// Lengths that the library's buffers have, the lanes' left out: one may be taken for another.
const LENGTHS: [usize; 22] = [
    6, 8, 16, 21, 32, 33, 96, 121, 128, 188, 480, 1_504, 1_532, 1_536, 1_792, 2_571, 3_072, 3_840,
    4_095, 4_104, 6_604, 7_680,
];

/// A length that is none of the right ones: close to one, equal to one when cut to 8 or 16 bits, 0, another
/// buffer's, any.
pub fn wrong_length(rng: &mut Rng, right: &[usize]) -> usize {
    loop {
        let near = right[rng.below(right.len())];
        let length = match rng.below(16) {
            0 => 0,
            1 => 1,
            2..=4 => near.saturating_sub(1),
            5..=7 => near + 1,
            8 => near / 2,
            9 => 2 * near,
            10 => near + 256,
            11 => near + 65_536,
            12 | 13 => LENGTHS[rng.below(LENGTHS.len())],
            _ => rng.below(near + 300),
        };
        if !right.contains(&length) {
            return length;
        }
    }
}

/// This length, but now and then a wrong one.
pub fn mostly(rng: &mut Rng, right: usize) -> usize {
    if rng.chance(1, 16) {
        wrong_length(rng, &[right])
    } else {
        right
    }
}

/// A number that is not below `bound`: close to it, below it when cut to fewer bits, the greatest, any.
pub fn number_past(rng: &mut Rng, bound: u32) -> u32 {
    let number = match rng.below(4) {
        0 => bound + rng.below(40) as u32,
        1 => {
            let cut = [3, 5, 6, 8, 16, 24, 31][rng.below(7)];
            (1 << cut) + rng.below(bound as usize) as u32
        }
        2 => u32::MAX,
        _ => rng.next_u64() as u32,
    };
    number.max(bound)
}

/// Flips a few bits from `from` up to `to`.
fn flip(rng: &mut Rng, bytes: &mut [u8], from: usize, to: usize) {
    let most = [1, 1, 3, 12][rng.below(4)];
    for _ in 0..rng.range(1, most) {
        let index = rng.range(from, to - 1);
        flip_bit(bytes, index);
    }
}

pub fn flip_bit(bytes: &mut [u8], index: usize) {
    bytes[index / 8] ^= 0x80 >> (index % 8);
}

/// The bitwise sum of words, or codewords, of one length; at least one.
pub fn sum(words: &[impl AsRef<[u8]>]) -> Vec<u8> {
    let (first, others) = words.split_first().expect("there is one");
    let mut sum = first.as_ref().to_vec();
    for other in others {
        assert_eq!(other.as_ref().len(), sum.len(), "words of one length");
        for (byte, added) in sum.iter_mut().zip(other.as_ref()) {
            *byte ^= added;
        }
    }
    sum
}
