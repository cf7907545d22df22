//! Preambles, and what could be taken for one.

use super::flip;
use crate::rng::Rng;
use crate::second::preamble::{preamble, BYTES};

/// The padding begins at this byte, behind the text.
const PADDING_AT: usize = 28;

/// The number that asks for one of the two preambles: 0 and all others equally often.
pub fn preamble_choice(rng: &mut Rng) -> u8 {
    if rng.flag() {
        0
    } else {
        rng.range(1, 255) as u8
    }
}

/// 32 bytes of which the form may be asked: both preambles; either with a few bits flipped, often just one; either
/// with the padding inverted and not the text, or inverted from another byte on; bytes of one value; any bytes.
pub fn preamble_bytes(rng: &mut Rng) -> Vec<u8> {
    let mut bytes = preamble(rng.flag()).to_vec();
    match rng.below(8) {
        0..=2 => {}
        3 | 4 => flip(rng, &mut bytes, 0, 8 * BYTES),
        5 => invert(&mut bytes[PADDING_AT..]),
        6 => invert(&mut bytes[rng.range(1, BYTES - 1)..]),
        _ if rng.chance(1, 4) => bytes.fill(rng.byte()),
        _ => bytes = rng.bytes(BYTES),
    }
    bytes
}

fn invert(bytes: &mut [u8]) {
    for byte in bytes {
        *byte = !*byte;
    }
}
