//! What the encoder codes and what is placed.

use super::flip;
use crate::rng::Rng;
use crate::second::patterns;
use crate::second::turbo::{PAYLOAD_BLOCK, SIGNALLING_BLOCK, TAIL};

/// A block of N bits and a pattern that it is coded under.
#[derive(Clone, Copy, Debug)]
pub struct Coding {
    pub pattern: u32,
    pub block: usize,
}

impl Coding {
    pub fn infoword_bytes(self) -> usize {
        (self.block + TAIL) / 8
    }

    /// The bits of the codeword, and so the number of values that are received for it.
    pub fn code_bits(self) -> usize {
        patterns::pattern(self.pattern)
            .expect("one of the 28")
            .code_bits(self.block)
    }

    pub fn codeword_bytes(self) -> usize {
        self.code_bits() / 8
    }

    /// The places of the lane.
    pub fn places(self) -> usize {
        5 * (self.block + TAIL)
    }
}

/// The one coding of a signalling word.
const SIGNALLING: Coding = Coding {
    pattern: 0,
    block: SIGNALLING_BLOCK,
};

/// All that is coded: payload words under each pattern, signalling words under pattern 0.
pub fn codings() -> impl Iterator<Item = Coding> {
    let payload = |pattern| Coding {
        pattern,
        block: PAYLOAD_BLOCK,
    };
    (0..28).map(payload).chain([SIGNALLING])
}

/// Any of them, and that of a signalling word oftener than the others.
pub fn coding(rng: &mut Rng) -> Coding {
    if rng.chance(1, 4) {
        return SIGNALLING;
    }
    codings().nth(rng.below(29)).expect("there are 29")
}

/// An infoword for the encoder: `length` is 1,536 or 96; spare bits zero.
pub fn infoword(rng: &mut Rng, length: usize) -> Vec<u8> {
    let mut word = match rng.below(4) {
        // Few ones.
        0 => {
            let mut word = vec![0; length];
            flip(rng, &mut word, 0, 8 * length - 6);
            word
        }
        _ => rng.bytes(length),
    };
    word[length - 1] &= 0xC0;
    word
}

/// Received values: one everywhere, the least and the greatest, any.
pub fn values(rng: &mut Rng, n: usize) -> Vec<i8> {
    let one = rng.byte() as i8;
    let kind = rng.below(4);
    let value = |byte: u8| match kind {
        0 => one,
        1 if byte < 128 => i8::MIN,
        1 => i8::MAX,
        _ => byte as i8,
    };
    rng.bytes(n).into_iter().map(value).collect()
}
