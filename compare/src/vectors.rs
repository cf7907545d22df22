//! The vectors of crates/vectors by the second implementation: a word made by a rule, coded under every pattern
//! that goes with its block, and a line of text for each codeword.

use crate::second::bits::bits;
use crate::second::crc::SIGNALLING;
use crate::second::patterns::pattern;
use crate::second::turbo::{encode, PAYLOAD_BLOCK, SIGNALLING_BLOCK};
use std::fmt::Write;

/// The low bytes of a xorshift sequence, from the number after 1 on. The spare bits, the last six, are zero.
fn word(len: usize) -> Vec<u8> {
    let mut x: u32 = 1;
    let mut bytes: Vec<u8> = (0..len)
        .map(|_| {
            x ^= x << 13;
            x ^= x >> 17;
            x ^= x << 5;
            x as u8
        })
        .collect();
    bytes[len - 1] &= 0xC0;
    bytes
}

fn line(block: usize, number: u32, word: &[u8]) -> String {
    let len = pattern(number).expect("28 patterns").code_bits(block) / 8;
    let codeword = encode(number, word, len).expect("the word is coded");
    let crc = SIGNALLING.word(bits(&codeword, 0, 8 * len));
    format!(
        "block {block} pattern {number} bytes {len} first {} last {} crc12 {crc:03x}\n",
        hex(&codeword[..8]),
        hex(&codeword[len - 8..]),
    )
}

fn hex(bytes: &[u8]) -> String {
    bytes.iter().fold(String::new(), |mut text, byte| {
        write!(text, "{byte:02x}").expect("a string takes all");
        text
    })
}

/// All lines: the payload block under each pattern, and the signalling block under pattern 0.
pub fn text() -> String {
    let payload = word(1_536);
    let mut text: String = (0..28)
        .map(|number| line(PAYLOAD_BLOCK, number, &payload))
        .collect();
    text += &line(SIGNALLING_BLOCK, 0, &word(96));
    text
}
