//! Clause 4.10.1.2: the start-of-frame preamble. Frames have it upright and with every bit inverted in turn; 02
//! (2026-01) has the caller say which of the two is due.

use super::refusal;

/// Its length in bytes.
pub const BYTES: usize = 32;
/// What is reported of a form, in bytes.
pub const FORM_BYTES: usize = 1;

/// The standard's eight words, sent in this order. It prints the last with one F too few; the scope
/// mends it, and the word then has as many ones as zeros, which the clause says is its purpose.
const SOF: [u32; 8] = [
    0x534f4620, 0x70726561, 0x6d626c65, 0x3a204e65, 0x7720432d, 0x54532066, 0x72616d65, 0xfffffffc,
];

/// What 32 bytes are, with the number that include/opl.h gives it.
#[derive(Clone, Copy, Debug, PartialEq, Eq)]
pub enum Form {
    Neither = 0,
    Upright = 1,
    Inverted = 2,
}

/// The preamble, upright or inverted.
pub fn preamble(inverted: bool) -> [u8; BYTES] {
    let mut bytes = [0; BYTES];
    for (sent, word) in bytes.chunks_exact_mut(4).zip(SOF) {
        let word = if inverted { !word } else { word };
        sent.copy_from_slice(&word.to_be_bytes());
    }
    bytes
}

/// The form of bytes: one of the two only if every bit is right.
pub fn form(bytes: &[u8]) -> Form {
    if bytes == preamble(false) {
        Form::Upright
    } else if bytes == preamble(true) {
        Form::Inverted
    } else {
        Form::Neither
    }
}

/// What the writer writes, as include/opl.h has it asked: 0 is upright, any other number inverted. Another
/// length than 32 is refused.
pub fn write(inverted: u8, out_len: usize) -> Result<[u8; BYTES], u8> {
    if out_len != BYTES {
        return Err(refusal::LENGTH);
    }
    Ok(preamble(inverted != 0))
}

/// What is reported of bytes: the number of their form. Another length of theirs than 32 is refused, and another
/// length of the report than 1.
pub fn report(bytes: &[u8], form_len: usize) -> Result<[u8; FORM_BYTES], u8> {
    if bytes.len() != BYTES || form_len != FORM_BYTES {
        return Err(refusal::LENGTH);
    }
    Ok([form(bytes) as u8])
}
