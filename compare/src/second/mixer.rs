//! The mixer (clause 4.5): the bits of a codeword in another order; and the way back.

use super::bits::{bit, set_bit};
use super::patterns;
use super::refusal;

/// Table 12: Code Rate, Codeword_Len in bits, CILM_Inc.
const TABLE_12: [((usize, usize), usize, usize); 14] = [
    ((1, 5), 61_440, 247),
    ((2, 9), 55_296, 245),
    ((1, 4), 49_152, 221),
    ((2, 7), 43_008, 197),
    ((3, 10), 40_960, 209),
    ((1, 3), 36_864, 185),
    ((3, 8), 32_768, 179),
    ((2, 5), 30_720, 167),
    ((3, 7), 28_672, 167),
    ((1, 2), 24_576, 157),
    ((3, 5), 20_480, 149),
    ((2, 3), 18_432, 125),
    ((3, 4), 16_384, 139),
    ((6, 7), 14_336, 113),
];

/// The signalling pipe: its pattern, the bytes of its codeword and its CILM_Inc (clauses 4.5 and 4.10.1.1).
const SIGNALLING_PATTERN: u32 = 0;
const SIGNALLING_BYTES: usize = 480;
const SIGNALLING_INC: usize = 61;

/// CILM_Inc for a codeword of that many bytes. Refused with 3 where the pattern is above 27, then with 21 where its
/// codewords have another length.
pub fn increment(pattern: u32, codeword_len: usize) -> Result<usize, u8> {
    let rate = patterns::pattern(pattern).ok_or(refusal::PATTERN)?.rate;
    if pattern == SIGNALLING_PATTERN && codeword_len == SIGNALLING_BYTES {
        return Ok(SIGNALLING_INC);
    }
    let row = TABLE_12.iter().find(|(its, ..)| *its == rate);
    let (_, codeword_bits, inc) = row.expect("every pattern has a rate of table 12");
    match codeword_len == codeword_bits / 8 {
        true => Ok(*inc),
        false => Err(refusal::FRAME),
    }
}

/// The mixed codeword: b[i] = a[(CILM_Inc x i) mod Codeword_Len]. Refusals in the order 3, 21.
pub fn mix(pattern: u32, codeword: &[u8], mixed_len: usize) -> Result<Vec<u8>, u8> {
    let inc = fitting(pattern, codeword.len(), mixed_len)?;
    let codeword_len = 8 * codeword.len();
    let mut mixed = vec![0; mixed_len];
    for i in 0..codeword_len {
        set_bit(&mut mixed, i, bit(codeword, inc * i % codeword_len));
    }
    Ok(mixed)
}

/// The codeword of a mixed one: each bit is put back to where it was taken from.
pub fn unmix(pattern: u32, mixed: &[u8]) -> Result<Vec<u8>, u8> {
    let inc = increment(pattern, mixed.len())?;
    let codeword_len = 8 * mixed.len();
    let mut codeword = vec![0; mixed.len()];
    for i in 0..codeword_len {
        set_bit(&mut codeword, inc * i % codeword_len, bit(mixed, i));
    }
    Ok(codeword)
}

/// What `mix` gives, fast, written into `mixed`: the place that is read goes on by CILM_Inc and comes round at the
/// codeword's end, and a byte is written at a time. A refusal leaves `mixed` as it was.
pub fn mix_into(pattern: u32, codeword: &[u8], mixed: &mut [u8]) -> Result<(), u8> {
    let inc = fitting(pattern, codeword.len(), mixed.len())?;
    let codeword_len = 8 * codeword.len();
    let mut place = 0;
    for byte in mixed {
        let mut eight = 0;
        for _ in 0..8 {
            eight = eight << 1 | codeword[place / 8] >> (7 - place % 8) & 1;
            place += inc;
            if place >= codeword_len {
                place -= codeword_len;
            }
        }
        *byte = eight;
    }
    Ok(())
}

/// CILM_Inc where the mixed codeword is to be as long as the codeword.
fn fitting(pattern: u32, codeword_len: usize, mixed_len: usize) -> Result<usize, u8> {
    let inc = increment(pattern, codeword_len)?;
    match mixed_len == codeword_len {
        true => Ok(inc),
        false => Err(refusal::FRAME),
    }
}
