//! Payload words.

use super::flip;
use super::transport::{damage, transport_word};
use crate::rng::Rng;
use crate::second::bits::set_bit;
use crate::second::payload::{self, header_bits, rfu_bits, IP, NO_ADDRESS, NO_HEADER};
use crate::second::payload::{TRANSPORT, TS_HEADER_AT, WORD_BYTES};
use crate::second::refusal;

/// The refusals of the payload reader, in the order of 01 and of the requests that change it.
pub const PAYLOAD_REFUSALS: [u8; 6] = [1, 2, 5, 16, 15, 18];

/// How many stream types are accepted, from 0 on.
const TYPES: usize = 4;
/// The stream types that a header can say.
const ALL_TYPES: usize = 8;

/// Where the CRC begins, in all types. Before it stands the header.
const CRC_AT: usize = 12_274;
/// The bits of First_Header_Address, between RFU and the stream id.
const ADDRESS_BITS: u32 = 12;

/// A payload word that the reader accepts: any RFU and id; with type 0 or 1 any bytes, with type 2 or 3 packets and their
/// parity, sound or damaged. Of type 3 the packets are those of a transport stream, as this reader does not look at them;
/// inputs/ip.rs has words of IP packets.
pub fn payload_word(rng: &mut Rng) -> Vec<u8> {
    let ty = rng.below(TYPES) as u32;
    payload_word_of(rng, ty)
}

/// The same, of this type.
pub fn payload_word_of(rng: &mut Rng, ty: u32) -> Vec<u8> {
    let has_parts = matches!(ty, TRANSPORT | IP);
    let mut word = match has_parts {
        true => transport_word(rng),
        false => rng.bytes(WORD_BYTES),
    };
    if has_parts {
        damage(rng, &mut word);
    }
    any_header(rng, &mut word, ty, 0);
    word
}

/// A payload word that may be accepted or refused: header bits flipped with and without the CRC put
/// right again, the CRC of another type, random headers, any First_Header_Address, random bytes.
pub fn mutated_payload_word(rng: &mut Rng) -> Vec<u8> {
    let mut word = payload_word(rng);
    let end = 8 * WORD_BYTES;
    match rng.below(7) {
        0 => flip(rng, &mut word, TS_HEADER_AT, end),
        1 => {
            flip(rng, &mut word, TS_HEADER_AT, end);
            payload::seal(&mut word);
        }
        2 => {
            let [ty, other, encap] = [3, 3, 3].map(|width| rng.field(width));
            any_header(rng, &mut word, ty, encap);
            payload::seal_over(&mut word, header_bits(other));
        }
        3 | 4 => {
            let [ty, encap] = [3, 3].map(|width| rng.field(width));
            any_header(rng, &mut word, ty, encap);
        }
        5 => {
            let [rfu_and_address, id, encap] = [32, 8, 1].map(|width| rng.field(width));
            set_header(&mut word, rfu_and_address, id, IP, encap);
        }
        _ => word = rng.bytes(WORD_BYTES),
    }
    word
}

/// A payload word to which the reader gives exactly this refusal; later rules
/// of the order may be broken as well. None if the reader never gives it.
pub fn refused_payload_word(rng: &mut Rng, number: u8) -> Option<Vec<u8>> {
    let ty = rng.below(TYPES) as u32;
    let mut word = payload_word_of(rng, ty);
    let tail = WORD_BYTES - 1;
    let header_at = CRC_AT - header_bits(ty);
    match number {
        refusal::LENGTH => match rng.below(4) {
            0 => word.truncate(rng.below(WORD_BYTES)),
            1 => word.push(0),
            2 => word.truncate(payload::PAYLOAD_BYTES),
            _ => word.resize(WORD_BYTES + rng.range(1, 2000), 0),
        },
        refusal::SPARE => {
            if rng.flag() {
                flip(rng, &mut word, header_at, 8 * tail);
            }
            word[tail] |= rng.range(1, 63) as u8;
        }
        refusal::CRC => {
            if rng.flag() {
                flip(rng, &mut word, header_at, CRC_AT);
                payload::seal(&mut word);
            }
            let change = rng.range(1, 255);
            word[tail - 1] ^= (change >> 2) as u8;
            word[tail] ^= (change << 6) as u8;
        }
        refusal::ENCAP => {
            let (ty, encap) = (rng.below(ALL_TYPES), rng.range(1, 7));
            any_header(rng, &mut word, ty as u32, encap as u32);
        }
        refusal::STREAM_TYPE => {
            let ty = rng.range(TYPES, ALL_TYPES - 1);
            any_header(rng, &mut word, ty as u32, 0);
        }
        refusal::ADDRESS => {
            let [rfu, id] = [rfu_bits(IP), 8].map(|width| rng.field(width));
            set_ip_header(&mut word, rfu, wrong_address(rng), id);
        }
        _ => return None,
    }
    Some(word)
}

/// Any header of this type and Encap_Ver. With Encap_Ver 0 its First_Header_Address is one that is accepted.
fn any_header(rng: &mut Rng, word: &mut [u8], ty: u32, encap: u32) {
    let (rfu, id) = (rng.field(rfu_bits(ty)), rng.field(8));
    let before_id = match (ty, encap) {
        (IP, 0) => rfu << ADDRESS_BITS | u32::from(address(rng)),
        (IP, _) => rfu << ADDRESS_BITS | rng.field(ADDRESS_BITS),
        _ => rfu,
    };
    set_header(word, before_id, id, ty, encap);
}

/// A First_Header_Address that is accepted, now and then the first or the last, or that of a word without a header.
pub fn address(rng: &mut Rng) -> u16 {
    match rng.below(6) {
        0 => 0,
        1 => NO_ADDRESS.start - 1,
        2 => NO_HEADER,
        _ => rng.below(usize::from(NO_ADDRESS.start)) as u16,
    }
}

/// One that is refused.
pub fn wrong_address(rng: &mut Rng) -> u16 {
    let (first, last) = (NO_ADDRESS.start, NO_ADDRESS.end - 1);
    match rng.below(6) {
        0 => first,
        1 => first + 1,
        2 => last,
        _ => rng.range(first.into(), last.into()) as u16,
    }
}

/// Sets the header bits of a payload word, 46 for types 2 and 3 and 18 for any other, and seals it. First_Header_Address
/// of type 3 becomes 0.
pub fn set_payload_header(word: &mut [u8], rfu: u32, id: u32, ty: u32, encap: u32) {
    let before_id = match ty {
        IP => rfu << ADDRESS_BITS,
        _ => rfu,
    };
    set_header(word, before_id, id, ty, encap);
}

/// The same of type 3 and Encap_Ver 0, with this First_Header_Address.
pub fn set_ip_header(word: &mut [u8], rfu: u32, address: u16, id: u32) {
    set_header(word, rfu << ADDRESS_BITS | u32::from(address), id, IP, 0);
}

/// Sets what stands before the stream id, and the header from there on.
fn set_header(word: &mut [u8], before_id: u32, id: u32, ty: u32, encap: u32) {
    let header = u64::from(before_id) << 14 | u64::from(id << 6 | ty << 3 | encap);
    for place in 0..header_bits(ty) {
        set_bit(word, CRC_AT - 1 - place, header >> place & 1 != 0);
    }
    payload::seal(word);
}
