//! The payload word (clauses 4.3.1 to 4.3.4): the payload; for types 2 and 3 its parity; the header, that is RFU, for
//! type 3 First_Header_Address 12 bits, stream id 8, stream type 3, Encap_Ver 3; CRC-8 over the header; 6 spare bits.
//! Words of type 3 are written, and their payload is read, in `ip`.

use super::bits::{bit, bits, BitReader, BitWriter};
use super::crc::PAYLOAD;
use super::parity::{self, CODEWORD_BITS, MESSAGE_BITS, PARITY_BITS};
use super::refusal;
use std::ops::Range;

/// A payload word in bytes: 12,282 bits and 6 spare bits.
pub const WORD_BYTES: usize = 1_536;
/// The payload of a transparent word.
pub const PAYLOAD_BYTES: usize = 1_532;
/// What the reader reports of a header, in bytes.
pub const HEADER_BYTES: usize = 16;

/// A transport stream packet in bytes, and how many a word carries.
pub const TS_PACKET_BYTES: usize = 188;
pub const TS_PACKETS: u32 = 8;
pub const TS_PAYLOAD_BYTES: usize = 1_504;
/// The parts of the 1,504 bytes of types 2 and 3 that have a parity each.
pub const PARTS: usize = 4;

/// The stream types (table 1).
pub const DUMMY: u32 = 0;
pub const TRANSPARENT: u32 = 1;
pub const TRANSPORT: u32 = 2;
pub const IP: u32 = 3;

/// Where the header of types 2 and 3 begins, with RFU (tables 4 and 5). It is the longest that there is.
pub const TS_HEADER_AT: usize = 12_228;

/// First_Header_Address where the word has no header of a packet, and what it must not be (table 5; 02, 2026-05): there
/// a header would be split, or stand behind the payload.
pub const NO_HEADER: u16 = 0xFFF;
pub const NO_ADDRESS: Range<u16> = 1_503..NO_HEADER;

/// Where other fields begin (tables 2 to 5); but for the first two, they stand alike in all types.
const PARITY_PARTS_AT: usize = 12_032;
const ADDRESS_AT: usize = 12_248;
const ID_AT: usize = 12_260;
const TYPE_AT: usize = 12_268;
const CRC_AT: usize = 12_274;
const SPARE_AT: usize = 12_282;

/// What a payload word says of itself.
#[derive(Clone, Copy, Debug, PartialEq, Eq)]
pub struct Header {
    pub rfu: u32,
    pub id: u8,
    pub ty: u8,
    pub encap: u8,
    /// Bit k is set where part k of a word of type 2 or 3 holds.
    pub parity: u8,
    /// First_Header_Address of a word of type 3, and 0 of any other.
    pub address: u16,
}

/// The bits of RFU.
pub fn rfu_bits(ty: u32) -> u32 {
    match ty {
        TRANSPORT => 32,
        IP => 20,
        _ => 4,
    }
}

/// The bits of First_Header_Address, behind RFU.
fn address_bits(ty: u32) -> u32 {
    match ty {
        IP => 12,
        _ => 0,
    }
}

/// The bits of the header, all of which the CRC is over: 46 for types 2 and 3 and 18 for any other (02, 2026-02 and
/// 2026-05).
pub fn header_bits(ty: u32) -> usize {
    let from_id_on = CRC_AT - ID_AT;
    (rfu_bits(ty) + address_bits(ty)) as usize + from_id_on
}

/// A payload word of type 0, 1 or 2. Type 0 takes an empty payload, type 1 one of 1,532 bytes, type 2 one of `count`
/// packets, behind which the null packet fills up the eight. Refusals in the order 15, 17, 1.
pub fn write(
    ty: u32,
    id: u8,
    count: u32,
    payload: &[u8],
    null_packet: &[u8],
    word_len: usize,
) -> Result<Vec<u8>, u8> {
    let payload_len = match ty {
        DUMMY => 0,
        TRANSPARENT => PAYLOAD_BYTES,
        TRANSPORT if count > TS_PACKETS => return Err(refusal::PACKET_COUNT),
        TRANSPORT => count as usize * TS_PACKET_BYTES,
        _ => return Err(refusal::STREAM_TYPE),
    };
    let null_fits = ty != TRANSPORT || null_packet.len() == TS_PACKET_BYTES;
    if payload.len() != payload_len || !null_fits || word_len != WORD_BYTES {
        return Err(refusal::LENGTH);
    }
    let mut to = BitWriter::new();
    to.whole(payload);
    if ty == TRANSPORT {
        for _ in count..TS_PACKETS {
            to.whole(null_packet);
        }
        put_parity_parts(&mut to);
    }
    // the dummy's payload, and RFU
    to.zeros_to(ID_AT);
    Ok(closed(to, id, ty))
}

/// A word of type 3 with this payload of 1,504 bytes and this First_Header_Address.
pub(super) fn ip_word(id: u8, payload: &[u8], address: u16) -> Vec<u8> {
    let mut to = BitWriter::new();
    to.whole(payload);
    put_parity_parts(&mut to);
    // RFU
    to.zeros_to(ADDRESS_AT);
    to.number(address_bits(IP), u32::from(address));
    closed(to, id, IP)
}

/// What all types have in common: the header from the stream id on, Encap_Ver as 0, the CRC and the spare bits.
fn closed(mut to: BitWriter, id: u8, ty: u32) -> Vec<u8> {
    to.number(8, u32::from(id));
    to.number(3, ty);
    to.number(3, 0);
    let crc = header_crc(to.bytes(), header_bits(ty));
    to.number(8, crc);
    to.zeros_to(8 * WORD_BYTES);
    to.into_bytes()
}

/// The parity of each part, behind the 1,504 bytes.
fn put_parity_parts(to: &mut BitWriter) {
    for part in 0..PARTS {
        let from = part * MESSAGE_BITS;
        let message: Vec<bool> = bits(to.bytes(), from, from + MESSAGE_BITS).collect();
        for parity in &parity::codeword(&message)[MESSAGE_BITS..] {
            to.flag(*parity);
        }
    }
}

/// Where bit `place` of a part's codeword stands in the word: first its message, then its parity.
pub fn codeword_at(part: usize, place: usize) -> usize {
    if place < MESSAGE_BITS {
        part * MESSAGE_BITS + place
    } else {
        PARITY_PARTS_AT + part * PARITY_BITS + (place - MESSAGE_BITS)
    }
}

/// Whether the parity of a part of a word of type 2 or 3 holds.
fn part_holds(word: &[u8], part: usize) -> bool {
    let received: Vec<bool> = (0..CODEWORD_BITS)
        .map(|place| bit(word, codeword_at(part, place)))
        .collect();
    parity::holds(&received)
}

/// The header of a payload word. Refusals in the order 1 2 5 16 15 18.
pub fn read(word: &[u8]) -> Result<Header, u8> {
    if word.len() != WORD_BYTES {
        return Err(refusal::LENGTH);
    }
    if bits(word, SPARE_AT, 8 * WORD_BYTES).any(|spare| spare) {
        return Err(refusal::SPARE);
    }
    // by the word's own bits, before the CRC is known to hold
    let ty = type_of(word);
    let mut from = BitReader::at(word, CRC_AT - header_bits(ty));
    let rfu = from.number(rfu_bits(ty));
    let address = from.number(address_bits(ty)) as u16;
    let id = from.number(8) as u8;
    from.number(3);
    let encap = from.number(3) as u8;
    if from.number(8) != header_crc(word, header_bits(ty)) {
        return Err(refusal::CRC);
    }
    if encap != 0 {
        return Err(refusal::ENCAP);
    }
    let has_parts = match ty {
        DUMMY | TRANSPARENT => false,
        TRANSPORT | IP => true,
        _ => return Err(refusal::STREAM_TYPE),
    };
    if NO_ADDRESS.contains(&address) {
        return Err(refusal::ADDRESS);
    }
    let parity = (0..PARTS)
        .filter(|part| has_parts && part_holds(word, *part))
        .map(|part| 1 << part)
        .sum();
    Ok(Header {
        rfu,
        id,
        ty: ty as u8,
        encap,
        parity,
        address,
    })
}

fn type_of(word: &[u8]) -> u32 {
    BitReader::at(word, TYPE_AT).number(3)
}

/// The CRC of that many bits, the last that stand before the CRC itself.
fn header_crc(word: &[u8], covered: usize) -> u32 {
    PAYLOAD.word(bits(word, CRC_AT - covered, CRC_AT))
}

impl Header {
    /// The header as include/opl.h lays it out: RFU in four bytes, id, type, Encap_Ver, parity, First_Header_Address in
    /// two, zeros.
    pub fn report(&self) -> [u8; HEADER_BYTES] {
        let mut report = [0; HEADER_BYTES];
        report[..4].copy_from_slice(&self.rfu.to_be_bytes());
        report[4..8].copy_from_slice(&[self.id, self.ty, self.encap, self.parity]);
        report[8..10].copy_from_slice(&self.address.to_be_bytes());
        report
    }
}

/// What the reader reports. Another length than 16 is refused as that of the word is.
pub fn report(word: &[u8], report_len: usize) -> Result<[u8; HEADER_BYTES], u8> {
    if report_len != HEADER_BYTES {
        return Err(refusal::LENGTH);
    }
    read(word).map(|header| header.report())
}

/// The payload of a word that `read` accepts: the first 1,532 bytes for type 1 and the first 1,504 for types 2 and 3, as
/// they stand, whatever the parity says; nothing for type 0 whatever they hold.
pub fn payload_of(word: &[u8]) -> Result<&[u8], u8> {
    let header = read(word)?;
    Ok(match u32::from(header.ty) {
        TRANSPARENT => &word[..PAYLOAD_BYTES],
        TRANSPORT | IP => &word[..TS_PAYLOAD_BYTES],
        _ => &[],
    })
}

/// Gives 1,536 bytes the CRC of their header, and spare bits of zero.
pub fn seal(word: &mut [u8]) {
    seal_over(word, header_bits(type_of(word)));
}

/// Gives 1,536 bytes a CRC over that many bits, whichever their type asks for, and spare bits of zero.
pub fn seal_over(word: &mut [u8], covered: usize) {
    let crc = header_crc(word, covered);
    // The CRC begins two bits into the last but one byte.
    word[WORD_BYTES - 2] = word[WORD_BYTES - 2] & 0xC0 | (crc >> 2) as u8;
    word[WORD_BYTES - 1] = (crc << 6) as u8;
}
