//! Payload words by the library and by the second implementation at once, which must agree on the number and on every
//! byte.

use compare::lent::first_difference;
use compare::opl;
use compare::rng::Rng;
use compare::second::payload::{report, write, HEADER_BYTES};

/// What a word is written of.
#[derive(Clone, Copy)]
pub struct Writing<'a> {
    pub ty: u32,
    pub id: u8,
    pub count: u32,
    pub payload: &'a [u8],
    pub null_packet: &'a [u8],
}

/// The word of that length, filled at random before, or the number with which both writers refuse. Panics unless
/// they agree on it and on every byte of the word.
#[track_caller]
pub fn both_write(rng: &mut Rng, writing: Writing, length: usize) -> Result<Vec<u8>, u8> {
    let Writing {
        ty,
        id,
        count,
        payload,
        null_packet,
    } = writing;
    let held = rng.bytes(length);
    let second = write(ty, id, count, payload, null_packet, length);
    let mut word = held.clone();
    let refusal = opl::payload_write(ty, id, count, payload, null_packet, &mut word);
    let input = format!(
        "type {ty}, id {id}, {count} packets, {} and {} bytes into {length}",
        payload.len(),
        null_packet.len()
    );
    let number = second.as_ref().err().copied().unwrap_or(0);
    assert_eq!(refusal, number, "{input}");
    let expected = second.as_ref().unwrap_or(&held);
    assert_eq!(first_difference(&word, expected), None, "{input}");
    second
}

/// The header of that length, filled at random before, or the number with which both readers refuse. Panics unless
/// they agree on it and on every byte of the header.
#[track_caller]
pub fn both_read(rng: &mut Rng, word: &[u8], length: usize) -> Result<[u8; HEADER_BYTES], u8> {
    let held = rng.bytes(length);
    let second = report(word, length);
    let mut header = held.clone();
    let refusal = opl::payload_read(word, &mut header);
    let number = second.err().unwrap_or(0);
    let expected = second.map_or(held, Vec::from);
    assert!(
        refusal == number && header == expected,
        "{} bytes that end in {:02X?}\nlibrary {refusal}, header {header:02X?}\nsecond {number}, header {expected:02X?}",
        word.len(),
        &word[word.len().saturating_sub(8)..],
    );
    second
}
