//! Payload words.

use super::{held, put, resize};
use crate::calls::{PayloadRead, PayloadWrite};
use crate::fuzz::Entry;
use crate::inputs::{self, mostly, number_past};
use crate::rng::Rng;
use crate::second::payload::{self, HEADER_BYTES, PAYLOAD_BYTES, WORD_BYTES};
use crate::second::payload::{DUMMY, TRANSPARENT, TRANSPORT, TS_PACKETS, TS_PACKET_BYTES};
use crate::second::refusal;

impl PayloadWrite {
    /// A call that is accepted, of this type. What the type does not look at is anything.
    pub(in crate::fuzz) fn of_type(rng: &mut Rng, r#type: u32) -> PayloadWrite {
        let transport = r#type == TRANSPORT;
        let count = match transport {
            true => rng.range(0, TS_PACKETS as usize) as u32,
            false => any_count(rng),
        };
        let payload = match r#type {
            DUMMY => Vec::new(),
            TRANSPARENT => rng.bytes(PAYLOAD_BYTES),
            _ => inputs::packets(rng, count),
        };
        let mut null_packet = inputs::packets(rng, 1);
        if !transport && rng.flag() {
            resize(rng, &mut null_packet, &[TS_PACKET_BYTES]);
        }
        PayloadWrite {
            r#type,
            id: rng.byte(),
            count,
            payload,
            null_packet,
            word: held(rng, WORD_BYTES),
        }
    }

    /// The length of a payload of that many packets, the product cut to 32 bits. None where that is too long to be tried.
    fn packets_length(&self) -> Option<usize> {
        let length = self.count.wrapping_mul(TS_PACKET_BYTES as u32) as usize;
        Some(length).filter(|length| *length <= 1 << 16)
    }

    fn resize_payload(&mut self, rng: &mut Rng, length: usize) {
        self.payload.resize_with(length, || rng.byte());
    }
}

/// A count that keeps to the bound, or one above it.
fn any_count(rng: &mut Rng) -> u32 {
    match rng.flag() {
        true => rng.range(0, TS_PACKETS as usize) as u32,
        false => number_past(rng, TS_PACKETS + 1),
    }
}

impl Entry for PayloadWrite {
    const ORDER: &'static [u8] = &[refusal::STREAM_TYPE, refusal::PACKET_COUNT, refusal::LENGTH];
    const SHARE: usize = 4;

    fn accepted(rng: &mut Rng) -> PayloadWrite {
        let r#type = [DUMMY, TRANSPARENT, TRANSPORT][rng.below(3)];
        PayloadWrite::of_type(rng, r#type)
    }

    fn break_rule(&mut self, rng: &mut Rng, rule: usize) {
        match rule {
            0 => self.r#type = number_past(rng, TRANSPORT + 1),
            1 => {
                self.r#type = TRANSPORT;
                self.count = number_past(rng, TS_PACKETS + 1);
                // now and then all lengths are as such a count would have them
                if let Some(length) = self.packets_length().filter(|_| rng.flag()) {
                    self.resize_payload(rng, length);
                }
            }
            _ => match rng.below(if self.r#type == TRANSPORT { 3 } else { 2 }) {
                0 => resize(rng, &mut self.word, &[WORD_BYTES]),
                1 => {
                    let right = [self.payload.len()];
                    resize(rng, &mut self.payload, &right);
                }
                _ => resize(rng, &mut self.null_packet, &[TS_PACKET_BYTES]),
            },
        }
    }

    /// Types and counts on both sides of their bounds, and lengths that are right for one or the other of them.
    fn open(rng: &mut Rng) -> PayloadWrite {
        let mut call = PayloadWrite::accepted(rng);
        call.r#type = rng.below(4) as u32;
        call.count = any_count(rng);
        let counted = call.packets_length().unwrap_or(0);
        let length = match rng.below(8) {
            0 => 0,
            1 => PAYLOAD_BYTES,
            2 => counted + TS_PACKET_BYTES,
            3 => counted.saturating_sub(TS_PACKET_BYTES),
            _ => mostly(rng, counted),
        };
        call.resize_payload(rng, length);
        for (buffer, right) in [
            (&mut call.null_packet, TS_PACKET_BYTES),
            (&mut call.word, WORD_BYTES),
        ] {
            let length = mostly(rng, right);
            buffer.resize_with(length, || rng.byte());
        }
        call
    }

    fn second(&mut self) -> Result<(), u8> {
        let made = payload::write(
            self.r#type,
            self.id,
            self.count,
            &self.payload,
            &self.null_packet,
            self.word.len(),
        );
        put(made, &mut self.word)
    }
}

impl Entry for PayloadRead {
    const ORDER: &'static [u8] = &inputs::PAYLOAD_REFUSALS;
    const SHARE: usize = 4;

    fn accepted(rng: &mut Rng) -> PayloadRead {
        let word = inputs::payload_word(rng);
        let header = held(rng, HEADER_BYTES);
        PayloadRead { word, header }
    }

    fn break_rule(&mut self, rng: &mut Rng, rule: usize) {
        let number = Self::ORDER[rule];
        if number == refusal::LENGTH && rng.flag() {
            resize(rng, &mut self.header, &[HEADER_BYTES]);
        } else {
            self.word = inputs::refused_payload_word(rng, number).expect("a reader's rule");
        }
    }

    fn open(rng: &mut Rng) -> PayloadRead {
        let word = inputs::mutated_payload_word(rng);
        let length = mostly(rng, HEADER_BYTES);
        let header = held(rng, length);
        PayloadRead { word, header }
    }

    fn second(&mut self) -> Result<(), u8> {
        let made = payload::report(&self.word, self.header.len());
        put(made, &mut self.header)
    }
}
