//! Signalling words.

use super::descriptions::{break_later, breaking, description, fault, overlong};
use super::flip;
use crate::rng::Rng;
use crate::second::bits::set_bit;
use crate::second::description::list_bits;
use crate::second::refusal;
use crate::second::signalling::{seal, word_of, BODY_BITS, ROOM, WORD_BITS, WORD_BYTES};

/// The refusals of the way from word to sheet, in 01's order.
pub const WORD_REFUSALS: [u8; 9] = [1, 2, 5, 6, 7, 8, 9, 10, 11];

/// The word of a valid description.
pub fn word(rng: &mut Rng) -> [u8; WORD_BYTES] {
    word_of(&description(rng))
}

/// Room enough for the reader, often just enough.
pub fn room(rng: &mut Rng) -> usize {
    if rng.flag() {
        ROOM
    } else {
        rng.range(ROOM, 400)
    }
}

/// A word that may be accepted or refused: bits flipped with and without the
/// CRC put right again, faults in a description, random records, random
/// bodies, random bytes, wrong lengths.
pub fn mutated_word(rng: &mut Rng) -> Vec<u8> {
    match rng.below(12) {
        0 => {
            let mut word = word(rng);
            flip(rng, &mut word, 0, 8 * WORD_BYTES);
            word.to_vec()
        }
        1..=4 => {
            let mut word = word(rng);
            flip(rng, &mut word, 0, BODY_BITS);
            seal(&mut word);
            word.to_vec()
        }
        5..=7 => {
            let mut description = description(rng);
            for _ in 0..rng.range(1, 2) {
                fault(rng, &mut description);
            }
            word_of(&description).to_vec()
        }
        8 => {
            let p = rng.below(16);
            random_body(rng, p).to_vec()
        }
        9 => {
            // Any body at all, with the version mostly right.
            let mut word = rng.bytes(WORD_BYTES);
            if rng.chance(7, 8) {
                word[0] &= 0x0F;
            }
            seal(&mut word);
            word
        }
        10 => {
            let mut word = word(rng);
            let from = [0, 56, 700, BODY_BITS, WORD_BITS][rng.below(5)];
            flip(rng, &mut word, from, 8 * WORD_BYTES);
            word.to_vec()
        }
        _ => {
            let mut word = word(rng).to_vec();
            if rng.flag() {
                word.truncate(rng.below(WORD_BYTES));
            } else {
                let more = rng.range(0, 40);
                word.extend(rng.bytes(more));
            }
            word
        }
    }
}

/// A word and a room to which the reader gives exactly this refusal; later
/// rules of the order may be broken as well. None if the reader never gives it.
pub fn refused_word(rng: &mut Rng, number: u8) -> Option<(Vec<u8>, usize)> {
    let room = room(rng);
    let word = match number {
        refusal::LENGTH => {
            let mut word = if rng.flag() {
                word(rng).to_vec()
            } else {
                mutated_word(rng)
            };
            if word.len() == WORD_BYTES && rng.flag() {
                return Some((word, [0, 96, 127, rng.below(ROOM)][rng.below(4)]));
            }
            match rng.below(4) {
                0 => word.truncate(rng.below(WORD_BYTES)),
                1 => word.resize(95, 0),
                2 => word.resize(97, 0),
                _ => word.resize(97 + rng.below(2000), rng.next_u64() as u8),
            }
            word
        }
        refusal::SPARE => {
            let mut word = word(rng);
            if rng.chance(1, 3) {
                flip(rng, &mut word, 0, WORD_BITS);
            }
            word[WORD_BYTES - 1] |= rng.range(1, 63) as u8;
            word.to_vec()
        }
        refusal::CRC => {
            let mut word = word(rng);
            if rng.chance(1, 3) {
                // A single bit is always noticed.
                let index = rng.below(WORD_BITS);
                word[index / 8] ^= 0x80 >> (index % 8);
            } else {
                if rng.flag() {
                    flip(rng, &mut word, 0, BODY_BITS);
                    seal(&mut word);
                }
                let change = rng.range(1, 0xFFF);
                word[WORD_BYTES - 3] ^= (change >> 10) as u8;
                word[WORD_BYTES - 2] ^= (change >> 2) as u8;
                word[WORD_BYTES - 1] ^= (change << 6) as u8;
            }
            word.to_vec()
        }
        refusal::VERSION => {
            let mut word = word(rng);
            if rng.chance(1, 3) {
                let p = rng.below(16);
                word = random_body(rng, p);
            }
            word[0] = word[0] & 0x0F | (rng.range(1, 15) as u8) << 4;
            seal(&mut word);
            word.to_vec()
        }
        refusal::LISTS => match rng.below(3) {
            0 => random_body(rng, 15).to_vec(),
            1 => word_of(&overlong(rng)).to_vec(),
            _ => {
                // The lists as an overlong description has them, but any bits
                // behind the records.
                let description = overlong(rng);
                let mut word = word_of(&description);
                for index in list_bits(description.pipes.len(), 0, 0)..BODY_BITS {
                    let value = rng.flag();
                    set_bit(&mut word, index, value);
                }
                seal(&mut word);
                word.to_vec()
            }
        },
        refusal::PADDING => {
            let mut description = description(rng);
            if rng.chance(1, 3) {
                break_later(rng, &mut description);
            }
            let free = description.bits()..BODY_BITS;
            let mut word = word_of(&description);
            for _ in 0..rng.range(1, 3) {
                let index = match rng.below(3) {
                    0 => free.start,
                    1 => free.end - 1,
                    _ => rng.range(free.start, free.end - 1),
                };
                set_bit(&mut word, index, true);
            }
            seal(&mut word);
            word.to_vec()
        }
        refusal::WIDTH | refusal::TAPS | refusal::TWICE => word_of(&breaking(rng, number)).to_vec(),
        _ => return None,
    };
    Some((word, room))
}

/// A sealed word of version 0 with `p` pipes and random bits behind.
fn random_body(rng: &mut Rng, p: usize) -> [u8; WORD_BYTES] {
    let mut word: [u8; WORD_BYTES] = rng.bytes(WORD_BYTES).try_into().expect("96 bytes");
    word[0] &= 0x0F;
    word[6] = word[6] & 0xF0 | p as u8;
    if rng.flag() {
        // Mostly unused or narrow pipes, so that lists are short.
        for pipe in 0..p.min(14) {
            let at = 7 + 6 * pipe;
            word[at] &= 0xFC;
            word[at + 1] &= if rng.flag() { 0 } else { 0x1F };
            word[at + 2] &= 0x1F;
        }
    }
    seal(&mut word);
    word
}
