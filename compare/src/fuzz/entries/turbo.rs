//! The encoder, and the placement of what is received.

use super::{held, put, resize};
use crate::calls::{Encode, Place};
use crate::fuzz::Entry;
use crate::inputs::{self, number_past};
use crate::rng::Rng;
use crate::second::{payload, refusal, signalling, turbo};

/// The bytes of an infoword, and the places of a lane: those of a payload word and of a signalling word.
const INFOWORDS: [usize; 2] = [payload::WORD_BYTES, signalling::WORD_BYTES];
const LANES: [usize; 2] = [61_440, 3_840];

impl Entry for Encode {
    const ORDER: &'static [u8] = &[
        refusal::LENGTH,
        refusal::PATTERN,
        refusal::BLOCK,
        refusal::LENGTH,
        refusal::SPARE,
    ];
    const SHARE: usize = 1;

    fn accepted(rng: &mut Rng) -> Encode {
        let coding = inputs::coding(rng);
        Encode {
            pattern: coding.pattern,
            infoword: inputs::infoword(rng, coding.infoword_bytes()),
            codeword: held(rng, coding.codeword_bytes()),
        }
    }

    fn break_rule(&mut self, rng: &mut Rng, rule: usize) {
        match rule {
            0 => resize(rng, &mut self.infoword, &INFOWORDS),
            1 => self.pattern = number_past(rng, 28),
            2 => {
                self.infoword.resize(INFOWORDS[1], 0);
                self.pattern = rng.range(1, 27) as u32;
            }
            3 => {
                let right = [self.codeword.len()];
                resize(rng, &mut self.codeword, &right);
            }
            _ => {
                if let Some(last) = self.infoword.last_mut() {
                    *last |= rng.range(1, 0x3F) as u8;
                }
            }
        }
    }

    fn second(&mut self) -> Result<(), u8> {
        let made = turbo::encode(self.pattern, &self.infoword, self.codeword.len());
        put(made, &mut self.codeword)
    }
}

impl Entry for Place {
    const ORDER: &'static [u8] = &[
        refusal::LENGTH,
        refusal::PATTERN,
        refusal::BLOCK,
        refusal::LENGTH,
    ];
    const SHARE: usize = 1;

    fn accepted(rng: &mut Rng) -> Place {
        let coding = inputs::coding(rng);
        Place {
            pattern: coding.pattern,
            values: inputs::values(rng, coding.code_bits()),
            lane: held(rng, coding.places()),
        }
    }

    fn break_rule(&mut self, rng: &mut Rng, rule: usize) {
        match rule {
            0 => resize(rng, &mut self.lane, &LANES),
            1 => self.pattern = number_past(rng, 28),
            2 => {
                self.lane = held(rng, LANES[1]);
                self.pattern = rng.range(1, 27) as u32;
            }
            _ => {
                let right = [self.values.len()];
                resize(rng, &mut self.values, &right);
            }
        }
    }

    fn second(&mut self) -> Result<(), u8> {
        let made = turbo::place(self.pattern, &self.values, self.lane.len());
        put(made, &mut self.lane)
    }
}
