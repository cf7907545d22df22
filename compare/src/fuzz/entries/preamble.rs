//! The preamble.

use super::{held, put, resize};
use crate::calls::{Preamble, PreambleForm};
use crate::fuzz::Entry;
use crate::inputs::{self, mostly};
use crate::rng::Rng;
use crate::second::preamble::{self, BYTES, FORM_BYTES};
use crate::second::refusal;

impl Entry for Preamble {
    const ORDER: &'static [u8] = &[refusal::LENGTH];
    const SHARE: usize = 4;

    fn accepted(rng: &mut Rng) -> Preamble {
        let inverted = inputs::preamble_choice(rng);
        let out = held(rng, BYTES);
        Preamble { inverted, out }
    }

    fn break_rule(&mut self, rng: &mut Rng, _: usize) {
        resize(rng, &mut self.out, &[BYTES]);
    }

    fn open(rng: &mut Rng) -> Preamble {
        let inverted = inputs::preamble_choice(rng);
        let length = mostly(rng, BYTES);
        let out = held(rng, length);
        Preamble { inverted, out }
    }

    fn second(&mut self) -> Result<(), u8> {
        let made = preamble::write(self.inverted, self.out.len());
        put(made, &mut self.out)
    }
}

impl Entry for PreambleForm {
    const ORDER: &'static [u8] = &[refusal::LENGTH];
    const SHARE: usize = 4;

    fn accepted(rng: &mut Rng) -> PreambleForm {
        let bytes = inputs::preamble_bytes(rng);
        let form = held(rng, FORM_BYTES);
        PreambleForm { bytes, form }
    }

    /// One length is wrong, or the other, or both.
    fn break_rule(&mut self, rng: &mut Rng, _: usize) {
        let broken = rng.below(3);
        if broken != 0 {
            resize(rng, &mut self.bytes, &[BYTES]);
        }
        if broken != 1 {
            resize(rng, &mut self.form, &[FORM_BYTES]);
        }
    }

    /// Where bytes are added, a whole preamble may stand in front of them.
    fn open(rng: &mut Rng) -> PreambleForm {
        let mut bytes = inputs::preamble_bytes(rng);
        if rng.chance(1, 8) {
            resize(rng, &mut bytes, &[BYTES]);
        }
        let length = mostly(rng, FORM_BYTES);
        let form = held(rng, length);
        PreambleForm { bytes, form }
    }

    fn second(&mut self) -> Result<(), u8> {
        let made = preamble::report(&self.bytes, self.form.len());
        put(made, &mut self.form)
    }
}
