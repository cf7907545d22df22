//! Signalling words.

use super::{held, put, resize};
use crate::calls::{SignallingRead, SignallingWrite};
use crate::fuzz::Entry;
use crate::inputs::{self, mostly};
use crate::rng::Rng;
use crate::second::signalling::{self, ROOM, SHEET_FIXED, SHEET_MOST, WORD_BYTES};

impl Entry for SignallingRead {
    const ORDER: &'static [u8] = &inputs::WORD_REFUSALS;
    const SHARE: usize = 8;

    fn accepted(rng: &mut Rng) -> SignallingRead {
        let word = inputs::word(rng).to_vec();
        let room = inputs::room(rng);
        let sheet = held(rng, room);
        SignallingRead { word, sheet }
    }

    fn break_rule(&mut self, rng: &mut Rng, rule: usize) {
        let refused = inputs::refused_word(rng, Self::ORDER[rule]);
        let (word, room) = refused.expect("a reader's rule");
        let sheet = held(rng, room);
        *self = SignallingRead { word, sheet };
    }

    fn open(rng: &mut Rng) -> SignallingRead {
        let word = inputs::mutated_word(rng);
        let room = mostly(rng, ROOM);
        let sheet = held(rng, room);
        SignallingRead { word, sheet }
    }

    fn second(&mut self) -> Result<(), u8> {
        let made = signalling::read(&self.word, self.sheet.len());
        put(made, &mut self.sheet)
    }
}

impl Entry for SignallingWrite {
    const ORDER: &'static [u8] = &inputs::SHEET_REFUSALS;
    const SHARE: usize = 8;

    fn accepted(rng: &mut Rng) -> SignallingWrite {
        let sheet = inputs::sheet(rng);
        let word = held(rng, WORD_BYTES);
        SignallingWrite { sheet, word }
    }

    fn break_rule(&mut self, rng: &mut Rng, rule: usize) {
        let refused = inputs::refused_sheet(rng, Self::ORDER[rule]);
        let (sheet, length) = refused.expect("a writer's rule");
        let word = held(rng, length);
        *self = SignallingWrite { sheet, word };
    }

    fn open(rng: &mut Rng) -> SignallingWrite {
        let mut sheet = inputs::mutated_sheet(rng);
        if rng.chance(1, 16) {
            let right = [sheet.len(), SHEET_FIXED, SHEET_MOST];
            resize(rng, &mut sheet, &right);
        }
        let length = mostly(rng, WORD_BYTES);
        let word = held(rng, length);
        SignallingWrite { sheet, word }
    }

    fn second(&mut self) -> Result<(), u8> {
        let made = signalling::write(&self.sheet, self.word.len());
        put(made, &mut self.word)
    }
}
