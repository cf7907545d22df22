//! The mixer, the profile of a pipe, and the pipe of a frame.

use super::{held, put, resize};
use crate::calls::{Mix, Pipe, Profile};
use crate::fuzz::Entry;
use crate::inputs::{self, number_past, NO_PROFILE};
use crate::rng::Rng;
use crate::second::pipe;
use crate::second::profile::{self, PROFILE_NUMBERS, RECORD_BYTES, SECTION_BYTES};
use crate::second::{mixer, refusal};

/// The most slots of a pipe, and the most bytes of its memory.
const SLOTS: usize = 3;
const MEMORY_MOST: usize = 200_000;

impl Entry for Mix {
    const ORDER: &'static [u8] = &[refusal::PATTERN, refusal::FRAME];
    const SHARE: usize = 1;

    fn accepted(rng: &mut Rng) -> Mix {
        let coding = inputs::coding(rng);
        let length = coding.codeword_bytes();
        Mix {
            pattern: coding.pattern,
            codeword: inputs::codewords(rng, length),
            mixed: held(rng, length),
        }
    }

    fn break_rule(&mut self, rng: &mut Rng, rule: usize) {
        match (rule, rng.below(4)) {
            (0, _) => self.pattern = number_past(rng, 28),
            (_, 0) => {
                // a signalling codeword, which no pattern but 0 has
                self.pattern = rng.range(1, 27) as u32;
                (self.codeword, self.mixed) = (held(rng, 480), held(rng, 480));
            }
            (_, 1) => {
                let right = [self.mixed.len()];
                resize(rng, &mut self.mixed, &right);
            }
            (_, 2) => {
                let right = [self.codeword.len()];
                resize(rng, &mut self.codeword, &right);
            }
            _ => {
                // both alike, and of no pattern's length
                let right: Vec<usize> = inputs::codings().map(|c| c.codeword_bytes()).collect();
                resize(rng, &mut self.codeword, &right);
                self.mixed = held(rng, self.codeword.len());
            }
        }
    }

    fn second(&mut self) -> Result<(), u8> {
        let made = mixer::mix(self.pattern, &self.codeword, self.mixed.len());
        put(made, &mut self.mixed)
    }
}

/// Has a pipe have no profile. What has none already is cut or lengthened.
fn lose_profile(rng: &mut Rng, pipe: &mut Vec<u8>) {
    match profile::record(pipe) {
        Ok(_) => {
            let why = NO_PROFILE[rng.below(NO_PROFILE.len())];
            inputs::lose_profile(rng, pipe, why);
        }
        Err(_) => resize(rng, pipe, &[RECORD_BYTES + SECTION_BYTES]),
    }
}

impl Entry for Profile {
    const ORDER: &'static [u8] = &[refusal::PROFILE, refusal::LENGTH];
    const SHARE: usize = 4;

    fn accepted(rng: &mut Rng) -> Profile {
        Profile {
            pipe: inputs::profiled_pipe(rng),
            profile: held(rng, PROFILE_NUMBERS),
        }
    }

    fn break_rule(&mut self, rng: &mut Rng, rule: usize) {
        match rule {
            0 => lose_profile(rng, &mut self.pipe),
            _ => resize(rng, &mut self.profile, &[PROFILE_NUMBERS]),
        }
    }

    /// Any bytes behind any record, and mostly as many as its pipe owns.
    fn open(rng: &mut Rng) -> Profile {
        let mut call = Profile::accepted(rng);
        for _ in 0..rng.range(1, 4) {
            let index = rng.below(8 * call.pipe.len());
            inputs::flip_bit(&mut call.pipe, index);
        }
        if rng.chance(1, 4) {
            let length = rng.below(30);
            call.pipe.resize_with(length, || rng.byte());
        }
        let length = inputs::mostly(rng, PROFILE_NUMBERS);
        call.profile = held(rng, length);
        call
    }

    fn second(&mut self) -> Result<(), u8> {
        put(
            profile::report(&self.pipe, self.profile.len()),
            &mut self.profile,
        )
    }
}

impl Pipe {
    /// A call for a frame of this pipe, which is one that is accepted, with this memory.
    pub(in crate::fuzz) fn of(rng: &mut Rng, pipe: &[u8], frame: u32, memory: Vec<u8>) -> Pipe {
        let its = pipe::Pipe::of(pipe).expect("a pipe that is accepted");
        Pipe {
            pipe: pipe.to_vec(),
            frame,
            codewords: inputs::codewords(rng, its.frame_bytes()),
            memory,
            out: held(rng, its.frame_bytes()),
        }
    }

    /// Has one of the lengths be wrong: that of the memory also by just a row.
    fn resize_one(&mut self, rng: &mut Rng) {
        let row = self.out.len();
        let buffer = match rng.below(4) {
            0 => &mut self.codewords,
            1 => &mut self.out,
            2 => &mut self.memory,
            _ => {
                let rows = [
                    self.memory.len() + row,
                    self.memory.len().saturating_sub(row),
                ];
                let length = rows[rng.below(2)];
                // a pipe's memory is never empty
                self.memory = held(rng, length);
                return;
            }
        };
        let right = [buffer.len()];
        resize(rng, buffer, &right);
    }
}

impl Entry for Pipe {
    const ORDER: &'static [u8] = &[refusal::PROFILE, refusal::PATTERN, refusal::FRAME];
    const SHARE: usize = 1;

    /// Any bytes are a memory, and any number a frame.
    fn accepted(rng: &mut Rng) -> Pipe {
        let pipe = inputs::framed_pipe(rng, SLOTS, MEMORY_MOST);
        let its = pipe::Pipe::of(&pipe).expect("a pipe that is accepted");
        let frame = [rng.below(100) as u32, rng.field(32)][rng.below(2)];
        let memory = match rng.chance(1, 4) {
            true => vec![0; its.memory_bytes()],
            false => held(rng, its.memory_bytes()),
        };
        Pipe::of(rng, &pipe, frame, memory)
    }

    fn break_rule(&mut self, rng: &mut Rng, rule: usize) {
        match rule {
            0 => lose_profile(rng, &mut self.pipe),
            1 => inputs::set_pattern(&mut self.pipe, inputs::wrong_pattern(rng)),
            _ => match pipe::Pipe::of(&self.pipe) {
                // with room for as many codewords as before
                Ok(its) if rng.chance(1, 4) => {
                    let width = inputs::wrong_width(rng, its.pattern, its.slots as u32);
                    inputs::set_width(&mut self.pipe, width);
                }
                _ => self.resize_one(rng),
            },
        }
    }

    fn second(&mut self) -> Result<(), u8> {
        let Pipe {
            pipe,
            frame,
            codewords,
            memory,
            out,
        } = self;
        pipe::write(pipe, *frame, codewords, memory, out)
    }
}
