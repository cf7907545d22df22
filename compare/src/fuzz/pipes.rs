//! Cases of pipes: frame after frame, with the memory that their caller keeps.

use super::chains::same;
use super::entries::held;
use super::{Entry, Trial, Verdict};
use crate::calls::{Encode, Mix, Pipe, Profile};
use crate::inputs::{flat_pipe, framed_pipe};
use crate::second::mixer::unmix;
use crate::second::pipe::{self, Receiver};
use crate::second::profile::{PROFILE_NUMBERS, TAPS};
use crate::second::refusal;

/// The most slots of a pipe, and the most bytes of its memory.
const SLOTS: usize = 2;
const MEMORY_MOST: usize = 60_000;
/// How many frames there are at most behind the first that a receiver has whole.
const FRAMES: usize = 4;

/// Frames of a pipe, the first with any number. A receiver that takes the clauses' own steps has each frame's codewords
/// when as many frames have come after it as the greatest delay says, and zeros before. Refused calls come in between.
pub(super) fn pipe_and_back(trial: &mut Trial) -> Verdict {
    let bytes = framed_pipe(&mut trial.rng, SLOTS, MEMORY_MOST);
    let pipe = pipe::Pipe::of(&bytes).expect("a pipe that is accepted");
    let (greatest, frame_bytes) = (pipe.profile.greatest, pipe.frame_bytes());
    let mut memory = vec![0; pipe.memory_bytes()];
    let mut receiver = Receiver::new(pipe);
    let mut sent = vec![vec![0; frame_bytes]; greatest];
    let first = [0, trial.rng.field(31)][trial.rng.below(2)];
    for number in 0..greatest + trial.rng.range(1, FRAMES) {
        let frame = first + number as u32;
        let writing = Pipe::of(&mut trial.rng, &bytes, frame, memory);
        if trial.rng.chance(1, 8) {
            let mut refused = writing.clone();
            let rule = trial.rng.below(Pipe::ORDER.len());
            refused.break_rule(&mut trial.rng, rule);
            trial.call(&refused, Some(Pipe::ORDER[rule]))?;
        }
        let written = trial.call(&writing, Some(0))?;
        memory = written.memory;
        sent.push(writing.codewords.clone());
        same(&writing, &receiver.frame(&written.out), &sent[number])?;
    }
    Ok(())
}

/// The greatest of a profile's lengths is the greatest delay; and the memory of a pipe has a row more than that says, not
/// one row fewer or one more.
pub(super) fn profile_and_memory(trial: &mut Trial) -> Verdict {
    let pipe = framed_pipe(&mut trial.rng, SLOTS, MEMORY_MOST);
    let profile = held(&mut trial.rng, PROFILE_NUMBERS);
    let asking = Profile { pipe, profile };
    let told = trial.call(&asking, Some(0))?.profile;
    let greatest = told[..TAPS].iter().max();
    same(
        &asking,
        &told[TAPS..],
        greatest.map_or(&[], std::slice::from_ref),
    )?;
    let rows = usize::from(told[TAPS]) + 1;
    let frame = trial.rng.field(32);
    for (rows, due) in [
        (rows - 1, refusal::FRAME),
        (rows, 0),
        (rows + 1, refusal::FRAME),
    ] {
        let mut writing = Pipe::of(&mut trial.rng, &asking.pipe, frame, Vec::new());
        writing.memory = held(&mut trial.rng, rows * writing.out.len());
        trial.call(&writing, Some(due))?;
    }
    Ok(())
}

/// A codeword is mixed, and the bits of what comes of it are put back. A pipe of one slot without any delay is just the
/// mixed codeword.
pub(super) fn codeword_to_pipe(trial: &mut Trial) -> Verdict {
    let encoding = Encode::accepted(&mut trial.rng);
    let pattern = encoding.pattern;
    let codeword = trial.call(&encoding, Some(0))?.codeword;
    let mixed = held(&mut trial.rng, codeword.len());
    let mixing = Mix {
        pattern,
        codeword,
        mixed,
    };
    let mixed = trial.call(&mixing, Some(0))?.mixed;
    let back = unmix(pattern, &mixed).expect("a codeword of the pattern");
    same(&mixing, &back, &mixing.codeword)?;
    let pipe = flat_pipe(&mut trial.rng, pattern);
    let memory = held(&mut trial.rng, mixed.len());
    let frame = trial.rng.field(32);
    let mut writing = Pipe::of(&mut trial.rng, &pipe, frame, memory);
    if writing.codewords.len() != mixed.len() {
        // a signalling codeword, which no pipe has
        return Ok(());
    }
    writing.codewords = mixing.codeword;
    let out = trial.call(&writing, Some(0))?.out;
    same(&writing, &out, &mixed)
}
