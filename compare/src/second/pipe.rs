//! From the codewords of a frame to its pipe (clauses 4.6 to 4.8): slots, their dispersers and the collector; and the way
//! back in a receiver. [`Transmitter`] and [`Receiver`] keep all frames and follow the clauses; [`write`] does what a
//! transmitter does with no more memory than is needed, a ring of frames, as include/opl.h lays it out.

use super::mixer::{mix, mix_into, unmix};
use super::patterns;
use super::profile::{self, Profile};
use super::refusal;

/// An interleaver unit (IU) and a capacity unit (CU), in bytes (clause 4.6).
pub const UNIT_BYTES: usize = 64;
pub const CAPACITY_UNIT_BYTES: usize = 256;

type Unit = [u8; UNIT_BYTES];

/// What a pipe's record and sections say of its frames.
pub struct Pipe {
    pub pattern: u32,
    pub codeword_bytes: usize,
    /// Pipe_Width_Slots.
    pub slots: usize,
    pub regrouping: bool,
    pub profile: Profile,
}

impl Pipe {
    /// Refusals in the order 20, 3, and 21 where the width is no multiple of a codeword's.
    pub fn of(pipe: &[u8]) -> Result<Pipe, u8> {
        let (fields, sections) = profile::record(pipe)?;
        let pattern = patterns::pattern(fields.punct_pat_id).ok_or(refusal::PATTERN)?;
        let (width, capacity_units) = (fields.pipe_width_cus, pattern.capacity_units());
        if width % capacity_units != 0 {
            return Err(refusal::FRAME);
        }
        Ok(Pipe {
            pattern: fields.punct_pat_id,
            codeword_bytes: capacity_units as usize * CAPACITY_UNIT_BYTES,
            slots: (width / capacity_units) as usize,
            regrouping: fields.regrouping_flag,
            profile: Profile::of(&fields, &sections),
        })
    }

    /// IU_Per_CW.
    pub fn units(&self) -> usize {
        self.codeword_bytes / UNIT_BYTES
    }

    /// The bytes of a frame: of its codewords, and of what goes out.
    pub fn frame_bytes(&self) -> usize {
        self.slots * self.codeword_bytes
    }

    /// The frames that the ring keeps.
    pub fn rows(&self) -> usize {
        self.profile.greatest + 1
    }

    /// The bytes of the ring.
    pub fn memory_bytes(&self) -> usize {
        self.rows() * self.frame_bytes()
    }

    /// Which of a frame's units is unit `k` of a slot.
    fn collected_at(&self, slot: usize, k: usize) -> usize {
        match self.regrouping {
            true => k * self.slots + slot,
            false => slot * self.units() + k,
        }
    }
}

/// The segmenter (clause 4.6): the units of a mixed codeword, or of a frame.
fn segmented(bytes: &[u8]) -> Vec<Unit> {
    let unit = |bytes: &[u8]| bytes.try_into().expect("a whole number of units");
    bytes.chunks(UNIT_BYTES).map(unit).collect()
}

/// The collector (clause 4.8) over what the dispersers of the slots give: slot by slot, or with regrouping unit by unit.
pub fn collect<T: Clone>(slots: &[Vec<T>], regrouping: bool) -> Vec<T> {
    if !regrouping {
        return slots.concat();
    }
    let units = slots.first().map_or(0, Vec::len);
    let unit_of_all = |k: usize| slots.iter().map(move |slot| slot[k].clone());
    (0..units).flat_map(unit_of_all).collect()
}

/// The slots of a collected frame.
pub fn uncollect<T: Clone>(frame: &[T], slots: usize, regrouping: bool) -> Vec<Vec<T>> {
    let slot = |slot: usize| -> Vec<T> {
        let units = frame.len() / slots;
        match regrouping {
            true => frame.iter().skip(slot).step_by(slots).cloned().collect(),
            false => frame[slot * units..][..units].to_vec(),
        }
    };
    (0..slots).map(slot).collect()
}

/// The dispersers of a pipe's slots, with all that was ever fed into their taps: by frame, slot and tap.
#[derive(Default)]
struct Dispersers {
    frames: Vec<Vec<Vec<Unit>>>,
}

impl Dispersers {
    /// Takes the units of the next frame, slot by slot, and gives for each tap the unit that was fed into it as many
    /// frames before as its delay says. Before the first frame all units are zero (02, 2026-06).
    fn disperse(
        &mut self,
        slots: Vec<Vec<Unit>>,
        delay: impl Fn(usize) -> usize,
    ) -> Vec<Vec<Unit>> {
        let now = self.frames.len();
        self.frames.push(slots);
        let tap = |slot: usize, k: usize| match now.checked_sub(delay(k)) {
            Some(frame) => self.frames[frame][slot][k],
            None => [0; UNIT_BYTES],
        };
        let slots = self.frames[now].iter().enumerate();
        slots
            .map(|(slot, units)| (0..units.len()).map(|k| tap(slot, k)).collect())
            .collect()
    }
}

/// A pipe as it is sent, frame after frame.
pub struct Transmitter {
    pipe: Pipe,
    dispersers: Dispersers,
}

impl Transmitter {
    pub fn new(pipe: Pipe) -> Transmitter {
        let dispersers = Dispersers::default();
        Transmitter { pipe, dispersers }
    }

    /// The pipe of the next frame, whose codewords these are, slot 0 first.
    pub fn frame(&mut self, codewords: &[u8]) -> Vec<u8> {
        let pipe = &self.pipe;
        let mixed = codewords
            .chunks(pipe.codeword_bytes)
            .map(|codeword| mix(pipe.pattern, codeword, pipe.codeword_bytes))
            .map(|mixed| segmented(&mixed.expect("a codeword of the pattern")));
        let slots = mixed.collect();
        let dispersed = self.dispersers.disperse(slots, |k| pipe.profile.delay(k));
        collect(&dispersed, pipe.regrouping).concat()
    }
}

/// A pipe as it is received, frame after frame.
pub struct Receiver {
    pipe: Pipe,
    dispersers: Dispersers,
}

impl Receiver {
    pub fn new(pipe: Pipe) -> Receiver {
        let dispersers = Dispersers::default();
        Receiver { pipe, dispersers }
    }

    /// The codewords that are complete with the next frame. They were sent with the frame that is Max_Delay before it.
    pub fn frame(&mut self, received: &[u8]) -> Vec<u8> {
        let pipe = &self.pipe;
        let slots = uncollect(&segmented(received), pipe.slots, pipe.regrouping);
        let delay = |k| pipe.profile.receiver_delay(k);
        let gathered = self.dispersers.disperse(slots, delay);
        let codeword = |units: Vec<Unit>| unmix(pipe.pattern, &units.concat());
        gathered
            .into_iter()
            .flat_map(|units| codeword(units).expect("a codeword of the pattern"))
            .collect()
    }
}

/// Writes the pipe of a frame. Row `frame` mod (Max_Delay + 1) of the memory takes the frame's mixed codewords, slot 0
/// first; each unit goes out from the row of the frame that is its tap's delay before. Any bytes are such a memory.
/// Refusals in the order 20 3 21; one leaves memory and pipe as they were.
pub fn write(
    pipe: &[u8],
    frame: u32,
    codewords: &[u8],
    memory: &mut [u8],
    out: &mut [u8],
) -> Result<(), u8> {
    let pipe = Pipe::of(pipe)?;
    let (codeword_bytes, frame_bytes) = (pipe.codeword_bytes, pipe.frame_bytes());
    let lengths = [codewords.len(), out.len(), memory.len()];
    if lengths != [frame_bytes, frame_bytes, pipe.memory_bytes()] {
        return Err(refusal::FRAME);
    }
    let now = frame as usize % pipe.rows();
    let row = &mut memory[now * frame_bytes..][..frame_bytes];
    let slots = row.chunks_mut(codeword_bytes);
    for (codeword, mixed) in codewords.chunks(codeword_bytes).zip(slots) {
        mix_into(pipe.pattern, codeword, mixed)?;
    }
    for k in 0..pipe.units() {
        let row = (now + pipe.rows() - pipe.profile.delay(k)) % pipe.rows();
        for slot in 0..pipe.slots {
            let from = row * frame_bytes + slot * codeword_bytes + k * UNIT_BYTES;
            let to = pipe.collected_at(slot, k) * UNIT_BYTES;
            out[to..][..UNIT_BYTES].copy_from_slice(&memory[from..][..UNIT_BYTES]);
        }
    }
    Ok(())
}
