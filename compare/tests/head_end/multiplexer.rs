//! Frames as clauses 4.9 and 4.10 have them, put together by the second implementation: all streams carry a payload in
//! words of type 1.

use compare::second::bits::BitWriter;
use compare::second::description::{Description, Pipe as Described};
use compare::second::mixer::mix;
use compare::second::patterns::pattern;
use compare::second::payload::{self, PAYLOAD_BYTES, TRANSPARENT, WORD_BYTES};
use compare::second::pipe::{Pipe, Transmitter, CAPACITY_UNIT_BYTES};
use compare::second::preamble::preamble;
use compare::second::signalling::word_of;
use compare::second::turbo::Encoder;
use std::collections::VecDeque;
use std::iter::Cycle;
use std::vec::IntoIter;

/// A payload word that a receiver has whole: of which stream it is, and the pattern of its pipe.
#[derive(Clone)]
pub struct Word {
    pub id: u32,
    pub pattern: u32,
    pub bytes: Vec<u8>,
}

/// What is sent, frame after frame.
pub struct Multiplexer {
    first: Description,
    units: usize,
    payload: Cycle<IntoIter<u8>>,
    encoder: Encoder,
    pipes: Vec<Option<Sent>>,
    tail: Tail,
    number: usize,
}

/// A payload pipe that is sent.
struct Sent {
    transmitter: Transmitter,
    slots: usize,
    greatest: usize,
    /// The words of the frames that are not whole yet.
    under_way: VecDeque<Vec<Word>>,
}

/// The tail pipe: mixed codewords, as far as they are not sent, and their words.
#[derive(Default)]
struct Tail {
    bytes: VecDeque<u8>,
    under_way: VecDeque<Word>,
}

/// A pipe's record and its sections, as a sheet has them.
pub fn record(pipe: &Described) -> Vec<u8> {
    let mut to = BitWriter::new();
    pipe.fields.write(&mut to);
    for section in &pipe.sections {
        to.number(4, 0);
        section.write(&mut to);
    }
    to.into_bytes()
}

/// A payload pipe, unless it is not in use or its pattern is reserved.
pub fn sent_pipe(pipe: &Described) -> Option<Pipe> {
    let known = pipe.fields.in_use() && pattern(pipe.fields.punct_pat_id).is_some();
    known.then(|| Pipe::of(&record(pipe)).expect("a sound pipe"))
}

fn period(pipe: &Described) -> usize {
    let widths = pipe.streams.iter();
    widths
        .map(|stream| stream.sts_width_slots_1 as usize + 1)
        .sum()
}

/// Inter_Schedule_Period_Countdown_Slots of a frame: never 0, but where a period begins with each frame (table 16).
fn countdown(pipe: &Described, slots: usize, frame: usize) -> usize {
    let first = pipe.fields.inter_schedule_period_countdown_slots as usize;
    let gone = slots * frame;
    match first {
        0 => 0,
        _ if gone < first => first - gone,
        _ => period(pipe) - (gone - first) % period(pipe),
    }
}

/// The stream that has a slot of the codewords which come out of the receivers' dispersers with a frame: that is what the
/// frame's signalling word says (clauses 4.10.3 and 4.10.4).
fn owner(pipe: &Described, slots: usize, frame: usize, slot: usize) -> u32 {
    let period = period(pipe);
    let ahead = countdown(pipe, slots, frame) % period;
    let mut place = (slot + period - ahead) % period;
    for stream in &pipe.streams {
        let width = stream.sts_width_slots_1 as usize + 1;
        if place < width {
            return stream.sts_id;
        }
        place -= width;
    }
    unreachable!("the widths make the period")
}

impl Multiplexer {
    pub fn new(first: &Description, payload: &[u8], units: usize) -> Multiplexer {
        let sent = |pipe: &Described| {
            let pipe = sent_pipe(pipe)?;
            Some(Sent {
                slots: pipe.slots,
                greatest: pipe.profile.greatest,
                transmitter: Transmitter::new(pipe),
                under_way: VecDeque::new(),
            })
        };
        Multiplexer {
            first: first.clone(),
            units,
            payload: payload.to_vec().into_iter().cycle(),
            encoder: Encoder::new(),
            pipes: first.pipes.iter().map(sent).collect(),
            tail: Tail::default(),
            number: 0,
        }
    }

    /// The next frame, and the words that receivers have whole with it, pipe by pipe and slot by slot.
    pub fn frame(&mut self) -> (Vec<u8>, Vec<Word>) {
        let description = self.description();
        let mut frame = preamble(self.number % 2 == 1).to_vec();
        frame.extend(self.mixed(0, &word_of(&description)));
        let mut whole = Vec::new();
        for pipe in 0..self.pipes.len() {
            let (bytes, words) = self.pipe(pipe);
            frame.extend(bytes);
            whole.extend(words);
        }
        let (bytes, words) = self.tail();
        frame.extend(bytes);
        whole.extend(words);
        assert!(frame.len() <= self.units * CAPACITY_UNIT_BYTES);
        frame.resize(self.units * CAPACITY_UNIT_BYTES, 0);
        self.number += 1;
        (frame, whole)
    }

    /// What the signalling word of the frame says.
    fn description(&self) -> Description {
        let mut now = self.first.clone();
        now.multiplex.frame_index = (now.multiplex.frame_index + self.number as u32) % (1 << 22);
        let countdown_to_event = now.multiplex.event_countdown;
        now.multiplex.event_countdown = countdown_to_event.saturating_sub(self.number as u32);
        for (pipe, sent) in now.pipes.iter_mut().zip(&self.pipes) {
            if let Some(sent) = sent {
                let slots = countdown(pipe, sent.slots, self.number) as u32;
                pipe.fields.inter_schedule_period_countdown_slots = slots;
            }
        }
        let tail = &mut now.tail.fields;
        if tail.in_use() && pattern(tail.punct_pat_id).is_some() {
            tail.codeword_align_flag = self.tail.bytes.is_empty();
        }
        now
    }

    fn codeword(&self, pattern: u32, infoword: &[u8]) -> Vec<u8> {
        let length = self.encoder.codeword_len(pattern, infoword.len());
        let mut codeword = vec![0; length.expect("a word and a pattern for it")];
        let encoded = self.encoder.encode(pattern, infoword, &mut codeword);
        encoded.expect("a sound word");
        codeword
    }

    fn mixed(&self, pattern: u32, infoword: &[u8]) -> Vec<u8> {
        let codeword = self.codeword(pattern, infoword);
        mix(pattern, &codeword, codeword.len()).expect("a codeword of the pattern")
    }

    /// The next word of a stream, with the next bytes of the payload.
    fn word(&mut self, id: u32, pattern: u32) -> Word {
        let payload: Vec<u8> = self.payload.by_ref().take(PAYLOAD_BYTES).collect();
        let bytes = payload::write(TRANSPARENT, id as u8, 0, &payload, &[], WORD_BYTES);
        Word {
            id,
            pattern,
            bytes: bytes.expect("a payload"),
        }
    }

    /// A payload pipe: the words that go in now are by the frame with which they are whole.
    fn pipe(&mut self, number: usize) -> (Vec<u8>, Vec<Word>) {
        let described = self.first.pipes[number].clone();
        let (pattern, width) = (
            described.fields.punct_pat_id,
            described.fields.pipe_width_cus as usize,
        );
        let Some(sent) = &self.pipes[number] else {
            return (vec![0; width * CAPACITY_UNIT_BYTES], Vec::new());
        };
        let (slots, whole_with) = (sent.slots, self.number + sent.greatest);
        let words: Vec<Word> = (0..slots)
            .map(|slot| self.word(owner(&described, slots, whole_with, slot), pattern))
            .collect();
        let codewords: Vec<u8> = words
            .iter()
            .flat_map(|word| self.codeword(pattern, &word.bytes))
            .collect();
        let sent = self.pipes[number].as_mut().expect("it is sent");
        sent.under_way.push_back(words);
        let whole = match sent.under_way.len() > sent.greatest {
            true => sent.under_way.pop_front().expect("a frame is there"),
            false => Vec::new(),
        };
        (sent.transmitter.frame(&codewords), whole)
    }

    /// The tail pipe: the mixed codewords run on, and the pipe takes as much of them as its width has (clause 4.10.8).
    fn tail(&mut self) -> (Vec<u8>, Vec<Word>) {
        let fields = self.first.tail.fields.clone();
        let bytes = fields.pipe_width_cus as usize * CAPACITY_UNIT_BYTES;
        let Some(known) = pattern(fields.punct_pat_id).filter(|_| fields.in_use()) else {
            return (vec![0; bytes], Vec::new());
        };
        let codeword_bytes = known.capacity_units() as usize * CAPACITY_UNIT_BYTES;
        let id = self.first.tail.stream.as_ref().expect("it has one").sts_id;
        while self.tail.bytes.len() < bytes {
            let word = self.word(id, fields.punct_pat_id);
            let mixed = self.mixed(fields.punct_pat_id, &word.bytes);
            self.tail.bytes.extend(mixed);
            self.tail.under_way.push_back(word);
        }
        let piped = self.tail.bytes.drain(..bytes).collect();
        let begun = self.tail.bytes.len().div_ceil(codeword_bytes);
        let whole = self.tail.under_way.len() - begun;
        (piped, self.tail.under_way.drain(..whole).collect())
    }
}
