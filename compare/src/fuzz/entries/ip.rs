//! IP streams.

use super::{held, put, resize};
use crate::calls::{IpLost, IpRead, IpWrite};
use crate::fuzz::Entry;
use crate::inputs::{self, mostly, Receiving, Sending, STRAYS};
use crate::rng::Rng;
use crate::second::ip::{self, Reading, Written, OPEN_BYTES, PROGRESS_BYTES, ROOM};
use crate::second::payload::{self, HEADER_BYTES, WORD_BYTES};
use crate::second::refusal;

impl IpWrite {
    /// A call for a word of this.
    pub(in crate::fuzz) fn of(rng: &mut Rng, id: u8, sending: Sending) -> IpWrite {
        let Sending { sent, queue } = sending;
        IpWrite {
            id,
            sent,
            queue,
            word: held(rng, WORD_BYTES),
            progress: held(rng, PROGRESS_BYTES),
        }
    }
}

impl Entry for IpWrite {
    const ORDER: &'static [u8] = &[refusal::IP_PACKET, refusal::LENGTH];
    const SHARE: usize = 4;

    fn accepted(rng: &mut Rng) -> IpWrite {
        let (id, sending) = (rng.byte(), inputs::sending(rng));
        IpWrite::of(rng, id, sending)
    }

    fn break_rule(&mut self, rng: &mut Rng, rule: usize) {
        match rng.below(3) {
            0 if rule == 1 => resize(rng, &mut self.word, &[WORD_BYTES]),
            1 if rule == 1 => resize(rng, &mut self.progress, &[PROGRESS_BYTES]),
            _ => {
                let refused = inputs::refused_sending(rng, Self::ORDER[rule]);
                let Sending { sent, queue } = refused.expect("a writer's rule");
                (self.sent, self.queue) = (sent, queue);
            }
        }
    }

    fn open(rng: &mut Rng) -> IpWrite {
        let (id, sending) = (rng.byte(), inputs::mutated_sending(rng));
        let mut call = IpWrite::of(rng, id, sending);
        for (buffer, right) in [
            (&mut call.word, WORD_BYTES),
            (&mut call.progress, PROGRESS_BYTES),
        ] {
            let length = mostly(rng, right);
            buffer.resize_with(length, || rng.byte());
        }
        call
    }

    fn second(&mut self) -> Result<(), u8> {
        let (word_len, progress_len) = (self.word.len(), self.progress.len());
        let made = ip::write(self.id, self.sent, &self.queue, word_len, progress_len);
        let Written { word, progress } = made?;
        self.word.copy_from_slice(&word);
        self.progress.copy_from_slice(&progress);
        Ok(())
    }
}

impl IpRead {
    /// A call that reads this, with room to spare or just enough.
    pub(in crate::fuzz) fn of(rng: &mut Rng, receiving: Receiving) -> IpRead {
        let Receiving { word, open } = receiving;
        let room = ROOM + [0, 0, 1, rng.below(300)][rng.below(4)];
        IpRead {
            word,
            open,
            packets: held(rng, room),
            header: held(rng, HEADER_BYTES),
        }
    }

    /// Has one of the lengths be wrong. Too much room for packets is not.
    fn resize_one(&mut self, rng: &mut Rng) {
        match rng.below(4) {
            0 => resize(rng, &mut self.word, &[WORD_BYTES]),
            1 => resize(rng, &mut self.open, &[OPEN_BYTES]),
            2 => {
                let room = [ROOM - 1, 0, rng.below(ROOM)][rng.below(3)];
                self.packets.truncate(room);
            }
            _ => resize(rng, &mut self.header, &[HEADER_BYTES]),
        }
    }
}

impl Entry for IpRead {
    const ORDER: &'static [u8] = &[
        refusal::LENGTH,
        refusal::SPARE,
        refusal::CRC,
        refusal::ENCAP,
        refusal::STREAM_TYPE,
        refusal::ADDRESS,
        refusal::IP_PACKET,
    ];
    const SHARE: usize = 4;

    /// Of a stream, or a word of another type that comes in between.
    fn accepted(rng: &mut Rng) -> IpRead {
        let mut receiving = inputs::receiving(rng);
        if rng.chance(1, 8) {
            let ty = rng.below(payload::IP as usize) as u32;
            receiving.word = inputs::payload_word_of(rng, ty);
        }
        IpRead::of(rng, receiving)
    }

    fn break_rule(&mut self, rng: &mut Rng, rule: usize) {
        match Self::ORDER[rule] {
            refusal::LENGTH => self.resize_one(rng),
            refusal::IP_PACKET => {
                let why = STRAYS[rng.below(STRAYS.len())];
                let Receiving { word, open } = inputs::stray(rng, why);
                (self.word, self.open) = (word, open);
            }
            number => {
                self.word = inputs::refused_payload_word(rng, number).expect("a reader's rule");
            }
        }
    }

    fn open(rng: &mut Rng) -> IpRead {
        let receiving = inputs::mutated_receiving(rng);
        let mut call = IpRead::of(rng, receiving);
        if rng.chance(1, 8) {
            call.resize_one(rng);
        }
        call
    }

    fn second(&mut self) -> Result<(), u8> {
        let (room, header_len) = (self.packets.len(), self.header.len());
        let made = ip::read(&self.word, &self.open, room, header_len);
        let Reading {
            header,
            packets,
            open,
        } = made?;
        self.header.copy_from_slice(&header);
        self.packets[..packets.len()].copy_from_slice(&packets);
        if let Some(open) = open {
            self.open.copy_from_slice(&open);
        }
        Ok(())
    }
}

impl Entry for IpLost {
    const ORDER: &'static [u8] = &[refusal::LENGTH];
    const SHARE: usize = 4;

    /// Whatever the memory holds.
    fn accepted(rng: &mut Rng) -> IpLost {
        let open = match rng.flag() {
            true => inputs::receiving(rng).open,
            false => held(rng, OPEN_BYTES),
        };
        IpLost { open }
    }

    fn break_rule(&mut self, rng: &mut Rng, _: usize) {
        resize(rng, &mut self.open, &[OPEN_BYTES]);
    }

    fn second(&mut self) -> Result<(), u8> {
        put(ip::lost(self.open.len()), &mut self.open)
    }
}
