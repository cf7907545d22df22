//! Cases of an IP stream: word after word is written, and read or lost, with the state of its sender and of its receiver.

use super::chains::same;
use super::{Fault, Trial, Verdict};
use crate::calls::{IpLost, IpRead, IpWrite};
use crate::inputs::{flip_bit, handed_out, ip_queue, payload_word_of, Receiving, Sending};
use crate::rng::Rng;
use crate::second::ip::{OPEN_BYTES, PAYLOAD_BYTES};
use crate::second::payload::{IP, TS_HEADER_AT};
use crate::second::refusal;

/// The most words of a case.
const WORDS: usize = 8;
/// Where the spare bits begin. From RFU up to here a changed bit of a written word is one of the header or its CRC.
const SPARE_AT: usize = 12_282;

/// A stream under way.
struct Stream {
    id: u8,
    /// The sender's state.
    queue: Vec<u8>,
    sent: u32,
    /// Whether all words that carry the packet that is begun have arrived so far.
    intact: bool,
    /// The packets all of whose words have arrived, in order.
    arrived: Vec<u8>,
    /// The receiver's state, and what was handed out to it.
    open: Vec<u8>,
    packets: Vec<u8>,
}

impl Stream {
    fn new(rng: &mut Rng) -> Stream {
        Stream {
            id: rng.byte(),
            queue: Vec::new(),
            sent: 0,
            intact: true,
            arrived: Vec::new(),
            open: vec![0; OPEN_BYTES],
            packets: Vec::new(),
        }
    }

    /// Has some packets join the queue, or none, and gives the next word, which arrives or does not.
    fn send(&mut self, trial: &mut Trial, arrives: bool) -> Result<Vec<u8>, Fault> {
        let count = [0, 1, 1, 3][trial.rng.below(4)];
        self.queue.extend(ip_queue(&mut trial.rng, count));
        let sending = Sending {
            sent: self.sent,
            queue: self.queue.clone(),
        };
        let writing = IpWrite::of(&mut trial.rng, self.id, sending);
        let written = trial.call(&writing, Some(0))?;
        let number =
            |at: usize| u32::from_be_bytes([0, 1, 2, 3].map(|byte| written.progress[at + byte]));
        let (done, sent) = (number(0) as usize, number(4));
        // what goes on from before is whole only with the words before
        let mut intact = arrives && (self.sent == 0 || self.intact);
        for packet in handed_out(&self.queue.drain(..done).collect::<Vec<u8>>()) {
            if intact {
                self.arrived.extend(packet);
            }
            intact = arrives;
        }
        (self.sent, self.intact) = (sent, intact);
        Ok(written.word)
    }

    /// Reads a word that is to give this number, if one is due.
    fn read(&mut self, trial: &mut Trial, word: Vec<u8>, due: Option<u8>) -> Result<IpRead, Fault> {
        let open = self.open.clone();
        let reading = IpRead::of(&mut trial.rng, Receiving { word, open });
        trial.call(&reading, due)
    }

    /// Takes over what was read of a word.
    fn take(&mut self, read: IpRead) {
        let length = u16::from_be_bytes([read.header[10], read.header[11]]);
        self.packets.extend(&read.packets[..usize::from(length)]);
        self.open = read.open;
    }

    /// Reports a word lost.
    fn lose(&mut self, trial: &mut Trial) -> Verdict {
        let open = self.open.clone();
        self.open = trial.call(&IpLost { open }, Some(0))?.open;
        Ok(())
    }
}

/// Each word arrives, is lost, or is refused, and words of other types come in between. What is handed out is just the
/// packets all of whose words arrived.
pub(super) fn ip_stream(trial: &mut Trial) -> Verdict {
    let mut stream = Stream::new(&mut trial.rng);
    for _ in 0..trial.rng.range(1, WORDS) {
        let arrives = trial.rng.chance(3, 4);
        let mut word = stream.send(trial, arrives)?;
        if arrives {
            let read = stream.read(trial, word, Some(0))?;
            stream.take(read);
        } else {
            if trial.rng.flag() {
                let index = trial.rng.range(TS_HEADER_AT, SPARE_AT - 1);
                flip_bit(&mut word, index);
                let read = stream.read(trial, word, Some(refusal::CRC))?;
                same(&read, &read.open, &stream.open)?;
            }
            stream.lose(trial)?;
        }
        if trial.rng.chance(1, 4) {
            let ty = trial.rng.below(IP as usize) as u32;
            let between = payload_word_of(&mut trial.rng, ty);
            let read = stream.read(trial, between, Some(0))?;
            same(&read, &read.open, &stream.open)?;
        }
    }
    let last = IpLost { open: stream.open };
    same(&last, &stream.packets, &stream.arrived)
}

/// Bits of the packets are changed on the way, which no CRC shows, words are lost that no one reports, and refused words are
/// reported or not. What comes of it is open.
pub(super) fn damaged_ip_stream(trial: &mut Trial) -> Verdict {
    let mut stream = Stream::new(&mut trial.rng);
    for _ in 0..trial.rng.range(1, WORDS) {
        let mut word = stream.send(trial, true)?;
        if trial.rng.chance(1, 4) {
            continue;
        }
        for _ in 0..trial.rng.below(3) {
            // often in what is read first
            let end = [64, 8 * PAYLOAD_BYTES][trial.rng.below(2)];
            flip_bit(&mut word, trial.rng.below(end));
        }
        let read = stream.read(trial, word, None)?;
        let refused = trial.calls.last().is_some_and(|(_, number)| *number != 0);
        match refused {
            true if trial.rng.flag() => stream.lose(trial)?,
            true => {}
            false => stream.take(read),
        }
    }
    Ok(())
}
