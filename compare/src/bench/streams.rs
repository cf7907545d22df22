//! The rows of IP streams: words in the midst of a stream of packets of one length, for which more packets wait than a
//! word takes.

use super::library;
use super::row::{row, Row, Tables, Title};
use crate::inputs::memory;
use crate::rng::Rng;
use crate::second::ip::{self, Reading, Written, OPEN_BYTES, PACKET_HEADER_BYTES, PROGRESS_BYTES};
use crate::second::ip::{LABEL_BYTES, LAST_ADDRESS, PAYLOAD_BYTES, ROOM};
use crate::second::payload::{HEADER_BYTES, WORD_BYTES};
use std::hint::black_box;

/// The lengths of packets: an acknowledgement, what a local network carries, and the longest that there is.
const LENGTHS: [usize; 3] = [40, 1_500, 4_095];

const ID: u8 = 9;

/// How many words are gone by at most where a stream is looked at.
const WORDS: usize = 64;

pub(super) fn rows<'a>() -> Vec<Box<dyn Row + 'a>> {
    let written = LENGTHS.map(ip_write);
    let read = LENGTHS.map(ip_read);
    written.into_iter().chain(read).chain([ip_lost()]).collect()
}

/// A stream between two words.
struct Underway {
    sent: u32,
    /// As many packets as a word takes, and no more than are looked at for it.
    queue: Vec<u8>,
    /// What the receiver keeps.
    open: Vec<u8>,
}

impl Underway {
    fn new(rng: &mut Rng, length: usize) -> Underway {
        let mut to_come = 0;
        for _ in 0..rng.below(WORDS) {
            to_come = next(to_come, length);
        }
        let mut queue = packet(rng, length);
        let (mut sent, mut open) = (0, vec![0; OPEN_BYTES]);
        let mut to_send = length + PACKET_HEADER_BYTES;
        if to_come > 0 {
            sent = to_send - to_come;
            to_send = to_come;
            let there = &queue[LABEL_BYTES..][..length - to_come];
            open = memory(queue[0], queue[1], length, there);
        }
        while to_send <= LAST_ADDRESS {
            queue.extend(packet(rng, length));
            to_send += length + PACKET_HEADER_BYTES;
        }
        let sent = sent as u32;
        Underway { sent, queue, open }
    }
}

/// A packet of any bytes: such as are all of one value would be measured too, and are written faster than others.
fn packet(rng: &mut Rng, length: usize) -> Vec<u8> {
    let [high, low] = (length as u16).to_be_bytes();
    let mut packet = vec![1, 0, high, low];
    packet.extend(rng.bytes(length));
    packet
}

/// How many bytes of a packet are to come after a word before which so many are.
fn next(to_come: usize, length: usize) -> usize {
    let mut place = to_come;
    while place <= LAST_ADDRESS {
        place += PACKET_HEADER_BYTES + length;
    }
    place.saturating_sub(PAYLOAD_BYTES)
}

fn title(function: &'static str, case: String) -> Title {
    Title {
        function,
        case,
        tables: Tables::None,
    }
}

fn case(length: usize) -> String {
    format!("packets of {length} bytes")
}

/// What is read is `sent`, in four bytes, and the queue; what is written is the word and the progress.
fn ip_write<'a>(length: usize) -> Box<dyn Row + 'a> {
    row(
        title("opl_ip_write", case(length)),
        WORD_BYTES + PROGRESS_BYTES,
        move |rng| {
            let Underway { sent, queue, .. } = Underway::new(rng, length);
            [&sent.to_be_bytes()[..], &queue].concat()
        },
        |input, lent| {
            let (sent, queue) = sent_and_queue(input);
            let (word, progress) = lent.split_at_mut(WORD_BYTES);
            library::ip_write(ID, sent, queue, word, progress)
        },
        |input, made| {
            let (sent, queue) = sent_and_queue(input);
            let Written { word, progress } =
                ip::write(ID, sent, queue, WORD_BYTES, PROGRESS_BYTES)?;
            *made = word;
            made.extend(progress);
            Ok(())
        },
    )
}

fn sent_and_queue(input: &[u8]) -> (u32, &[u8]) {
    let (sent, queue) = input.split_at(4);
    (
        u32::from_be_bytes([sent[0], sent[1], sent[2], sent[3]]),
        queue,
    )
}

/// What is read is the word and the open packet; what is written is the open packet, the packets and the header.
fn ip_read<'a>(length: usize) -> Box<dyn Row + 'a> {
    row(
        title("opl_ip_read", case(length)),
        OPEN_BYTES + ROOM + HEADER_BYTES,
        move |rng| {
            let Underway { sent, queue, open } = Underway::new(rng, length);
            let written = ip::write(ID, sent, &queue, WORD_BYTES, PROGRESS_BYTES);
            let word = written.expect("a word that is accepted").word;
            [word, open].concat()
        },
        |input, lent| {
            let (word, before) = input.split_at(WORD_BYTES);
            let (open, rest) = lent.split_at_mut(OPEN_BYTES);
            let (packets, header) = rest.split_at_mut(ROOM);
            open.copy_from_slice(before);
            library::ip_read(word, open, packets, header)
        },
        |input, made| {
            let (word, before) = input.split_at(WORD_BYTES);
            black_box(&mut *made).fill(0);
            let reading = ip::read(word, before, ROOM, HEADER_BYTES)?;
            let Reading {
                header,
                packets,
                open,
            } = reading;
            let (open_after, rest) = made.split_at_mut(OPEN_BYTES);
            open_after.copy_from_slice(open.as_deref().unwrap_or(before));
            rest[..packets.len()].copy_from_slice(&packets);
            rest[ROOM..].copy_from_slice(&header);
            Ok(())
        },
    )
}

fn ip_lost<'a>() -> Box<dyn Row + 'a> {
    row(
        title("opl_ip_lost", "an open packet".to_string()),
        OPEN_BYTES,
        |rng| Underway::new(rng, 4_095).open,
        |before, open| {
            open.copy_from_slice(before);
            library::ip_lost(open)
        },
        |before, open| {
            open.copy_from_slice(before);
            *open = ip::lost(open.len())?;
            Ok(())
        },
    )
}
