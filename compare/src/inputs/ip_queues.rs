//! Queues of packets of an IP stream.

use super::{flip, wrong_length};
use crate::rng::Rng;
use crate::second::ip::{
    LABEL_BYTES, LAST_ADDRESS, PACKET_HEADER_BYTES, PACKET_MOST, PAYLOAD_BYTES,
};
use crate::second::refusal;

/// The types of packets: IPv4 and IPv6.
const PACKET_TYPES: [u8; 2] = [1, 2];
/// What fills a payload up.
pub(super) const FILL: u8 = 0xFF;

/// The bytes of a packet: any, or now and then all of one value, that of the padding too.
pub fn ip_data(rng: &mut Rng, length: usize) -> Vec<u8> {
    match rng.below(8) {
        0 => vec![[0x00, 0x40, FILL][rng.below(3)]; length],
        _ => rng.bytes(length),
    }
}

/// The length of a packet: the least, the greatest and those by which one or two words are just filled come often.
pub fn ip_length(rng: &mut Rng) -> usize {
    let near = |rng: &mut Rng, middle: usize| rng.range(middle - 6, middle + 6);
    match rng.below(9) {
        0 => 1,
        1 => rng.range(1, 8),
        2 => 40,
        3 => near(rng, PAYLOAD_BYTES),
        4 => near(rng, 2 * PAYLOAD_BYTES),
        5 => rng.range(PACKET_MOST - 3, PACKET_MOST),
        6 => rng.range(1, PACKET_MOST),
        _ => rng.range(1, 300),
    }
}

pub(super) fn packet_type(rng: &mut Rng) -> u8 {
    PACKET_TYPES[rng.below(PACKET_TYPES.len())]
}

/// A packet of that length as a queue has it: of any error byte.
pub fn ip_packet(rng: &mut Rng, length: usize) -> Vec<u8> {
    let error = [0, 1, rng.byte()][rng.below(3)];
    let [high, low] = (length as u16).to_be_bytes();
    let mut packet = vec![packet_type(rng), error, high, low];
    packet.extend(ip_data(rng, length));
    packet
}

/// A packet whose bytes are all of one value.
pub fn plain_packet(ty: u8, error: u8, length: u16, byte: u8) -> Vec<u8> {
    let [high, low] = length.to_be_bytes();
    let mut packet = vec![ty, error, high, low];
    packet.resize(LABEL_BYTES + usize::from(length), byte);
    packet
}

/// The packets of a queue, each as a reader hands it out: the error byte is 0 or 1.
pub fn handed_out(queue: &[u8]) -> Vec<Vec<u8>> {
    let mut packets = Vec::new();
    let mut rest = queue;
    while let Some(length) = first_length(rest) {
        let (packet, behind) = rest.split_at(LABEL_BYTES + length);
        let mut packet = packet.to_vec();
        packet[1] = u8::from(packet[1] != 0);
        packets.push(packet);
        rest = behind;
    }
    packets
}

/// A queue of that many packets.
pub fn ip_queue(rng: &mut Rng, count: usize) -> Vec<u8> {
    let mut queue = Vec::new();
    for _ in 0..count {
        let length = ip_length(rng);
        queue.extend(ip_packet(rng, length));
    }
    queue
}

/// What a word is written of.
#[derive(Clone, Debug)]
pub struct Sending {
    pub sent: u32,
    pub queue: Vec<u8>,
}

/// A queue that is accepted: empty, of few packets, or of many small ones; with its first packet begun or not.
pub fn sending(rng: &mut Rng) -> Sending {
    let queue = match rng.below(8) {
        0 => Vec::new(),
        1 => (0..rng.range(1, 1_200))
            .flat_map(|_| {
                let length = rng.range(1, 4);
                ip_packet(rng, length)
            })
            .collect(),
        _ => {
            let count = rng.range(1, 6);
            ip_queue(rng, count)
        }
    };
    let sent = match first_length(&queue) {
        Some(length) if rng.flag() => sent(rng, length),
        _ => 0,
    };
    Sending { sent, queue }
}

/// The length of the first packet.
pub(super) fn first_length(queue: &[u8]) -> Option<usize> {
    let length = queue.get(2..LABEL_BYTES)?;
    Some(usize::from(u16::from_be_bytes([length[0], length[1]])))
}

/// How much is sent of a packet that is begun: often so that just a word is to come, or a byte more or less.
fn sent(rng: &mut Rng, length: usize) -> u32 {
    let to_come = match rng.below(4) {
        0 => 1,
        1 => length,
        2 => rng.range(LAST_ADDRESS - 2, PAYLOAD_BYTES + 2),
        _ => rng.range(1, length),
    };
    (length + PACKET_HEADER_BYTES - to_come.min(length)) as u32
}

/// A queue to which the writer gives exactly this refusal, whatever is lent besides. None if it gives none such.
pub fn refused_sending(rng: &mut Rng, number: u8) -> Option<Sending> {
    let mut sending = sending(rng);
    match number {
        refusal::IP_PACKET => spoil(rng, &mut sending.queue),
        refusal::LENGTH => match rng.below(3) {
            0 => cut(rng, &mut sending.queue),
            1 => append_part(rng, &mut sending.queue),
            _ => sending.sent = misplaced(rng, first_length(&sending.queue)),
        },
        _ => return None,
    }
    Some(sending)
}

/// Where the packets of a sound queue begin.
fn beginnings(queue: &[u8]) -> Vec<usize> {
    let mut beginnings = Vec::new();
    let mut at = 0;
    while let Some(length) = first_length(&queue[at..]) {
        beginnings.push(at);
        at += LABEL_BYTES + length;
    }
    beginnings
}

/// Gives one of the packets a type or a length that is none, and may cut its data off; with no packet there, adds one.
fn spoil(rng: &mut Rng, queue: &mut Vec<u8>) {
    if queue.is_empty() {
        queue.extend(ip_packet(rng, 1));
    }
    let beginnings = beginnings(queue);
    let at = beginnings[rng.below(beginnings.len())];
    if rng.flag() {
        queue[at] = [0, 3, rng.range(3, 255) as u8][rng.below(3)];
    } else {
        let length = [0, 4_096, rng.range(4_096, 65_535)][rng.below(3)] as u16;
        queue[at + 2..at + LABEL_BYTES].copy_from_slice(&length.to_be_bytes());
    }
    if rng.chance(1, 4) {
        queue.truncate(rng.range(at + LABEL_BYTES, queue.len()));
    }
}

/// Cuts a queue inside its last packet.
fn cut(rng: &mut Rng, queue: &mut Vec<u8>) {
    if queue.is_empty() {
        queue.extend(ip_packet(rng, 1));
    }
    let last = *beginnings(queue).last().expect("there is a packet");
    let less = [
        1,
        queue.len() - last - 1,
        rng.range(1, queue.len() - last - 1),
    ];
    queue.truncate(queue.len() - less[rng.below(less.len())]);
}

/// Adds too few bytes for a packet's label, whatever they say.
fn append_part(rng: &mut Rng, queue: &mut Vec<u8>) {
    for _ in 0..rng.range(1, LABEL_BYTES - 1) {
        queue.push([0, 1, 2, 3, rng.byte()][rng.below(5)]);
    }
}

/// A number of bytes that cannot have been sent of a first packet of this length: close to those that can, equal to one
/// when cut to 8, 16 or 31 bits, any.
fn misplaced(rng: &mut Rng, length: Option<usize>) -> u32 {
    let all = length.map_or(0, |length| length + PACKET_HEADER_BYTES) as u32;
    let begun = rng.below(all.max(2) as usize) as u32;
    loop {
        let sent = match rng.below(7) {
            0 | 1 => 1,
            2 => all,
            3 => all + rng.range(1, 4) as u32,
            4 => begun + [1 << 8, 1 << 16, 1 << 31][rng.below(3)],
            5 => u32::MAX,
            _ => rng.next_u64() as u32,
        };
        if sent != 0 && !(2..all).contains(&sent) {
            return sent;
        }
    }
}

/// A queue that may be accepted or refused: any labels, sound queues cut anywhere or with bytes changed, any `sent`.
pub fn mutated_sending(rng: &mut Rng) -> Sending {
    let mut sending = sending(rng);
    let length = sending.queue.len();
    match rng.below(5) {
        0 => sending.queue.truncate(rng.range(0, length)),
        1 if length > 0 => flip(rng, &mut sending.queue, 0, 8 * length.min(64)),
        2 => sending.sent = rng.range(0, 4_100) as u32,
        3 => {
            let count = rng.range(0, 12);
            sending.queue = rng.bytes(count);
        }
        _ => {
            let longer = wrong_length(rng, &[length]);
            sending.queue.resize(longer.min(length + 9_000), 1);
        }
    }
    sending
}
