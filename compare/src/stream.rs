//! Transport streams (ISO/IEC 13818-1), made up: packets of several PIDs with any payload, each PID with its own
//! continuity counter, and null packets among them.

use crate::rng::Rng;
use std::collections::BTreeMap;

/// The bytes of a packet.
pub const PACKET: usize = 188;
pub const SYNC: u8 = 0x47;
pub const NULL_PID: u16 = 0x1FFF;

/// The program association table, a program map table, three services, and packets that only fill up.
const PIDS: [u16; 6] = [0x0000, 0x0100, 0x0101, 0x0102, 0x0200, NULL_PID];

/// The packets of a minute at 500 kbit/s. So it ends inside a payload word.
pub const MINUTE: usize = 60 * 500_000 / (8 * PACKET);

/// The packets of [`story`]: half of the seventh payload word is left to be filled up.
const STORY: usize = 52;

/// A packet: the sync byte, the PID, payload and no adaptation field, the continuity counter; then the payload.
fn packet(pid: u16, counter: u8, payload: &[u8]) -> Vec<u8> {
    let [high, low] = pid.to_be_bytes();
    [&[SYNC, high, low, 0x10 | counter][..], payload].concat()
}

pub fn null_packet() -> Vec<u8> {
    packet(NULL_PID, 0, &[0xFF; PACKET - 4])
}

pub fn pid_of(packet: &[u8]) -> u16 {
    u16::from_be_bytes([packet[1], packet[2]]) & 0x1FFF
}

/// That many packets one after the other.
pub fn stream(rng: &mut Rng, count: usize) -> Vec<u8> {
    let mut counters = BTreeMap::new();
    let mut next = || {
        let pid = PIDS[rng.below(PIDS.len())];
        if pid == NULL_PID {
            return null_packet();
        }
        let counter = counters.entry(pid).or_insert(0);
        *counter = (*counter + 1) % 16;
        packet(pid, *counter, &rng.bytes(PACKET - 4))
    };
    (0..count).flat_map(|_| next()).collect()
}

/// The stream of the demonstration, examples/streams/story.ts. With this seed it begins with the two tables, and its
/// last packet is no null packet.
pub fn story() -> Vec<u8> {
    stream(&mut Rng::new(535), STORY)
}
