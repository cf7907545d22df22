//! Words of IP streams read by the library and by the second implementation at once, which must agree on the number and
//! on every byte.

use compare::lent::first_difference;
use compare::opl;
use compare::rng::Rng;
use compare::second::ip::{self, OPEN_BYTES, ROOM};
use compare::second::payload::HEADER_BYTES;

/// Memory in which no packet is open.
pub const NONE: [u8; OPEN_BYTES] = [0; OPEN_BYTES];

/// What is read of a word.
#[derive(Debug, PartialEq)]
pub struct Read {
    pub header: [u8; HEADER_BYTES],
    /// The packets that were handed out.
    pub packets: Vec<u8>,
}

/// What both readers read, or the number with which they refuse. `open` is lent as it stands and is left as they leave it;
/// what is lent for packets and header has these lengths and is filled at random before. Panics unless both agree on the
/// number and on every byte.
#[track_caller]
pub fn both_read_into(
    rng: &mut Rng,
    word: &[u8],
    open: &mut [u8],
    [room, header_len]: [usize; 2],
) -> Result<Read, u8> {
    let (mut packets, mut header) = (rng.bytes(room), rng.bytes(header_len));
    let (mut due_open, mut due_packets, mut due_header) =
        (open.to_vec(), packets.clone(), header.clone());
    let second = ip::read(word, open, room, header_len);
    let refusal = opl::ip_read(word, open, &mut packets, &mut header);
    let input = format!(
        "word that ends in {:02X?}",
        &word[word.len().saturating_sub(8)..]
    );
    let number = second.as_ref().err().copied().unwrap_or(0);
    assert_eq!(refusal, number, "{input}");
    if let Ok(reading) = &second {
        due_header.copy_from_slice(&reading.header);
        due_packets[..reading.packets.len()].copy_from_slice(&reading.packets);
        if let Some(left) = &reading.open {
            due_open.copy_from_slice(left);
        }
    }
    assert_eq!(header, due_header, "header, {input}");
    assert_eq!(first_difference(open, &due_open), None, "open, {input}");
    let differ = first_difference(&packets, &due_packets);
    assert_eq!(differ, None, "packets, {input}");
    second.map(|reading| Read {
        header: reading.header,
        packets: reading.packets,
    })
}

/// The same where the lengths are right.
#[track_caller]
pub fn both_read(rng: &mut Rng, word: &[u8], open: &mut [u8]) -> Result<Read, u8> {
    both_read_into(rng, word, open, [ROOM, HEADER_BYTES])
}

/// Reports a lost word to both, or gives the number with which they refuse.
#[track_caller]
pub fn both_lost(open: &mut [u8]) -> Result<(), u8> {
    let due = ip::lost(open.len());
    let held = open.to_vec();
    let refusal = opl::ip_lost(open);
    assert_eq!(refusal, due.as_ref().err().copied().unwrap_or(0));
    let differ = first_difference(open, due.as_ref().unwrap_or(&held));
    assert_eq!(differ, None);
    due.map(drop)
}
