//! IP streams (clause 4.3.4; 02, 2026-05): packets, each behind a header of its own (table 6), that run on from one
//! payload word of type 3 into the next.
//!
//! The memory that a caller keeps between two words, and the queue of packets, are as include/opl.h lays them out.

use super::payload::{self, HEADER_BYTES, IP, NO_HEADER, WORD_BYTES};
use super::refusal;

/// The bytes of a word that packets run through.
pub const PAYLOAD_BYTES: usize = 1_504;
/// The last address at which a header fits: it is never split.
pub const LAST_ADDRESS: usize = 1_502;
/// The longest packet, and the least room for what one word hands out: that of such a packet that lacks one byte, and
/// then 501 packets of one byte.
pub const PACKET_MOST: usize = 4_095;
pub const ROOM: usize = 6_604;

/// What stands before a packet in a queue, in bytes, and before one in a word.
pub const LABEL_BYTES: usize = 4;
pub const PACKET_HEADER_BYTES: usize = 2;
/// What the writer says of its progress, in bytes, and what the reader keeps of an open packet.
pub const PROGRESS_BYTES: usize = 8;
pub const OPEN_BYTES: usize = 4_104;

/// What fills the rest of a payload, and what it is where a header is looked for.
const FILL: u8 = 0xFF;
const FILL_HEADER: u16 = 0xFFFF;

/// What is said of a packet before its bytes.
#[derive(Clone, Copy)]
struct Label {
    ty: u8,
    error: bool,
    length: usize,
}

impl Label {
    /// Refused unless the type is 1 (IPv4) or 2 (IPv6), and the length 1 to 4,095.
    fn new(ty: u8, error: bool, length: usize) -> Result<Label, u8> {
        if matches!(ty, 1 | 2) && (1..=PACKET_MOST).contains(&length) {
            Ok(Label { ty, error, length })
        } else {
            Err(refusal::IP_PACKET)
        }
    }

    /// Of the four bytes in a queue. Any error byte but 0 is an error.
    fn of_queue([ty, error, high, low]: [u8; LABEL_BYTES]) -> Result<Label, u8> {
        Label::new(ty, error != 0, number(high, low))
    }

    /// Of a header in a word: type 2 bits, error 1, length 12, and RFU at bit 15 (02), which is not looked at.
    fn of_header(header: u16) -> Result<Label, u8> {
        let error = header >> 13 & 1 != 0;
        Label::new(
            (header >> 14) as u8,
            error,
            usize::from(header >> 1 & 0xFFF),
        )
    }

    fn queue_bytes(self) -> [u8; LABEL_BYTES] {
        let [high, low] = (self.length as u16).to_be_bytes();
        [self.ty, u8::from(self.error), high, low]
    }

    fn header(self) -> [u8; PACKET_HEADER_BYTES] {
        let header =
            u16::from(self.ty) << 14 | u16::from(self.error) << 13 | (self.length as u16) << 1;
        header.to_be_bytes()
    }
}

fn number(high: u8, low: u8) -> usize {
    usize::from(u16::from_be_bytes([high, low]))
}

/// The First_Header_Address of a word that begins with that many bytes of a packet from before.
fn announced(to_come: usize) -> u16 {
    match to_come {
        0..=LAST_ADDRESS => to_come as u16,
        _ => NO_HEADER,
    }
}

/// A word, and how far the queue has come.
pub struct Written {
    pub word: Vec<u8>,
    pub progress: [u8; PROGRESS_BYTES],
}

/// The next word of a queue of whose first packet earlier words carry `sent` bytes, its header counted. Refusals in the
/// order 19, 1.
pub fn write(
    id: u8,
    sent: u32,
    queue: &[u8],
    word_len: usize,
    progress_len: usize,
) -> Result<Written, u8> {
    let packets = walk(queue)?;
    let first = packets.first().map_or(0, |(label, _)| label.length);
    let mut sent = sent as usize;
    let in_place = sent == 0 || (PACKET_HEADER_BYTES..first + PACKET_HEADER_BYTES).contains(&sent);
    if !in_place || word_len != WORD_BYTES || progress_len != PROGRESS_BYTES {
        return Err(refusal::LENGTH);
    }
    let to_come = match sent {
        0 => 0,
        _ => first + PACKET_HEADER_BYTES - sent,
    };
    let mut payload = Vec::with_capacity(PAYLOAD_BYTES);
    let mut done = 0;
    for (label, data) in packets {
        if sent == 0 && payload.len() > LAST_ADDRESS {
            break;
        }
        let framed = [&label.header(), data].concat();
        let waits = &framed[sent..];
        let fits = waits.len().min(PAYLOAD_BYTES - payload.len());
        payload.extend_from_slice(&waits[..fits]);
        if fits < waits.len() {
            sent += fits;
            break;
        }
        done += LABEL_BYTES + data.len();
        sent = 0;
    }
    payload.resize(PAYLOAD_BYTES, FILL);
    let mut progress = [0; PROGRESS_BYTES];
    progress[..4].copy_from_slice(&(done as u32).to_be_bytes());
    progress[4..].copy_from_slice(&(sent as u32).to_be_bytes());
    Ok(Written {
        word: payload::ip_word(id, &payload, announced(to_come)),
        progress,
    })
}

/// The packets of a queue: 19 for one that is none, be its bytes there or not; then 1 where the queue ends inside a
/// packet or before it has four bytes of one.
fn walk(queue: &[u8]) -> Result<Vec<(Label, &[u8])>, u8> {
    let mut packets = Vec::new();
    let mut rest = queue;
    while let [ty, error, high, low, behind @ ..] = rest {
        let label = Label::of_queue([*ty, *error, *high, *low])?;
        let data = behind.get(..label.length).ok_or(refusal::LENGTH)?;
        packets.push((label, data));
        rest = &behind[label.length..];
    }
    match rest {
        [] => Ok(packets),
        _ => Err(refusal::LENGTH),
    }
}

/// A packet of which bytes are still to come.
struct Open {
    label: Label,
    bytes: Vec<u8>,
}

impl Open {
    /// None where the memory is no open packet's, whatever else it holds. What stands behind the bytes so far is not
    /// looked at.
    fn of(memory: &[u8]) -> Option<Open> {
        let (length, so_far) = (number(memory[4], memory[5]), number(memory[6], memory[7]));
        let is_open = memory[0] == 1 && memory[2] <= 1 && memory[3] == 0 && so_far < length;
        let label = Label::new(memory[1], memory[2] == 1, length);
        let label = label.ok().filter(|_| is_open)?;
        let bytes = memory[8..8 + so_far].to_vec();
        Some(Open { label, bytes })
    }

    /// 1, the packet's label with a zero after its error, how many bytes are there, the bytes, zeros.
    fn memory(&self) -> Vec<u8> {
        let [ty, error, high, low] = self.label.queue_bytes();
        let mut memory = vec![1, ty, error, 0, high, low];
        memory.extend((self.bytes.len() as u16).to_be_bytes());
        memory.extend(&self.bytes);
        memory.resize(OPEN_BYTES, 0);
        memory
    }

    fn to_come(&self) -> usize {
        self.label.length - self.bytes.len()
    }
}

/// What is read of a word.
pub struct Reading {
    pub header: [u8; HEADER_BYTES],
    /// The packets that are handed out, as a queue has them.
    pub packets: Vec<u8>,
    /// What the open packet's memory becomes. A word of another type than 3 leaves it as it was.
    pub open: Option<Vec<u8>>,
}

/// Reads a word of any type. Refusals in the order 1 2 5 16 15 18 19.
pub fn read(word: &[u8], open: &[u8], room: usize, header_len: usize) -> Result<Reading, u8> {
    if open.len() != OPEN_BYTES || room < ROOM || header_len != HEADER_BYTES {
        return Err(refusal::LENGTH);
    }
    let header = payload::read(word)?;
    let mut report = header.report();
    if u32::from(header.ty) != IP {
        return Ok(Reading {
            header: report,
            packets: Vec::new(),
            open: None,
        });
    }
    let mut packets = Vec::new();
    let payload = &word[..PAYLOAD_BYTES];
    let left = unpack(payload, header.address, Open::of(open), &mut packets)?;
    report[10..12].copy_from_slice(&(packets.len() as u16).to_be_bytes());
    Ok(Reading {
        header: report,
        packets,
        open: Some(left.map_or(vec![0; OPEN_BYTES], |open| open.memory())),
    })
}

/// Hands out the packets that end in a payload, and gives the one that is then open.
fn unpack(
    payload: &[u8],
    address: u16,
    open: Option<Open>,
    packets: &mut Vec<u8>,
) -> Result<Option<Open>, u8> {
    let mut rest = match open {
        Some(mut open) => {
            let to_come = open.to_come();
            if address != announced(to_come) {
                return Err(refusal::IP_PACKET);
            }
            let (bytes, rest) = payload.split_at(to_come.min(PAYLOAD_BYTES));
            open.bytes.extend(bytes);
            if open.to_come() > 0 {
                return Ok(Some(open));
            }
            hand_out(open.label, &open.bytes, packets);
            rest
        }
        // what comes before an announced header is of a packet whose beginning is not there
        None if address == NO_HEADER => &[],
        None => &payload[usize::from(address)..],
    };
    while let [high, low, behind @ ..] = rest {
        let header = u16::from_be_bytes([*high, *low]);
        if header == FILL_HEADER {
            break;
        }
        let label = Label::of_header(header)?;
        if behind.len() < label.length {
            let bytes = behind.to_vec();
            return Ok(Some(Open { label, bytes }));
        }
        let (data, after) = behind.split_at(label.length);
        hand_out(label, data, packets);
        rest = after;
    }
    // a header of ones and all behind it; or a last byte, in which no header fits; or nothing
    match rest.iter().all(|byte| *byte == FILL) {
        true => Ok(None),
        false => Err(refusal::IP_PACKET),
    }
}

fn hand_out(label: Label, data: &[u8], packets: &mut Vec<u8>) {
    packets.extend(label.queue_bytes());
    packets.extend_from_slice(data);
}

/// What the open packet's memory becomes where a word was lost.
pub fn lost(open_len: usize) -> Result<Vec<u8>, u8> {
    match open_len {
        OPEN_BYTES => Ok(vec![0; OPEN_BYTES]),
        _ => Err(refusal::LENGTH),
    }
}
