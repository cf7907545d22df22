//! Words of type 3, with the open packet that they are read with.

use super::ip_queues::{first_length, ip_data, packet_type, sending, Sending, FILL};
use super::payload::{address, set_ip_header};
use super::transport::{distinct_places, flip_places};
use super::{flip, mutated_payload_word, payload_word_of};
use crate::rng::Rng;
use crate::second::ip::{self, LABEL_BYTES, LAST_ADDRESS, OPEN_BYTES, PACKET_MOST, PAYLOAD_BYTES};
use crate::second::ip::{PACKET_HEADER_BYTES, PROGRESS_BYTES};
use crate::second::parity::{CODEWORD_BITS, MESSAGE_BITS};
use crate::second::payload::{self, NO_HEADER, PARTS, TRANSPORT, TS_PACKETS, WORD_BYTES};

/// A word and the memory of the open packet that it is read with.
#[derive(Clone, Debug)]
pub struct Receiving {
    pub word: Vec<u8>,
    pub open: Vec<u8>,
}

/// A word of type 3 of this payload, with its parity, sound or damaged; with any RFU and stream id.
pub fn ip_word(rng: &mut Rng, payload: &[u8], address: u16) -> Vec<u8> {
    // the parity is that of a transport word with the same bytes
    let null_packet = [0; payload::TS_PACKET_BYTES];
    let word = payload::write(TRANSPORT, 0, TS_PACKETS, payload, &null_packet, WORD_BYTES);
    let mut word = word.expect("the lengths are right");
    for part in 0..PARTS {
        if rng.chance(1, 8) {
            let mut places = distinct_places(rng, 100);
            places.retain(|place| *place >= MESSAGE_BITS);
            places.push(CODEWORD_BITS - 1);
            flip_places(&mut word, part, &places);
        }
    }
    let [rfu, id] = [20, 8].map(|width| rng.field(width));
    set_ip_header(&mut word, rfu, address, id);
    word
}

/// The memory of an open packet, of which this is there; behind its bytes zeros.
pub fn memory(ty: u8, error: u8, length: usize, bytes: &[u8]) -> Vec<u8> {
    let [length, so_far] = [length, bytes.len()].map(|number| (number as u16).to_be_bytes());
    let mut memory = [&[1, ty, error, 0], &length[..], &so_far, bytes].concat();
    memory.resize(OPEN_BYTES, 0);
    memory
}

/// The memory of an open packet with that many bytes to come. Now and then what stands behind its bytes is no zeros.
pub fn open_packet(rng: &mut Rng, to_come: usize) -> Vec<u8> {
    let length = [to_come, PACKET_MOST, rng.range(to_come, PACKET_MOST)][rng.below(3)];
    let bytes = ip_data(rng, length - to_come);
    let mut open = memory(packet_type(rng), rng.below(2) as u8, length, &bytes);
    if rng.chance(1, 4) {
        for byte in &mut open[8 + bytes.len()..] {
            *byte = rng.byte();
        }
    }
    open
}

/// Each way in which bytes are no open packet's, all else being as one has it.
#[derive(Clone, Copy, Debug)]
pub enum NotOpen {
    /// The first byte is not 1.
    Mark,
    /// The type is not 1 or 2.
    Type,
    /// The error is not 0 or 1.
    Error,
    /// The byte behind it is not 0.
    Zero,
    /// The length is 0, and so no fewer bytes can be there.
    NoLength,
    /// The length is above 4,095.
    LongLength,
    /// As many bytes are there as the length says.
    AllThere,
    /// More bytes are there than the length says.
    MoreThere,
}

pub const NOT_OPEN: [NotOpen; 8] = [
    NotOpen::Mark,
    NotOpen::Type,
    NotOpen::Error,
    NotOpen::Zero,
    NotOpen::NoLength,
    NotOpen::LongLength,
    NotOpen::AllThere,
    NotOpen::MoreThere,
];

/// Bytes that are so no open packet's.
pub fn not_open(rng: &mut Rng, how: NotOpen) -> Vec<u8> {
    let to_come = rng.range(1, PACKET_MOST);
    let mut open = open_packet(rng, to_come);
    let numbers = |open: &[u8]| [4, 6].map(|at| u16::from_be_bytes([open[at], open[at + 1]]));
    let [mut length, mut so_far] = numbers(&open);
    match how {
        NotOpen::Mark => open[0] = [0, rng.range(2, 255) as u8][rng.below(2)],
        NotOpen::Type => open[1] = [0, 3, rng.range(3, 255) as u8][rng.below(3)],
        NotOpen::Error => open[2] = rng.range(2, 255) as u8,
        NotOpen::Zero => open[3] = rng.range(1, 255) as u8,
        NotOpen::NoLength => (length, so_far) = (0, 0),
        NotOpen::LongLength => length = [4_096, rng.range(4_096, 65_535) as u16][rng.below(2)],
        NotOpen::AllThere => so_far = length,
        NotOpen::MoreThere => {
            so_far = [
                length + 1,
                rng.range(usize::from(length) + 1, 65_535) as u16,
            ][rng.below(2)];
        }
    }
    open[4..6].copy_from_slice(&length.to_be_bytes());
    open[6..8].copy_from_slice(&so_far.to_be_bytes());
    open
}

/// Memory in which no packet is open: all zeros, or what reads as such.
pub fn none_open(rng: &mut Rng) -> Vec<u8> {
    match rng.flag() {
        true => vec![0; OPEN_BYTES],
        false => {
            let how = NOT_OPEN[rng.below(NOT_OPEN.len())];
            not_open(rng, how)
        }
    }
}

/// A payload in the making, with the address that it announces and the open packet that it goes with.
struct Begun {
    payload: Vec<u8>,
    address: u16,
    open: Vec<u8>,
}

impl Begun {
    /// A first header stands at this byte at the latest. Before it is the end of an open packet, or what is passed over
    /// where none is open.
    fn before_header(rng: &mut Rng, latest: usize) -> Begun {
        let length = [0, latest, rng.range(0, latest)][rng.below(3)];
        let open = match length {
            1.. if rng.flag() => open_packet(rng, length),
            _ => none_open(rng),
        };
        Begun {
            payload: ip_data(rng, length),
            address: length as u16,
            open,
        }
    }

    /// No header stands in it: all of it belongs to an open packet, but for the last byte where the packet lacks just
    /// so much; or all of it is passed over.
    fn without_header(rng: &mut Rng) -> Begun {
        let mut payload = ip_data(rng, PAYLOAD_BYTES);
        let open = match rng.below(3) {
            0 => none_open(rng),
            1 => {
                payload[PAYLOAD_BYTES - 1] = FILL;
                open_packet(rng, PAYLOAD_BYTES - 1)
            }
            _ => {
                let more = [0, 1, 2, rng.below(PACKET_MOST - PAYLOAD_BYTES)][rng.below(4)];
                open_packet(rng, PAYLOAD_BYTES + more)
            }
        };
        Begun {
            payload,
            address: NO_HEADER,
            open,
        }
    }

    /// Adds some packets that end at this byte or before, many of one byte among them.
    fn add_packets(&mut self, rng: &mut Rng, latest: usize) {
        let (count, longest) =
            [(0, 1), (rng.range(1, 4), latest), (600, 1), (600, 9)][rng.below(4)];
        for _ in 0..count {
            let room = latest - self.payload.len();
            if room <= PACKET_HEADER_BYTES {
                break;
            }
            let length = rng.range(1, longest.min(room - PACKET_HEADER_BYTES).min(PACKET_MOST));
            self.add_packet(rng, length, length);
        }
    }

    /// Adds a header and so many bytes behind it. RFU is anything.
    fn add_packet(&mut self, rng: &mut Rng, length: usize, there: usize) {
        let ty = u16::from(packet_type(rng));
        let header = ty << 14 | (length as u16) << 1 | (rng.next_u64() as u16) & 0x2001;
        self.payload.extend(header.to_be_bytes());
        self.payload.extend(ip_data(rng, there));
    }

    /// Adds a packet that ends at this byte, if there is room for one.
    fn fill_to(&mut self, rng: &mut Rng, end: usize) {
        let room = end.saturating_sub(self.payload.len());
        if room > PACKET_HEADER_BYTES {
            let length = room - PACKET_HEADER_BYTES;
            self.add_packet(rng, length, length);
        }
    }

    /// Ends it: with a packet that goes on in the next word, with one that ends in the last byte or in the one before,
    /// or with nothing more. The rest is filled up.
    fn end(&mut self, rng: &mut Rng) {
        let room = PAYLOAD_BYTES - self.payload.len();
        match rng.below(4) {
            0 | 1 if room >= PACKET_HEADER_BYTES => {
                let there = room - PACKET_HEADER_BYTES;
                let length = rng.range(there + 1, PACKET_MOST);
                self.add_packet(rng, length, there);
            }
            2 => {
                let end = PAYLOAD_BYTES - rng.below(2);
                self.fill_to(rng, end);
            }
            _ => {}
        }
        self.payload.resize(PAYLOAD_BYTES, FILL);
    }

    fn receiving(self, rng: &mut Rng) -> Receiving {
        Receiving {
            word: ip_word(rng, &self.payload, self.address),
            open: self.open,
        }
    }
}

/// A word of type 3 that is accepted: made up, in step with an open packet or with none open, or as the writer writes it.
pub fn receiving(rng: &mut Rng) -> Receiving {
    let mut begun = match rng.below(6) {
        0 => return written(rng),
        1 => return Begun::without_header(rng).receiving(rng),
        _ => Begun::before_header(rng, LAST_ADDRESS),
    };
    begun.add_packets(rng, PAYLOAD_BYTES);
    begun.end(rng);
    begun.receiving(rng)
}

/// A word as the writer writes it, read with what earlier words left, or after a loss.
fn written(rng: &mut Rng) -> Receiving {
    let Sending { sent, queue } = sending(rng);
    let id = rng.byte();
    let written = ip::write(id, sent, &queue, WORD_BYTES, PROGRESS_BYTES).expect("it is accepted");
    let open = match sent {
        1.. if rng.chance(3, 4) => {
            let there = &queue[LABEL_BYTES..][..sent as usize - PACKET_HEADER_BYTES];
            let length = first_length(&queue).expect("a packet is begun");
            memory(queue[0], u8::from(queue[1] != 0), length, there)
        }
        _ => none_open(rng),
    };
    Receiving {
        word: written.word,
        open,
    }
}

/// Each reason for which a word of type 3 is none of the stream's (02, 2026-05: refusal 19), all else being sound.
#[derive(Clone, Copy, Debug)]
pub enum Stray {
    /// A packet of type 0.
    Type0,
    /// Type 3 in a header other than FF FF.
    Type3,
    /// A packet of length 0.
    NoLength,
    /// A byte behind a header FF FF that is not FF.
    Padding,
    /// Byte 1,503 not FF where a header would begin there.
    LastByte,
    /// An announced address that the open packet contradicts.
    Address,
}

pub const STRAYS: [Stray; 6] = [
    Stray::Type0,
    Stray::Type3,
    Stray::NoLength,
    Stray::Padding,
    Stray::LastByte,
    Stray::Address,
];

/// A word that is refused for this reason alone.
pub fn stray(rng: &mut Rng, stray: Stray) -> Receiving {
    match stray {
        Stray::Address => return contradicted(rng),
        Stray::LastByte => return with_last_byte(rng),
        _ => {}
    }
    // behind a header FF FF there has to be a byte
    let latest = match stray {
        Stray::Padding => LAST_ADDRESS - 1,
        _ => LAST_ADDRESS,
    };
    let mut begun = Begun::before_header(rng, latest);
    begun.add_packets(rng, latest);
    let header = match stray {
        Stray::Type0 => rng.field(14) as u16,
        // all but the last bit of FF FF is set now and then
        Stray::Type3 => 0xC000 | [0x3FFE, rng.range(0, 0x3FFE) as u16][rng.below(2)],
        Stray::NoLength => u16::from(packet_type(rng)) << 14 | (rng.next_u64() as u16) & 0x2001,
        _ => 0xFFFF,
    };
    begun.payload.extend(header.to_be_bytes());
    let behind = begun.payload.len();
    begun.payload.resize(PAYLOAD_BYTES, FILL);
    if let Stray::Padding = stray {
        let last = PAYLOAD_BYTES - 1;
        let at = [behind, last, rng.range(behind, last)][rng.below(3)];
        begun.payload[at] ^= rng.range(1, 255) as u8;
    }
    begun.receiving(rng)
}

/// A word whose first 1,503 bytes are sound, with another last byte than FF.
fn with_last_byte(rng: &mut Rng) -> Receiving {
    let end = PAYLOAD_BYTES - 1;
    let mut begun = match rng.below(3) {
        0 => {
            let (payload, open) = (ip_data(rng, end), open_packet(rng, end));
            Begun {
                payload,
                address: NO_HEADER,
                open,
            }
        }
        _ => {
            // room for a packet of at least one byte
            let latest = end - PACKET_HEADER_BYTES - 1;
            let mut begun = Begun::before_header(rng, latest);
            begun.add_packets(rng, latest);
            begun.fill_to(rng, end);
            begun
        }
    };
    begun.payload.push(rng.below(usize::from(FILL)) as u8);
    begun.receiving(rng)
}

/// A sound word, but for an address that is not what the open packet says: close to it, another that is right for other
/// packets, any that is accepted.
fn contradicted(rng: &mut Rng) -> Receiving {
    let to_come = match rng.below(4) {
        0 => rng.range(1, 4),
        1 => rng.range(LAST_ADDRESS - 3, PAYLOAD_BYTES + 3),
        _ => rng.range(1, PACKET_MOST),
    };
    let due = match to_come {
        ..=LAST_ADDRESS => to_come as u16,
        _ => NO_HEADER,
    };
    let wrong = loop {
        let near = (due as usize + rng.below(3)).saturating_sub(1);
        let near = near.min(LAST_ADDRESS) as u16;
        let wrong = [near, (to_come % PAYLOAD_BYTES) as u16, address(rng)][rng.below(3)];
        if wrong != due && !payload::NO_ADDRESS.contains(&wrong) {
            break wrong;
        }
    };
    let mut begun = Begun {
        payload: ip_data(rng, to_come.min(PAYLOAD_BYTES)),
        address: wrong,
        open: open_packet(rng, to_come),
    };
    begun.end(rng);
    begun.receiving(rng)
}

/// A word that may be accepted or refused: bits of the packets or of the open packet flipped, any address, the open packet
/// of another word, a word of any type and header, any bytes as packets.
pub fn mutated_receiving(rng: &mut Rng) -> Receiving {
    let mut receiving = receiving(rng);
    match rng.below(7) {
        0 => flip(rng, &mut receiving.word, 0, 8 * PAYLOAD_BYTES),
        1 => flip(rng, &mut receiving.open, 0, 64),
        2 => {
            let [rfu, address, id] = [20, 12, 8].map(|width| rng.field(width));
            set_ip_header(&mut receiving.word, rfu, address as u16, id);
        }
        3 => receiving.open = self::receiving(rng).open,
        4 => receiving.word = mutated_payload_word(rng),
        5 => receiving.open = rng.bytes(OPEN_BYTES),
        _ => receiving.word = payload_word_of(rng, payload::IP),
    }
    receiving
}
