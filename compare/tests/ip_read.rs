//! opl_ip_read and opl_ip_lost against the second implementation: what comes of a word and of the open packet, each reason
//! for a refusal by itself, and that a refusal leaves everything as it was. That the lent word is left alone, and what is
//! past the packets, is looked at with every call.

mod ip_reading;

use compare::inputs::{self, plain_packet as packet, Receiving, NOT_OPEN, STRAYS};
use compare::opl;
use compare::rng::Rng;
use compare::second::ip::ROOM;
use ip_reading::{both_lost, both_read, both_read_into, Read, NONE};

/// A word of these bytes, filled up with FF, that announces this address. Its parity, RFU and id are anything.
fn word_of(rng: &mut Rng, payload: &[u8], address: u16) -> Vec<u8> {
    let mut word = rng.bytes(1_536);
    word[..1_504].fill(0xFF);
    word[..payload.len()].copy_from_slice(payload);
    let (rfu, id) = (rng.field(20), rng.field(8));
    inputs::set_ip_header(&mut word, rfu, address, id);
    word
}

/// The number with which both readers refuse a word, read with this open packet.
#[track_caller]
fn refusal_of(rng: &mut Rng, word: &[u8], open: &[u8]) -> Option<u8> {
    both_read(rng, word, &mut open.to_vec()).err()
}

/// The header that opl_payload_read tells of a word that is accepted.
#[track_caller]
fn told(word: &[u8]) -> [u8; 16] {
    let mut header = [0xA5; 16];
    assert_eq!(opl::payload_read(word, &mut header), 0);
    header
}

/// The packets of a word that is accepted, and the open packet that it leaves.
#[track_caller]
fn taken(rng: &mut Rng, word: &[u8], open: &[u8]) -> (Vec<u8>, Vec<u8>) {
    let mut open = open.to_vec();
    let Read { header, packets } = both_read(rng, word, &mut open).expect("it is accepted");
    assert_eq!(header[10..12], (packets.len() as u16).to_be_bytes());
    assert_eq!(header[12..], [0; 4]);
    (packets, open)
}

#[test]
fn words_of_all_kinds() {
    let mut rng = Rng::new(390);
    for _ in 0..2_000 {
        let Receiving { word, open } = inputs::receiving(&mut rng);
        taken(&mut rng, &word, &open);
    }
    for _ in 0..2_000 {
        let Receiving { word, mut open } = inputs::mutated_receiving(&mut rng);
        let _ = both_read(&mut rng, &word, &mut open);
    }
}

#[test]
fn each_reason_by_itself() {
    let mut rng = Rng::new(391);
    for why in STRAYS {
        for _ in 0..300 {
            let Receiving { word, open } = inputs::stray(&mut rng, why);
            assert_eq!(refusal_of(&mut rng, &word, &open), Some(19), "{why:?}");
        }
    }
}

/// Packet headers of 16 bits, those around FF FF among them, at the beginning of a word that is else of FF, and at its end.
#[test]
fn every_packet_header() {
    let mut rng = Rng::new(392);
    for header in (0..=u16::MAX).step_by(37).chain(0xFFF0..=0xFFFF) {
        let (ty, length) = (header >> 14, header >> 1 & 0xFFF);
        let sound = matches!(ty, 1 | 2) && length > 0;
        for at in [0, 1_502] {
            let payload = [&vec![7; at][..], &header.to_be_bytes()].concat();
            let word = word_of(&mut rng, &payload, at as u16);
            let mut open = NONE.to_vec();
            let found = both_read(&mut rng, &word, &mut open);
            let due = (!sound && header != 0xFFFF).then_some(19);
            assert_eq!(found.as_ref().err().copied(), due, "{header:04X}");
            // the packet is handed out whole with all its bytes, or is left open
            if let (Ok(read), true) = (found, sound) {
                let error = u8::from(header >> 13 & 1 != 0);
                let room = 1_502 - at;
                let (bytes, open_due) = match usize::from(length) <= room {
                    true => (packet(ty as u8, error, length, 0xFF), NONE.to_vec()),
                    false => (
                        vec![],
                        inputs::memory(ty as u8, error, length.into(), &vec![0xFF; room]),
                    ),
                };
                assert!(read.packets == bytes && open == open_due, "{header:04X}");
            }
        }
    }
}

/// All of the 4,096 addresses with none open: behind an announced header is padding, or what is none.
#[test]
fn every_address() {
    let mut rng = Rng::new(393);
    for address in 0..=0xFFF {
        let unfit = (1_503..0xFFF).contains(&address).then_some(18);
        let sound = word_of(&mut rng, &[], address);
        assert_eq!(refusal_of(&mut rng, &sound, &NONE), unfit, "{address}");
        let stray = word_of(&mut rng, &[0; 1_504], address);
        let due = unfit.or((address <= 1_502).then_some(19));
        assert_eq!(refusal_of(&mut rng, &stray, &NONE), due, "{address}");
    }
}

/// With each number of bytes to come, the address that is due, and others.
#[test]
fn every_number_of_bytes_to_come() {
    let mut rng = Rng::new(394);
    for to_come in 1..=4_095_u16 {
        let open = inputs::open_packet(&mut rng, to_come.into());
        let due = if to_come <= 1_502 { to_come } else { 0xFFF };
        let word = word_of(&mut rng, &[], due);
        let (packets, left) = taken(&mut rng, &word, &open);
        let ends = to_come <= 1_504;
        assert_eq!(packets.is_empty(), !ends, "{to_come}");
        assert_eq!(left == NONE, ends, "{to_come}");
        let near = [to_come - 1, to_come + 1][rng.below(2)];
        let far = [0, to_come % 1_504, 1_502, 0xFFF][rng.below(4)];
        for address in [near, far].into_iter().filter(|address| *address != due) {
            let number = if (1_503..0xFFF).contains(&address) {
                18
            } else {
                19
            };
            let word = word_of(&mut rng, &[], address);
            let found = refusal_of(&mut rng, &word, &open);
            assert_eq!(
                found,
                Some(number),
                "{to_come} to come, {address} announced"
            );
        }
    }
}

/// The packet that lacks 1,503 bytes leaves one byte, in which no header fits; one that lacks 1,504 leaves none.
#[test]
fn every_last_byte() {
    let mut rng = Rng::new(395);
    for last in 0..=255 {
        let filled = [&[7; 1_503][..], &[last]].concat();
        let word = word_of(&mut rng, &filled, 0xFFF);
        for (to_come, looked_at) in [(1_503, true), (1_504, false), (1_505, false)] {
            let open = inputs::open_packet(&mut rng, to_come);
            let due = (looked_at && last != 0xFF).then_some(19);
            assert_eq!(refusal_of(&mut rng, &word, &open), due, "{to_come}, {last}");
        }
        // a packet in the word that ends at byte 1,502, one that ends at byte 1,503
        for (length, looked_at) in [(1_501_u16, true), (1_502, false)] {
            let header = (0x4000 | length << 1).to_be_bytes();
            let payload = [&header[..], &[7; 1_501], &[last]].concat();
            let word = word_of(&mut rng, &payload, 0);
            let due = (looked_at && last != 0xFF).then_some(19);
            assert_eq!(refusal_of(&mut rng, &word, &NONE), due, "{length}, {last}");
        }
    }
}

/// A stray byte at each place of the padding, which begins at the beginning, in the middle, and with the last header.
#[test]
fn every_byte_of_the_padding() {
    let mut rng = Rng::new(396);
    for begins in [0, 700, 1_500] {
        for at in begins..1_504 {
            let mut payload = vec![0xFF; 1_504];
            payload[..begins].fill(7);
            payload[at] ^= 1 << rng.below(8);
            let word = word_of(&mut rng, &payload, begins as u16);
            let found = refusal_of(&mut rng, &word, &NONE);
            // as the first byte it may make a packet's header of the padding
            let header = u16::from_be_bytes([payload[begins], payload[begins + 1]]);
            let packet = matches!(header >> 14, 1 | 2);
            assert_eq!(found, (!packet).then_some(19), "byte {at} from {begins}");
        }
    }
}

/// A fault that stands behind packets which would be handed out: nothing is, and the open packet stays.
#[test]
fn a_fault_behind_whole_packets() {
    let mut rng = Rng::new(397);
    let open = inputs::memory(2, 1, 4_095, &[8; 4_094]);
    for count in 0..=500 {
        let packets = [0x40, 0x02, 9].repeat(count);
        let payload = [&[8][..], &packets, &[0x40, 0x00]].concat();
        let word = word_of(&mut rng, &payload, 1);
        let found = refusal_of(&mut rng, &word, &open);
        // the last of them leaves two bytes, and so do those before it
        assert_eq!(found, Some(19), "{count} packets");
    }
}

/// The bound is reached, and what is past it stays: one byte of the longest packet, and 501 packets of one byte.
#[test]
fn the_most_that_a_word_hands_out() {
    let mut rng = Rng::new(398);
    let open = inputs::memory(2, 0, 4_095, &[7; 4_094]);
    let payload = [&[7][..], &[0x40, 0x02, 8].repeat(501)].concat();
    let word = word_of(&mut rng, &payload, 1);
    let (packets, left) = taken(&mut rng, &word, &open);
    assert_eq!((packets.len(), ROOM), (6_604, 6_604));
    assert!(packets == [packet(2, 0, 4_095, 7), packet(1, 0, 1, 8).repeat(501)].concat());
    assert!(left == NONE);
    for room in [0, 1, 4_099, 6_602, 6_603] {
        let found = both_read_into(&mut rng, &word, &mut open.clone(), [room, 16]);
        assert_eq!(found, Err(1), "room of {room}");
    }
    for room in [6_604, 6_605, 7_000, 65_536 + 6_603] {
        let found = both_read_into(&mut rng, &word, &mut open.clone(), [room, 16]);
        assert_eq!(found.map(|read| read.packets.len()), Ok(6_604));
    }
}

/// Each condition of an open packet broken by itself: it reads as none open, and after the word the memory has one of its
/// two forms.
#[test]
fn memory_that_is_no_open_packets() {
    let mut rng = Rng::new(399);
    for how in NOT_OPEN {
        for _ in 0..300 {
            let memory = inputs::not_open(&mut rng, how);
            let Receiving { word, .. } = inputs::receiving(&mut rng);
            let mut none = NONE.to_vec();
            let due = both_read(&mut rng, &word, &mut none);
            let mut open = memory.clone();
            let found = both_read(&mut rng, &word, &mut open);
            assert_eq!(found, due, "{how:?}");
            match found {
                Ok(_) => assert!(open == none, "{how:?}"),
                Err(_) => assert!(open == memory, "{how:?}"),
            }
        }
    }
}

/// What stands behind the bytes of an open packet plays no part, and is zeros afterwards.
#[test]
fn behind_the_open_packets_bytes() {
    let mut rng = Rng::new(400);
    for _ in 0..300 {
        let Receiving { word, open } = inputs::receiving(&mut rng);
        let so_far = usize::from(u16::from_be_bytes([open[6], open[7]]));
        let mut other = open.clone();
        let behind = (8 + so_far).min(other.len());
        for byte in &mut other[behind..] {
            *byte = rng.byte();
        }
        let due = taken(&mut rng, &word, &open);
        assert!(taken(&mut rng, &word, &other) == due);
    }
}

/// Words of types 0, 1 and 2 have the header that opl_payload_read tells, and change nothing else, whatever the memory holds.
#[test]
fn words_of_other_types_come_in_between() {
    let mut rng = Rng::new(401);
    for _ in 0..100 {
        for ty in 0..3 {
            let word = inputs::payload_word_of(&mut rng, ty);
            let open = match rng.flag() {
                true => rng.bytes(4_104),
                false => inputs::receiving(&mut rng).open,
            };
            let mut left = open.clone();
            let read = both_read(&mut rng, &word, &mut left).expect("it is accepted");
            assert_eq!(read.header, told(&word));
            assert!(read.packets.is_empty() && left == open);
        }
    }
}

/// The header of type 3 is that of opl_payload_read too, but for how much was handed out.
#[test]
fn the_header_of_a_stream() {
    let mut rng = Rng::new(402);
    for _ in 0..500 {
        let Receiving { word, mut open } = inputs::receiving(&mut rng);
        let read = both_read(&mut rng, &word, &mut open).expect("it is accepted");
        let mut header = told(&word);
        assert_eq!(header[10..12], [0, 0]);
        header[10..12].copy_from_slice(&(read.packets.len() as u16).to_be_bytes());
        assert_eq!(read.header, header);
    }
}

/// Parts that do not hold: it is said, and the packets come out all the same, as they came.
#[test]
fn parity_decides_nothing() {
    let mut rng = Rng::new(403);
    let data = rng.bytes(1_490);
    let queue = [&[1, 0, 0x05, 0xD2], &data[..]].concat();
    for holding in 0..16 {
        for _ in 0..10 {
            let mut word = rng.bytes(1_536);
            assert_eq!(opl::ip_write(9, 0, &queue, &mut word, &mut [0; 8]), 0);
            let mut due = queue.clone();
            for part in (0..4).filter(|part| holding >> part & 1 == 0) {
                let at = 376 * part + rng.range(2, 300);
                let change = 1 << rng.below(8);
                word[at] ^= change;
                due[at + 2] ^= change;
            }
            let mut open = NONE.to_vec();
            let read = both_read(&mut rng, &word, &mut open).expect("it is accepted");
            assert_eq!(read.header[7], holding);
            assert!(read.packets == due && open == NONE);
        }
    }
}

/// Each bit of the payload of a word changed, and each bit of the form in which its packet is open.
#[test]
fn every_changed_bit() {
    let mut rng = Rng::new(404);
    let open = inputs::memory(1, 0, 300, &[7; 280]);
    let packets = [0x80, 0x0E, 1, 2, 3, 4, 5, 6, 7].repeat(3);
    let payload = [&[9; 20][..], &packets, &[0x40, 0x50], &[6; 40]].concat();
    let word = word_of(&mut rng, &payload, 20);
    for index in (0..8 * 100).chain(8 * 1_490..8 * 1_504) {
        let mut damaged = word.clone();
        inputs::flip_bit(&mut damaged, index);
        let _ = both_read(&mut rng, &damaged, &mut open.clone());
    }
    for index in 0..64 {
        let mut damaged = open.clone();
        inputs::flip_bit(&mut damaged, index);
        let _ = both_read(&mut rng, &word, &mut damaged);
    }
}

#[test]
fn what_the_payload_reader_refuses() {
    let mut rng = Rng::new(405);
    for number in inputs::PAYLOAD_REFUSALS {
        for _ in 0..100 {
            let refused = inputs::refused_payload_word(&mut rng, number);
            let word = refused.expect("the reader gives it");
            let open = inputs::receiving(&mut rng).open;
            assert_eq!(refusal_of(&mut rng, &word, &open), Some(number));
        }
    }
}

/// Of each type, as no type makes up for a length that is wrong.
#[test]
fn lengths_of_what_is_lent() {
    let mut rng = Rng::new(406);
    let right = [1_536, 4_104, 6_604, 16];
    let lengths: [&[usize]; 4] = [
        &[0, 1, 96, 1_504, 1_535, 1_536, 1_537, 65_536 + 1_536],
        &[0, 1, 8, 4_095, 4_103, 4_104, 4_105, 6_604, 65_536 + 4_104],
        &[0, 1, 1_504, 4_104, 6_603, 6_604, 6_605, 65_536],
        &[0, 1, 8, 15, 16, 17, 256 + 16, 65_536 + 16],
    ];
    for ty in 0..4 {
        for (which, tried) in lengths.iter().enumerate() {
            for length in *tried {
                let mut lent = right;
                lent[which] = *length;
                let mut word = inputs::payload_word_of(&mut rng, ty);
                if ty == 3 {
                    word = word_of(&mut rng, &[], 0);
                }
                word.resize(lent[0], 0);
                let mut open = vec![0; lent[1]];
                let found = both_read_into(&mut rng, &word, &mut open, [lent[2], lent[3]]);
                let fits = *length == right[which] || (which == 2 && *length > right[2]);
                assert_eq!(found.err(), (!fits).then_some(1), "type {ty}, {lent:?}");
            }
        }
    }
}

/// 1 2 5 16 15 18 19, each on top of the next, with a packet open and with none.
#[test]
fn order_of_refusals() {
    let mut rng = Rng::new(407);
    for open in [NONE.to_vec(), inputs::memory(1, 0, 900, &[7; 899])] {
        let mut word = word_of(&mut rng, &[0; 1_504], 2);
        assert_eq!(refusal_of(&mut rng, &word, &open), Some(19));
        inputs::set_ip_header(&mut word, 0, 1_503, 7);
        assert_eq!(refusal_of(&mut rng, &word, &open), Some(18));
        inputs::set_payload_header(&mut word, 0, 7, 4, 0);
        assert_eq!(refusal_of(&mut rng, &word, &open), Some(15));
        for ty in 3..8 {
            inputs::set_payload_header(&mut word, 0, 7, ty, 1);
            assert_eq!(refusal_of(&mut rng, &word, &open), Some(16));
        }
        word[1_534] ^= 1;
        assert_eq!(refusal_of(&mut rng, &word, &open), Some(5));
        word[1_535] ^= 1;
        assert_eq!(refusal_of(&mut rng, &word, &open), Some(2));
        for lengths in [[6_603, 16], [6_604, 15], [0, 0]] {
            let found = both_read_into(&mut rng, &word, &mut open.clone(), lengths);
            assert_eq!(found, Err(1));
        }
        assert_eq!(refusal_of(&mut rng, &word, &open[1..]), Some(1));
        word.push(0);
        assert_eq!(refusal_of(&mut rng, &word, &open), Some(1));
    }
}

#[test]
fn a_lost_word_drops_the_open_packet() {
    let mut rng = Rng::new(408);
    for _ in 0..100 {
        let mut open = match rng.flag() {
            true => rng.bytes(4_104),
            false => inputs::receiving(&mut rng).open,
        };
        assert_eq!(both_lost(&mut open), Ok(()));
        assert!(open == NONE);
    }
    for length in [
        0,
        1,
        8,
        16,
        4_095,
        4_096,
        4_103,
        4_105,
        6_604,
        65_536 + 4_104,
    ] {
        let mut open = rng.bytes(length);
        assert_eq!(both_lost(&mut open), Err(1), "{length}");
    }
}
