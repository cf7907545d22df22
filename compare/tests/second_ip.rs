//! The second implementation's IP streams against words that are written out here byte by byte, as clause 4.3.4 and 02
//! (2026-05) have them.

use compare::inputs::{self, plain_packet as packet};
use compare::rng::Rng;
use compare::second::bits::bits;
use compare::second::ip::{lost, read, write, Reading, Written};
use compare::second::payload::{self, report};

/// The numbers of the two refusals that IP streams bring, and of wrong lengths.
const ADDRESS: u8 = 18;
const PACKET: u8 = 19;
const LENGTH: u8 = 1;

/// Memory in which no packet is open.
const NONE: [u8; 4_104] = [0; 4_104];

/// These runs of bytes, one after the other, each of a value and so many times.
fn runs(runs: &[(u8, usize)]) -> Vec<u8> {
    let run = |&(byte, times): &(u8, usize)| std::iter::repeat(byte).take(times);
    runs.iter().flat_map(run).collect()
}

#[track_caller]
fn written(sent: u32, queue: &[u8]) -> Written {
    write(9, sent, queue, 1_536, 8).unwrap_or_else(|number| panic!("refused with {number}"))
}

/// The word of this payload, address and queue's progress.
#[track_caller]
fn is_written(sent: u32, queue: &[u8], payload: &[u8], address: u16, progress: [u32; 2]) {
    let Written {
        word,
        progress: found,
    } = written(sent, queue);
    assert_eq!(payload.len(), 1_504);
    assert!(word[..1_504] == *payload);
    assert_eq!(address_of(&word), address);
    let due: Vec<u8> = progress.into_iter().flat_map(u32::to_be_bytes).collect();
    assert_eq!(found[..], due);
}

/// First_Header_Address, 12 bits from bit 12,248 on.
fn address_of(word: &[u8]) -> u16 {
    u16::from(word[1_531]) << 4 | u16::from(word[1_532]) >> 4
}

#[track_caller]
fn reading(word: &[u8], open: &[u8]) -> Reading {
    read(word, open, 6_604, 16).unwrap_or_else(|number| panic!("refused with {number}"))
}

/// The packets of a word, and the memory that it leaves.
#[track_caller]
fn taken(word: &[u8], open: &[u8]) -> (Vec<u8>, Vec<u8>) {
    let Reading { packets, open, .. } = reading(word, open);
    (packets, open.expect("the word is of type 3"))
}

/// A word of this payload and address.
fn word_of(payload: &[u8], address: u16) -> Vec<u8> {
    let mut payload = payload.to_vec();
    payload.resize(1_504, 0xFF);
    inputs::ip_word(&mut Rng::new(1), &payload, address)
}

fn refusal_of(payload: &[u8], address: u16, open: &[u8]) -> Option<u8> {
    read(&word_of(payload, address), open, 6_604, 16).err()
}

/// Nothing to carry: a header FF FF at address 0. RFU of 20 bits and the address are zero, then the id 0000 1001, type
/// 011, Encap_Ver 000, the CRC of these 46 bits and six spare bits. The parity of 376 bytes of FF was worked out apart
/// from the code here (second_parity.rs).
#[test]
fn an_empty_queue() {
    is_written(0, &[], &[0xFF; 1_504], 0, [0, 0]);
    let word = written(0, &[]).word;
    for part in 0..4 {
        let from = 12_032 + 49 * part;
        let parity = bits(&word, from, from + 49).fold(0, |n, one| n << 1 | u64::from(one));
        assert_eq!(parity, 0x1_CCEF_9816_0176, "part {part}");
    }
    assert_eq!(word[1_528] & 0x0F, 0);
    assert_eq!(word[1_529..1_534], [0, 0, 0, 0x00, 0x96]);
    let header = [0, 0, 0, 0, 9, 3, 0, 0b1111, 0, 0, 0, 0, 0, 0, 0, 0];
    assert_eq!(report(&word, 16), Ok(header));
    let Reading {
        header: found,
        packets,
        open,
    } = reading(&word, &NONE);
    assert_eq!(found, header);
    assert!(packets.is_empty() && open.is_some_and(|open| open == NONE));
}

/// Type, error, length of 12 bits, and RFU last: 01 0 0101 1101 1100 0 for 1,500 bytes of IPv4; 10 1 and ones for an
/// erroneous packet of 4,095 bytes of IPv6.
#[test]
fn packet_headers_by_hand() {
    for (ty, error, length, header) in [
        (1, 0, 1_500, [0x4B, 0xB8]),
        (1, 0, 1, [0x40, 0x02]),
        (1, 1, 1, [0x60, 0x02]),
        (1, 0xFF, 2_048, [0x70, 0x00]),
        (2, 0, 40, [0x80, 0x50]),
        (2, 0x80, 4_095, [0xBF, 0xFE]),
    ] {
        let word = written(0, &packet(ty, error, length, 7)).word;
        assert_eq!(word[..2], header, "type {ty}, {length} bytes");
        assert_eq!(word[2], 7);
    }
}

#[test]
fn a_packet_and_the_rest() {
    let payload = [&[0x40, 0x50][..], &[7; 40], &[0xFF; 1_462]].concat();
    is_written(0, &packet(1, 0, 40, 7), &payload, 0, [44, 0]);
}

/// 1,500 bytes end at byte 1,501. What comes next has its header there, be it FF FF or that of a packet whose data is all
/// in the next word; and that word announces its end.
#[test]
fn a_header_at_byte_1502() {
    let first = packet(1, 0, 1_500, 7);
    let payload = [&[0x4B, 0xB8][..], &[7; 1_500], &[0xFF, 0xFF]].concat();
    is_written(0, &first, &payload, 0, [1_504, 0]);
    let second = packet(2, 1, 100, 8);
    let payload = [&[0x4B, 0xB8][..], &[7; 1_500], &[0xA0, 0xC8]].concat();
    let queue = [&first[..], &second].concat();
    is_written(0, &queue, &payload, 0, [1_504, 2]);
    let payload = runs(&[(8, 100), (0xFF, 1_404)]);
    is_written(2, &second, &payload, 100, [104, 0]);
    // it is read with nothing of the packet there but what its header says
    let (packets, open) = taken(&written(0, &queue).word, &NONE);
    assert!(packets == first);
    assert_eq!(open[..9], [1, 2, 1, 0, 0, 100, 0, 0, 0]);
    let (packets, open) = taken(&written(2, &second).word, &open);
    assert!(packets == second && open == NONE);
}

/// 1,501 bytes end at byte 1,502. In byte 1,503 no header fits: it is FF, whatever waits.
#[test]
fn nothing_begins_at_byte_1503() {
    let first = packet(1, 0, 1_501, 7);
    let payload = [&[0x4B, 0xBA][..], &[7; 1_501], &[0xFF]].concat();
    is_written(0, &first, &payload, 0, [1_505, 0]);
    let queue = [&first[..], &packet(1, 0, 1, 8)].concat();
    is_written(0, &queue, &payload, 0, [1_505, 0]);
    let (packets, open) = taken(&written(0, &queue).word, &NONE);
    assert!(packets == first && open == NONE);
}

/// 1,502 bytes fill a word, and of 1,503 one is left for the next.
#[test]
fn a_packet_that_fills_a_word() {
    let payload = [&[0x4B, 0xBC][..], &[7; 1_502]].concat();
    is_written(0, &packet(1, 0, 1_502, 7), &payload, 0, [1_506, 0]);
    let longer = packet(1, 0, 1_503, 7);
    let payload = [&[0x4B, 0xBE][..], &[7; 1_502]].concat();
    is_written(0, &longer, &payload, 0, [0, 1_504]);
    let payload = runs(&[(7, 1), (0xFF, 1_503)]);
    is_written(1_504, &longer, &payload, 1, [1_507, 0]);
}

/// Of a packet of 4,095 bytes so many are to come: up to 1,502 are announced, more have no header behind them in the word.
#[test]
fn bytes_to_come() {
    let long = packet(1, 0, 4_095, 7);
    for (to_come, address, fill, progress) in [
        (1, 1, 1_503, [4_099, 0]),
        (1_500, 1_500, 4, [4_099, 0]),
        (1_501, 1_501, 3, [4_099, 0]),
        (1_502, 1_502, 2, [4_099, 0]),
        (1_503, 0xFFF, 1, [4_099, 0]),
        (1_504, 0xFFF, 0, [4_099, 0]),
        (1_505, 0xFFF, 0, [0, 4_096]),
        (1_506, 0xFFF, 0, [0, 4_095]),
        (4_095, 0xFFF, 0, [0, 1_506]),
    ] {
        let payload = runs(&[(7, 1_504 - fill), (0xFF, fill)]);
        is_written(4_097 - to_come, &long, &payload, address, progress);
        // with another packet behind it, which begins where a header fits
        let queue = [&long[..], &packet(2, 0, 5_u16, 8)].concat();
        let word = written(4_097 - to_come, &queue).word;
        assert_eq!(address_of(&word), address, "{to_come} to come");
        let begun: &[u8] = match fill {
            2 => &[0x80, 0x0A],
            3 => &[0x80, 0x0A, 8],
            4 => &[0x80, 0x0A, 8, 8],
            1_503 => &[0x80, 0x0A, 8, 8, 8, 8, 8, 0xFF],
            1 => &[0xFF],
            _ => &[],
        };
        assert!(word[1_504 - fill..].starts_with(begun), "{to_come} to come");
    }
}

/// One byte of a packet of 4,095 bytes, and 501 packets of one byte, of which the last ends at byte 1,503: the word hands
/// out 4,099 and 501 x 5 bytes, the most that one can.
#[test]
fn the_most_that_a_word_hands_out() {
    let long = packet(2, 0, 4_095, 7);
    let small = packet(1, 0, 1, 8);
    let queue = [&long[..], &small.repeat(600)].concat();
    let payload = [&[7][..], &[0x40, 0x02, 8].repeat(501)].concat();
    is_written(4_096, &queue, &payload, 1, [6_604, 0]);
    let open = inputs::memory(2, 0, 4_095, &[7; 4_094]);
    let Reading {
        header,
        packets,
        open,
    } = reading(&word_of(&payload, 1), &open);
    assert!(packets == queue[..6_604]);
    assert_eq!(header[8..], [0, 1, 0x19, 0xCC, 0, 0, 0, 0]);
    assert!(open.is_some_and(|open| open == NONE));
    let small_room = read(&word_of(&payload, 1), &NONE, 6_603, 16);
    assert_eq!(small_room.err(), Some(LENGTH));
}

#[test]
fn an_open_packet_goes_on_over_words() {
    let mut data = Rng::new(50).bytes(4_095);
    data[1_502] = 0x5A;
    let queue = [&[2, 1, 0x0F, 0xFF][..], &data].concat();
    let mut open = NONE.to_vec();
    for (sent, there) in [(0, 1_502), (1_504, 3_006)] {
        let (packets, left) = taken(&written(sent, &queue).word, &open);
        assert!(packets.is_empty());
        assert!(left == inputs::memory(2, 1, 4_095, &data[..there]));
        open = left;
    }
    assert_eq!(open[..8], [1, 2, 1, 0, 0x0F, 0xFF, 0x0B, 0xBE]);
    let last = written(3_008, &queue);
    assert_eq!(address_of(&last.word), 1_089);
    let (packets, left) = taken(&last.word, &open);
    assert!(packets == queue && left == NONE);
    // the queue's error byte is any, and what is handed out has 0 or 1
    let [mut other, mut due] = [packet(1, 0xC0, 2, 3), packet(1, 1, 2, 3)];
    assert!(taken(&written(0, &other).word, &NONE).0 == due);
    (other[1], due[1]) = (0, 0);
    assert!(taken(&written(0, &other).word, &NONE).0 == due);
}

/// With none open, what stands before the announced header is passed over, and a word without a header altogether.
#[test]
fn reading_begins_at_an_announced_header() {
    let queue = [packet(1, 0, 3_000, 7), packet(2, 0, 30, 8)].concat();
    let (packets, open) = taken(&written(1_504, &queue).word, &NONE);
    assert!(packets.is_empty());
    assert_eq!(open[..12], [1, 2, 0, 0, 0, 30, 0, 4, 8, 8, 8, 8]);
    let (packets, open) = taken(&written(1_498, &queue).word, &NONE);
    assert!(packets.is_empty() && open == NONE);
    assert_eq!(address_of(&written(1_498, &queue).word), 0xFFF);
    // bytes before a header may be anything, such as would be refused if they were read
    for before in [[0x00; 700], [0xFF; 700], [0x40; 700]] {
        let payload = [&before[..], &[0x40, 0x04, 1, 2]].concat();
        let (packets, open) = taken(&word_of(&payload, 700), &NONE);
        assert!(packets == [1, 0, 0, 2, 1, 2] && open == NONE);
    }
    assert!(taken(&word_of(&[0; 1_504], 0xFFF), &NONE) == (vec![], NONE.to_vec()));
}

/// What an open packet asks for, and every other address that is accepted elsewhere.
#[test]
fn the_open_packet_says_what_is_announced() {
    let mut word = word_of(&[], 0);
    for to_come in [1, 2, 700, 1_501, 1_502, 1_503, 1_504, 1_505, 4_094, 4_095] {
        let open = inputs::memory(1, 0, 4_095, &vec![7; 4_095 - to_come]);
        let due = if to_come <= 1_502 { to_come } else { 0xFFF };
        for address in (0..1_503).chain([0xFFF]) {
            inputs::set_ip_header(&mut word, 0, address, 9);
            let number = read(&word, &open, 6_604, 16).err();
            let right = usize::from(address) == due;
            assert_eq!(number, (!right).then_some(PACKET), "{to_come}, {address}");
        }
    }
}

/// Each reason by itself, and beside it what is not refused.
#[test]
fn what_is_no_packet_is_refused() {
    let refused = |payload: &[u8]| refusal_of(payload, 0, &NONE);
    // types 0 and 3, length 0; RFU of any other is not looked at
    assert_eq!(refused(&[0x00, 0x02, 9]), Some(PACKET));
    assert_eq!(refused(&[0x3F, 0xFF]), Some(PACKET));
    assert_eq!(refused(&[0xC0, 0x02, 9]), Some(PACKET));
    assert_eq!(refused(&[0xFF, 0xFE]), Some(PACKET));
    assert_eq!(refused(&[0xDF, 0xFF]), Some(PACKET));
    for no_length in [[0x40, 0x00], [0x40, 0x01], [0x60, 0x00], [0x80, 0x01]] {
        assert_eq!(refused(&no_length), Some(PACKET));
    }
    for rfu in [0, 1] {
        assert_eq!(refused(&[0x40, 0x02 | rfu, 9]), None);
        assert_eq!(refused(&[0xBF, 0xFE | rfu, 9]), None);
    }
    // a stray byte in the padding
    assert_eq!(refused(&[0xFF, 0xFF]), None);
    for at in 2..1_504 {
        let mut payload = [0xFF; 1_504];
        payload[at] = 0xFE;
        assert_eq!(refused(&payload), Some(PACKET), "byte {at}");
    }
    // behind a packet that ends at byte 1,502, and behind the end of an open one
    let packet = [&[0x4B, 0xBA][..], &[7; 1_501]].concat();
    assert_eq!(refused(&packet), None);
    assert_eq!(refused(&[&packet[..], &[0x40]].concat()), Some(PACKET));
    let open = inputs::memory(1, 0, 2_000, &[7; 497]);
    assert_eq!(refusal_of(&[7; 1_503], 0xFFF, &open), None);
    let stray = [&[7; 1_503][..], &[0x7F]].concat();
    assert_eq!(refusal_of(&stray, 0xFFF, &open), Some(PACKET));
    // a fault behind packets that are whole
    let late = [&[0x40, 0x02, 9].repeat(500)[..], &[0x00]].concat();
    assert_eq!(refused(&late), Some(PACKET));
}

/// 1,503 to 4,094 are refused before the packets are looked at, by both readers.
#[test]
fn every_address() {
    let [mut word, mut stray] = [0xFF, 0x00].map(|byte| word_of(&[byte; 1_504], 0));
    for address in 0..=0xFFF {
        inputs::set_ip_header(&mut word, 0, address, 9);
        inputs::set_ip_header(&mut stray, 0, address, 9);
        let due = (1_503..0xFFF).contains(&address).then_some(ADDRESS);
        assert_eq!(read(&word, &NONE, 6_604, 16).err(), due, "{address}");
        let report = report(&word, 16);
        assert_eq!(report.err(), due, "{address}");
        if let Ok(report) = report {
            assert_eq!(report[8..10], address.to_be_bytes());
            assert_eq!(report[10..], [0; 6]);
        }
        let due = due.or((address <= 1_502).then_some(PACKET));
        assert_eq!(read(&stray, &NONE, 6_604, 16).err(), due, "{address}");
    }
}

/// Memory that is no open packet's reads as none open: the word begins at its announced header. After it the memory has
/// one of its two forms.
#[test]
fn memory_that_is_no_open_packets() {
    let sound = inputs::memory(1, 0, 50, &[7; 20]);
    let payload = [&[7; 30][..], &[0x40, 0x02, 9]].concat();
    let due = [packet(1, 0, 50, 7), packet(1, 0, 1, 9)].concat();
    let (packets, open) = taken(&word_of(&payload, 30), &sound);
    assert!(packets == due && open == NONE);
    // what stands behind the bytes is not looked at
    let mut longer = sound.clone();
    longer[28..].fill(0xA5);
    assert!(taken(&word_of(&payload, 30), &longer) == (due, NONE.to_vec()));
    for (at, byte) in [
        (0, 0),
        (0, 2),
        (0, 0xFF),
        (1, 0),
        (1, 3),
        (1, 0x81),
        (2, 2),
        (2, 0xFF),
        (3, 1),
        (4, 0x10),
        (4, 0xFF),
        (5, 20),
        (5, 0),
        (6, 1),
        (7, 50),
        (7, 0xFF),
    ] {
        let mut memory = sound.clone();
        memory[at] = byte;
        let (packets, open) = taken(&word_of(&payload, 30), &memory);
        assert!(packets == packet(1, 0, 1, 9), "byte {at} is {byte}");
        assert!(open == NONE);
        let (packets, open) = taken(&word_of(&[7; 1_504], 0xFFF), &memory);
        assert!(packets.is_empty() && open == NONE);
    }
    // the longest that fits, and one byte more
    let most = inputs::memory(2, 1, 4_095, &[7; 4_094]);
    assert!(taken(&word_of(&[8], 1), &most).0.len() == 4_099);
}

#[test]
fn words_of_other_types_leave_the_open_packet() {
    let mut rng = Rng::new(51);
    for ty in [0, 1, 2] {
        let word = inputs::payload_word_of(&mut rng, ty);
        for open in [NONE.to_vec(), rng.bytes(4_104)] {
            let Reading {
                header,
                packets,
                open,
            } = reading(&word, &open);
            assert_eq!(report(&word, 16), Ok(header));
            assert!(packets.is_empty() && open.is_none());
        }
    }
}

#[test]
fn every_refusal_of_the_writer() {
    let number = |sent, queue: &[u8]| write(9, sent, queue, 1_536, 8).err();
    let sound = packet(1, 0, 10, 7);
    assert_eq!(number(0, &sound), None);
    // 19, wherever it is, be the packet's data there or not
    for (ty, length) in [
        (0, 10),
        (3, 10),
        (255, 10),
        (1, 0),
        (2, 0),
        (1, 4_096),
        (2, 65_535),
    ] {
        let unfit = packet(ty, 0, length, 7);
        for queue in [&unfit[..], &unfit[..4], &[&sound[..], &unfit].concat()] {
            assert_eq!(number(0, queue), Some(PACKET), "{ty}, {length}");
        }
        // far behind what the word takes
        let far = [&packet(1, 0, 4_095, 7)[..], &sound, &unfit].concat();
        assert_eq!(number(0, &far), Some(PACKET), "{ty}, {length}");
        // and before 1
        assert_eq!(number(1, &unfit), Some(PACKET));
        assert_eq!(write(9, 0, &unfit, 0, 0).err(), Some(PACKET));
        // but not where its four bytes are not there
        assert_eq!(number(0, &unfit[..3]), Some(LENGTH));
    }
    for cut in 1..14 {
        assert_eq!(number(0, &sound[..cut]), Some(LENGTH), "{cut}");
        let behind = [&sound[..], &sound[..cut]].concat();
        assert_eq!(number(0, &behind), Some(LENGTH), "{cut}");
    }
    for sent in 0..20 {
        let right = sent == 0 || (2..=11).contains(&sent);
        assert_eq!(number(sent, &sound), (!right).then_some(LENGTH), "{sent}");
        assert_eq!(number(sent, &[]), (sent > 0).then_some(LENGTH), "{sent}");
    }
    for sent in [256 + 2, 65_536, 65_536 + 2, 1 << 31, u32::MAX] {
        assert_eq!(number(sent, &sound), Some(LENGTH), "{sent}");
    }
    for (word, progress) in [
        (1_535, 8),
        (1_537, 8),
        (0, 8),
        (1_536, 7),
        (1_536, 9),
        (1_536, 0),
    ] {
        assert_eq!(write(9, 0, &sound, word, progress).err(), Some(LENGTH));
    }
}

/// 1 2 5 16 15 18 19, each on top of the next.
#[test]
fn order_of_the_readers_refusals() {
    let number = |word: &[u8]| read(word, &NONE, 6_604, 16).err();
    let mut word = word_of(&[0; 1_504], 0);
    assert_eq!(number(&word), Some(PACKET));
    inputs::set_ip_header(&mut word, 0, 1_503, 9);
    assert_eq!(number(&word), Some(ADDRESS));
    inputs::set_payload_header(&mut word, 0, 9, 4, 0);
    assert_eq!(number(&word), Some(15));
    for ty in [3, 4] {
        inputs::set_payload_header(&mut word, 0, 9, ty, 1);
        assert_eq!(number(&word), Some(16));
    }
    word[1_534] ^= 1;
    assert_eq!(number(&word), Some(5));
    word[1_535] ^= 1;
    assert_eq!(number(&word), Some(2));
    for (open, room, header) in [
        (4_103, 6_604, 16),
        (4_105, 6_604, 16),
        (4_104, 6_603, 16),
        (4_104, 6_604, 15),
        (4_104, 6_604, 17),
    ] {
        let found = read(&word, &vec![0; open], room, header);
        assert_eq!(found.err(), Some(LENGTH));
    }
    assert_eq!(number(&word[1..]), Some(LENGTH));
    assert!(read(&word_of(&[], 0), &NONE, 10_000, 16).is_ok());
}

#[test]
fn a_lost_word_drops_the_open_packet() {
    assert_eq!(lost(4_104), Ok(NONE.to_vec()));
    for length in [0, 1, 4_103, 4_105, 8_208] {
        assert_eq!(lost(length), Err(LENGTH));
    }
    // the first ends at byte 1,001 of the first word, the second at byte 1,502 of the next, the third in the fourth
    let queue = [
        packet(1, 0, 1_000, 7),
        packet(2, 0, 2_003, 8),
        packet(1, 1, 2_000, 9),
    ];
    let mut waiting = queue.concat();
    let (mut sent, mut words) = (0, Vec::new());
    while !waiting.is_empty() {
        let Written { word, progress } = written(sent, &waiting);
        let [done, next] =
            [0, 4].map(|at| u32::from_be_bytes([0, 1, 2, 3].map(|byte| progress[at + byte])));
        waiting.drain(..done as usize);
        sent = next;
        words.push(word);
    }
    assert_eq!(words.len(), 4);
    let handed_out = |lost: &dyn Fn(usize) -> bool| {
        let mut open = NONE.to_vec();
        let mut handed_out = Vec::new();
        for (at, word) in words.iter().enumerate() {
            if lost(at) {
                open = NONE.to_vec();
                continue;
            }
            let (packets, left) = taken(word, &open);
            handed_out.extend(packets);
            open = left;
        }
        handed_out
    };
    let [first, second, third] = &queue;
    assert!(handed_out(&|_| false) == queue.concat());
    assert!(handed_out(&|at| at == 0) == *third);
    assert!(handed_out(&|at| at == 1) == [&first[..], third].concat());
    assert!(handed_out(&|at| at == 2) == [&first[..], second].concat());
    assert!(handed_out(&|at| at == 3) == [&first[..], second].concat());
    assert!(handed_out(&|at| at >= 2) == [&first[..], second].concat());
    assert!(handed_out(&|_| true).is_empty());
}

/// Any queues and words, the made-up ones of the fuzz: what is made to be accepted is, and each reason of 19 is one.
#[test]
fn inputs_are_what_they_are_made_for() {
    let mut rng = Rng::new(52);
    for _ in 0..400 {
        let sending = inputs::sending(&mut rng);
        assert!(write(9, sending.sent, &sending.queue, 1_536, 8).is_ok());
        for number in [PACKET, LENGTH] {
            let sending = inputs::refused_sending(&mut rng, number).expect("the writer gives it");
            let found = write(9, sending.sent, &sending.queue, 1_536, 8);
            assert_eq!(found.err(), Some(number), "{sending:?}");
        }
        let receiving = inputs::receiving(&mut rng);
        assert!(read(&receiving.word, &receiving.open, 6_604, 16).is_ok());
        for why in inputs::STRAYS {
            let receiving = inputs::stray(&mut rng, why);
            let found = read(&receiving.word, &receiving.open, 6_604, 16);
            assert_eq!(found.err(), Some(PACKET), "{why:?}");
            assert!(payload::read(&receiving.word).is_ok(), "{why:?}");
        }
    }
}
