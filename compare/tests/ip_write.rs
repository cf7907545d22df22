//! opl_ip_write against the second implementation: how a word is filled, what it announces, how far the queue comes, and
//! every refusal.

mod ip_writing;

use compare::inputs::{self, plain_packet as packet, Sending};
use compare::rng::Rng;
use ip_writing::{both_write, both_write_into, Written};

/// First_Header_Address, 12 bits from bit 12,248 on.
fn address_of(word: &[u8]) -> u16 {
    u16::from(word[1_531]) << 4 | u16::from(word[1_532]) >> 4
}

#[track_caller]
fn written(rng: &mut Rng, sent: u32, queue: &[u8]) -> Written {
    both_write(rng, 9, sent, queue).unwrap_or_else(|number| panic!("refused with {number}"))
}

/// Whatever the word and the progress held before: a header FF FF at address 0, and so a word of FF.
#[test]
fn a_word_with_nothing_to_carry() {
    let mut rng = Rng::new(370);
    for id in 0..=255 {
        let Written { word, done, sent } =
            both_write(&mut rng, id, 0, &[]).expect("it is accepted");
        assert!(word[..1_504].iter().all(|byte| *byte == 0xFF));
        // RFU and the address, the id, type 011 and Encap_Ver 000
        assert_eq!(word[1_528] & 0x0F, 0);
        assert_eq!(word[1_529..1_532], [0; 3]);
        assert_eq!(word[1_532..1_534], [id >> 4, id << 4 | 0b0110]);
        assert_eq!((word[1_534] & 0xC0, word[1_535] & 0x3F), (0, 0));
        assert_eq!((address_of(&word), done, sent), (0, 0, 0));
    }
}

/// A packet of each length in a word of its own, and what is left of it for the next words.
#[test]
fn every_length() {
    let mut rng = Rng::new(371);
    for length in 1..=4_095 {
        let queue = inputs::ip_packet(&mut rng, length);
        let Written { word, done, sent } = written(&mut rng, 0, &queue);
        let header =
            u16::from(queue[0]) << 14 | u16::from(queue[1] != 0) << 13 | (length as u16) << 1;
        assert_eq!(word[..2], header.to_be_bytes());
        let there = length.min(1_502);
        assert!(word[2..2 + there] == queue[4..4 + there], "{length} bytes");
        assert!(word[2 + there..1_504].iter().all(|byte| *byte == 0xFF));
        assert_eq!(address_of(&word), 0);
        let due = match length {
            ..=1_502 => (4 + length, 0),
            _ => (0, 1_504),
        };
        assert_eq!((done, sent), due, "{length} bytes");
    }
}

/// A packet of 4,095 bytes of which each number is still to come, with and without a packet behind it.
#[test]
fn every_number_of_bytes_to_come() {
    let mut rng = Rng::new(372);
    let first = inputs::ip_packet(&mut rng, 4_095);
    let both = [&first[..], &packet(2, 0, 3, 8)].concat();
    for to_come in 1..=4_095_usize {
        let sent = (4_097 - to_come) as u32;
        for queue in [&first, &both] {
            let Written { word, done, sent } = written(&mut rng, sent, queue);
            let there = to_come.min(1_504);
            let from = 4_099 - to_come;
            assert!(word[..there] == queue[from..from + there], "{to_come}");
            let address = if to_come <= 1_502 { to_come } else { 0xFFF };
            assert_eq!(usize::from(address_of(&word)), address, "{to_come}");
            // the second packet has five bytes in a word
            let room = 1_504 - there;
            let begun = queue.len() > 4_099 && room >= 2;
            let behind = if begun { room.min(5) } else { 0 };
            assert!(word[there..].starts_with(&[0x80, 0x06, 8, 8, 8][..behind]));
            assert!(word[there + behind..1_504].iter().all(|byte| *byte == 0xFF));
            let due = match (to_come, behind) {
                (1_505.., _) => (0, 4_097 - to_come + 1_504),
                (_, 5) => (4_106, 0),
                (_, 0 | 2..=4) => (4_099, behind),
                _ => panic!("a split header"),
            };
            assert_eq!((done, sent as usize), due, "{to_come}");
        }
    }
}

/// Two packets, of which the second begins at each byte of the word where a header fits, and not in the last byte.
#[test]
fn a_second_header_at_every_byte() {
    let mut rng = Rng::new(373);
    for at in 3..=1_504 {
        let first = inputs::ip_packet(&mut rng, at - 2);
        let length = [1, 1_502 - at.min(1_501), 100, 4_095][rng.below(4)];
        let queue = [first, inputs::ip_packet(&mut rng, length)].concat();
        let Written { word, done, sent } = written(&mut rng, 0, &queue);
        assert_eq!(address_of(&word), 0);
        if at > 1_502 {
            assert!(at == 1_504 || word[1_503] == 0xFF);
            assert_eq!((done, sent), (at + 2, 0));
            continue;
        }
        let there = length.min(1_502 - at);
        assert!(word[at + 2..at + 2 + there] == queue[at + 6..at + 6 + there]);
        let due = match there == length {
            true => (queue.len(), 0),
            false => (at + 2, 2 + there as u32),
        };
        assert_eq!((done, sent), due, "at byte {at}");
    }
}

/// As many small packets as fit, of each length up to 40: what waits besides is not touched.
#[test]
fn many_small_packets() {
    let mut rng = Rng::new(374);
    for length in 1..=40 {
        let queue: Vec<u8> = (0..1_600 / length)
            .flat_map(|_| inputs::ip_packet(&mut rng, length))
            .collect();
        let Written { word, done, sent } = written(&mut rng, 0, &queue);
        let whole = 1_504 / (length + 2);
        let rest = 1_504 % (length + 2);
        let due = if rest >= 2 { rest } else { 0 };
        assert_eq!((done, sent as usize), (whole * (length + 4), due));
        assert!(rest != 1 || word[1_503] == 0xFF, "{length} bytes");
    }
}

/// Of an error byte nothing is looked at but whether it is 0.
#[test]
fn every_error_byte() {
    let mut rng = Rng::new(375);
    for error in 0..=255 {
        for ty in [1, 2] {
            let word = written(&mut rng, 0, &packet(ty, error, 5, 7)).word;
            assert_eq!(word[..2], [ty << 6 | u8::from(error != 0) << 5, 0x0A]);
        }
    }
}

#[test]
fn any_queue() {
    let mut rng = Rng::new(376);
    for _ in 0..2_000 {
        let (id, Sending { sent, queue }) = (rng.byte(), inputs::sending(&mut rng));
        let written = both_write(&mut rng, id, sent, &queue).expect("it is accepted");
        let progress = written.done > 0 || written.sent > sent;
        assert!(progress || queue.is_empty(), "{sent} sent, {queue:02X?}");
    }
    for number in [19, 1] {
        for _ in 0..1_000 {
            let refused = inputs::refused_sending(&mut rng, number);
            let Sending { sent, queue } = refused.expect("the writer gives it");
            assert_eq!(both_write(&mut rng, 9, sent, &queue), Err(number));
        }
    }
    for _ in 0..2_000 {
        let Sending { sent, queue } = inputs::mutated_sending(&mut rng);
        let _ = both_write(&mut rng, 9, sent, &queue);
    }
}

/// The front of a queue that has 1,503 bytes still to be sent gives the word of the whole queue, and the same progress.
#[test]
fn the_front_of_a_queue_is_enough() {
    let mut rng = Rng::new(377);
    for _ in 0..500 {
        let Sending { sent, queue } = inputs::sending(&mut rng);
        let packets = inputs::handed_out(&queue);
        let (mut front, mut to_send) = (0, 0);
        for packet in &packets {
            if to_send >= 1_503 + sent as usize {
                break;
            }
            front += packet.len();
            to_send += packet.len() - 2;
        }
        let whole = written(&mut rng, sent, &queue);
        assert_eq!(written(&mut rng, sent, &queue[..front]), whole);
    }
}

/// All of a long queue is walked: what is wrong with its last packet shows, a hundred words before that is due.
#[test]
fn a_long_queue() {
    let mut rng = Rng::new(383);
    for length in [1, 40, 1_500, 4_095_u16] {
        let one = packet(1, 0, length, 7);
        let count = 200_000 / one.len();
        let mut queue = one.repeat(count);
        let front = one.repeat(1_504 / usize::from(length) + 1);
        assert_eq!(
            written(&mut rng, 0, &queue),
            written(&mut rng, 0, &front),
            "{length} bytes"
        );
        let last = queue.len() - one.len();
        for cut in [last + 1, last + 3, last + 4, queue.len() - 1] {
            let found = both_write(&mut rng, 9, 0, &queue[..cut]);
            assert_eq!(found, Err(1), "{length} bytes, cut at {cut}");
        }
        queue[last] = 3;
        for cut in [last + 4, queue.len() - 1, queue.len()] {
            let found = both_write(&mut rng, 9, 0, &queue[..cut]);
            assert_eq!(found, Err(19), "{length} bytes, cut at {cut}");
        }
    }
}

/// A queue of three packets, in which this one is unfit, by its type or its length.
fn with_unfit(at: usize, ty: u8, length: u16) -> (Vec<u8>, usize) {
    let mut queue = Vec::new();
    for place in 0..3 {
        if place == at {
            queue.extend(packet(ty, 0, length, 7));
        } else {
            queue.extend(packet(1, 0, 1_000, 8));
        }
    }
    (queue, 1_004 * at)
}

/// Every type but 1 and 2, and lengths that are none: of the first packet, and of those behind it, which the word does not
/// come to. The data may be there or not.
#[test]
fn unfit_packets() {
    let mut rng = Rng::new(378);
    let types = (0..=255)
        .filter(|ty| !matches!(ty, 1 | 2))
        .map(|ty| (ty, 10));
    let lengths = [0, 4_096, 4_097, 8_191, 8_192, 32_768, 65_535].map(|length| (1, length));
    for (ty, length) in types.chain(lengths) {
        for at in 0..3 {
            let (queue, begins) = with_unfit(at, ty, length);
            for sent in [0, 500] {
                assert_eq!(
                    both_write(&mut rng, 9, sent, &queue),
                    Err(19),
                    "{ty}, {length}"
                );
            }
            // its four bytes alone are enough, and fewer are not
            let label = &queue[..begins + 4];
            assert_eq!(both_write(&mut rng, 9, 0, label), Err(19), "{ty}, {length}");
            for cut in 1..4 {
                let found = both_write(&mut rng, 9, 0, &queue[..begins + cut]);
                assert_eq!(found, Err(1), "{ty}, {length}, {cut}");
            }
        }
    }
    // the lengths on either side
    for length in [1, 4_095] {
        for ty in [1, 2] {
            assert!(both_write(&mut rng, 9, 0, &packet(ty, 0, length, 7)).is_ok());
        }
    }
}

/// A queue of three packets that is cut at each byte: at two of them, and at the beginning, it is still one.
#[test]
fn every_cut() {
    let mut rng = Rng::new(379);
    let queue = [packet(1, 0, 9, 7), packet(2, 1, 300, 8), packet(1, 0, 2, 9)].concat();
    for cut in 0..=queue.len() {
        let number = both_write(&mut rng, 9, 0, &queue[..cut]).err();
        let whole = [0, 13, 317, 323].contains(&cut);
        assert_eq!(number, (!whole).then_some(1), "{cut}");
    }
}

/// What may have been sent of a packet: nothing, or from its header to all but its last byte. Of no packet nothing.
#[test]
fn every_number_of_bytes_sent() {
    let mut rng = Rng::new(380);
    for length in [1, 2, 5, 1_502, 4_095] {
        let queue = packet(1, 0, length, 7);
        let all = u32::from(length) + 2;
        let near = (0..8).chain(all - 2..all + 8);
        let far = [256, 65_536, 1 << 31].map(|far| far + all - 1);
        for sent in near.chain(far).chain([u32::MAX, u32::MAX - 1]) {
            let right = sent == 0 || (2..all).contains(&sent);
            let number = both_write(&mut rng, 9, sent, &queue).err();
            assert_eq!(number, (!right).then_some(1), "{sent} of {length}");
        }
        // the packets behind it play no part
        let queue = [queue, packet(1, 0, 4_095, 8)].concat();
        assert_eq!(both_write(&mut rng, 9, all, &queue), Err(1), "{length}");
    }
    for sent in [1, 2, 3, 256, 65_536, u32::MAX] {
        assert_eq!(both_write(&mut rng, 9, sent, &[]), Err(1), "{sent}");
    }
}

#[test]
fn lengths_of_word_and_progress() {
    let mut rng = Rng::new(381);
    let words = [
        0,
        1,
        8,
        96,
        1_504,
        1_535,
        1_536,
        1_537,
        3_072,
        65_536 + 1_536,
    ];
    let progresses = [0, 1, 4, 7, 8, 9, 16, 256 + 8, 65_536 + 8];
    for queue in [vec![], packet(1, 0, 40, 7)] {
        for word in words {
            for progress in progresses {
                let right = word == 1_536 && progress == 8;
                let number = both_write_into(&mut rng, 9, 0, &queue, [word, progress]).err();
                assert_eq!(number, (!right).then_some(1), "{word}, {progress}");
            }
        }
    }
}

/// 19 before 1: an unfit packet shows whatever else is wrong.
#[test]
fn order_of_refusals() {
    let mut rng = Rng::new(382);
    let unfit = packet(3, 0, 10, 7);
    let sound = packet(1, 0, 10, 7);
    for queue in [
        &unfit[..],
        &unfit[..6],
        &[&sound[..], &unfit].concat(),
        &[&unfit[..], &sound[..3]].concat(),
    ] {
        for sent in [0, 1, 12, u32::MAX] {
            for lengths in [[1_536, 8], [1_535, 8], [1_536, 7], [0, 0]] {
                let found = both_write_into(&mut rng, 9, sent, queue, lengths);
                assert_eq!(found, Err(19), "{sent}, {lengths:?}");
            }
        }
    }
    // the lengths lead past it: to no byte of it, to the end, and into it, where a type of 0 is read
    for (length, due) in [(4_095, Some(1)), (24, None), (11, Some(19))] {
        let mut longer = [&sound[..], &unfit].concat();
        longer[3] = length as u8;
        longer[2] = (length >> 8) as u8;
        assert_eq!(both_write(&mut rng, 9, 0, &longer).err(), due, "{length}");
    }
}
