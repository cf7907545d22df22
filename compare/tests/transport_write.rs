//! opl_payload_write of stream type 2 against the second implementation: packets, null packets, their parity, and every
//! refusal.

mod payload_words;

use compare::inputs;
use compare::rng::Rng;
use payload_words::{both_read, both_write, Writing};

/// Counts above 8: close to it, and numbers that are a count, or whose packets' length is one, when cut to 3, 4, 8, 16
/// or 32 bits. 188 times 2^30 is a multiple of 2^32.
const COUNTS_ABOVE: [u32; 18] = [
    9,
    10,
    15,
    16,
    17,
    255,
    256,
    256 + 8,
    65_536,
    65_536 + 3,
    1 << 24,
    1 << 30,
    (1 << 30) + 1,
    (1 << 30) + 8,
    1 << 31,
    (1 << 31) + 4,
    3 << 30,
    u32::MAX,
];

/// A call with that many packets, and with these lengths of what is lent.
fn lent(rng: &mut Rng, ty: u32, count: u32, [n, k, length]: [usize; 3]) -> Result<Vec<u8>, u8> {
    let (payload, null_packet) = (&rng.bytes(n), &rng.bytes(k));
    let id = rng.byte();
    let writing = Writing {
        ty,
        id,
        count,
        payload,
        null_packet,
    };
    both_write(rng, writing, length)
}

/// The packets, the null packets behind them, and the header.
#[test]
fn every_count() {
    let mut rng = Rng::new(320);
    for count in 0..=8 {
        for _ in 0..20 {
            let payload = inputs::packets(&mut rng, count);
            let null_packet = inputs::packets(&mut rng, 1);
            let id = rng.byte();
            let writing = Writing {
                ty: 2,
                id,
                count,
                payload: &payload,
                null_packet: &null_packet,
            };
            let word = both_write(&mut rng, writing, 1_536).expect("it is accepted");
            let missing = null_packet.repeat(8 - count as usize);
            assert!(word[..1_504] == [payload, missing].concat(), "{count}");
            // RFU, the id, type 010 and Encap_Ver 000
            assert_eq!(word[1_528] & 0x0F, 0);
            assert_eq!(word[1_529..1_532], [0; 3]);
            assert_eq!(word[1_532..1_534], [id >> 4, id << 4 | 0b0100]);
            assert_eq!(word[1_534] & 0xC0, 0);
            assert_eq!(word[1_535] & 0x3F, 0, "spare bits");
            let header = both_read(&mut rng, &word, 16);
            assert_eq!(
                header,
                Ok([0, 0, 0, 0, id, 2, 0, 15, 0, 0, 0, 0, 0, 0, 0, 0])
            );
        }
    }
}

#[test]
fn every_id() {
    let mut rng = Rng::new(321);
    for id in 0..=255 {
        let (payload, null_packet) = (&rng.bytes(5 * 188), &rng.bytes(188));
        let writing = Writing {
            ty: 2,
            id,
            count: 5,
            payload,
            null_packet,
        };
        let word = both_write(&mut rng, writing, 1_536).expect("it is accepted");
        let header = both_read(&mut rng, &word, 16).expect("it is read");
        assert_eq!(header[4..8], [id, 2, 0, 15]);
    }
}

/// Null packets without a sync byte, like the packets before them, of one value: nothing is made of what they hold.
#[test]
fn a_null_packet_may_hold_anything() {
    let mut rng = Rng::new(322);
    let packet = rng.bytes(188);
    let held = [0x00, 0x47, 0xFF].map(|byte| vec![byte; 188]);
    for null_packet in held.iter().chain([&packet]) {
        for count in 0..=8 {
            let payload = packet.repeat(count);
            let writing = Writing {
                ty: 2,
                id: 0,
                count: count as u32,
                payload: &payload,
                null_packet,
            };
            let word = both_write(&mut rng, writing, 1_536).expect("it is accepted");
            let mut packets = word[..1_504].chunks(188);
            assert!(packets.by_ref().take(count).all(|sent| sent == packet));
            assert!(packets.all(|sent| sent == null_packet));
        }
    }
}

/// Eight packets in which just one bit is set, each of the 12,032 in turn. As parity is the same of a sum as the sum of
/// parities, this is all of it; words of many bits are in the tests above.
#[test]
fn packets_with_a_single_bit() {
    let mut rng = Rng::new(323);
    let mut payload = vec![0; 1_504];
    for index in 0..12_032 {
        inputs::flip_bit(&mut payload, index);
        let writing = Writing {
            ty: 2,
            id: 0,
            count: 8,
            payload: &payload,
            null_packet: &[0; 188],
        };
        let word = both_write(&mut rng, writing, 1_536);
        assert!(word.is_ok(), "bit {index}");
        inputs::flip_bit(&mut payload, index);
    }
}

/// The word of a sum: packets and parity are the sum, and the header is that of each.
#[test]
fn sums_of_packets() {
    let mut rng = Rng::new(324);
    let written = |rng: &mut Rng, payload: &[u8]| {
        let writing = Writing {
            ty: 2,
            id: 9,
            count: 8,
            payload,
            null_packet: &[0; 188],
        };
        both_write(rng, writing, 1_536).expect("it is accepted")
    };
    for _ in 0..50 {
        let [one, other] = [(); 2].map(|()| rng.bytes(1_504));
        let mut added = written(&mut rng, &one);
        inputs::add_parts(&mut added, &written(&mut rng, &other));
        assert!(written(&mut rng, &inputs::sum(&[one, other])) == added);
    }
}

/// The lengths of a payload that are tried with a count: near that of its packets and of its neighbours', those of other
/// types, and ones that meet it when cut to 8 or 16 bits.
fn payload_lengths(count: usize) -> Vec<usize> {
    let right = 188 * count;
    let near = [188, 2, 1].map(|less| right.saturating_sub(less));
    let beyond = [0, 1, 2, 188, 256, 65_536].map(|more| right + more);
    let others = [0, 1, count, 1_503, 1_504, 1_532, 1_536];
    [&near[..], &beyond, &others].concat()
}

#[test]
fn lengths_of_what_is_lent() {
    let mut rng = Rng::new(325);
    let nulls = [0, 1, 187, 188, 189, 376, 256 + 188, 1_504, 65_536 + 188];
    let words = [0, 1_504, 1_535, 1_536, 1_537, 65_536 + 1_536];
    for count in 0..=8 {
        let right = 188 * count as usize;
        for n in payload_lengths(count as usize) {
            let due = (n != right).then_some(1);
            let found = lent(&mut rng, 2, count, [n, 188, 1_536]).err();
            assert_eq!(found, due, "{count} packets, {n} bytes");
        }
        // whether or not a null packet is needed, its length has to be right
        for k in nulls {
            let due = (k != 188).then_some(1);
            let found = lent(&mut rng, 2, count, [right, k, 1_536]).err();
            assert_eq!(found, due, "{count} packets, a null packet of {k} bytes");
        }
        for length in words {
            let due = (length != 1_536).then_some(1);
            let found = lent(&mut rng, 2, count, [right, 188, length]).err();
            assert_eq!(found, due, "{count} packets, a word of {length} bytes");
        }
    }
}

/// Two or three lengths that are wrong at once, also such that make up for one another.
#[test]
fn several_lengths_that_are_wrong() {
    let mut rng = Rng::new(326);
    for count in 0..=8 {
        let right = 188 * count as usize;
        for lengths in [
            [right + 188, 0, 1_536],
            [0, right, 1_535],
            [right + 1, 187, 1_536],
            [right, 189, 1_537],
            [right + 1, 188, 1_535],
            [right + 7, 3, 0],
        ] {
            if lengths != [right, 188, 1_536] {
                let found = lent(&mut rng, 2, count, lengths);
                assert_eq!(found, Err(1), "{count} packets, {lengths:?}");
            }
        }
    }
}

/// Refused whatever the lengths are: those of eight packets, those that the count asks for, and wrong ones.
#[test]
fn counts_above_8_are_refused() {
    let mut rng = Rng::new(327);
    for count in COUNTS_ABOVE {
        let asked = count.wrapping_mul(188) as usize;
        let counted = Some(asked).filter(|bytes| *bytes <= 1 << 17).unwrap_or(0);
        for n in [0, 188, 1_504, 1_532, counted] {
            for k in [0, 187, 188] {
                for length in [0, 1_535, 1_536] {
                    let found = lent(&mut rng, 2, count, [n, k, length]);
                    assert_eq!(found, Err(17), "{count} packets, {n} {k} {length}");
                }
            }
        }
    }
}

/// 15, 17, 1: a type above 2 comes before a count, and a count before lengths.
#[test]
fn order_of_refusals() {
    let mut rng = Rng::new(328);
    let (right, wrong) = ([1_504, 188, 1_536], [1_505, 187, 1_535]);
    for lengths in [right, wrong] {
        for count in [8, 9, 1 << 30, u32::MAX] {
            for ty in [3, 4, 7, 8, 10, 256 + 2, 65_536 + 2, u32::MAX] {
                assert_eq!(lent(&mut rng, ty, count, lengths), Err(15));
            }
        }
        for count in COUNTS_ABOVE {
            assert_eq!(lent(&mut rng, 2, count, lengths), Err(17));
        }
    }
    assert_eq!(lent(&mut rng, 2, 8, wrong), Err(1));
    assert!(lent(&mut rng, 2, 8, right).is_ok());
}
