//! The second implementation's mixer, profiles and pipes against what is worked out here by hand from clauses 4.5 to 4.8
//! and 4.10.7.

use compare::inputs;
use compare::rng::Rng;
use compare::second::bits::{bit, set_bit};
use compare::second::mixer::{increment, mix, mix_into, unmix};
use compare::second::pipe::{collect, uncollect, write, Pipe, Receiver, Transmitter};
use compare::second::profile::{record, report, Profile};

/// The numbers of the refusals.
const LENGTH: u8 = 1;
const PATTERN: u8 = 3;
const PROFILE: u8 = 20;
const FRAME: u8 = 21;

/// Table 12 by pattern: the patterns of a code rate (table 11), the bytes of their codewords, and CILM_Inc.
const TABLE_12: [(std::ops::RangeInclusive<u32>, usize, usize); 14] = [
    (0..=0, 7_680, 247),
    (1..=1, 6_912, 245),
    (2..=2, 6_144, 221),
    (3..=3, 5_376, 197),
    (4..=4, 5_120, 209),
    (5..=6, 4_608, 185),
    (7..=8, 4_096, 179),
    (9..=10, 3_840, 167),
    (11..=12, 3_584, 167),
    (13..=15, 3_072, 157),
    (16..=18, 2_560, 149),
    (19..=21, 2_304, 125),
    (22..=24, 2_048, 139),
    (25..=27, 1_792, 113),
];

#[test]
fn increments_by_pattern() {
    let lengths: Vec<usize> = TABLE_12.iter().map(|(_, bytes, _)| *bytes).collect();
    let mut patterns = Vec::new();
    for (of_rate, bytes, inc) in TABLE_12 {
        for pattern in of_rate {
            patterns.push(pattern);
            for length in lengths.iter().chain(&[0, bytes - 1, bytes + 1]) {
                let due = if *length == bytes {
                    Ok(inc)
                } else {
                    Err(FRAME)
                };
                assert_eq!(increment(pattern, *length), due, "pattern {pattern}");
            }
            // the signalling codeword, of pattern 0 alone
            let due = if pattern == 0 { Ok(61) } else { Err(FRAME) };
            assert_eq!(increment(pattern, 480), due, "pattern {pattern}");
        }
    }
    assert!(patterns.into_iter().eq(0..28));
    for pattern in [28, 63, 64, 256, u32::MAX] {
        assert_eq!(increment(pattern, 7_680), Err(PATTERN));
        assert_eq!(increment(pattern, 0), Err(PATTERN));
    }
}

/// Where the one bit of a codeword that is set comes to stand.
fn mixed_place(pattern: u32, bytes: usize, place: usize) -> Vec<usize> {
    let mut codeword = vec![0; bytes];
    set_bit(&mut codeword, place, true);
    let mixed = mix(pattern, &codeword, bytes).expect("it is accepted");
    (0..8 * bytes).filter(|i| bit(&mixed, *i)).collect()
}

/// b[i] = a[61 i mod 3,840]: b[1] = a[61]; 61 x 62 = 3,782 is the last below 3,840, and 61 x 63 = 3,843, so b[63] = a[3].
/// Of 61,440 bits: 247 x 248 = 61,256, and 247 x 249 = 61,503 = 61,440 + 63. Of 14,336 bits: 113 x 127 = 14,351 =
/// 14,336 + 15.
#[test]
fn bits_mixed_by_hand() {
    for (pattern, bytes, from, to) in [
        (0, 480, 0, 0),
        (0, 480, 61, 1),
        (0, 480, 3_782, 62),
        (0, 480, 3, 63),
        (0, 480, 3_840 - 61, 3_839),
        (0, 7_680, 247, 1),
        (0, 7_680, 61_256, 248),
        (0, 7_680, 63, 249),
        (27, 1_792, 15, 127),
        (27, 1_792, 14_336 - 113, 14_335),
    ] {
        assert_eq!(mixed_place(pattern, bytes, from), [to], "bit {from}");
    }
}

/// CILM_Inc has no factor in common with Codeword_Len, so that each bit is taken once; and so there is a way back.
#[test]
fn each_bit_is_mixed_once() {
    let mut rng = Rng::new(810);
    for coding in inputs::codings() {
        let (pattern, bytes) = (coding.pattern, coding.codeword_bytes());
        let (inc, bits) = (increment(pattern, bytes).unwrap(), 8 * bytes);
        let mut taken = vec![false; bits];
        for i in 0..bits {
            assert!(!std::mem::replace(&mut taken[inc * i % bits], true));
        }
        let codeword = rng.bytes(bytes);
        let mixed = mix(pattern, &codeword, bytes).unwrap();
        assert!(mixed != codeword && unmix(pattern, &mixed).unwrap() == codeword);
        let mut fast = rng.bytes(bytes);
        assert_eq!(mix_into(pattern, &codeword, &mut fast), Ok(()));
        assert!(fast == mixed, "pattern {pattern}");
        assert_eq!(mix(pattern, &codeword, bytes + 1), Err(FRAME));
        assert_eq!(mix_into(pattern, &codeword, &mut fast[1..]), Err(FRAME));
        assert!(fast == mixed);
    }
}

/// What is reported: 32 lengths and the greatest delay.
#[track_caller]
fn profile_of(pipe: &[u8]) -> ([u16; 32], u16) {
    let report = report(pipe, 33).unwrap_or_else(|number| panic!("refused with {number}"));
    let lengths = report[..32].try_into().expect("32 of them");
    (lengths, report[32])
}

/// 01's record of pattern 5 and width 18, and a section of 32 taps: 1111, Tap_Diff 001, Gap_Width 00000.
const UNIFORM: [u8; 8] = [0x14, 0x12, 0, 0, 0, 0, 0x0F, 0x20];

/// The same pipe with these in place of its last two bytes of the record, and these sections.
fn with(flags: u8, multipliers: [u8; 2], sections: &[[u8; 2]]) -> Vec<u8> {
    let count = sections.len() as u8 - 1;
    let [int, fract] = multipliers;
    let mut pipe = vec![0x14, 0x12, count, flags, int, fract];
    pipe.extend(sections.concat());
    pipe
}

/// Tap_Diff_Mult_Int_1 in the low half of a byte, and Tap_Diff_Mult_Fract_1_16 in the high half of the next.
const ONCE: [u8; 2] = [0x00, 0xF0];

const INVERTED: u8 = 0x80;

/// Multipliers 1 and 1/16: floor(j / 16) is 0 in the matrix's first two rows and 1 in the others, so that columns are 0 0
/// 1 1.
#[test]
fn a_uniform_profile_of_a_sixteenth() {
    let (lengths, greatest) = profile_of(&UNIFORM);
    assert_eq!(lengths.chunks(4).collect::<Vec<_>>(), [[0, 0, 1, 1]; 8]);
    assert_eq!(greatest, 1);
    let (fields, sections) = record(&UNIFORM).unwrap();
    let profile = Profile::of(&fields, &sections);
    // ours, and those of the second and third period
    assert_eq!([0, 1, 2, 3].map(|k| profile.delay(k)), [1, 1, 0, 0]);
    assert_eq!([32, 33, 66, 67].map(|k| profile.delay(k)), [1, 1, 0, 0]);
}

/// Multipliers 1 and 16/16: the lengths are 0 to 31. By rows 0 to 7, 8 to 15, 16 to 23, 24 to 31.
#[test]
fn a_uniform_profile() {
    let columns = [
        0, 8, 16, 24, 1, 9, 17, 25, 2, 10, 18, 26, 3, 11, 19, 27, //
        4, 12, 20, 28, 5, 13, 21, 29, 6, 14, 22, 30, 7, 15, 23, 31,
    ];
    let pipe = with(0, ONCE, &[[0x0F, 0x20]]);
    assert_eq!(profile_of(&pipe), (columns, 31));
    // the flip swaps 0 with 31, 1 with 30, ..
    let flipped = [
        31, 23, 15, 7, 30, 22, 14, 6, 29, 21, 13, 5, 28, 20, 12, 4, //
        27, 19, 11, 3, 26, 18, 10, 2, 25, 17, 9, 1, 24, 16, 8, 0,
    ];
    let pipe = with(INVERTED, ONCE, &[[0x0F, 0x20]]);
    assert_eq!(profile_of(&pipe), (flipped, 31));
}

/// 16 taps of difference 1, whose gap of 9 is not used: 0 to 15. 16 of difference 2 behind a gap of 5: 20, 22, .. 50.
#[test]
fn two_sections_with_a_gap() {
    let columns = [
        0, 8, 20, 36, 1, 9, 22, 38, 2, 10, 24, 40, 3, 11, 26, 42, //
        4, 12, 28, 44, 5, 13, 30, 46, 6, 14, 32, 48, 7, 15, 34, 50,
    ];
    // 0111 001 01001, and 0111 010 00101
    let pipe = with(0, ONCE, &[[0x07, 0x29], [0x07, 0x45]]);
    assert_eq!(profile_of(&pipe), (columns, 50));
    let without = with(0, ONCE, &[[0x07, 0x20], [0x07, 0x45]]);
    assert_eq!(profile_of(&without), (columns, 50));
    // the four bits before a section's own are not looked at
    let above = with(0, ONCE, &[[0xA7, 0x29], [0xF7, 0x45]]);
    assert_eq!(profile_of(&above), (columns, 50));
}

/// Multipliers 2 and 8/16: 2 x floor(j / 2) is 0 0 2 2 .. 30 30, where floor(2 j / 2) would be j. Multipliers 16 and
/// 5/16: 16 x floor(5 j / 16), of which 16 x floor(15 / 16) = 0 for j = 3 and 16 x floor(20 / 16) = 16 for j = 4; the
/// last is 16 x floor(155 / 16) = 144, where floor(16 x 5 x 31 / 16) would be 155.
#[test]
fn rounding_down_comes_first() {
    let (lengths, greatest) = profile_of(&with(0, [0x01, 0x70], &[[0x0F, 0x20]]));
    assert_eq!(lengths[..8], [0, 8, 16, 24, 0, 8, 16, 24]);
    assert_eq!(lengths[28..], [6, 14, 22, 30]);
    assert_eq!(greatest, 30);
    let (lengths, greatest) = profile_of(&with(0, [0x0F, 0x40], &[[0x0F, 0x20]]));
    // column 3 has j = 3, 11, 19, 27; column 4 has j = 4, 12, 20, 28
    assert_eq!(lengths[12..16], [0, 48, 80, 128]);
    assert_eq!(lengths[16..20], [16, 48, 96, 128]);
    assert_eq!(greatest, 144);
}

/// Eight sections of four taps, difference 7 and gap 31: section i begins at 52 i, and the last tap has 52 x 7 + 21 =
/// 385; 16 times that is 6,160. With k sections it is 7 (32 - k) + 31 (k - 1) = 193 + 24 k, so no other has more.
#[test]
fn the_greatest_delay_that_there_is() {
    let pipe = with(0, [0x0F, 0xF0], &[[0x01, 0xFF]; 8]);
    let (lengths, greatest) = profile_of(&pipe);
    assert_eq!(greatest, 6_160);
    // taps 0, 8, 16 and 24 are the first of sections 0, 2, 4 and 6; taps 7, 15, .. the last of 1, 3, 5 and 7
    assert_eq!(lengths[..4], [0, 1_664, 3_328, 4_992]);
    assert_eq!(lengths[28..], [1_168, 2_832, 4_496, 6_160]);
    for count in 1..8_u8 {
        // two taps in each section but the last
        let mut sections = vec![[0x00, 0xFF]; usize::from(count)];
        sections[usize::from(count) - 1] = [16 - count, 0xFF];
        let (_, greatest) = profile_of(&with(0, [0x0F, 0xF0], &sections));
        assert_eq!(greatest, 16 * (193 + 24 * u16::from(count)));
    }
}

#[test]
fn pipes_without_a_profile() {
    let refused = |pipe: &[u8]| {
        let written = write(pipe, 0, &[], &mut [], &mut []);
        [report(pipe, 0).err(), written.err()] == [Some(PROFILE); 2]
    };
    for length in 0..8 {
        assert!(refused(&UNIFORM[..length]), "{length} bytes");
    }
    assert!(refused(&[&UNIFORM[..], &[0]].concat()));
    assert!(refused(&[&UNIFORM[..], &[0x00, 0x20]].concat()));
    // two sections where the record says one, and the other way round
    assert!(refused(&[&UNIFORM[..6], &[7, 0x20, 7, 0x20]].concat()));
    let two = with(0, ONCE, &[[7, 0x20], [7, 0x20]]);
    assert!(!refused(&two) && refused(&two[..8]));
    // 30 and 34 taps
    assert!(refused(&with(0, ONCE, &[[0x0E, 0x20]])));
    assert!(refused(&with(0, ONCE, &[[7, 0x20], [8, 0x20]])));
    // width 0, with its section and without
    let unused = [0x14, 0x00, 0, 0, 0, 0, 0x0F, 0x20];
    assert!(refused(&unused) && refused(&unused[..6]));
    assert_eq!(report(&UNIFORM, 32), Err(LENGTH));
    assert_eq!(report(&UNIFORM, 34), Err(LENGTH));
}

/// Width 18 is one slot of 4,608 bytes, and the greatest delay is 1: so the memory has two rows.
#[test]
fn buffers_of_a_frame() {
    let lengths = |pipe: &[u8], c, k, m| {
        let (mut memory, mut out) = (vec![0; k], vec![0; m]);
        write(pipe, 0, &vec![0; c], &mut memory, &mut out)
    };
    assert_eq!(lengths(&UNIFORM, 4_608, 9_216, 4_608), Ok(()));
    for (c, k, m) in [
        (4_607, 9_216, 4_608),
        (4_608, 4_608, 4_608),
        (4_608, 13_824, 4_608),
        (4_608, 9_216, 4_609),
        (9_216, 18_432, 9_216),
        (0, 0, 0),
    ] {
        assert_eq!(lengths(&UNIFORM, c, k, m), Err(FRAME));
    }
    let mut pipe = UNIFORM;
    // pattern 28, before any length; and width 17
    pipe[0] = 28 << 2;
    assert_eq!(lengths(&pipe, 0, 0, 0), Err(PATTERN));
    pipe[..2].copy_from_slice(&[0x14, 17]);
    assert_eq!(lengths(&pipe, 4_608, 9_216, 4_608), Err(FRAME));
}

#[test]
fn both_orders_of_the_collector() {
    let slots = [vec!["A0", "A1"], vec!["B0", "B1"], vec!["C0", "C1"]];
    let by_slot = ["A0", "A1", "B0", "B1", "C0", "C1"];
    let by_unit = ["A0", "B0", "C0", "A1", "B1", "C1"];
    for (regrouping, due) in [(false, by_slot), (true, by_unit)] {
        assert_eq!(collect(&slots, regrouping), due);
        assert_eq!(uncollect(&due, 3, regrouping), slots);
    }
}

/// A codeword whose unit k, behind the mixer, is 64 times the byte k + 1.
fn marked_codeword(pattern: u32, units: u8) -> Vec<u8> {
    let mixed: Vec<u8> = (1..=units).flat_map(|mark| [mark; 64]).collect();
    unmix(pattern, &mixed).expect("a codeword of the pattern")
}

/// The lengths 0, 8, 16, 24, 1, .. (a_uniform_profile) in a pipe of pattern 27, whose codeword has 28 units: of frame 0
/// unit k goes out in frame 31 - length[k], and until then its tap gives zeros. Unit 27 has 30 and goes first, in frame 1:
/// the tap of 31, which would send at once, is among the four that no unit has. Unit 0 goes last, in frame 31.
#[test]
fn units_of_a_frame_go_out_one_by_one() {
    let mut bytes = with(0, ONCE, &[[0x0F, 0x20]]);
    bytes[..2].copy_from_slice(&[27 << 2, 7]);
    let mut transmitter = Transmitter::new(Pipe::of(&bytes).unwrap());
    let mut gone = Vec::new();
    for frame in 0..40 {
        let codeword = match frame {
            0 => marked_codeword(27, 28),
            _ => vec![0; 1_792],
        };
        let out = transmitter.frame(&codeword);
        for (k, unit) in out.chunks(64).enumerate() {
            let due = if gone.iter().any(|(_, gone)| *gone == k) {
                0
            } else {
                unit[0]
            };
            assert!(unit.iter().all(|byte| *byte == due));
            if due != 0 {
                assert_eq!(usize::from(due), k + 1, "a unit keeps its place");
                gone.push((frame, k));
            }
        }
    }
    let columns = (0..28).map(|k| (31 - (k % 4 * 8 + k / 4), k));
    let mut due: Vec<(usize, usize)> = columns.collect();
    due.sort_unstable();
    assert_eq!(gone, due);
    assert_eq!((gone[0], gone[27]), ((1, 27), (31, 0)));
}

/// The receiver's delay and ours add up to the greatest at each place, of which there are at most 120.
#[test]
fn delays_add_up() {
    let mut rng = Rng::new(811);
    for _ in 0..500 {
        let (fields, sections) = record(&inputs::profiled_pipe(&mut rng)).unwrap();
        let profile = Profile::of(&fields, &sections);
        assert_eq!(profile.receiver.iter().max(), Some(&profile.greatest));
        assert_eq!(profile.receiver.iter().min(), Some(&0));
        for k in 0..120 {
            let both = profile.delay(k) + profile.receiver_delay(k);
            assert_eq!(both, profile.greatest);
            assert_eq!(profile.receiver_delay(k), profile.receiver[k % 32]);
        }
    }
}

/// From a memory of zeros, the ring gives what a transmitter gives that keeps all frames; and a receiver has every
/// codeword back as many frames later as the greatest delay says.
#[test]
fn the_ring_and_all_frames() {
    let mut rng = Rng::new(812);
    for _ in 0..40 {
        let bytes = inputs::framed_pipe(&mut rng, 3, 100_000);
        let [of_sender, of_receiver] = [(); 2].map(|()| Pipe::of(&bytes).unwrap());
        let (greatest, frame_bytes) = (of_sender.profile.greatest, of_sender.frame_bytes());
        let mut memory = vec![0; of_sender.memory_bytes()];
        let mut transmitter = Transmitter::new(of_sender);
        let mut receiver = Receiver::new(of_receiver);
        let mut sent = vec![vec![0; frame_bytes]; greatest];
        for frame in 0..greatest + 5 {
            let codewords = rng.bytes(frame_bytes);
            let mut out = rng.bytes(frame_bytes);
            let written = write(&bytes, frame as u32, &codewords, &mut memory, &mut out);
            assert_eq!(written, Ok(()));
            assert!(out == transmitter.frame(&codewords), "{bytes:02X?}");
            sent.push(codewords);
            assert!(receiver.frame(&out) == sent[frame], "{bytes:02X?}");
        }
    }
}
