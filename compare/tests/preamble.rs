//! opl_preamble and opl_preamble_form against the second implementation.

use compare::inputs;
use compare::opl;
use compare::rng::Rng;
use compare::second::bits::{bit, bits, set_bit};
use compare::second::preamble::{preamble, report, write, Form};
use std::collections::BTreeSet;
use std::ops::Range;

const TEXT: &[u8] = b"SOF preamble: New C-TS frame";
const PADDING: [u8; 4] = [0xFF, 0xFF, 0xFF, 0xFC];

const NEITHER: u8 = 0;
const UPRIGHT: u8 = 1;
const INVERTED: u8 = 2;

/// Lengths that are not 32: other lengths of the library, and lengths that are 32 when cut to 8, 16 or 24 bits.
const LARGE: [usize; 13] = [
    95,
    96,
    127,
    128,
    255,
    256,
    256 + 32,
    1_532,
    1_536,
    65_536,
    65_536 + 32,
    1 << 20,
    (1 << 24) + 32,
];

/// Lengths that are not 1, chosen alike.
const LARGE_FORMS: [usize; 9] = [
    96,
    255,
    256,
    256 + 1,
    1_536,
    65_536,
    65_536 + 1,
    1 << 20,
    (1 << 24) + 1,
];

/// The bits in which both differ.
fn differing_bits(one: &[u8], other: &[u8]) -> u32 {
    let pairs = one.iter().zip(other);
    pairs.map(|(one, other)| (one ^ other).count_ones()).sum()
}

/// The preamble that the library writes for this number over these 32 bytes.
#[track_caller]
fn written(inverted: u8, held: &[u8]) -> [u8; 32] {
    let mut out = [0; 32];
    out.copy_from_slice(held);
    assert_eq!(opl::preamble(inverted, &mut out), 0, "{inverted}");
    out
}

/// The form that the library tells of 32 bytes, in a byte that held this. Panics unless the second implementation
/// tells the same.
#[track_caller]
fn form(bytes: &[u8], held: u8) -> u8 {
    let mut form = [held];
    let refusal = opl::preamble_form(bytes, &mut form);
    let told = (refusal == 0).then_some(form).ok_or(refusal);
    assert_eq!(told, report(bytes, 1), "{held} before, of {bytes:02X?}");
    form[0]
}

/// Panics unless these bytes are neither of the preambles.
#[track_caller]
fn is_neither(rng: &mut Rng, bytes: &[u8], what: &str) {
    assert_eq!(form(bytes, rng.byte()), NEITHER, "{what}: {bytes:02X?}");
}

/// The number that both give for these bytes and a form of that length, filled at random. Panics unless they agree
/// on it and on all that the form is then. That the bytes stay, a call's guards see.
#[track_caller]
fn both_tell(rng: &mut Rng, bytes: &[u8], length: usize) -> u8 {
    let held = rng.bytes(length);
    let (number, expected) = match report(bytes, length) {
        Ok(form) => (0, form.to_vec()),
        Err(number) => (number, held.clone()),
    };
    let mut form = held;
    let lengths = format!("{} bytes, {length} of the form", bytes.len());
    assert_eq!(opl::preamble_form(bytes, &mut form), number, "{lengths}");
    assert!(form == expected, "{lengths}");
    number
}

#[test]
fn the_second_preambles_are_the_text_and_its_inverse_and_are_balanced() {
    let [upright, inverted] = [false, true].map(preamble);
    assert_eq!(upright[..28], *TEXT);
    assert_eq!(upright[28..], PADDING);
    for (&byte, inverse) in upright.iter().zip(inverted) {
        assert_eq!((byte & inverse, byte | inverse), (0x00, 0xFF));
    }
    assert_eq!(differing_bits(&upright, &inverted), 256);
    for sof in [upright, inverted] {
        let ones = bits(&sof, 0, 256).filter(|one| *one).count();
        assert_eq!((sof.len(), ones), (32, 128));
    }
}

#[test]
fn the_second_forms_have_the_numbers_of_the_header() {
    let [upright, inverted] = [false, true].map(preamble);
    assert_eq!(report(&upright, 1), Ok([UPRIGHT]));
    assert_eq!(report(&inverted, 1), Ok([INVERTED]));
    assert_eq!(report(&[0; 32], 1), Ok([NEITHER]));
    let forms = [Form::Neither, Form::Upright, Form::Inverted];
    assert_eq!(forms.map(|form| form as u8), [NEITHER, UPRIGHT, INVERTED]);
}

#[test]
fn the_library_writes_the_same_whatever_the_buffer_held() {
    let mut rng = Rng::new(1);
    for inverted in 0..=255 {
        for held in [
            [0x00; 32].to_vec(),
            [0xFF; 32].to_vec(),
            rng.bytes(32),
            preamble(false).to_vec(),
            preamble(true).to_vec(),
        ] {
            let out = written(inverted, &held);
            assert_eq!(out, preamble(inverted != 0), "{inverted}");
            assert_eq!(write(inverted, 32), Ok(out), "{inverted}");
        }
    }
}

#[test]
fn every_number_but_0_asks_for_the_same_and_0_for_its_inverse() {
    let mut rng = Rng::new(2);
    let first = written(1, &rng.bytes(32));
    for inverted in 1..=255 {
        let upright = written(0, &rng.bytes(32));
        let out = written(inverted, &rng.bytes(32));
        assert_eq!(out, first, "{inverted}");
        assert_eq!(differing_bits(&out, &upright), 256, "{inverted}");
    }
}

/// Frame after frame, each over the preamble of the frame before.
#[test]
fn the_two_are_written_in_turn() {
    let mut rng = Rng::new(3);
    let mut before = written(1, &rng.bytes(32));
    for frame in 0..20 {
        let now = written(frame % 2, &before);
        assert_eq!(differing_bits(&now, &before), 256, "frame {frame}");
        before = now;
    }
}

#[test]
fn any_other_length_is_refused_and_nothing_is_touched() {
    let mut rng = Rng::new(4);
    for n in (0..=64).filter(|&n| n != 32).chain(LARGE) {
        for inverted in [0, 1] {
            let held = rng.bytes(n);
            let mut out = held.clone();
            assert_eq!(opl::preamble(inverted, &mut out), 1, "{n} bytes");
            assert!(out == held, "{n} bytes were touched");
            assert_eq!(write(inverted, n), Err(1), "{n} bytes");
        }
    }
}

#[test]
fn what_is_written_has_the_form_that_was_asked_for() {
    let mut rng = Rng::new(5);
    for inverted in 0..=255 {
        let out = written(inverted, &rng.bytes(32));
        let due = if inverted == 0 { UPRIGHT } else { INVERTED };
        assert_eq!(form(&out, rng.byte()), due, "{inverted}");
    }
}

#[test]
fn each_form_is_told_whatever_the_byte_held() {
    let mut off = preamble(false);
    off[31] ^= 1;
    let known = [
        (preamble(false), UPRIGHT),
        (preamble(true), INVERTED),
        (off, NEITHER),
        ([0; 32], NEITHER),
    ];
    for held in 0..=255 {
        for (bytes, due) in known {
            assert_eq!(form(&bytes, held), due, "{held} before");
        }
    }
}

fn with_a_bit_flipped(mut bytes: [u8; 32], index: usize) -> [u8; 32] {
    let flipped = !bit(&bytes, index);
    set_bit(&mut bytes, index, flipped);
    bytes
}

#[test]
fn a_preamble_with_one_or_two_bits_flipped_is_neither() {
    let mut rng = Rng::new(6);
    for sof in [false, true].map(preamble) {
        for one in 0..256 {
            let off = with_a_bit_flipped(sof, one);
            is_neither(&mut rng, &off, &format!("bit {one}"));
            for other in one + 1..256 {
                let off = with_a_bit_flipped(off, other);
                is_neither(&mut rng, &off, &format!("bits {one} and {other}"));
            }
        }
    }
}

/// A preamble with these bytes inverted.
fn partly_inverted(inverted: bool, places: Range<usize>) -> [u8; 32] {
    let mut bytes = preamble(inverted);
    for byte in &mut bytes[places] {
        *byte = !*byte;
    }
    bytes
}

#[test]
fn a_preamble_with_one_byte_inverted_is_neither() {
    let mut rng = Rng::new(7);
    for inverted in [false, true] {
        for place in 0..32 {
            let bytes = partly_inverted(inverted, place..place + 1);
            is_neither(&mut rng, &bytes, &format!("byte {place}"));
        }
    }
}

#[test]
fn text_and_padding_of_different_forms_are_neither() {
    let mut rng = Rng::new(8);
    for inverted in [false, true] {
        let text = partly_inverted(inverted, 0..28);
        is_neither(&mut rng, &text, "the text alone inverted");
        let padding = partly_inverted(inverted, 28..32);
        is_neither(&mut rng, &padding, "the padding alone inverted");
    }
}

/// With all of its bytes inverted a preamble is the other one.
#[test]
fn a_preamble_with_a_run_of_bytes_inverted_is_neither() {
    let mut rng = Rng::new(9);
    for (inverted, other) in [(false, INVERTED), (true, UPRIGHT)] {
        for from in 0..32 {
            for to in from + 1..=32 {
                let bytes = partly_inverted(inverted, from..to);
                let due = if to - from == 32 { other } else { NEITHER };
                assert_eq!(form(&bytes, rng.byte()), due, "bytes {from} to {to}");
            }
        }
    }
}

#[test]
fn a_preamble_that_is_moved_is_neither() {
    let mut rng = Rng::new(10);
    for sof in [false, true].map(preamble) {
        for by in 1..256 {
            let mut turned = [0; 32];
            for index in 0..256 {
                set_bit(&mut turned, index, bit(&sof, (index + by) % 256));
            }
            is_neither(&mut rng, &turned, &format!("turned by {by} bits"));
        }
        for beside in [[0x00; 32], [0xFF; 32], sof, sof.map(|byte| !byte)] {
            let [before, behind] = [[beside, sof], [sof, beside]].map(|both| both.concat());
            for by in 1..32 {
                is_neither(&mut rng, &before[by..by + 32], &format!("late by {by}"));
                is_neither(&mut rng, &behind[by..by + 32], &format!("early by {by}"));
            }
        }
    }
}

#[test]
fn a_preamble_in_another_order_is_neither() {
    let mut rng = Rng::new(11);
    for sof in [false, true].map(preamble) {
        let mut backwards = sof;
        backwards.reverse();
        is_neither(&mut rng, &backwards, "bytes backwards");
        is_neither(&mut rng, &sof.map(u8::reverse_bits), "bits backwards");
        for size in [2, 4, 8, 16] {
            let mut swapped = sof;
            swapped.chunks_exact_mut(size).for_each(<[u8]>::reverse);
            is_neither(
                &mut rng,
                &swapped,
                &format!("words of {size} bytes swapped"),
            );
        }
    }
}

#[test]
fn bytes_of_one_value_and_any_bytes_are_neither() {
    let mut rng = Rng::new(12);
    for byte in 0..=255 {
        is_neither(&mut rng, &[byte; 32], "one value");
    }
    for _ in 0..2_000 {
        let any = rng.bytes(32);
        is_neither(&mut rng, &any, "any");
    }
}

/// They are known by the number of bits in which they differ from the upright preamble. From the inverted one they
/// differ in all others.
#[test]
fn made_up_bytes_are_of_every_kind() {
    let mut rng = Rng::new(13);
    let upright = preamble(false);
    let mut made_up = || {
        let bytes = inputs::preamble_bytes(&mut rng);
        assert_eq!(bytes.len(), 32);
        let due = match differing_bits(&bytes, &upright) {
            0 => UPRIGHT,
            256 => INVERTED,
            _ => NEITHER,
        };
        assert_eq!(form(&bytes, rng.byte()), due);
        differing_bits(&bytes, &upright)
    };
    let met: BTreeSet<u32> = (0..1_000).map(|_| made_up()).collect();
    // none, one and a few bits off, the padding inverted and not the text, half of the bits off
    for off in [0, 1, 2, 3, 32, 128] {
        assert!(met.contains(&off), "{off} off the upright preamble");
        assert!(met.contains(&(256 - off)), "{off} off the inverted one");
    }
}

#[test]
fn made_up_choices_are_0_and_any_other() {
    let mut rng = Rng::new(14);
    let choices: Vec<u8> = (0..4_000)
        .map(|_| inputs::preamble_choice(&mut rng))
        .collect();
    let upright = choices.iter().filter(|choice| **choice == 0).count();
    assert!((1_800..2_200).contains(&upright), "{upright}");
    assert_eq!(choices.iter().collect::<BTreeSet<_>>().len(), 256);
}

/// Cut short or lengthened, a preamble is refused and not told of.
#[test]
fn lengths_of_bytes_and_of_the_form() {
    let mut rng = Rng::new(15);
    let [upright, inverted] = [false, true].map(|inverted| preamble(inverted).to_vec());
    let fronts = [
        [&upright[..], &inverted].concat(),
        [&inverted[..], &upright].concat(),
        rng.bytes(64),
    ];
    for n in 0..=64 {
        for length in 0..=64 {
            let due = u8::from((n, length) != (32, 1));
            for front in &fronts {
                assert_eq!(both_tell(&mut rng, &front[..n], length), due);
            }
        }
    }
}

#[test]
fn large_lengths_of_bytes_and_of_the_form() {
    let mut rng = Rng::new(16);
    let lengthened = |rng: &mut Rng, n: usize| {
        let mut bytes = preamble(rng.flag()).to_vec();
        bytes.resize_with(n, || rng.byte());
        bytes
    };
    for n in LARGE {
        let bytes = lengthened(&mut rng, n);
        for length in [0, 1, 2, 256 + 1] {
            assert_eq!(both_tell(&mut rng, &bytes, length), 1);
        }
    }
    for length in LARGE_FORMS {
        for n in [0, 31, 32, 33, 256 + 32] {
            let bytes = lengthened(&mut rng, n);
            assert_eq!(both_tell(&mut rng, &bytes, length), 1);
        }
    }
}
