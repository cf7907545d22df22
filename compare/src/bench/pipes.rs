//! The rows of pipes: the mixer, profiles, and the pipe of a frame in the midst of others.

use super::library;
use super::row::{row, Row, Tables, Title};
use crate::inputs::Coding;
use crate::rng::Rng;
use crate::second::mixer;
use crate::second::pipe::{write, Pipe};
use crate::second::profile::{report, PROFILE_NUMBERS};
use crate::second::turbo::{PAYLOAD_BLOCK, SIGNALLING_BLOCK};
use std::hint::black_box;

/// What is mixed: pattern and block.
const MIXED: [(u32, usize); 4] = [
    (0, PAYLOAD_BLOCK),
    (13, PAYLOAD_BLOCK),
    (27, PAYLOAD_BLOCK),
    (0, SIGNALLING_BLOCK),
];

/// The slots of the pipes that are measured.
const SLOTS: u32 = 4;
/// The bytes in which a frame's number stands before its codewords.
const NUMBER_BYTES: usize = 4;
/// Regrouping_Flag in byte 3 of a record.
const REGROUPING: u8 = 0x40;
/// Tap_Diff_Mult_Int_1 as 0 and Tap_Diff_Mult_Fract_1_16 as 7, in the last two bytes of a record: half of each length.
const HALVED: [u8; 2] = [0x00, 0x70];
/// A section of 32 taps of difference 1, so that halved lengths go up to 15; and one of four taps, of difference 7 behind
/// a gap of 31.
const UNIFORM: [u8; 2] = [0x0F, 0x20];
const WIDEST: [u8; 2] = [0x01, 0xFF];

pub(super) fn rows<'a>() -> Vec<Box<dyn Row + 'a>> {
    let mixed = MIXED.map(|(pattern, block)| mix(Coding { pattern, block }));
    let profiles = [
        profile("one section", &[UNIFORM]),
        profile("eight sections", &[WIDEST; 8]),
    ];
    let pipes = [(0, 0), (13, 0), (13, REGROUPING), (27, REGROUPING)];
    let pipes = pipes.map(|(pattern, flags)| pipe(pattern, flags));
    mixed.into_iter().chain(profiles).chain(pipes).collect()
}

/// Of a function for which the second implementation looks at the 28 patterns, a table that the first call makes for all.
fn title(function: &'static str, case: String) -> Title {
    Title {
        function,
        case,
        tables: Tables::Before,
    }
}

fn mix<'a>(coding: Coding) -> Box<dyn Row + 'a> {
    let (pattern, length) = (coding.pattern, coding.codeword_bytes());
    row(
        title("opl_mix", format!("pattern {pattern}, {length} bytes")),
        length,
        move |rng| rng.bytes(length),
        move |codeword, mixed| library::mix(pattern, codeword, mixed),
        move |codeword, mixed| {
            black_box(&mut *mixed).fill(0);
            mixer::mix_into(pattern, codeword, mixed)
        },
    )
}

/// The record of a pipe of four slots and its sections.
fn lent(pattern: u32, flags: u8, sections: &[[u8; 2]]) -> Vec<u8> {
    let coding = Coding {
        pattern,
        block: PAYLOAD_BLOCK,
    };
    let width = SLOTS as usize * coding.codeword_bytes() / 256;
    let [high, low] = (width as u16).to_be_bytes();
    let count = sections.len() as u8 - 1;
    let mut pipe = vec![(pattern as u8) << 2 | high, low, count, flags];
    pipe.extend(HALVED);
    pipe.extend(sections.concat());
    pipe
}

fn profile<'a>(case: &str, sections: &[[u8; 2]]) -> Box<dyn Row + 'a> {
    let pipe = lent(13, 0, sections);
    row(
        Title {
            tables: Tables::None,
            ..title("opl_profile", case.to_string())
        },
        PROFILE_NUMBERS,
        move |_| pipe.clone(),
        library::profile,
        |pipe, profile| {
            black_box(&mut *profile).fill(0);
            profile.copy_from_slice(&report(pipe, PROFILE_NUMBERS)?);
            Ok(())
        },
    )
}

/// What is read is the frame's number and its codewords. Each side keeps a memory of its own: a call that is made once
/// more writes what the first wrote, and so the two memories stay alike.
fn pipe<'a>(pattern: u32, flags: u8) -> Box<dyn Row + 'a> {
    let lent = lent(pattern, flags, &[UNIFORM]);
    let its = Pipe::of(&lent).expect("a pipe that is accepted");
    let order = match its.regrouping {
        true => "by unit",
        false => "by slot",
    };
    let case = format!("pattern {pattern}, {SLOTS} slots, {order}");
    let frame_bytes = its.frame_bytes();
    let mut memory = Rng::new(1).bytes(its.memory_bytes());
    let (mut seconds, of_second) = (memory.clone(), lent.clone());
    row(
        title("opl_pipe", case),
        frame_bytes,
        move |rng| rng.bytes(NUMBER_BYTES + frame_bytes),
        move |input, out| {
            let (number, codewords) = number_and_codewords(input);
            library::pipe(&lent, number, codewords, &mut memory, out)
        },
        move |input, out| {
            let (number, codewords) = number_and_codewords(input);
            black_box(&mut *out).fill(0);
            write(&of_second, number, codewords, &mut seconds, out)
        },
    )
}

fn number_and_codewords(input: &[u8]) -> (u32, &[u8]) {
    let (number, codewords) = input.split_at(NUMBER_BYTES);
    let number = number.iter().fold(0, |n, byte| n << 8 | u32::from(*byte));
    (number, codewords)
}
