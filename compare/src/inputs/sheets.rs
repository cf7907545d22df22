//! Sheets.

use super::descriptions::{break_later, breaking, description, description_where, fault, overlong};
use super::flip;
use crate::rng::Rng;
use crate::second::description::{
    Description, Multiplex, Pipe, PipeFields, Section, Stream, TailFields,
};
use crate::second::refusal;
use crate::second::signalling::{owned, sheet_of, SHEET_FIXED, WORD_BYTES};

/// The refusals of the way from sheet to word, in 01's order.
pub const SHEET_REFUSALS: [u8; 9] = [1, 12, 14, 6, 13, 7, 9, 10, 11];

/// The sheet of a valid description.
pub fn sheet(rng: &mut Rng) -> Vec<u8> {
    sheet_of(&description(rng))
}

/// A sheet that may be accepted or refused: bits flipped, header damage,
/// faults in a description, random records under a sound header, random bytes.
pub fn mutated_sheet(rng: &mut Rng) -> Vec<u8> {
    match rng.below(12) {
        0 | 1 => {
            let mut sheet = sheet(rng);
            let end = 8 * sheet.len();
            flip(rng, &mut sheet, 0, end);
            sheet
        }
        2 | 3 => {
            let mut sheet = sheet(rng);
            let end = 8 * sheet.len();
            flip(rng, &mut sheet, 96, end);
            sheet
        }
        4 => {
            let mut sheet = sheet(rng);
            damage_header(rng, &mut sheet);
            sheet
        }
        5..=7 => {
            let mut description = description(rng);
            for _ in 0..rng.range(1, 2) {
                fault(rng, &mut description);
            }
            sheet_of(&description)
        }
        8 => {
            // Any records under a sound header.
            let most = [4, 20, 256][rng.below(3)];
            let (p, s, d) = (rng.below(most), rng.below(most), rng.below(most));
            let mut sheet = header(p, s, d);
            sheet.extend(rng.bytes(9 + 6 * p + 2 * s + 2 * d));
            if rng.chance(3, 4) {
                clear_section_tops(&mut sheet, d);
            }
            if rng.chance(3, 4) {
                sheet[12] &= 0x0F;
            }
            if rng.chance(3, 4) {
                sheet[18] = sheet[18] & 0xF0 | p as u8 & 0x0F;
            }
            sheet
        }
        9 | 10 => random_records(rng),
        _ => {
            let most = [SHEET_FIXED + 2, 150, 3000][rng.below(3)];
            let length = rng.below(most);
            let mut sheet = rng.bytes(length);
            let sound = header(0, 0, 0);
            for (byte, good) in sheet.iter_mut().zip(&sound) {
                if rng.chance(3, 4) {
                    *byte = *good;
                }
            }
            sheet
        }
    }
}

/// A sheet and a word length to which the writer gives exactly this refusal;
/// later rules of the order may be broken as well. None if it never gives it.
pub fn refused_sheet(rng: &mut Rng, number: u8) -> Option<(Vec<u8>, usize)> {
    let sheet = match number {
        refusal::LENGTH => {
            let sheet = if rng.flag() {
                sheet(rng)
            } else {
                mutated_sheet(rng)
            };
            let mut length = [0, 95, 97, 128, 762, rng.below(3000)][rng.below(6)];
            if length == WORD_BYTES {
                length = 0;
            }
            return Some((sheet, length));
        }
        refusal::HEADER => {
            let mut sheet = sheet(rng);
            if rng.chance(1, 3) {
                // Records may be anything under an unsound header.
                let end = 8 * sheet.len();
                flip(rng, &mut sheet, 96, end);
            }
            damage_header(rng, &mut sheet);
            sheet
        }
        refusal::SECTION_TOP => {
            let mut description = description_where(rng, |description| description.counts().2 > 0);
            if rng.flag() {
                fault(rng, &mut description);
            }
            let mut sheet = sheet_of(&description);
            let d = usize::from(sheet[2]);
            let at = sheet.len() - 2 * rng.range(1, d);
            sheet[at] |= (rng.range(1, 15) as u8) << 4;
            sheet
        }
        refusal::VERSION => {
            let mut description = description(rng);
            if rng.flag() {
                fault(rng, &mut description);
            }
            description.multiplex.sig_pipe_ver = rng.range(1, 15) as u32;
            sheet_of(&description)
        }
        refusal::COUNTS => miscounted(rng),
        refusal::LISTS => sheet_of(&overlong(rng)),
        refusal::WIDTH | refusal::TAPS | refusal::TWICE => sheet_of(&breaking(rng, number)),
        _ => return None,
    };
    Some((sheet, WORD_BYTES))
}

/// A sheet under a sound header whose counts are not what the records say.
fn miscounted(rng: &mut Rng) -> Vec<u8> {
    loop {
        let mut description = if rng.chance(1, 4) {
            overlong(rng)
        } else {
            description(rng)
        };
        if rng.chance(1, 3) {
            break_later(rng, &mut description);
        }
        for _ in 0..rng.range(1, 2) {
            let index = rng.below(description.pipes.len().max(1));
            let pipe = description.pipes.get_mut(index);
            match (rng.below(8), pipe) {
                (0, _) => description.multiplex.num_pipes_1 = rng.field(4),
                (1, _) => description.tail.fields.pipe_width_cus = rng.field(9),
                (2, _) => description.tail.stream = rng.flag().then(Stream::default),
                (3, Some(pipe)) => pipe.fields.pipe_width_cus = 0,
                (3, None) => description.pipes.push(Pipe::default()),
                (4, Some(pipe)) => pipe.fields.num_sts_1 = rng.field(5),
                (5, Some(pipe)) => pipe.fields.num_disperser_sections_1 = rng.field(3),
                (6, Some(pipe)) => pipe.streams.push(Stream::default()),
                (7, Some(pipe)) => pipe.sections.push(Section::default()),
                _ => {}
            }
        }
        let (p, s, d) = description.counts();
        let pipes: Vec<PipeFields> = description
            .pipes
            .iter()
            .map(|pipe| pipe.fields.clone())
            .collect();
        let said = owned(&pipes, &description.tail.fields);
        let differ = p != description.multiplex.num_pipes_1 as usize || (s, d) != said;
        if differ && p.max(s).max(d) <= 255 {
            return sheet_of(&description);
        }
    }
}

/// A sheet of random records whose header says what the records say.
fn random_records(rng: &mut Rng) -> Vec<u8> {
    loop {
        let p = rng.below(16);
        let unused = rng.range(0, 4);
        let pipes: Vec<PipeFields> = (0..p)
            .map(|_| PipeFields {
                punct_pat_id: rng.field(6),
                pipe_width_cus: if rng.chance(unused, 4) {
                    0
                } else {
                    rng.field(10)
                },
                num_sts_1: if rng.flag() {
                    rng.field(5)
                } else {
                    rng.field(2)
                },
                num_disperser_sections_1: if rng.flag() { rng.field(3) } else { 0 },
                ..PipeFields::default()
            })
            .collect();
        let tail = TailFields {
            pipe_width_cus: rng.field(9),
            ..TailFields::default()
        };
        let (s, d) = owned(&pipes, &tail);
        if s > 255 {
            continue;
        }
        let streams = (0..s)
            .map(|_| Stream {
                sts_id: rng.field(8),
                sts_width_slots_1: rng.field(8),
            })
            .collect();
        let sections = (0..d)
            .map(|_| Section {
                num_taps_div2_1: if rng.flag() { 15 } else { rng.field(4) },
                tap_diff: rng.field(3),
                gap_width: rng.field(5),
            })
            .collect();
        let multiplex = Multiplex {
            num_pipes_1: p as u32,
            ..Multiplex::default()
        };
        return sheet_of(&Description::assemble(
            multiplex, pipes, tail, streams, sections,
        ));
    }
}

/// A sound header for counts of at most 255.
fn header(p: usize, s: usize, d: usize) -> Vec<u8> {
    let streams = SHEET_FIXED + 6 * p;
    let sections = streams + 2 * s;
    let mut header = vec![p as u8, s as u8, d as u8, 0];
    for number in [SHEET_FIXED, streams, sections, sections + 2 * d] {
        header.extend((number as u16).to_be_bytes());
    }
    header
}

fn clear_section_tops(sheet: &mut [u8], d: usize) {
    let length = sheet.len();
    for section in sheet[length - 2 * d..].chunks_mut(2) {
        section[0] &= 0x0F;
    }
}

/// Makes a sound header unsound.
fn damage_header(rng: &mut Rng, sheet: &mut Vec<u8>) {
    match rng.below(5) {
        // One byte of the header changed. (Counts, zero byte, offsets, total:
        // each alone makes the header wrong.)
        0 | 1 => {
            let at = rng.below(12);
            sheet[at] ^= rng.range(1, 255) as u8;
        }
        2 => sheet.truncate(rng.below(sheet.len())),
        3 => {
            let more = [1, 2, 6, 100, 2600][rng.below(5)];
            sheet.extend(rng.bytes(more));
        }
        _ => {
            // A count changed and the total with it, but not the offsets, or
            // not all of them.
            let (p, s, d) = (sheet[0], sheet[1], sheet[2]);
            let good = header(usize::from(p), usize::from(s), usize::from(d));
            let other = header(usize::from(p) + 1, usize::from(s) + 1, usize::from(d) + 1);
            sheet[..12].copy_from_slice(&good);
            let at = 2 * rng.range(2, 4);
            if at == 4 {
                sheet[5] ^= 1 << rng.below(8);
            } else {
                sheet[at..at + 2].copy_from_slice(&other[at..at + 2]);
            }
        }
    }
}
