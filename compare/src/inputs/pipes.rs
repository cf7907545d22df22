//! Pipes: records with their sections, as they are lent, and the codewords of frames.

use super::descriptions::good_sections;
use crate::rng::Rng;
use crate::second::bits::BitWriter;
use crate::second::description::{PipeFields, Section};
use crate::second::patterns;
use crate::second::pipe::Pipe;
use crate::second::profile::{RECORD_BYTES, SECTION_BYTES};

/// The most sections that a pipe owns.
const SECTIONS: usize = 8;
/// What the fields Punct_Pat_ID and Pipe_Width_CUs can say.
const PATTERN_NUMBERS: usize = 64;
const WIDTH_MOST: usize = 1_023;
/// Where Num_Disperser_Sections_1 stands in the record's byte 2, and Num_Taps_Div2_1 in a section's first byte.
const COUNT_MASK: u8 = 0x07;
const TAPS_MASK: u8 = 0x0F;
/// The patterns that there are.
const PATTERNS: usize = 28;

/// A pipe's record and its sections. The four bits before a section's own are anything, as they are not looked at.
pub fn pipe_bytes(rng: &mut Rng, fields: &PipeFields, sections: &[Section]) -> Vec<u8> {
    let mut to = BitWriter::new();
    fields.write(&mut to);
    for section in sections {
        to.number(4, rng.field(4));
        section.write(&mut to);
    }
    to.into_bytes()
}

/// A pipe that has a profile; pattern and width may be such that its frames are refused.
pub fn profiled_pipe(rng: &mut Rng) -> Vec<u8> {
    let width = rng.range(1, WIDTH_MOST) as u32;
    let fields = PipeFields {
        punct_pat_id: rng.field(6),
        pipe_width_cus: [width, width, 1, 256][rng.below(4)],
        tap_diff_mult_int_1: rng.field(4),
        tap_diff_mult_fract_1_16: rng.field(4),
        ..other_fields(rng)
    };
    let count = rng.range(1, SECTIONS);
    let sections = good_sections(rng, count);
    with_sections(rng, fields, &sections)
}

/// A pipe whose frames are accepted, and whose memory has at most that many bytes. It is of any pattern and of up to
/// `slots` slots.
pub fn framed_pipe(rng: &mut Rng, slots: usize, memory_most: usize) -> Vec<u8> {
    let pattern = rng.below(PATTERNS) as u32;
    framed_pipe_of(rng, pattern, slots, memory_most)
}

/// The same of this pattern.
pub fn framed_pipe_of(rng: &mut Rng, pattern: u32, slots: usize, memory_most: usize) -> Vec<u8> {
    let units = patterns::pattern(pattern).expect("a pattern");
    loop {
        let width = units.capacity_units() * rng.range(1, slots) as u32;
        let sections = near_sections(rng);
        let fields = PipeFields {
            punct_pat_id: pattern,
            pipe_width_cus: width,
            tap_diff_mult_int_1: [0, 0, 1, rng.field(4)][rng.below(4)],
            tap_diff_mult_fract_1_16: rng.field(4),
            ..other_fields(rng)
        };
        let pipe = with_sections(rng, fields, &sections);
        let fits = |pipe: &Pipe| pipe.memory_bytes() <= memory_most;
        if Pipe::of(&pipe).is_ok_and(|pipe| fits(&pipe)) {
            return pipe;
        }
    }
}

/// A pipe of one slot that has no delay at all.
pub fn flat_pipe(rng: &mut Rng, pattern: u32) -> Vec<u8> {
    let units = patterns::pattern(pattern).expect("a pattern");
    let fields = PipeFields {
        punct_pat_id: pattern,
        pipe_width_cus: units.capacity_units(),
        tap_diff_mult_int_1: rng.field(4),
        tap_diff_mult_fract_1_16: rng.field(4),
        ..other_fields(rng)
    };
    let section = Section {
        num_taps_div2_1: 15,
        tap_diff: 0,
        gap_width: rng.field(5),
    };
    with_sections(rng, fields, &[section])
}

/// Sections of small tap length differences and gaps.
fn near_sections(rng: &mut Rng) -> Vec<Section> {
    let count = rng.range(1, SECTIONS);
    let diff_most = [0, 1, 1, 7][rng.below(4)];
    let mut sections = good_sections(rng, count);
    for section in &mut sections {
        section.tap_diff = rng.range(0, diff_most) as u32;
        section.gap_width = [0, 1, rng.below(8) as u32, rng.field(5)][rng.below(4)];
    }
    // it is not used
    sections[0].gap_width = rng.field(5);
    sections
}

/// The fields that are not looked at, and the two flags.
fn other_fields(rng: &mut Rng) -> PipeFields {
    PipeFields {
        num_sts_1: rng.field(5),
        disperser_inv_flag: rng.flag(),
        regrouping_flag: rng.flag(),
        inter_schedule_period_countdown_slots: rng.field(10),
        schedule_index: rng.field(4),
        ..PipeFields::default()
    }
}

fn with_sections(rng: &mut Rng, fields: PipeFields, sections: &[Section]) -> Vec<u8> {
    let fields = PipeFields {
        num_disperser_sections_1: sections.len() as u32 - 1,
        ..fields
    };
    pipe_bytes(rng, &fields, sections)
}

/// Why a pipe has no profile.
#[derive(Clone, Copy, Debug)]
pub enum NoProfile {
    /// Fewer bytes than a record has.
    CutRecord,
    /// The width is 0; the sections that its record speaks of are there, or none is.
    NotInUse,
    /// Sections behind those that it owns, or some of them not there.
    OtherSections,
    /// The record speaks of another number of sections.
    OtherCount,
    /// Half a section more, or less.
    HalfSection,
    /// The sections have not 32 taps together.
    OtherTaps,
}

pub const NO_PROFILE: [NoProfile; 6] = [
    NoProfile::CutRecord,
    NoProfile::NotInUse,
    NoProfile::OtherSections,
    NoProfile::OtherCount,
    NoProfile::HalfSection,
    NoProfile::OtherTaps,
];

/// Has a pipe with a profile, of which record and a section are there, have none.
pub fn lose_profile(rng: &mut Rng, pipe: &mut Vec<u8>, why: NoProfile) {
    let sections = (pipe.len() - RECORD_BYTES) / SECTION_BYTES;
    match why {
        NoProfile::CutRecord => pipe.truncate(rng.below(RECORD_BYTES)),
        NoProfile::NotInUse => {
            set_width(pipe, 0);
            if rng.flag() {
                pipe.truncate(RECORD_BYTES);
            }
        }
        NoProfile::OtherSections => {
            let count = other_than(rng, sections, SECTIONS + 2);
            pipe.resize_with(RECORD_BYTES + SECTION_BYTES * count, || rng.byte());
        }
        NoProfile::OtherCount => {
            let count = other_than(rng, sections - 1, SECTIONS);
            pipe[2] = pipe[2] & !COUNT_MASK | count as u8;
        }
        NoProfile::HalfSection => match rng.flag() {
            true => pipe.push(rng.byte()),
            false => pipe.truncate(pipe.len() - 1),
        },
        NoProfile::OtherTaps if sections > 1 && rng.chance(1, 4) => {
            // as many in each as there are to be in all
            for section in pipe[RECORD_BYTES..].chunks_mut(SECTION_BYTES) {
                section[0] |= TAPS_MASK;
            }
        }
        NoProfile::OtherTaps => {
            // another number in one of them, and so another sum
            let at = RECORD_BYTES + SECTION_BYTES * rng.below(sections);
            let taps = usize::from(pipe[at] & TAPS_MASK);
            let other = other_than(rng, taps, usize::from(TAPS_MASK) + 1);
            pipe[at] = pipe[at] & !TAPS_MASK | other as u8;
        }
    }
}

/// A number below `bound` that is not this one.
fn other_than(rng: &mut Rng, number: usize, bound: usize) -> usize {
    let other = rng.below(bound - 1);
    other + usize::from(other >= number)
}

/// Sets Punct_Pat_ID, if the record's first byte is there.
pub fn set_pattern(pipe: &mut [u8], pattern: u32) {
    if let Some(first) = pipe.first_mut() {
        *first = (pattern << 2) as u8 | *first & 3;
    }
}

/// Sets Pipe_Width_CUs, if the record's first two bytes are there.
pub fn set_width(pipe: &mut [u8], width: u32) {
    if let [first, second, ..] = pipe {
        *first = *first & !3 | (width >> 8) as u8;
        *second = width as u8;
    }
}

/// A Punct_Pat_ID above 27.
pub fn wrong_pattern(rng: &mut Rng) -> u32 {
    [
        PATTERNS,
        PATTERN_NUMBERS - 1,
        rng.range(PATTERNS, PATTERN_NUMBERS - 1),
    ][rng.below(3)] as u32
}

/// A width that has room for so many codewords of this pattern, and some capacity units more, which are none.
pub fn wrong_width(rng: &mut Rng, pattern: u32, slots: u32) -> u32 {
    let units = patterns::pattern(pattern).expect("a pattern");
    let units = units.capacity_units();
    let any = rng.range(1, units as usize - 1) as u32;
    slots * units + [1, units - 1, any][rng.below(3)]
}

/// The codewords of a frame, or one of them: any bytes, few ones, or all ones.
pub fn codewords(rng: &mut Rng, length: usize) -> Vec<u8> {
    match rng.below(6) {
        0 => {
            let mut few = vec![0; length];
            super::flip(rng, &mut few, 0, 8 * length);
            few
        }
        1 => vec![0xFF; length],
        _ => rng.bytes(length),
    }
}
