//! The disperser profile of a pipe (clause 4.10.7), from its record (table 16) and its sections (table 19) as they stand
//! in a sheet.

use super::bits::BitReader;
use super::description::{PipeFields, Section};
use super::refusal;

/// A pipe's record and a section, in bytes. A section's 12 bits stand last in its two bytes.
pub const RECORD_BYTES: usize = 6;
pub const SECTION_BYTES: usize = 2;
const SECTION_AT: usize = 4;

/// The taps of all sections together, which is the period of a profile too.
pub const TAPS: usize = 32;
/// What is reported of a profile: the receiver's tap lengths, and the greatest delay.
pub const PROFILE_NUMBERS: usize = TAPS + 1;

/// The matrix in which the tap lengths are re-ordered.
const MATRIX_ROWS: usize = 4;
const MATRIX_COLUMNS: usize = 8;

/// The pipe's record and its sections. Refused with 20 unless what is lent is the record and just the sections that the
/// pipe owns, and these have 32 taps together: so too where the pipe is not in use, as it owns none.
pub fn record(pipe: &[u8]) -> Result<(PipeFields, Vec<Section>), u8> {
    if pipe.len() < RECORD_BYTES {
        return Err(refusal::PROFILE);
    }
    let (record, sections) = pipe.split_at(RECORD_BYTES);
    let fields = PipeFields::read(&mut BitReader::new(record));
    if sections.len() != SECTION_BYTES * fields.owned_sections() {
        return Err(refusal::PROFILE);
    }
    let sections: Vec<Section> = sections
        .chunks(SECTION_BYTES)
        .map(|bytes| Section::read(&mut BitReader::at(bytes, SECTION_AT)))
        .collect();
    let taps: u32 = sections.iter().map(Section::taps).sum();
    match taps as usize {
        TAPS => Ok((fields, sections)),
        _ => Err(refusal::PROFILE),
    }
}

/// A disperser profile.
pub struct Profile {
    /// Tap_Delay_Rec[0] to Tap_Delay_Rec[31], in frames.
    pub receiver: [usize; TAPS],
    /// Max_Delay.
    pub greatest: usize,
}

impl Profile {
    /// Of what `record` gives.
    pub fn of(fields: &PipeFields, sections: &[Section]) -> Profile {
        let int = fields.tap_diff_mult_int_1 as usize + 1;
        // Tap_Diff_Mult_Fract is so many sixteenths
        let sixteenths = fields.tap_diff_mult_fract_1_16 as usize + 1;
        let lengths: Vec<usize> = intermediate_lengths(sections)
            .into_iter()
            .map(|length| int * (length * sixteenths / 16))
            .collect();
        let greatest = lengths[TAPS - 1];
        let mut receiver = reordered(&lengths);
        if fields.disperser_inv_flag {
            receiver.reverse();
        }
        Profile { receiver, greatest }
    }

    /// Tap_Delay_Rec[k], of the receiver: the 32 are repeated.
    pub fn receiver_delay(&self, k: usize) -> usize {
        self.receiver[k % TAPS]
    }

    /// Tap_Delay[k], of the transmitter.
    pub fn delay(&self, k: usize) -> usize {
        self.greatest - self.receiver_delay(k)
    }
}

/// Intermed_Len of all taps, section after section. The first has no gap before it, whatever its Gap_Width says.
fn intermediate_lengths(sections: &[Section]) -> Vec<usize> {
    let mut lengths: Vec<usize> = Vec::new();
    for section in sections {
        let (taps, tap_diff) = (section.taps() as usize, section.tap_diff as usize);
        let first = match lengths.last() {
            Some(last) => last + section.gap_width as usize,
            None => 0,
        };
        lengths.extend((0..taps).map(|j| first + j * tap_diff));
    }
    lengths
}

/// Written row by row into a matrix of 4 rows and 8 columns, and read out column by column.
fn reordered(lengths: &[usize]) -> [usize; TAPS] {
    let matrix: Vec<&[usize]> = lengths.chunks(MATRIX_COLUMNS).collect();
    let mut reordered = [0; TAPS];
    let mut places = reordered.iter_mut();
    for column in 0..MATRIX_COLUMNS {
        for (row, place) in matrix[..MATRIX_ROWS].iter().zip(&mut places) {
            *place = row[column];
        }
    }
    reordered
}

/// What is reported of a pipe's profile. Refusals in the order 20, 1.
pub fn report(pipe: &[u8], profile_len: usize) -> Result<[u16; PROFILE_NUMBERS], u8> {
    let (fields, sections) = record(pipe)?;
    if profile_len != PROFILE_NUMBERS {
        return Err(refusal::LENGTH);
    }
    let Profile { receiver, greatest } = Profile::of(&fields, &sections);
    let mut report = [greatest as u16; PROFILE_NUMBERS];
    for (number, length) in report.iter_mut().zip(receiver) {
        *number = length as u16;
    }
    Ok(report)
}
