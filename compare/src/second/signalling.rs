//! The signalling word (clause 4.10), its sheet and the listing.
//!
//! Both ways go through the tree of `description`: read the records, judge
//! them rule by rule in 01's order, write the other form.

use super::bits::{bit, bits, set_bit, BitReader, BitWriter};
use super::crc::SIGNALLING;
use super::description::{
    list_bits, Description, Multiplex, PipeFields, Section, Stream, TailFields,
};
use super::patterns;
use super::refusal;
use std::fmt::Write as _;

/// A signalling word in bytes: 762 bits and 6 spare bits.
pub const WORD_BYTES: usize = 96;
/// The bits under the CRC.
pub const BODY_BITS: usize = 750;
/// The bits with the CRC.
pub const WORD_BITS: usize = 762;
/// The room that the reader asks for.
pub const ROOM: usize = 128;
/// Header, multiplex fields and tail pipe of a sheet.
pub const SHEET_FIXED: usize = 21;
/// The longest sheet whose header can be right: 255 of each.
pub const SHEET_MOST: usize = SHEET_FIXED + 255 * (6 + 2 + 2);

/// Word to sheet. Refusals in the order 1 2 5 6 7 8 9 10 11.
pub fn read(word: &[u8], room: usize) -> Result<Vec<u8>, u8> {
    if word.len() != WORD_BYTES || room < ROOM {
        return Err(refusal::LENGTH);
    }
    if bits(word, WORD_BITS, 8 * WORD_BYTES).any(|spare| spare) {
        return Err(refusal::SPARE);
    }
    if SIGNALLING.word(bits(word, 0, BODY_BITS)) != BitReader::at(word, BODY_BITS).number(12) {
        return Err(refusal::CRC);
    }
    let description = parse_body(word)?;
    judge(&description)?;
    Ok(sheet_of(&description))
}

/// Sheet to word. Refusals in the order 1 12 14 6 13 7 9 10 11.
pub fn write(sheet: &[u8], word_len: usize) -> Result<[u8; WORD_BYTES], u8> {
    if word_len != WORD_BYTES {
        return Err(refusal::LENGTH);
    }
    let description = judged_sheet(sheet)?;
    Ok(word_of(&description))
}

/// The sheet's p, s and d, or the refusal that `write` gives for it.
pub fn check(sheet: &[u8]) -> Result<(usize, usize, usize), u8> {
    judged_sheet(sheet).map(|description| description.counts())
}

/// The listing program: what it prints for the bytes on standard input.
pub fn listing(input: &[u8]) -> String {
    let description = match judged_sheet(input) {
        Ok(description) => description,
        Err(number) => return format!("refused {number}\n"),
    };
    let (p, s, d) = description.counts();
    let mut out = String::new();
    let mut line = |text: std::fmt::Arguments| {
        out.write_fmt(text).expect("a string takes all");
        out.push('\n');
    };
    line(format_args!(
        "multiplex operator={} frame={} pipes={p} streams={s} sections={d}",
        description.multiplex.operator_id, description.multiplex.frame_index
    ));
    for (index, pipe) in description.pipes.iter().enumerate() {
        line(format_args!(
            "pipe {} pattern={} width={} streams={} sections={}",
            index + 1,
            pipe.fields.punct_pat_id,
            pipe.fields.pipe_width_cus,
            pipe.streams.len(),
            pipe.sections.len()
        ));
    }
    match description.tail.fields.pipe_width_cus {
        0 => line(format_args!("tail unused")),
        width => line(format_args!("tail width={width}")),
    }
    line(format_args!("ok"));
    out
}

/// The description of a sheet, after all of `write`'s rules but the first.
pub fn judged_sheet(sheet: &[u8]) -> Result<Description, u8> {
    let description = parse_sheet(sheet)?;
    judge(&description)?;
    Ok(description)
}

/// Steps 6, 7 and 8 of the way from word to sheet. Spare bits and CRC are not
/// looked at.
fn parse_body(word: &[u8]) -> Result<Description, u8> {
    let mut from = BitReader::new(word);
    let multiplex = Multiplex::read(&mut from);
    if multiplex.sig_pipe_ver != 0 {
        return Err(refusal::VERSION);
    }
    let p = multiplex.num_pipes_1 as usize;
    // Fifteen pipes pass 750 bits whatever they own: nothing more is read.
    if list_bits(p, 0, 0) > BODY_BITS {
        return Err(refusal::LISTS);
    }
    let pipes: Vec<PipeFields> = (0..p).map(|_| PipeFields::read(&mut from)).collect();
    let tail = TailFields::read(&mut from);
    let (s, d) = owned(&pipes, &tail);
    if list_bits(p, s, d) > BODY_BITS {
        return Err(refusal::LISTS);
    }
    let streams = (0..s).map(|_| Stream::read(&mut from)).collect();
    let sections = (0..d).map(|_| Section::read(&mut from)).collect();
    assert_eq!(from.place(), list_bits(p, s, d));
    if bits(word, from.place(), BODY_BITS).any(|padding| padding) {
        return Err(refusal::PADDING);
    }
    Ok(Description::assemble(
        multiplex, pipes, tail, streams, sections,
    ))
}

/// Steps 12, 14, 6, 13 and 7 of the way from sheet to word.
fn parse_sheet(sheet: &[u8]) -> Result<Description, u8> {
    if sheet.len() < SHEET_FIXED {
        return Err(refusal::HEADER);
    }
    let [p, s, d] = [sheet[0], sheet[1], sheet[2]].map(usize::from);
    let pipe_table = SHEET_FIXED;
    let stream_table = pipe_table + 6 * p;
    let section_table = stream_table + 2 * s;
    let total = section_table + 2 * d;
    let number = |at: usize| usize::from(u16::from_be_bytes([sheet[at], sheet[at + 1]]));
    if sheet[3] != 0
        || number(4) != pipe_table
        || number(6) != stream_table
        || number(8) != section_table
        || number(10) != total
        || sheet.len() != total
    {
        return Err(refusal::HEADER);
    }
    if sheet[section_table..]
        .chunks(2)
        .any(|section| section[0] & 0xF0 != 0)
    {
        return Err(refusal::SECTION_TOP);
    }
    let multiplex = Multiplex::read(&mut BitReader::new(&sheet[12..19]));
    if multiplex.sig_pipe_ver != 0 {
        return Err(refusal::VERSION);
    }
    let tail = TailFields::read(&mut BitReader::new(&sheet[19..21]));
    let pipes: Vec<PipeFields> = sheet[pipe_table..stream_table]
        .chunks(6)
        .map(|record| PipeFields::read(&mut BitReader::new(record)))
        .collect();
    if multiplex.num_pipes_1 as usize != p || owned(&pipes, &tail) != (s, d) {
        return Err(refusal::COUNTS);
    }
    if list_bits(p, s, d) > BODY_BITS {
        return Err(refusal::LISTS);
    }
    let streams = sheet[stream_table..section_table]
        .chunks(2)
        .map(|record| Stream::read(&mut BitReader::new(record)))
        .collect();
    let sections = sheet[section_table..]
        .chunks(2)
        .map(|record| Section::read(&mut BitReader::at(record, 4)))
        .collect();
    Ok(Description::assemble(
        multiplex, pipes, tail, streams, sections,
    ))
}

/// The streams and sections that records own together.
pub fn owned(pipes: &[PipeFields], tail: &TailFields) -> (usize, usize) {
    (
        pipes.iter().map(PipeFields::owned_streams).sum::<usize>() + tail.owned_streams(),
        pipes.iter().map(PipeFields::owned_sections).sum(),
    )
}

/// Rules 9, 10 and 11, each over the whole description.
pub fn judge(description: &Description) -> Result<(), u8> {
    let mut used = description.pipes.iter().filter(|pipe| pipe.fields.in_use());
    let uneven = used.clone().any(|pipe| {
        patterns::pattern(pipe.fields.punct_pat_id)
            .is_some_and(|pattern| pipe.fields.pipe_width_cus % pattern.capacity_units() != 0)
    });
    if uneven {
        return Err(refusal::WIDTH);
    }
    if used.any(|pipe| pipe.sections.iter().map(Section::taps).sum::<u32>() != 32) {
        return Err(refusal::TAPS);
    }
    let mut seen = [false; 256];
    for stream in description.streams() {
        if std::mem::replace(&mut seen[stream.sts_id as usize], true) {
            return Err(refusal::TWICE);
        }
    }
    Ok(())
}

/// The sheet of a description as it hangs together; nothing is judged. The
/// counts are those of the lists, which must be at most 255 each.
pub fn sheet_of(description: &Description) -> Vec<u8> {
    let (p, s, d) = description.counts();
    let tables = [
        SHEET_FIXED,
        SHEET_FIXED + 6 * p,
        SHEET_FIXED + 6 * p + 2 * s,
        SHEET_FIXED + 6 * p + 2 * s + 2 * d,
    ];
    let mut to = BitWriter::new();
    for count in [p, s, d, 0] {
        to.number(8, count as u32);
    }
    for offset in tables {
        to.number(16, offset as u32);
    }
    description.multiplex.write(&mut to);
    description.tail.fields.write(&mut to);
    for pipe in &description.pipes {
        pipe.fields.write(&mut to);
    }
    for stream in description.streams() {
        stream.write(&mut to);
    }
    for section in description.sections() {
        to.number(4, 0);
        section.write(&mut to);
    }
    to.into_bytes()
}

/// The word of a description as it hangs together; nothing is judged, and
/// lists that pass 750 bits are cut off there.
pub fn word_of(description: &Description) -> [u8; WORD_BYTES] {
    let mut to = BitWriter::new();
    description.multiplex.write(&mut to);
    for pipe in &description.pipes {
        pipe.fields.write(&mut to);
    }
    description.tail.fields.write(&mut to);
    for stream in description.streams() {
        stream.write(&mut to);
    }
    for section in description.sections() {
        section.write(&mut to);
    }
    to.truncate(BODY_BITS);
    to.zeros_to(8 * WORD_BYTES);
    let mut word: [u8; WORD_BYTES] = to.bytes().try_into().expect("96 bytes are written");
    seal(&mut word);
    word
}

/// Gives 96 bytes the CRC of their first 750 bits, and spare bits of zero.
pub fn seal(word: &mut [u8]) {
    let crc = SIGNALLING.word(bits(word, 0, BODY_BITS));
    for index in 0..12 {
        set_bit(word, BODY_BITS + index, crc >> (11 - index) & 1 != 0);
    }
    for index in WORD_BITS..8 * WORD_BYTES {
        set_bit(word, index, false);
    }
}

/// Whether 96 bytes end in their CRC (spare bits are not looked at).
pub fn is_sealed(word: &[u8]) -> bool {
    let crc = SIGNALLING.word(bits(word, 0, BODY_BITS));
    (0..12).all(|index| bit(word, BODY_BITS + index) == (crc >> (11 - index) & 1 != 0))
}
