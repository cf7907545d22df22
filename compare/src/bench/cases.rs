//! The rows: for each exported function the cases that it is measured on.

use super::row::{row, Row, Tables, Title};
use super::{library, pipes, streams};
use crate::inputs::{
    infoword, packets, points_at_the_bound, set_payload_header, transport_word, values, Coding,
};
use crate::rng::Rng;
use crate::second::turbo::{self, Encoder, PAYLOAD_BLOCK, SIGNALLING_BLOCK};
use crate::second::{payload, preamble, signalling};
use std::hint::black_box;

type Rows<'a> = Vec<Box<dyn Row + 'a>>;

/// Pattern and block.
const CODINGS: [Coding; 5] = [
    coding(0, PAYLOAD_BLOCK),
    coding(5, PAYLOAD_BLOCK),
    coding(13, PAYLOAD_BLOCK),
    coding(27, PAYLOAD_BLOCK),
    coding(0, SIGNALLING_BLOCK),
];

/// The stream types of what is written as a payload word, and of what is read as one.
const WRITTEN_TYPES: [u32; 3] = [payload::DUMMY, payload::TRANSPARENT, payload::TRANSPORT];
const READ_TYPES: [u32; 4] = [
    payload::DUMMY,
    payload::TRANSPARENT,
    payload::TRANSPORT,
    payload::IP,
];

const STORY: &[u8] = include_bytes!("../../../examples/sheets/story.sheet");

const fn coding(pattern: u32, block: usize) -> Coding {
    Coding { pattern, block }
}

/// All rows. The encoder has its tables made before.
pub fn rows(encoder: &Encoder) -> Rows<'_> {
    let mut rows: Rows = Vec::new();
    rows.extend(CODINGS.map(|coding| encode(encoder, coding)));
    rows.extend(CODINGS.map(place));
    rows.extend(sheets().map(|(case, sheet)| signalling_write(case, sheet)));
    rows.extend(sheets().map(|(case, sheet)| signalling_read(case, sheet)));
    rows.extend(WRITTEN_TYPES.map(payload_write));
    rows.extend(READ_TYPES.map(payload_read));
    rows.extend(streams::rows());
    rows.extend(pipes::rows());
    rows.extend([("upright", 0), ("inverted", 1)].map(sof_preamble));
    rows.extend(preambles().map(preamble_form));
    rows
}

/// Puts what the second implementation made where it is asked for, which is cleared first, as it is for the library.
fn put<const N: usize>(made: Result<[u8; N], u8>, asked: &mut [u8]) -> Result<(), u8> {
    black_box(&mut *asked).fill(0);
    asked.copy_from_slice(&made?);
    Ok(())
}

fn coding_title(function: &'static str, coding: Coding, tables: Tables) -> Title {
    let Coding { pattern, block } = coding;
    Title {
        function,
        case: format!("pattern {pattern}, block {block}"),
        tables,
    }
}

fn encode(encoder: &Encoder, coding: Coding) -> Box<dyn Row + '_> {
    let pattern = coding.pattern;
    row(
        coding_title("opl_encode", coding, Tables::Before),
        coding.codeword_bytes(),
        move |rng| infoword(rng, coding.infoword_bytes()),
        move |word, codeword| library::encode(pattern, word, codeword),
        move |word, codeword| encoder.encode(pattern, word, codeword),
    )
}

fn place<'a>(coding: Coding) -> Box<dyn Row + 'a> {
    let pattern = coding.pattern;
    row(
        coding_title("opl_place", coding, Tables::Inside),
        coding.places(),
        move |rng| values(rng, coding.code_bits()),
        move |values, lane| library::place(pattern, values, lane),
        move |values, lane| {
            *lane = turbo::place(pattern, values, coding.places())?;
            Ok(())
        },
    )
}

/// The example's sheet, and the two that are as full as the rules allow: of pipes, and of streams.
fn sheets() -> impl Iterator<Item = (String, Vec<u8>)> {
    let full = points_at_the_bound()
        .into_iter()
        .filter(|(_, refusal)| *refusal == 0)
        .map(|(description, _)| {
            let (p, s, _) = description.counts();
            let case = format!("full, {p} pipes, {s} streams");
            (case, signalling::sheet_of(&description))
        });
    [("story.sheet".to_string(), STORY.to_vec())]
        .into_iter()
        .chain(full)
}

/// The second implementation looks at the 28 patterns, a table that the first call makes for all.
fn signalling_title(function: &'static str, case: String) -> Title {
    Title {
        function,
        case,
        tables: Tables::Before,
    }
}

fn signalling_write<'a>(case: String, sheet: Vec<u8>) -> Box<dyn Row + 'a> {
    row(
        signalling_title("opl_signalling_write", case),
        signalling::WORD_BYTES,
        move |_| sheet.clone(),
        library::signalling_write,
        |sheet, word| put(signalling::write(sheet, signalling::WORD_BYTES), word),
    )
}

fn signalling_read<'a>(case: String, sheet: Vec<u8>) -> Box<dyn Row + 'a> {
    let word = signalling::write(&sheet, signalling::WORD_BYTES).expect("a sheet that is accepted");
    row(
        signalling_title("opl_signalling_read", case),
        signalling::ROOM,
        move |_| word.to_vec(),
        library::signalling_read,
        |word, sheet| {
            *sheet = signalling::read(word, signalling::ROOM)?;
            Ok(())
        },
    )
}

fn payload_title(function: &'static str, ty: u32) -> Title {
    Title {
        function,
        case: format!("stream type {ty}"),
        tables: Tables::None,
    }
}

/// Of type 2 with eight packets, so that the null packet is lent and not written.
fn payload_write<'a>(ty: u32) -> Box<dyn Row + 'a> {
    const ID: u8 = 9;
    const COUNT: u32 = payload::TS_PACKETS;
    const NULL: [u8; payload::TS_PACKET_BYTES] = [0xFF; payload::TS_PACKET_BYTES];
    row(
        payload_title("opl_payload_write", ty),
        payload::WORD_BYTES,
        move |rng| written_payload(rng, ty),
        move |payload, word| library::payload_write(ty, ID, COUNT, payload, &NULL, word),
        move |payload, word| {
            *word = payload::write(ty, ID, COUNT, payload, &NULL, payload::WORD_BYTES)?;
            Ok(())
        },
    )
}

fn written_payload(rng: &mut Rng, ty: u32) -> Vec<u8> {
    match ty {
        payload::DUMMY => Vec::new(),
        payload::TRANSPARENT => rng.bytes(payload::PAYLOAD_BYTES),
        _ => packets(rng, payload::TS_PACKETS),
    }
}

fn payload_read<'a>(ty: u32) -> Box<dyn Row + 'a> {
    row(
        payload_title("opl_payload_read", ty),
        payload::HEADER_BYTES,
        move |rng| payload_word(rng, ty),
        library::payload_read,
        |word, header| put(payload::report(word, payload::HEADER_BYTES), header),
    )
}

/// Any word of the type, one of type 2 or 3 with the parity that its packets have.
fn payload_word(rng: &mut Rng, ty: u32) -> Vec<u8> {
    let mut word = match ty {
        payload::TRANSPORT | payload::IP => transport_word(rng),
        _ => rng.bytes(payload::WORD_BYTES),
    };
    let (rfu, id) = (rng.field(payload::rfu_bits(ty)), rng.field(8));
    set_payload_header(&mut word, rfu, id, ty, 0);
    word
}

fn preamble_title(function: &'static str, case: &str) -> Title {
    Title {
        function,
        case: case.to_string(),
        tables: Tables::None,
    }
}

/// The choice is handed over as what is read, so that neither side knows it before the call.
fn sof_preamble<'a>((case, inverted): (&str, u8)) -> Box<dyn Row + 'a> {
    row(
        preamble_title("opl_preamble", case),
        preamble::BYTES,
        move |_| vec![inverted],
        |choice, out| library::preamble(choice[0], out),
        |choice, out| put(preamble::write(choice[0], preamble::BYTES), out),
    )
}

/// Both preambles; and what is neither by its last bit alone, so that all of it has to be looked at.
fn preambles() -> [(&'static str, [u8; preamble::BYTES]); 3] {
    let [upright, inverted] = [false, true].map(preamble::preamble);
    let mut neither = upright;
    neither[preamble::BYTES - 1] ^= 1;
    [
        ("upright", upright),
        ("inverted", inverted),
        ("neither by the last bit", neither),
    ]
}

fn preamble_form<'a>((case, bytes): (&str, [u8; preamble::BYTES])) -> Box<dyn Row + 'a> {
    row(
        preamble_title("opl_preamble_form", case),
        preamble::FORM_BYTES,
        move |_| bytes.to_vec(),
        library::preamble_form,
        |bytes, form| put(preamble::report(bytes, preamble::FORM_BYTES), form),
    )
}

#[cfg(test)]
mod tests {
    use super::*;
    use crate::bench::row::SIDES;
    use crate::fuzz::entries;

    #[test]
    fn every_exported_function_has_rows() {
        let encoder = Encoder::new();
        let rows = rows(&encoder);
        for entry in entries() {
            let name = entry.name;
            let measured = rows.iter().any(|row| row.title().function == name);
            assert!(measured, "{name} is not measured");
        }
    }

    #[test]
    fn both_sides_of_every_row_agree() {
        let encoder = Encoder::new();
        let mut rng = Rng::new(1);
        for mut row in rows(&encoder) {
            row.renew(&mut rng);
            for side in SIDES {
                row.call(side, 1);
            }
            row.compare();
        }
    }
}
