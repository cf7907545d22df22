//! Cases of several calls, each given what the one before it wrote.

use super::entries::held;
use super::pipes::{codeword_to_pipe, pipe_and_back, profile_and_memory};
use super::streams::{damaged_ip_stream, ip_stream};
use super::{Entry, Fault, Trial, Verdict};
use crate::calls::{
    Call, Encode, PayloadRead, PayloadWrite, Place, Preamble, PreambleForm, SignallingRead,
    SignallingWrite,
};
use crate::inputs::{add_parts, codings, flip_bit, flip_places, infoword, odd_places, sum, Coding};
use crate::second::bits::{bit, bits};
use crate::second::payload::{self, PARTS, TRANSPORT};
use crate::second::preamble::{Form, FORM_BYTES};
use crate::second::signalling;

pub(super) const CHAINS: [fn(&mut Trial) -> Verdict; 14] = [
    preamble_and_form,
    sheet_and_back,
    word_and_back,
    signalling_to_lane,
    payload_to_lane,
    damaged_header,
    damaged_packets,
    sum_of_packets,
    sum_of_words,
    ip_stream,
    damaged_ip_stream,
    pipe_and_back,
    profile_and_memory,
    codeword_to_pipe,
];

/// A header's parity where all parts hold.
const ALL_HOLD: u8 = (1 << PARTS) - 1;

/// A preamble is written; its form is the one that was asked for.
fn preamble_and_form(trial: &mut Trial) -> Verdict {
    let writing = Preamble::accepted(&mut trial.rng);
    let bytes = trial.call(&writing, Some(0))?.out;
    let form = held(&mut trial.rng, FORM_BYTES);
    let asking = PreambleForm { bytes, form };
    let form = trial.call(&asking, Some(0))?.form;
    let asked = match writing.inverted {
        0 => Form::Upright,
        _ => Form::Inverted,
    };
    same(&asking, &form, &[asked as u8])
}

/// A sheet is written as a word; what is read from this is the sheet.
fn sheet_and_back(trial: &mut Trial) -> Verdict {
    let writing = SignallingWrite::accepted(&mut trial.rng);
    let word = trial.call(&writing, Some(0))?.word;
    let sheet = held(&mut trial.rng, signalling::ROOM);
    let reading = SignallingRead { word, sheet };
    let read = read_and_write(trial, &reading)?;
    same(&reading, &read, &writing.sheet)
}

/// A word is read as a sheet; what is written of this is the word.
fn word_and_back(trial: &mut Trial) -> Verdict {
    let reading = SignallingRead::accepted(&mut trial.rng);
    read_and_write(trial, &reading).map(drop)
}

/// Reads a word, writes its sheet again, and gives the sheet.
fn read_and_write(trial: &mut Trial, reading: &SignallingRead) -> Result<Vec<u8>, Fault> {
    let mut sheet = trial.call(reading, Some(0))?.sheet;
    sheet.truncate(usize::from(u16::from_be_bytes([sheet[10], sheet[11]])));
    let word = held(&mut trial.rng, signalling::WORD_BYTES);
    let writing = SignallingWrite { sheet, word };
    let again = trial.call(&writing, Some(0))?.word;
    same(&writing, &again, &reading.word)?;
    Ok(writing.sheet)
}

/// The word of a sheet is coded and placed.
fn signalling_to_lane(trial: &mut Trial) -> Verdict {
    let writing = SignallingWrite::accepted(&mut trial.rng);
    let word = trial.call(&writing, Some(0))?.word;
    code_and_place(trial, word)
}

/// A payload word is read for what it was written with, coded and placed.
fn payload_to_lane(trial: &mut Trial) -> Verdict {
    let writing = PayloadWrite::accepted(&mut trial.rng);
    let word = trial.call(&writing, Some(0))?.word;
    let header = held(&mut trial.rng, payload::HEADER_BYTES);
    let reading = PayloadRead { word, header };
    let header = trial.call(&reading, Some(0))?.header;
    let parity = match writing.r#type {
        TRANSPORT => ALL_HOLD,
        _ => 0,
    };
    let began = [writing.id, writing.r#type as u8, 0, parity];
    same(&reading, &header[4..8], &began)?;
    code_and_place(trial, reading.word)
}

/// A payload word is written, some bits from its header on are changed, and it is read, as it is and with the CRC put
/// right again. What comes of it is open.
fn damaged_header(trial: &mut Trial) -> Verdict {
    let writing = PayloadWrite::accepted(&mut trial.rng);
    let mut word = trial.call(&writing, Some(0))?.word;
    let end = 8 * word.len();
    for _ in 0..trial.rng.range(1, 3) {
        let index = trial.rng.range(payload::TS_HEADER_AT, end - 1);
        flip_bit(&mut word, index);
    }
    let header = held(&mut trial.rng, payload::HEADER_BYTES);
    let mut reading = PayloadRead { word, header };
    trial.call(&reading, None)?;
    payload::seal(&mut reading.word);
    trial.call(&reading, None).map(drop)
}

/// Packets are written, and an odd number of bits of some parts is changed: just these parts do not hold.
fn damaged_packets(trial: &mut Trial) -> Verdict {
    let damaged = Damaged::packets(trial)?;
    damaged.read(trial)
}

/// The same where other packets and their parity are added to what was damaged: a sum of codewords is one.
fn sum_of_packets(trial: &mut Trial) -> Verdict {
    let mut damaged = Damaged::packets(trial)?;
    let writing = PayloadWrite::of_type(&mut trial.rng, TRANSPORT);
    let other = trial.call(&writing, Some(0))?.word;
    add_parts(&mut damaged.word, &other);
    damaged.read(trial)
}

/// A word of packets, some of whose parts do not hold.
struct Damaged {
    word: Vec<u8>,
    id: u8,
    /// Bit k is set where part k holds.
    holding: u8,
}

impl Damaged {
    fn packets(trial: &mut Trial) -> Result<Damaged, Fault> {
        let writing = PayloadWrite::of_type(&mut trial.rng, TRANSPORT);
        let mut word = trial.call(&writing, Some(0))?.word;
        let mut holding = ALL_HOLD;
        for part in 0..PARTS {
            if trial.rng.flag() {
                flip_places(&mut word, part, &odd_places(&mut trial.rng));
                holding &= !(1 << part);
            }
        }
        let id = writing.id;
        Ok(Damaged { word, id, holding })
    }

    /// Reads the word. Its header was not changed.
    fn read(self, trial: &mut Trial) -> Verdict {
        let Damaged { word, id, holding } = self;
        let header = held(&mut trial.rng, payload::HEADER_BYTES);
        let reading = PayloadRead { word, header };
        let header = trial.call(&reading, Some(0))?.header;
        let due = [0, 0, 0, 0, id, TRANSPORT as u8, 0, holding];
        same(&reading, &header[..8], &due)
    }
}

/// Two words are coded, and their sum under the same pattern: its codeword is the sum of theirs.
fn sum_of_words(trial: &mut Trial) -> Verdict {
    let one = Encode::accepted(&mut trial.rng);
    let with = |infoword| Encode {
        infoword,
        ..one.clone()
    };
    let other = with(infoword(&mut trial.rng, one.infoword.len()));
    let both = with(sum(&[&one.infoword, &other.infoword]));
    let mut codeword = |call: &Encode| Ok(trial.call(call, Some(0))?.codeword);
    let codewords = [codeword(&one)?, codeword(&other)?];
    same(&both, &codeword(&both)?, &sum(&codewords))
}

/// Encodes a word under a pattern of its block and places its code bits.
fn code_and_place(trial: &mut Trial, infoword: Vec<u8>) -> Verdict {
    let fits: Vec<Coding> = codings()
        .filter(|coding| coding.infoword_bytes() == infoword.len())
        .collect();
    let coding = fits[trial.rng.below(fits.len())];
    let pattern = coding.pattern;
    let encoding = Encode {
        pattern,
        infoword,
        codeword: held(&mut trial.rng, coding.codeword_bytes()),
    };
    let codeword = trial.call(&encoding, Some(0))?.codeword;
    let placing = Place {
        pattern,
        values: bits(&codeword, 0, coding.code_bits()).map(value).collect(),
        lane: held(&mut trial.rng, coding.places()),
    };
    let lane = trial.call(&placing, Some(0))?.lane;
    // X is the word's own bit, in every group where the pattern sends it
    let sent = |group| i16::from(value(bit(&encoding.infoword, group)));
    let (placed, sent): (Vec<i16>, Vec<i16>) = (0..coding.block)
        .map(|group| (lane[5 * group], sent(group)))
        .filter(|(x, _)| *x != 0)
        .unzip();
    same(&placing, &placed, &sent)
}

/// A code bit as it is received.
fn value(bit: bool) -> i8 {
    if bit {
        -1
    } else {
        1
    }
}

/// A difference unless what a call led to is what the chain began with.
pub(super) fn same<C: Call, T: PartialEq>(call: &C, one: &[T], other: &[T]) -> Verdict {
    if one == other {
        return Ok(());
    }
    let what = "this is not what the chain of calls began with";
    Err(Fault::of_call(call, what.to_string()))
}
