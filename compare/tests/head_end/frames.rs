//! The frames that the head-end writes, byte for byte those of the second implementation; and its reader, over frames
//! that the second implementation made, over damaged ones, and over a library with a fault.

use super::multiplexer::{sent_pipe, Multiplexer, Word};
use super::quick_description;
use crate::head_end::{headend, headend_with};
use crate::program::{file, made, run, x86_64};
use compare::inputs::{framed_pipe_of, plain, plain_pipe};
use compare::rng::Rng;
use compare::second::description::{Description, Pipe, Stream};
use compare::second::patterns::pattern;
use compare::second::pipe::CAPACITY_UNIT_BYTES;
use compare::second::profile;
use compare::second::signalling::{judge, judged_sheet, sheet_of};
use std::fs;
use std::path::{Path, PathBuf};
use std::sync::OnceLock;

/// The payload that all streams carry, which is no multiple of what a word takes.
fn payload() -> Vec<u8> {
    Rng::new(750).bytes(20_011)
}

/// A sheet of the demonstration.
fn stored(name: &str) -> Description {
    let sheet = fs::read(file(&format!("examples/sheets/{name}.sheet")));
    judged_sheet(&sheet.expect("the sheet is there")).expect("it is sound")
}

/// pipes.sheet with no delay in its second pipe, so that the greatest is that of the first, 3 frames.
fn near_pipes() -> Description {
    let mut description = stored("pipes");
    description.pipes[1].sections[0].tap_diff = 0;
    description
}

/// The capacity units that are in use: two, and the widths.
fn units(description: &Description) -> usize {
    let widths = description.pipes.iter();
    let widths = widths.map(|pipe| pipe.fields.pipe_width_cus);
    (2 + widths.sum::<u32>() + description.tail.fields.pipe_width_cus) as usize
}

fn greatest_delay(description: &Description) -> usize {
    let pipes = description.pipes.iter().filter_map(sent_pipe);
    pipes
        .map(|pipe| pipe.profile.greatest)
        .max()
        .unwrap_or_default()
}

/// So many frames of a multiplex, and the words that are whole with them.
fn multiplexed(description: &Description, units: usize, count: usize) -> (Vec<u8>, Vec<Word>) {
    let mut multiplexer = Multiplexer::new(description, &payload(), units);
    let (frames, words): (Vec<_>, Vec<_>) = (0..count).map(|_| multiplexer.frame()).unzip();
    (frames.concat(), words.concat())
}

/// A run of the head-end: its files have its name.
struct Run<'a> {
    name: &'a str,
    description: &'a Description,
    units: Option<usize>,
}

impl Run<'_> {
    fn path(&self, suffix: &str) -> PathBuf {
        made(&format!("frames_{}.{suffix}", self.name))
    }

    /// The words that the head-end is given. The sheet and the payload are put where they say.
    fn words(&self) -> Vec<String> {
        let put = |suffix: &str, bytes: &[u8]| {
            fs::write(self.path(suffix), bytes).expect("the file is put there");
            self.path(suffix).display().to_string()
        };
        let mut words = Vec::new();
        if let Some(units) = self.units {
            words.extend(["--units".to_string(), units.to_string()]);
        }
        words.push(put("sheet", &sheet_of(self.description)));
        words.push(put("payload", &payload()));
        words.push(self.path("frames").display().to_string());
        words
    }

    /// Runs it, and holds its frames to those that are due. Without a number of frames it plays four and as many as the
    /// greatest delay.
    #[track_caller]
    fn holds(&self) -> String {
        let printed = run(headend(), &self.words());
        let used = units(self.description);
        let units = self.units.unwrap_or((used + 1).next_multiple_of(8));
        let count = 4 + greatest_delay(self.description);
        let (due, _) = multiplexed(self.description, units, count);
        let frames = fs::read(self.path("frames")).expect("the frames are written");
        assert_eq!(frames.len(), due.len(), "{}", self.name);
        let differs = frames
            .iter()
            .zip(&due)
            .position(|(one, other)| one != other);
        assert_eq!(differs, None, "{}: {:?}", self.name, self.description);
        let said = format!("\n  {count} frames of {units} capacity units\n");
        assert!(printed.contains(&said), "{printed}");
        printed
    }
}

#[track_caller]
fn holds(name: &str, description: &Description) -> String {
    let units = None;
    Run {
        name,
        description,
        units,
    }
    .holds()
}

/// The pipes of a made-up multiplex at most, the greatest delay of one and its slots. A run takes longer to start than
/// for all these frames and codewords, so that few runs have many pipes.
const PIPES_MOST: usize = 5;
const DELAY_MOST: usize = 4;
const SLOTS_MOST: usize = 2;
/// The patterns of table 7, and the bytes that a made-up pipe's memory has at most.
const PATTERNS: u32 = 28;
const MEMORY_MOST: usize = 400_000;

/// Patterns one after the other, so that few multiplexes have them all.
struct Patterns(u32);

impl Patterns {
    fn next(&mut self) -> u32 {
        self.0 += 1;
        (self.0 - 1) % PATTERNS
    }
}

/// A made-up multiplex of pipes of the next patterns with small delays, each with some streams and a schedule period that
/// need not go with its slots, and a tail pipe of any width.
fn made_up(rng: &mut Rng, patterns: &mut Patterns) -> Description {
    let mut pipes = Vec::new();
    let mut ids = 1..;
    for _ in 0..rng.range(1, PIPES_MOST) {
        let pattern = patterns.next();
        let (mut fields, sections) = loop {
            let record = framed_pipe_of(rng, pattern, SLOTS_MOST, MEMORY_MOST);
            let (fields, sections) = profile::record(&record).expect("sound");
            let pipe = Pipe {
                fields: fields.clone(),
                sections: sections.clone(),
                streams: Vec::new(),
            };
            if sent_pipe(&pipe).is_some_and(|pipe| pipe.profile.greatest <= DELAY_MOST) {
                break (fields, sections);
            }
        };
        let streams: Vec<Stream> = ids
            .by_ref()
            .take(rng.range(1, 3))
            .map(|sts_id| Stream {
                sts_id,
                sts_width_slots_1: rng.below(3) as u32,
            })
            .collect();
        fields.num_sts_1 = streams.len() as u32 - 1;
        let countdown = [0, rng.range(1, 40) as u32][rng.below(2)];
        fields.inter_schedule_period_countdown_slots = countdown;
        pipes.push(Pipe {
            fields,
            streams,
            sections,
        });
    }
    let mut description = plain(pipes, rng.chance(3, 4).then_some(0));
    if description.tail.stream.is_some() {
        description.tail.fields.pipe_width_cus = rng.range(1, 24) as u32;
        description.tail.fields.punct_pat_id = patterns.next();
    }
    description.multiplex.event_countdown = rng.below(4) as u32;
    description.multiplex.frame_index = (1 << 22) - 1 - rng.below(3) as u32;
    judge(&description).expect("it is sound");
    description
}

#[test]
fn the_demonstrations_frames_are_those_of_the_standard() {
    for name in ["empty", "pipes", "story"] {
        holds(name, &stored(name));
    }
}

#[test]
fn frames_of_any_pipes_are_those_of_the_standard() {
    let (mut rng, mut patterns) = (Rng::new(751), Patterns(0));
    for number in 0..8 {
        let description = made_up(&mut rng, &mut patterns);
        holds(&format!("made_up_{number}"), &description);
    }
    assert!(patterns.0 >= PATTERNS, "all of them were in use");
}

/// A payload pipe and a tail pipe of reserved patterns keep their widths, with zeros; Codeword_Align_Flag stays.
#[test]
fn a_pipe_of_a_reserved_pattern_is_zeros() {
    let mut reserved = plain_pipe(1..2);
    reserved.fields.punct_pat_id = 28;
    reserved.fields.pipe_width_cus = 5;
    let mut description = plain(vec![reserved, plain_pipe(2..3)], Some(9));
    description.tail.fields.punct_pat_id = 63;
    description.tail.fields.pipe_width_cus = 3;
    for aligned in [false, true] {
        description.tail.fields.codeword_align_flag = aligned;
        let printed = holds("reserved", &description);
        assert!(printed.contains("none: a reserved pattern, so zeros are sent\n"));
    }
}

/// What the sheet says of the first frame's tail pipe is not kept: a codeword begins there.
#[test]
fn the_tail_pipe_begins_with_a_codeword() {
    let mut description = stored("pipes");
    description.tail.fields.codeword_align_flag = false;
    holds("unaligned", &description);
    description.pipes.clear();
    description.multiplex.num_pipes_1 = 0;
    let printed = holds("tail_alone", &description);
    assert!(printed
        .contains("\n  tail      0          -              1  byte for byte as they were sent\n"));
}

/// A frame has as many capacity units as are asked for, and not fewer than are in use.
#[test]
fn a_frame_has_the_units_that_are_asked_for() {
    let description = &near_pipes();
    for units in [68, 69, 300] {
        let name = &format!("{units}_units");
        let units = Some(units);
        Run {
            name,
            description,
            units,
        }
        .holds();
    }
    for units in [0, 67, 65_537] {
        let run = Run {
            name: "few_units",
            description,
            units: Some(units),
        };
        let _ = fs::remove_file(run.path("frames"));
        let said = refused(headend(), &run.words());
        let why = "UNITS is a number of capacity units from 68 to 65536, and not";
        assert_eq!(said, format!("headend: {why} {units}\n"));
        assert!(!run.path("frames").exists());
    }
}

/// A run that fails: what it says.
#[track_caller]
fn refused(program: &Path, words: &[String]) -> String {
    let output = x86_64("run", program).args(words).output();
    let output = output.expect("a shell starts");
    assert_eq!(output.status.code(), Some(1));
    String::from_utf8(output.stderr).expect("it says text")
}

/// The words with which the reader takes these frames apart; what it wrote before is removed.
fn taken_apart(name: &str, frames: &[u8]) -> Vec<String> {
    let [from, to] = ["frames", "words"].map(|suffix| made(&format!("apart_{name}.{suffix}")));
    fs::write(&from, frames).expect("the frames are put there");
    let _ = fs::remove_file(&to);
    [
        "--take-apart".into(),
        from.display().to_string(),
        to.display().to_string(),
    ]
    .into()
}

/// Whether a pattern sends all bits of a word: those of table 7 that leave out some take a turbo decoder.
fn sends_all(number: u32) -> bool {
    let known = pattern(number).expect("a pattern");
    known.data.iter().all(|group| group[0])
}

/// The reader alone, over frames of which it knows nothing: it finds every payload.
#[test]
fn every_payload_is_found() {
    let (mut rng, mut patterns) = (Rng::new(752), Patterns(0));
    let mut descriptions = vec![stored("pipes"), quick_description()];
    descriptions.extend((0..4).map(|_| made_up(&mut rng, &mut patterns)));
    for (number, description) in descriptions.iter().enumerate() {
        let units = units(description) + rng.below(3);
        let count = 5 + greatest_delay(description);
        let (frames, words) = multiplexed(description, units, count);
        let command = taken_apart(&number.to_string(), &frames);
        let printed = run(headend(), &command);
        let (read, unread): (Vec<Word>, Vec<Word>) =
            words.into_iter().partition(|word| sends_all(word.pattern));
        let due: Vec<u8> = read.iter().flat_map(|word| word.bytes.clone()).collect();
        assert!(fs::read(&command[2]).is_ok_and(|found| found == due));
        for id in 0..20 {
            let of = |words: &[Word]| words.iter().filter(|word| word.id == id).count();
            let (read, unread) = (of(&read), of(&unread));
            let line = format!("\n  {id:6}  {:15}  {read:5}      0      0  {unread:8}\n", 0);
            assert_eq!(printed.contains(&line), read + unread > 0, "{printed}");
        }
    }
}

/// Frames of pipes.sheet that are damaged in one way or another.
#[test]
fn what_are_no_frames_is_refused() {
    let description = stored("pipes");
    let units = 72;
    let bytes = units * CAPACITY_UNIT_BYTES;
    let (sound, _) = multiplexed(&description, units, 12);
    let edited = |edit: &dyn Fn(&mut [u8])| {
        let mut frames = sound.clone();
        edit(&mut frames);
        frames
    };
    let changed = |at: usize| edited(&|frames| frames[at] ^= 1);
    let repeated = edited(&|frames| frames.copy_within(..bytes, bytes));
    // the first frame's signalling codeword: pipe 1 has the same slots in every third frame, the tail in every ninth
    let signalled =
        |frame: usize| edited(&|frames| frames.copy_within(32..512, frame * bytes + 32));
    // pipe 3, which is behind two units and pipes of 24
    let zeroed = edited(&|frames| frames[4 * bytes + 50 * 256..][..14 * 256].fill(0));
    for (name, frames, why) in [
        (
            "short",
            sound[..sound.len() - 1].to_vec(),
            "the last of 12 frames has 18431 of its 18432 bytes",
        ),
        (
            "late_start",
            sound[1..].to_vec(),
            "byte 18431 has a preamble next, and byte 0 the start of a frame",
        ),
        (
            "behind_pipes",
            changed(5 * bytes - 1),
            "frame 4: byte 18431, behind its pipes, is not zero",
        ),
        (
            "preamble",
            changed(4 * bytes),
            "byte 92160 has a preamble next, and byte 73728 the start of a frame",
        ),
        (
            "last_preamble",
            changed(11 * bytes),
            "byte 202752 has to be the start of a frame, and no preamble is there or behind it",
        ),
        (
            "repeated",
            repeated,
            "byte 18432 has the preamble in the form of the one before",
        ),
        (
            "aligned",
            signalled(3),
            "frame 3: Codeword_Align_Flag is 1, and 768 bytes of a codeword came before",
        ),
        (
            "owner",
            signalled(4),
            "frame 4: a slot of stream 1 has a word of stream 2",
        ),
        (
            "zeroed",
            zeroed,
            "opl_payload_read refused a payload word: 5, OPL_CRC: the CRC is wrong",
        ),
        (
            "two_preambles",
            [&sound[..32], &sound[bytes..][..32]].concat(),
            "a frame has 32 bytes, which are no capacity units, two at least",
        ),
        (
            "few_units",
            [&sound[..512], &sound[bytes..][..512]].concat(),
            "frame 0 has 512 bytes, and its pipes end at 17408",
        ),
        (
            "text",
            b"no frame at all".to_vec(),
            "byte 0 has to be the start of a frame, and no preamble is there or behind it",
        ),
    ] {
        let said = refused(headend(), &taken_apart(name, &frames));
        assert_eq!(said, format!("headend: {why}\n"), "{name}");
    }
    let command = taken_apart("none", &[]);
    let said = refused(headend(), &command);
    assert_eq!(said, format!("headend: {}: it has no frame\n", command[1]));
}

/// The head-end with broken_pipe.c in place of sender.c.
fn broken() -> &'static Path {
    static BUILT: OnceLock<PathBuf> = OnceLock::new();
    BUILT.get_or_init(|| {
        headend_with(
            "broken_pipe",
            "sender.c",
            "compare/tests/head_end/broken_pipe.c",
        )
    })
}

#[test]
fn a_faulty_pipe_is_noticed() {
    let description = &stored("pipes");
    let run = Run {
        name: "faulty",
        description,
        units: None,
    };
    let another = |pipe: usize, word: usize, frame: usize| {
        format!(
            "headend: pipe {pipe} gives payload word {word} back as another, with frame {frame}\n"
        )
    };
    for (fault, said) in [
        ("none", String::new()),
        ("bit_changed", another(3, 1, 0)),
        ("units_swapped", another(3, 0, 0)),
        ("memory_forgotten", another(1, 0, 3)),
        ("frame_miscounted", another(1, 2, 4)),
        ("not_regrouped", another(3, 0, 0)),
        ("profile_flipped", another(1, 0, 3)),
        ("tail_not_mixed", another(4, 0, 2)),
        ("tail_restarted", another(4, 0, 2)),
    ] {
        let mut command = x86_64("run", broken());
        let output = command.args(run.words()).env("FAULT", fault).output();
        let output = output.expect("a shell starts");
        assert_eq!(output.status.success(), fault == "none", "{fault}");
        assert_eq!(String::from_utf8_lossy(&output.stderr), said, "{fault}");
    }
}
