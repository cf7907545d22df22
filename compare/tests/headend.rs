//! The head-end of examples/ over transport streams: what it sends of them, that it reads it back, and which files it
//! refuses. Those over IP packets stand in head_end/ip_streams.rs and head_end/ip_story.rs, those of the frames and of
//! their reader in head_end/frames.rs, those of its self-test in self_test.rs.

#[path = "head_end/frames.rs"]
mod frames;
mod head_end;
#[path = "head_end/ip_sent.rs"]
mod ip_sent;
#[path = "head_end/ip_story.rs"]
mod ip_story;
#[path = "head_end/ip_streams.rs"]
mod ip_streams;
#[path = "head_end/multiplexer.rs"]
mod multiplexer;
mod program;

use compare::inputs::{plain, plain_pipe};
use compare::rng::Rng;
use compare::second::description::Description;
use compare::second::signalling::{judged_sheet, sheet_of};
use compare::stream::{pid_of, stream, MINUTE, NULL_PID, PACKET};
use head_end::headend;
use program::{figure, file, made, run, x86_64};
use std::ffi::OsString;
use std::fs;
use std::path::PathBuf;

/// The pattern of the shortest codewords, and the capacity units of one: a frame of these is made soonest.
const SHORTEST: u32 = 25;
const SHORTEST_UNITS: u32 = 7;

/// What a run is made of. Its files have its name.
struct Run {
    name: String,
    sheet: Vec<u8>,
    stream: Vec<u8>,
    frames: usize,
}

impl Run {
    fn path(&self, suffix: &str) -> PathBuf {
        made(&format!("{}.{suffix}", self.name))
    }

    /// The words that the head-end is given. The sheet and the stream are put where they say.
    fn words(&self) -> [OsString; 5] {
        let [sheet, stream] = ["sheet", "ts"].map(|suffix| self.path(suffix));
        fs::write(&sheet, &self.sheet).expect("the sheet is put there");
        fs::write(&stream, &self.stream).expect("the stream is put there");
        let frames = self.path("frames").into_os_string();
        let payload = file("README.md").into_os_string();
        let count = OsString::from(self.frames.to_string());
        [sheet.into(), payload, frames, stream.into(), count]
    }

    fn printed(&self) -> String {
        run(headend(), &self.words())
    }

    /// What it says where it refuses to run; it has then written no frame.
    fn refused(&self) -> String {
        let words = self.words();
        let _ = fs::remove_file(self.path("frames"));
        let output = x86_64("run", headend()).args(words).output();
        let output = output.expect("a shell starts");
        assert_eq!(output.status.code(), Some(1));
        assert!(output.stdout.is_empty() && !self.path("frames").exists());
        String::from_utf8(output.stderr).expect("it says text")
    }
}

/// What a stream comes to in the slots that it has.
struct Sums {
    packets: usize,
    sent: usize,
    nulls: usize,
    words: usize,
    filling: usize,
    dummies: usize,
}

impl Sums {
    fn of(stream: &[u8], slots: usize) -> Sums {
        let in_word = figure("OPL_TS_PACKETS");
        let packets = stream.len() / PACKET;
        let sent = packets.min(in_word * slots);
        let words = sent.div_ceil(in_word);
        let is_null = |packet: &&[u8]| pid_of(packet) == NULL_PID;
        Sums {
            packets,
            sent,
            nulls: stream.chunks(PACKET).take(sent).filter(is_null).count(),
            words,
            filling: words * in_word - sent,
            dummies: slots - words,
        }
    }

    /// What is said of it when the frames are written.
    fn written(&self, run: &Run, id: u8) -> String {
        let (all, path) = (self.sent == self.packets, run.path("ts"));
        let mut text = format!(
            "\n  stream {id}: {} of type 2 with {} {} of {}",
            several(self.words, "word"),
            if all { "all" } else { "the first" },
            several(self.sent, "packet"),
            path.display()
        );
        if self.nulls > 0 {
            text += &format!(", {} of them null", self.nulls);
        }
        if self.filling > 0 {
            let filling = several(self.filling, "null packet");
            text += &format!("\n    the last word filled up with {filling}");
        }
        if self.dummies > 0 {
            let dummies = several(self.dummies, "dummy word");
            text += &format!("\n    then {dummies} of type 0, as no packet is left");
        }
        text + "\n\n"
    }

    /// What is said of it when the frames are read, at the end, with so many words that were sent.
    fn read(&self, run: &Run, id: u8, sent: usize) -> String {
        let mut words = format!("{} of type 2 (packets)", self.words);
        if self.dummies > 0 {
            words += &format!(", {} of type 0 (dummies)", self.dummies);
        }
        format!(
            "
stream {id} read back from all {} frames
  payload words                            accepted: {words}
  parity of the packets                    all four parts of each word hold
    with a bit of packet 3 inverted        part 1 (packets 2 and 3) does not hold, the other three do
  packets                                  {} given back, all as they were sent; {} dropped
{}",
            run.frames,
            self.sent - self.nulls,
            several(self.nulls + self.filling, "null packet"),
            on_the_way(sent - self.words)
        )
    }
}

fn several(n: usize, name: &str) -> String {
    format!("{n} {name}{}", if n == 1 { "" } else { "s" })
}

/// The line of so many words that were sent and are not whole when the frames end, if there are any.
fn on_the_way(words: usize) -> String {
    match words {
        0 => String::new(),
        _ => format!(
            "  still on the way                         {}, not whole yet in these frames\n",
            several(words, "word")
        ),
    }
}

/// Runs it, with so many slots for the stream, and so many of them whole by the last frame.
#[track_caller]
fn holds(run: &Run, id: u8, slots: usize, whole: usize) -> String {
    let printed = run.printed();
    let [sent, come] = [slots, whole].map(|slots| Sums::of(&run.stream, slots));
    let [written, read] = [sent.written(run, id), come.read(run, id, sent.words)];
    assert!(printed.contains(&written), "{printed}\nlacks{written}");
    assert!(printed.ends_with(&read), "{printed}\ndoes not end{read}");
    printed
}

/// A sheet of one pipe with one stream, 12, and no tail.
fn sheet(pattern: u32, width: u32) -> Vec<u8> {
    let mut pipe = plain_pipe(12..13);
    pipe.fields.punct_pat_id = pattern;
    pipe.fields.pipe_width_cus = width;
    sheet_of(&plain(vec![pipe], None))
}

/// The demonstration's sheet.
fn story() -> Vec<u8> {
    fs::read(file("examples/sheets/story.sheet")).expect("the sheet is there")
}

/// The same with the least multipliers, so that the greatest delays are 3, 1 and 3 frames, and with the first pipe's four
/// slots under the pattern of the shortest codewords. Its stream 2, the last of that pipe, has two slots in a frame.
fn quick_description() -> Description {
    let mut description = judged_sheet(&story()).expect("it is sound");
    for pipe in &mut description.pipes {
        pipe.fields.tap_diff_mult_int_1 = 0;
        pipe.fields.tap_diff_mult_fract_1_16 = 0;
    }
    let first = &mut description.pipes[0].fields;
    (first.punct_pat_id, first.pipe_width_cus) = (SHORTEST, 4 * SHORTEST_UNITS);
    description
}

fn quick_story() -> Vec<u8> {
    sheet_of(&quick_description())
}

/// Its last pipe alone, for what neither a transport stream nor other pipes are needed.
fn last_of_quick_story() -> Vec<u8> {
    let last = quick_description().pipes.pop().expect("it has pipes");
    sheet_of(&plain(vec![last], None))
}

/// A frame has 18 slots.
#[test]
fn a_minute_of_a_stream_comes_back() {
    let slots = 18;
    let frames = 139;
    let run = Run {
        name: "minute".to_string(),
        sheet: sheet(SHORTEST, SHORTEST_UNITS * slots as u32),
        stream: stream(&mut Rng::new(730), MINUTE),
        frames,
    };
    let printed = holds(&run, 12, slots * frames, slots * frames);
    assert!(printed.contains("accepted: 2494 of type 2 (packets), 8 of type 0 (dummies)\n"));
    assert!(printed.contains("stream 12: 2494 words of type 2 with all 19946 packets of "));
}

/// A stream that ends in the first word, at its end, behind it, in the last word and at the end of that; and longer
/// ones, of which the first packets are sent, and fewer come back.
#[test]
fn a_stream_of_any_length_comes_back() {
    let mut rng = Rng::new(731);
    for count in [1, 8, 9, 31, 32, 33, 79, 80, 81] {
        let run = Run {
            name: format!("{count}_packets"),
            sheet: quick_story(),
            stream: stream(&mut rng, count),
            frames: 5,
        };
        holds(&run, 2, 10, 4);
    }
}

/// Within fewer frames than the greatest delay, and a frame more, nothing of a pipe comes back.
#[test]
fn what_is_not_whole_is_on_the_way() {
    for frames in [2, 3] {
        let run = Run {
            name: format!("{frames}_frames_of_delay"),
            sheet: quick_story(),
            stream: stream(&mut Rng::new(736), 20),
            frames,
        };
        let printed = run.printed();
        let line = "\n     1      3   by slots              0  none is whole within these frames\n";
        assert!(printed.contains(line), "{printed}");
        let last = format!(
            "\nstream 2 read back from all {frames} frames\n{}",
            on_the_way(3)
        );
        assert!(printed.ends_with(&last), "{printed}");
    }
}

/// Patterns 7 to 12 leave out bits of the word itself.
#[test]
fn what_takes_a_decoder_is_not_read() {
    let run = Run {
        name: "pattern_7".to_string(),
        sheet: sheet(7, 16),
        stream: stream(&mut Rng::new(732), 20),
        frames: 4,
    };
    let printed = run.printed();
    let written = Sums::of(&run.stream, 4).written(&run, 12);
    assert!(printed.contains(&written), "{printed}");
    let last = "  payload words                            not read: \
        their pattern does not send all bits, which takes a turbo decoder\n";
    assert!(printed.ends_with(last), "{printed}");
}

#[test]
fn without_a_pipe_no_packet_is_sent() {
    let run = Run {
        name: "no_pipe".to_string(),
        sheet: sheet_of(&plain(vec![], None)),
        stream: stream(&mut Rng::new(733), 20),
        frames: 2,
    };
    let printed = run.printed();
    assert!(printed.contains("\n  no pipe is sent\n"), "{printed}");
    assert!(!printed.contains("\nstream "), "{printed}");
}

#[test]
fn what_is_no_transport_stream_is_refused() {
    let whole = stream(&mut Rng::new(734), 20);
    let mut unsynced = whole.clone();
    unsynced[12 * PACKET] ^= 0x01;
    let longer: Vec<u8> = whole
        .chunks(PACKET)
        .flat_map(|packet| [packet, &[0; 16]].concat())
        .collect();
    let cut = |n: usize| whole[..n].to_vec();
    for (name, stream, why) in [
        ("empty", vec![], "it has no packet"),
        (
            "cut",
            cut(13 * PACKET - 1),
            "packet 12, at byte 2256, is cut off: the file ends after 187 of its 188 bytes",
        ),
        (
            "short",
            cut(1),
            "packet 0, at byte 0, is cut off: the file ends after 1 of its 188 bytes",
        ),
        (
            "unsynced",
            unsynced,
            "packet 12, at byte 2256, begins with 46 and not with the sync byte 47",
        ),
        (
            "longer_packets",
            longer,
            "packet 1, at byte 188, begins with 00 and not with the sync byte 47",
        ),
    ] {
        let (name, sheet) = (name.to_string(), story());
        let run = Run {
            name,
            sheet,
            stream,
            frames: 4,
        };
        let path = run.path("ts");
        assert_eq!(
            run.refused(),
            format!("headend: {}: {why}\n", path.display())
        );
    }
}

#[test]
fn a_wrong_number_of_frames_is_refused() {
    for frames in [0, 1, 10_001] {
        let run = Run {
            name: format!("{frames}_frames"),
            sheet: story(),
            stream: stream(&mut Rng::new(735), 20),
            frames,
        };
        let why = "COUNT is a number of frames from 2 to 10000, and not";
        assert_eq!(run.refused(), format!("headend: {why} {frames}\n"));
    }
}
