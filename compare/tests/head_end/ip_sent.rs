//! What a run of the head-end over IP packets comes to, and all that it says of them, worked out from the packets and
//! the slots that they have.

use super::{last_of_quick_story, on_the_way, quick_story, several};
use crate::program::{file, made};
use compare::inputs::handed_out;
use compare::rng::Rng;
use compare::second::ip::{LABEL_BYTES, LAST_ADDRESS, PACKET_HEADER_BYTES, PAYLOAD_BYTES};
use compare::stream::stream;
use std::ffi::OsString;
use std::fs;
use std::path::PathBuf;

/// The bytes that a character of a picture stands for, and the words that are shown of a stream.
const CELL: usize = 32;
const SHOWN: usize = 24;
/// The packets that are listed of those that did not come out.
const LISTED: usize = 16;
/// The frames that come back if no number is given: so many, and more while packets wait.
const FRAMES: usize = 4;
const FRAMES_MOST: usize = 100;

/// Which stream carries the packets, how many slots it has in so many frames, and the greatest delays of its pipe and of
/// all pipes.
#[derive(Clone, Copy)]
pub struct Slots {
    pub id: u8,
    in_frames: fn(usize) -> usize,
    delay: usize,
    greatest_delay: usize,
}

/// Of the demonstration's sheet: both slots of pipe 4 in the codewords that are whole with the first frame, one in the
/// next, and so on; so one in those that go in with the first, as these are whole an odd number of frames later.
pub const STORY_SLOTS: Slots = Slots {
    id: 36,
    in_frames: |frames| frames + frames / 2,
    delay: 53,
    greatest_delay: 98,
};

/// Of the same sheet with short delays, and of its last pipe alone.
pub const QUICK_SLOTS: Slots = Slots {
    delay: 3,
    greatest_delay: 3,
    ..STORY_SLOTS
};

/// Of a sheet of one pipe with one stream, and one slot in a frame.
pub const ONE_SLOT: Slots = Slots {
    id: 12,
    in_frames: |frames| frames,
    delay: 0,
    greatest_delay: 0,
};

/// What a run is made of. Its files have its name.
pub struct Run {
    name: String,
    pub sheet: Vec<u8>,
    ip: Vec<u8>,
    /// Of a transport stream, so many packets, or none.
    pub stream: Option<usize>,
    pub frames: Option<usize>,
}

impl Run {
    pub fn of(name: &str, ip: Vec<u8>) -> Run {
        Run {
            name: format!("ip_{name}"),
            sheet: quick_story(),
            ip,
            stream: Some(52),
            frames: None,
        }
    }

    /// The same with nothing in the frames but the pipe of these packets.
    pub fn alone(name: &str, ip: Vec<u8>) -> Run {
        Run {
            sheet: last_of_quick_story(),
            stream: None,
            ..Run::of(name, ip)
        }
    }

    pub fn path(&self, suffix: &str) -> PathBuf {
        made(&format!("{}.{suffix}", self.name))
    }

    /// The words that the head-end is given. All that it reads is put where they say, and what it writes is removed.
    pub fn words(&self) -> Vec<OsString> {
        let put = |suffix: &str, bytes: &[u8]| {
            let path = self.path(suffix);
            fs::write(&path, bytes).expect("the file is put there");
            path.into_os_string()
        };
        for suffix in ["back", "frames"] {
            let _ = fs::remove_file(self.path(suffix));
        }
        let mut words = vec![
            "--ip".into(),
            put("ip", &self.ip),
            self.path("back").into(),
            put("sheet", &self.sheet),
            file("README.md").into(),
            self.path("frames").into(),
        ];
        if let Some(packets) = self.stream {
            words.push(put("ts", &stream(&mut Rng::new(740), packets)));
        }
        words.extend(self.frames.map(|frames| frames.to_string().into()));
        words
    }
}

/// A byte of a word: of which packet it is, and whether it is the first of that packet's header. None of padding.
pub type Place = Option<(usize, bool)>;

/// What the packets come to in the slots that they have.
pub struct Sent {
    /// As they are handed out.
    pub packets: Vec<Vec<u8>>,
    pub words: Vec<Vec<Place>>,
    /// How many packets are wholly in these words, and how many bytes of the next are not.
    pub whole: usize,
    to_come: usize,
    pub frames: usize,
    pub dummies: usize,
}

impl Sent {
    /// What is sent in all frames, and what is whole by the last of them.
    pub fn of(run: &Run, slots: Slots) -> [Sent; 2] {
        let words = all_words(&handed_out(&run.ip)).len();
        let enough = |frames: &usize| (slots.in_frames)(*frames) >= words;
        let carried = || (FRAMES..FRAMES_MOST).find(enough).unwrap_or(FRAMES_MOST);
        let frames = run
            .frames
            .unwrap_or_else(|| carried() + slots.greatest_delay);
        let whole = frames.saturating_sub(slots.delay);
        [frames, whole].map(|carrying| Sent::in_slots(run, frames, (slots.in_frames)(carrying)))
    }

    fn in_slots(run: &Run, frames: usize, room: usize) -> Sent {
        let packets = handed_out(&run.ip);
        let mut words = all_words(&packets);
        let dummies = room.saturating_sub(words.len());
        words.truncate(room);
        let bytes = |packet: usize| {
            let places = words.iter().flatten().flatten();
            places.filter(|(number, _)| *number == packet).count()
        };
        let framed = |packet: usize| packets[packet].len() - LABEL_BYTES + PACKET_HEADER_BYTES;
        let is_whole = |packet: &usize| bytes(*packet) == framed(*packet);
        let whole = (0..packets.len()).take_while(is_whole).count();
        let begun = whole < packets.len() && bytes(whole) > 0;
        let to_come = if begun {
            framed(whole) - bytes(whole)
        } else {
            0
        };
        Sent {
            words,
            whole,
            to_come,
            frames,
            dummies,
            packets,
        }
    }

    fn length(&self, packet: usize) -> usize {
        self.packets[packet].len() - LABEL_BYTES
    }

    fn count(&self, is: impl Fn(&[u8]) -> bool) -> usize {
        let whole = &self.packets[..self.whole];
        whole.iter().filter(|packet| is(packet)).count()
    }

    /// The words in which something of a packet is.
    fn carriers(&self, packet: usize) -> Vec<usize> {
        let has = |word: &usize| {
            let mut places = self.words[*word].iter().flatten();
            places.any(|(number, _)| *number == packet)
        };
        (0..self.words.len()).filter(has).collect()
    }

    /// Whether one of the words that are gone has something of a packet.
    fn is_hit(&self, packet: usize, gone: &[usize]) -> bool {
        gone.iter().any(|word| {
            self.words[*word]
                .iter()
                .flatten()
                .any(|(number, _)| *number == packet)
        })
    }

    /// First_Header_Address, in which padding counts as a header too.
    fn address(&self, word: usize) -> String {
        let is_header = |place: &Place| !matches!(place, Some((_, false)));
        match self.words[word].iter().position(is_header) {
            Some(address) if address <= LAST_ADDRESS => address.to_string(),
            _ => "none".to_string(),
        }
    }

    /// A character for each 32 bytes of a word: what begins in them last, else what the first of them is of.
    fn picture(&self, word: usize, gone: &[usize]) -> String {
        let cell = |places: &[Place]| {
            let begun = places.iter().rev().flatten().find(|(_, begins)| *begins);
            match begun.or(places[0].as_ref()) {
                None => '.',
                Some((packet, _)) if self.is_hit(*packet, gone) => '-',
                Some((packet, true)) => letter(*packet),
                Some((packet, false)) => letter(*packet).to_ascii_lowercase(),
            }
        };
        self.words[word].chunks(CELL).map(cell).collect()
    }

    /// The lines of all words that are shown, with these lost and this one refused.
    fn pictures(&self, lost: &[usize], refused: &[usize]) -> String {
        let gone = [lost, refused].concat();
        let line = |word: usize| {
            let (said, picture) = match (lost.contains(&word), refused.contains(&word)) {
                (true, _) => ("lost".to_string(), "#".repeat(PAYLOAD_BYTES / CELL)),
                (_, true) => ("refused".to_string(), "#".repeat(PAYLOAD_BYTES / CELL)),
                _ => (self.address(word), self.picture(word, &gone)),
            };
            format!("  {word:4}  {said:>12}  {picture}\n")
        };
        let mut lines: String = (0..self.words.len().min(SHOWN)).map(line).collect();
        if self.words.len() > SHOWN {
            let more = self.words.len() - SHOWN;
            lines += &format!("    ..                {more} more\n");
        }
        lines
    }

    /// What is said of it when the frames are written.
    pub fn written(&self, run: &Run, id: u8) -> String {
        let all = self.whole == self.packets.len();
        let mut text = format!(
            "\n  stream {id}: {} of type 3 with {} {} of {}\n    {} of IPv4, {} of IPv6; {} with the error bit set\n",
            several(self.words.len(), "word"),
            if all { "all" } else { "the first" },
            several(self.whole, "packet"),
            run.path("ip").display(),
            self.count(|packet| packet[0] == 1),
            self.count(|packet| packet[0] == 2),
            self.count(|packet| packet[1] == 1),
        );
        if self.to_come > 0 {
            let (to_come, length) = (self.to_come, self.length(self.whole));
            text += &format!(
                "    then a packet of which {to_come} of {length} bytes are still to be sent\n"
            );
        }
        if self.dummies > 0 {
            let dummies = several(self.dummies, "dummy word");
            text += &format!("    then {dummies} of type 0, as no packet is left\n");
        }
        text + "\n"
    }

    /// What is said of it when the frames are read, with so many words that were sent.
    pub fn read(&self, run: &Run, id: u8, sent: usize) -> String {
        let mut words = format!("{} of type 3 (IP packets)", self.words.len());
        if self.dummies > 0 {
            words += &format!(", {} of type 0 (dummies)", self.dummies);
        }
        format!(
            "
stream {id} read back from all {} frames
  word  first header  its 1504 bytes, 32 a character: A begins a packet, a runs on, . is padding
{}  payload words                            accepted: {words}
  parity of the packets                    all four parts of each word hold
  packets                                  {} given back, in order and byte for byte as they were sent
  {:<40} written, in the form in which they were sent
{}",
            self.frames,
            self.pictures(&[], &[]),
            self.whole,
            run.path("back").display().to_string(),
            on_the_way(sent - self.words.len()),
        )
    }

    /// The words that are lost when they are read again, and the one that is refused.
    fn gone(&self) -> (Vec<usize>, usize) {
        let shown = self.words.len().min(SHOWN);
        let lost = match shown {
            0 | 1 => 0,
            2..=5 => 1,
            _ => 2,
        };
        let first = shown / 3;
        ((first..first + lost).collect(), 2 * shown / 3)
    }

    /// What is said of it when they are read again, at the end.
    pub fn read_again(&self, id: u8) -> String {
        let (lost, refused) = self.gone();
        let gone = [&lost[..], &[refused]].concat();
        let said = match &lost[..] {
            [] => String::new(),
            [word] => format!("word {word} lost and "),
            [one, other] => format!("words {one} and {other} lost and "),
            _ => unreachable!("at most two are"),
        };
        let hit: Vec<usize> = (0..self.whole)
            .filter(|packet| self.is_hit(*packet, &gone))
            .collect();
        format!(
            "
stream {id} once more, with {said}word {refused} refused: opl_ip_lost is told before the next is read
  word  first header  its 1504 bytes, 32 a character: # does not come, - is a packet that is not given back
{}  {:<40} refused 5, OPL_CRC: the CRC is wrong
    open packet, packets, header           as before that call; then the word is reported lost
  packets                                  {} given back, whole and in order
    not given back                         {}, just those that had something in a word that did not come
{}",
            self.pictures(&lost, &[refused]),
            format!("word {refused} with a header bit inverted"),
            self.whole - hit.len(),
            hit.len(),
            self.list(&hit),
        )
    }

    /// The lines of packets that did not come out.
    fn list(&self, hit: &[usize]) -> String {
        let line = |packet: &usize| {
            let carriers = self.carriers(*packet);
            let words = match carriers[..] {
                [word] => format!("word {word}"),
                [one, other] => format!("words {one} and {other}"),
                [first, .., last] => format!("words {first} to {last}"),
                [] => unreachable!("it is wholly sent"),
            };
            let bytes = several(self.length(*packet), "byte");
            format!(
                "    {}  packet {packet}, {bytes}, in {words}\n",
                letter(*packet)
            )
        };
        let mut lines: String = hit.iter().take(LISTED).map(line).collect();
        if hit.len() > LISTED {
            lines += &format!("    and {} more\n", hit.len() - LISTED);
        }
        lines
    }
}

/// What a packet is called in a picture.
pub fn letter(packet: usize) -> char {
    char::from(b'A' + (packet % 26) as u8)
}

/// The words of packets, as many as they take: headers of two bytes, none of them split, and padding.
pub fn all_words(packets: &[Vec<u8>]) -> Vec<Vec<Place>> {
    let mut places = Vec::new();
    for (number, packet) in packets.iter().enumerate() {
        if places.len() % PAYLOAD_BYTES > LAST_ADDRESS {
            places.push(None);
        }
        let bytes = PACKET_HEADER_BYTES + packet.len() - LABEL_BYTES;
        places.extend((0..bytes).map(|byte| Some((number, byte == 0))));
    }
    places.resize(places.len().next_multiple_of(PAYLOAD_BYTES), None);
    places
        .chunks(PAYLOAD_BYTES)
        .map(<[Place]>::to_vec)
        .collect()
}
