//! Whole IP streams through the library: written word after word, packets joining the queue in between as they like, and
//! read, with words lost, words refused and words of other types on the way. Each call is held to the second
//! implementation, the state of sender and receiver byte for byte.

mod ip_reading;
mod ip_writing;

use compare::inputs::{self, flip_bit, handed_out, plain_packet as packet};
use compare::rng::Rng;
use ip_reading::{both_lost, both_read, NONE};
use ip_writing::{both_write, Written};

/// A packet on its way: as it is to be handed out, and the words that carry it, by number.
struct Packet {
    bytes: Vec<u8>,
    first: Option<usize>,
    last: Option<usize>,
}

/// What a sender keeps of a stream, and what it has sent.
struct Sender {
    id: u8,
    queue: Vec<u8>,
    sent: u32,
    packets: Vec<Packet>,
    /// How many of them are wholly sent, and how many words.
    done: usize,
    words: usize,
}

impl Sender {
    fn new(id: u8) -> Sender {
        Sender {
            id,
            queue: Vec::new(),
            sent: 0,
            packets: Vec::new(),
            done: 0,
            words: 0,
        }
    }

    /// Packets join the queue.
    fn join(&mut self, queue: &[u8]) {
        self.queue.extend(queue);
        self.packets
            .extend(handed_out(queue).into_iter().map(|bytes| Packet {
                bytes,
                first: None,
                last: None,
            }));
    }

    /// The next word. It makes progress unless nothing waits.
    fn word(&mut self, rng: &mut Rng) -> Vec<u8> {
        let Written { word, done, sent } =
            both_write(rng, self.id, self.sent, &self.queue).expect("it is accepted");
        assert!(self.queue.is_empty() || done > 0 || sent > self.sent);
        let mut left = done;
        while left > 0 {
            let packet = &mut self.packets[self.done];
            packet.first.get_or_insert(self.words);
            packet.last = Some(self.words);
            left -= packet.bytes.len();
            self.done += 1;
        }
        self.queue.drain(..done);
        self.sent = sent;
        if sent > 0 {
            self.packets[self.done].first.get_or_insert(self.words);
        }
        self.words += 1;
        word
    }

    /// The packets all of whose words arrived, in order.
    fn arrived(&self, arrived: &[bool]) -> Vec<u8> {
        assert_eq!(arrived.len(), self.words);
        let all = |packet: &&Packet| match (packet.first, packet.last) {
            (Some(first), Some(last)) => arrived[first..=last].iter().all(|word| *word),
            _ => false,
        };
        let packets = self.packets.iter().filter(all);
        packets.flat_map(|packet| &packet.bytes).copied().collect()
    }
}

/// What a receiver keeps of a stream, and what was handed out to it.
struct Receiver {
    open: Vec<u8>,
    packets: Vec<u8>,
}

impl Receiver {
    fn new() -> Receiver {
        Receiver {
            open: NONE.to_vec(),
            packets: Vec::new(),
        }
    }

    #[track_caller]
    fn read(&mut self, rng: &mut Rng, word: &[u8]) {
        let read = both_read(rng, word, &mut self.open).expect("it is accepted");
        self.packets.extend(read.packets);
    }

    /// A word that is refused, and so counts as lost.
    #[track_caller]
    fn refuse(&mut self, rng: &mut Rng, word: &[u8], due: u8) {
        let before = self.open.clone();
        let number = both_read(rng, word, &mut self.open).err();
        assert_eq!(number, Some(due));
        assert!(
            self.open == before,
            "a refused word changed the open packet"
        );
        self.lose();
    }

    fn lose(&mut self) {
        both_lost(&mut self.open).expect("it is accepted");
    }

    /// A word of another type comes in between.
    fn pass_over(&mut self, rng: &mut Rng, ty: u32) {
        let (word, before) = (inputs::payload_word_of(rng, ty), self.open.clone());
        let read = both_read(rng, &word, &mut self.open).expect("it is accepted");
        assert!(read.packets.is_empty() && self.open == before);
    }
}

/// Makes a written word one that is refused, and gives the number with which it is.
fn damage(rng: &mut Rng, word: &mut [u8]) -> u8 {
    let address = u16::from(word[1_531]) << 4 | u16::from(word[1_532]) >> 4;
    match rng.below(6) {
        0 => {
            word[1_535] |= 1 << rng.below(6);
            2
        }
        1 => {
            flip_bit(word, rng.range(12_228, 12_281));
            5
        }
        2 => {
            inputs::set_payload_header(word, 0, 9, 3, 1);
            16
        }
        3 => {
            let ty = rng.range(4, 7) as u32;
            inputs::set_payload_header(word, 0, 9, ty, 0);
            15
        }
        // the announced header has type 0
        4 if address <= 1_502 => {
            let at = usize::from(address);
            word[at] &= 0x3F;
            19
        }
        _ => {
            let wrong = inputs::wrong_address(rng);
            inputs::set_ip_header(word, 0, wrong, 9);
            18
        }
    }
}

/// Some packets join, or none: often so many that the queue grows, and often so few that it runs dry.
fn joining(rng: &mut Rng) -> Vec<u8> {
    let count = [0, 0, 1, 1, 2, 8][rng.below(6)];
    inputs::ip_queue(rng, count)
}

#[test]
fn what_was_written_comes_back() {
    let mut rng = Rng::new(410);
    for _ in 0..40 {
        let (mut sender, mut receiver) = (Sender::new(rng.byte()), Receiver::new());
        for _ in 0..rng.range(1, 12) {
            sender.join(&joining(&mut rng));
            let word = sender.word(&mut rng);
            receiver.read(&mut rng, &word);
        }
        while !sender.queue.is_empty() {
            let word = sender.word(&mut rng);
            receiver.read(&mut rng, &word);
        }
        let all: Vec<u8> = sender
            .packets
            .iter()
            .flat_map(|packet| packet.bytes.clone())
            .collect();
        assert!(receiver.packets == all && receiver.open == NONE);
    }
}

/// The words of a stream with many packets in each, and with one packet over many words.
#[test]
fn packets_of_one_length_come_back() {
    let mut rng = Rng::new(411);
    for length in [
        1, 2, 40, 1_499, 1_500, 1_501, 1_502, 1_503, 1_504, 3_005, 3_006, 4_095,
    ] {
        let count = 2 + 9_000 / (length + 2);
        let (mut sender, mut receiver) = (Sender::new(1), Receiver::new());
        for _ in 0..count {
            sender.join(&inputs::ip_packet(&mut rng, length));
        }
        while !sender.queue.is_empty() {
            let word = sender.word(&mut rng);
            receiver.read(&mut rng, &word);
        }
        assert!(
            receiver.packets == sender.arrived(&vec![true; sender.words]),
            "{length}"
        );
        assert_eq!(handed_out(&receiver.packets).len(), count);
    }
}

/// Each word arrives, is lost, or is damaged so that it is refused; and words of other types come in between.
#[test]
fn with_words_lost_and_refused() {
    let mut rng = Rng::new(412);
    for round in 0..80 {
        let losses = [1, 3, 6][round % 3];
        let (mut sender, mut receiver) = (Sender::new(rng.byte()), Receiver::new());
        let mut arrived = Vec::new();
        let words = rng.range(4, 24);
        while arrived.len() < words || !sender.queue.is_empty() {
            if arrived.len() < words {
                sender.join(&joining(&mut rng));
            }
            let mut word = sender.word(&mut rng);
            let arrives = !rng.chance(losses, 12);
            arrived.push(arrives);
            if arrives {
                receiver.read(&mut rng, &word);
            } else if rng.flag() {
                receiver.lose();
            } else {
                let number = damage(&mut rng, &mut word);
                receiver.refuse(&mut rng, &word, number);
            }
            if rng.chance(1, 4) {
                let ty = rng.below(3) as u32;
                receiver.pass_over(&mut rng, ty);
            }
        }
        assert!(receiver.packets == sender.arrived(&arrived), "{arrived:?}");
    }
}

/// One stream of eight words, and each choice of them lost.
#[test]
fn every_set_of_lost_words() {
    const WORDS: usize = 8;
    let mut rng = Rng::new(413);
    let mut sender = Sender::new(3);
    for length in [1_000, 2_003, 40, 40, 3_006, 1_500, 7, 2_500] {
        sender.join(&inputs::ip_packet(&mut rng, length));
    }
    let words: Vec<Vec<u8>> = (0..WORDS).map(|_| sender.word(&mut rng)).collect();
    assert!(sender.queue.is_empty());
    for lost in 0..1 << WORDS {
        let mut receiver = Receiver::new();
        let arrived: Vec<bool> = (0..WORDS).map(|at| lost >> at & 1 == 0).collect();
        for (word, arrives) in words.iter().zip(&arrived) {
            match arrives {
                true => receiver.read(&mut rng, word),
                false => receiver.lose(),
            }
        }
        assert!(receiver.packets == sender.arrived(&arrived), "{arrived:?}");
        // of a lost beginning nothing need be reported: it is as if reception began there
        let begins = arrived.iter().position(|arrives| *arrives);
        if let Some(begins) = begins.filter(|begins| arrived[*begins..].iter().all(|word| *word)) {
            let mut late = Receiver::new();
            for word in &words[begins..] {
                late.read(&mut rng, word);
            }
            assert!(late.packets == receiver.packets && late.open == receiver.open);
        }
    }
}

/// Two words of each of two packets. Where the two in the middle are lost, which type 3 has no count to show, the halves
/// are taken for one packet, and no word is refused; where the loss is reported nothing is handed out.
#[test]
fn a_loss_that_is_not_reported_joins_two_packets() {
    let mut rng = Rng::new(414);
    let mut sender = Sender::new(4);
    sender.join(&[packet(1, 0, 3_006, 7), packet(1, 0, 3_006, 8)].concat());
    let words: Vec<Vec<u8>> = (0..4).map(|_| sender.word(&mut rng)).collect();
    let mut careless = Receiver::new();
    careless.read(&mut rng, &words[0]);
    careless.read(&mut rng, &words[3]);
    let mut joined = packet(1, 0, 3_006, 7);
    joined[4 + 1_502..].fill(8);
    assert!(careless.packets == joined);
    let mut careful = Receiver::new();
    careful.read(&mut rng, &words[0]);
    careful.lose();
    careful.read(&mut rng, &words[3]);
    assert!(careful.packets.is_empty() && careful.open == NONE);
}

/// Words of several streams in any order, each with an open packet of its own.
#[test]
fn streams_side_by_side() {
    let mut rng = Rng::new(415);
    let mut streams: Vec<_> = (0..4)
        .map(|id| (Sender::new(id), Receiver::new(), Vec::new()))
        .collect();
    for _ in 0..200 {
        let at = rng.below(streams.len());
        let (sender, receiver, arrived) = &mut streams[at];
        sender.join(&joining(&mut rng));
        let word = sender.word(&mut rng);
        let arrives = !rng.chance(1, 8);
        arrived.push(arrives);
        match arrives {
            true => receiver.read(&mut rng, &word),
            false => receiver.lose(),
        }
    }
    for (sender, receiver, arrived) in &streams {
        assert!(receiver.packets == sender.arrived(arrived), "{}", sender.id);
    }
}

/// What is handed out goes on as it is: as a queue it is written and read once more.
#[test]
fn what_is_read_is_written() {
    let mut rng = Rng::new(416);
    for _ in 0..20 {
        let mut packets = inputs::ip_queue(&mut rng, 12);
        for _ in 0..3 {
            let (mut sender, mut receiver) = (Sender::new(rng.byte()), Receiver::new());
            sender.join(&packets);
            while !sender.queue.is_empty() {
                let word = sender.word(&mut rng);
                receiver.read(&mut rng, &word);
            }
            assert!(receiver.packets == handed_out(&packets).concat());
            packets = receiver.packets;
        }
    }
}

/// Whether the memory has one of its two forms, with nothing behind the bytes of an open packet.
fn has_a_form(open: &[u8]) -> bool {
    let number = |at: usize| usize::from(u16::from_be_bytes([open[at], open[at + 1]]));
    let (length, so_far) = (number(4), number(6));
    let label = open[0] == 1 && matches!(open[1], 1 | 2) && open[2] <= 1 && open[3] == 0;
    let is_open = label && (1..=4_095).contains(&length) && so_far < length;
    let used = if is_open { 8 + so_far } else { 0 };
    open[used..].iter().all(|byte| *byte == 0)
}

/// Whatever words come, reported lost or not where they are refused, only packets come out that a sender could have sent.
#[test]
fn only_packets_come_out() {
    let mut rng = Rng::new(417);
    let mut receiver = Receiver::new();
    for _ in 0..3_000 {
        let word = inputs::mutated_receiving(&mut rng).word;
        match both_read(&mut rng, &word, &mut receiver.open) {
            Ok(read) => receiver.packets.extend(read.packets),
            Err(_) if rng.flag() => receiver.lose(),
            Err(_) => {}
        }
        assert!(has_a_form(&receiver.open));
    }
    let packets = handed_out(&receiver.packets);
    assert!(packets.concat() == receiver.packets && packets.len() > 1_000);
    for packet in packets {
        assert!(matches!(packet[0], 1 | 2));
        assert!((5..=4_099).contains(&packet.len()));
    }
}
