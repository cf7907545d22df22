//! A minute of a transport stream (ISO/IEC 13818-1) through the library: written eight packets a word, the last word
//! filled up with null packets, and read.

use compare::inputs::{flip_places, odd_places};
use compare::opl;
use compare::rng::Rng;
use compare::stream::{null_packet, pid_of, story, stream, MINUTE, NULL_PID, PACKET, SYNC};
use std::collections::BTreeMap;

/// The packets of a word.
const PACKETS: usize = 8;
const ID: u8 = 12;

/// The words of a stream.
fn sent(rng: &mut Rng, stream: &[u8]) -> Vec<Vec<u8>> {
    let words = stream.chunks(PACKETS * PACKET).map(|payload| {
        let mut word = rng.bytes(1_536);
        let count = (payload.len() / PACKET) as u32;
        let refusal = opl::payload_write(2, ID, count, payload, &null_packet(), &mut word);
        assert_eq!(refusal, 0);
        word
    });
    words.collect()
}

/// The packets of a word, and the parity that is reported of it.
fn received(word: &[u8]) -> (&[u8], u8) {
    let mut header = [0xA5; 16];
    assert_eq!(opl::payload_read(word, &mut header), 0);
    assert_eq!(header[..7], [0, 0, 0, 0, ID, 2, 0]);
    (&word[..PACKETS * PACKET], header[7])
}

/// The packets that a receiver keeps: it looks for the sync byte and a continuity counter without a gap, and drops null
/// packets.
fn kept(stream: &[u8]) -> Vec<&[u8]> {
    let mut counters = BTreeMap::new();
    let is_kept = |packet: &&[u8]| {
        assert_eq!(packet[0], SYNC);
        let (pid, counter) = (pid_of(packet), packet[3] & 0x0F);
        if pid != NULL_PID {
            let before = counters.insert(pid, counter);
            assert!(before.map_or(true, |before| (before + 1) % 16 == counter));
        }
        pid != NULL_PID
    };
    stream.chunks(PACKET).filter(is_kept).collect()
}

#[test]
fn a_minute_of_a_stream_comes_back() {
    let mut rng = Rng::new(350);
    let stream = stream(&mut rng, MINUTE);
    let words = sent(&mut rng, &stream);
    let last = MINUTE % PACKETS;
    assert_eq!((words.len(), last), (2_494, 2));
    let back: Vec<u8> = words
        .iter()
        .flat_map(|word| {
            let (packets, parity) = received(word);
            assert_eq!(parity, 0b1111);
            packets.to_vec()
        })
        .collect();
    let (packets, fill) = back.split_at(stream.len());
    assert!(packets == stream);
    assert!(fill == null_packet().repeat(PACKETS - last));
    // the fill is dropped with the stream's own null packets
    let both = kept(&back);
    assert!(both == kept(&stream) && both.len() < MINUTE);
}

/// On a bad way an odd number of bits is changed in some parts. What holds is then what was sent, two packets for each
/// part; the others are handed out as they came.
#[test]
fn parts_that_hold_are_as_they_were_sent() {
    let mut rng = Rng::new(351);
    let stream = stream(&mut rng, 400 * PACKETS);
    for (mut word, payload) in sent(&mut rng, &stream)
        .into_iter()
        .zip(stream.chunks(PACKETS * PACKET))
    {
        let damaged = [(); 4].map(|()| rng.chance(1, 3));
        for part in (0..4).filter(|part| damaged[*part]) {
            flip_places(&mut word, part, &odd_places(&mut rng));
        }
        let (packets, parity) = received(&word);
        for (part, (came, was)) in packets
            .chunks(2 * PACKET)
            .zip(payload.chunks(2 * PACKET))
            .enumerate()
        {
            let holds = parity >> part & 1 != 0;
            assert_eq!(holds, !damaged[part]);
            assert!(came == was || !holds);
        }
        assert_eq!(parity >> 4, 0);
    }
}

/// The demonstration's stream has null packets of its own, the last is none, and it ends inside a word.
#[test]
fn the_stored_stream_is_what_is_made() {
    let stored = include_bytes!("../../examples/streams/story.ts");
    assert!(stored[..] == story());
    let packets: Vec<&[u8]> = stored.chunks(PACKET).collect();
    assert_eq!((packets.len(), kept(stored).len()), (52, 44));
    assert_ne!(packets.len() % PACKETS, 0);
    assert_ne!(pid_of(packets[51]), NULL_PID);
}
