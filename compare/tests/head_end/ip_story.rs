//! examples/streams/story.ip, the IP packets of the demonstration: that they are what the README beside them says.

use super::ip_sent::{all_words, letter, Place};
use crate::program::file;
use compare::inputs::handed_out;
use compare::second::ip::{LABEL_BYTES, LAST_ADDRESS, PAYLOAD_BYTES};
use std::fs;
use std::process::Command;

/// The demonstration's packets.
pub fn story_ip() -> Vec<u8> {
    fs::read(file("examples/streams/story.ip")).expect("the packets are there")
}

/// The internet checksum over bytes that contain it is 0.
fn checksum(bytes: &[u8]) -> u16 {
    let pair = |pair: &[u8]| u32::from(pair[0]) << 8 | u32::from(*pair.get(1).unwrap_or(&0));
    let mut sum: u32 = bytes.chunks(2).map(pair).sum();
    while sum > 0xFFFF {
        sum = (sum & 0xFFFF) + (sum >> 16);
    }
    !(sum as u16)
}

fn two(bytes: &[u8]) -> usize {
    usize::from(u16::from_be_bytes([bytes[0], bytes[1]]))
}

/// The addresses of a packet, and its UDP datagram, if the rest of its header is as it has to be.
fn datagram(ty: u8, packet: &[u8]) -> (&[u8], &[u8]) {
    match ty {
        1 => {
            assert_eq!((packet[0], two(&packet[2..])), (0x45, packet.len()));
            assert_eq!((packet[9], checksum(&packet[..20])), (17, 0));
            (&packet[12..20], &packet[20..])
        }
        _ => {
            assert_eq!((packet[0], two(&packet[4..])), (0x60, packet.len() - 40));
            assert_eq!(packet[6], 17);
            (&packet[8..40], &packet[40..])
        }
    }
}

/// They are IP packets of both versions whose lengths and checksums hold, but for the UDP checksum of the erroneous.
#[test]
fn the_stored_packets_are_sound() {
    let stored = story_ip();
    let packets = handed_out(&stored);
    assert!(stored == packets.concat() && packets.len() == 26);
    for (number, packet) in packets.iter().enumerate() {
        let (label, data) = packet.split_at(LABEL_BYTES);
        let (addresses, datagram) = datagram(label[0], data);
        assert_eq!(two(&datagram[4..]), datagram.len());
        let length = (datagram.len() as u16).to_be_bytes();
        let covered = [addresses, &[0, 17], &length, datagram].concat();
        assert_eq!(checksum(&covered) == 0, label[1] == 0, "packet {number}");
        assert_eq!(label[1] == 1, number == 17);
    }
    let lengths = packets.iter().map(|packet| packet.len() - LABEL_BYTES);
    assert_eq!(
        (lengths.clone().min(), lengths.max()),
        (Some(40), Some(4_095))
    );
    let ipv4 = packets.iter().filter(|packet| packet[0] == 1).count();
    assert_eq!(ipv4, 16);
}

/// They come to stand where the README beside them says.
#[test]
fn the_stored_packets_stand_where_is_said() {
    let words = all_words(&handed_out(&story_ip()));
    assert_eq!(words.len(), 16);
    let last = PAYLOAD_BYTES - 1;
    let (begins, runs_on) = (
        |letter| Some((letter, true)),
        |letter| Some((letter, false)),
    );
    for (word, byte, due) in [
        (1, 618, begins('D')),
        (2, 0, runs_on('D')),
        (3, last, runs_on('D')),
        (4, 202, runs_on('D')),
        (4, 203, begins('E')),
        (7, LAST_ADDRESS, begins('L')),
        (8, 0, runs_on('L')),
        (13, last - 1, runs_on('U')),
        (13, last, None),
        (14, 0, begins('V')),
        (14, last, runs_on('W')),
        (15, 0, begins('X')),
        (15, 1_281, runs_on('Z')),
        (15, 1_282, None),
    ] {
        let place: Place = words[word][byte];
        let found = place.map(|(packet, begins)| (letter(packet), begins));
        assert_eq!(found, due, "byte {byte} of word {word}");
    }
}

/// The script writes them. Where there is no Python, as there is for `make test`, that is not looked at.
#[test]
fn the_stored_packets_are_what_is_made() {
    let script = file("examples/streams/story_ip.py");
    if let Ok(output) = Command::new("python3").arg(script).output() {
        assert!(output.status.success());
        assert!(output.stdout == story_ip());
    }
}
