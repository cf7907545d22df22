//! Words of IP streams written by the library and by the second implementation at once, which must agree on the number
//! and on every byte.

use compare::lent::first_difference;
use compare::opl;
use compare::rng::Rng;
use compare::second::ip::{self, PROGRESS_BYTES};
use compare::second::payload::WORD_BYTES;

/// What is written of a queue.
#[derive(Debug, PartialEq)]
pub struct Written {
    pub word: Vec<u8>,
    /// How many bytes of the queue are done with, and how much is sent of the packet that is then first.
    pub done: usize,
    pub sent: u32,
}

/// The word and the progress of a queue, or the number with which both writers refuse. What is lent for them has these
/// lengths and is filled at random before. Panics unless both agree on the number and on every byte.
#[track_caller]
pub fn both_write_into(
    rng: &mut Rng,
    id: u8,
    sent: u32,
    queue: &[u8],
    [word_len, progress_len]: [usize; 2],
) -> Result<Written, u8> {
    let (mut word, mut progress) = (rng.bytes(word_len), rng.bytes(progress_len));
    let held = (word.clone(), progress.clone());
    let second = ip::write(id, sent, queue, word_len, progress_len);
    let refusal = opl::ip_write(id, sent, queue, &mut word, &mut progress);
    let input = format!("{sent} sent, queue of {} bytes", queue.len());
    let number = second.as_ref().err().copied().unwrap_or(0);
    assert_eq!(refusal, number, "{input}");
    let (due_word, due_progress) = match &second {
        Ok(written) => (&written.word[..], &written.progress[..]),
        Err(_) => (&held.0[..], &held.1[..]),
    };
    assert_eq!(first_difference(&word, due_word), None, "word, {input}");
    assert_eq!(progress, due_progress, "progress, {input}");
    second.map(|_| {
        let number = |at: usize| u32::from_be_bytes([0, 1, 2, 3].map(|byte| progress[at + byte]));
        Written {
            word,
            done: number(0) as usize,
            sent: number(4),
        }
    })
}

/// The same where the lengths are right.
#[track_caller]
pub fn both_write(rng: &mut Rng, id: u8, sent: u32, queue: &[u8]) -> Result<Written, u8> {
    both_write_into(rng, id, sent, queue, [WORD_BYTES, PROGRESS_BYTES])
}
