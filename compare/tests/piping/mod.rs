//! Frames of pipes written by the library and by the second implementation at once, which must agree on the number and on
//! every byte.

use compare::lent::first_difference;
use compare::opl;
use compare::rng::Rng;
use compare::second::pipe::write;

/// What is lent of a frame, but for the memory.
pub struct Frame<'a> {
    pub pipe: &'a [u8],
    pub number: u32,
    pub codewords: &'a [u8],
    /// The length of the pipe that is to be written.
    pub out_len: usize,
}

/// The pipe of a frame, or the number with which both refuse. `memory` is lent as it stands and is left as they leave it;
/// what is lent for the pipe is filled at random before. Panics unless both agree on the number and on every byte.
#[track_caller]
pub fn both_write(rng: &mut Rng, frame: &Frame, memory: &mut [u8]) -> Result<Vec<u8>, u8> {
    let Frame {
        pipe,
        number,
        codewords,
        out_len,
    } = *frame;
    let mut out = rng.bytes(out_len);
    let (mut due_memory, mut due_out) = (memory.to_vec(), out.clone());
    let second = write(pipe, number, codewords, &mut due_memory, &mut due_out);
    let refusal = opl::pipe(pipe, number, codewords, memory, &mut out);
    let input = format!("frame {number} of {pipe:02X?}");
    assert_eq!(refusal, second.err().unwrap_or(0), "{input}");
    let differ = first_difference(memory, &due_memory);
    assert_eq!(differ, None, "memory, {input}");
    assert_eq!(first_difference(&out, &due_out), None, "out, {input}");
    second.map(|()| out)
}
