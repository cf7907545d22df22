//! opl_pipe against the second implementation: frame after frame against a transmitter that keeps all of them, and the way
//! back; the memory as a ring of any bytes; each refusal and their order.

mod piping;

use compare::inputs::{self, NO_PROFILE};
use compare::rng::Rng;
use compare::second::mixer::unmix;
use compare::second::pipe::{Pipe, Receiver, Transmitter};
use piping::{both_write, Frame};

/// The bit of Regrouping_Flag, in byte 3 of the record.
const REGROUPING: u8 = 0x40;

fn of(pipe: &[u8]) -> Pipe {
    Pipe::of(pipe).expect("a pipe that is accepted")
}

/// Writes a frame of these codewords, which is accepted.
#[track_caller]
fn written(
    rng: &mut Rng,
    pipe: &[u8],
    number: u32,
    codewords: &[u8],
    memory: &mut [u8],
) -> Vec<u8> {
    let frame = Frame {
        pipe,
        number,
        codewords,
        out_len: codewords.len(),
    };
    both_write(rng, &frame, memory).expect("it is accepted")
}

/// Sends that many frames more than the greatest delay, from the first on, and receives them.
#[track_caller]
fn sent_and_received(rng: &mut Rng, pipe: &[u8], frames: usize) {
    let (greatest, frame_bytes) = (of(pipe).profile.greatest, of(pipe).frame_bytes());
    let mut memory = vec![0; of(pipe).memory_bytes()];
    let mut transmitter = Transmitter::new(of(pipe));
    let mut receiver = Receiver::new(of(pipe));
    // before the first frame all units are zero
    let mut sent = vec![vec![0; frame_bytes]; greatest];
    for number in 0..greatest + frames {
        let codewords = inputs::codewords(rng, frame_bytes);
        let out = written(rng, pipe, number as u32, &codewords, &mut memory);
        assert!(
            out == transmitter.frame(&codewords),
            "{number}: {pipe:02X?}"
        );
        sent.push(codewords);
        assert!(
            receiver.frame(&out) == sent[number],
            "{number}: {pipe:02X?}"
        );
    }
}

#[test]
fn frames_of_every_pattern() {
    let mut rng = Rng::new(840);
    for pattern in 0..28 {
        for regrouping in [0, REGROUPING] {
            let mut pipe = inputs::framed_pipe_of(&mut rng, pattern, 3, 60_000);
            pipe[3] = pipe[3] & !REGROUPING | regrouping;
            sent_and_received(&mut rng, &pipe, 3);
        }
    }
}

/// Hundreds of frames of one pipe: of 28 units, fewer than the profile has taps, and of 40, in two slots.
#[test]
fn hundreds_of_frames() {
    let mut rng = Rng::new(841);
    // pattern 27, 7 units wide; pattern 16, 20 units wide; tap lengths of 0 to 15 and 20 to 50, a quarter of them
    let sections = [0x07, 0x29, 0x07, 0x45];
    for record in [
        [27 << 2, 7, 1, 0x00, 0, 0x30],
        [16 << 2, 20, 1, 0xC0, 0, 0x30],
    ] {
        let pipe = [&record[..], &sections].concat();
        assert_eq!(of(&pipe).profile.greatest, 12);
        sent_and_received(&mut rng, &pipe, 150);
    }
}

/// Behind the mixer, unit k of slot w is 64 times the bytes w and k. With no delay they all go out at once, each once:
/// slot by slot, or unit by unit.
#[test]
fn each_unit_goes_out_once() {
    let mut rng = Rng::new(842);
    for (pattern, slots) in [(27, 1), (27, 5), (13, 3), (0, 2)] {
        for regrouping in [0, REGROUPING] {
            let mut pipe = inputs::flat_pipe(&mut rng, pattern);
            pipe[3] = pipe[3] & !REGROUPING | regrouping;
            let units = of(&pipe).units();
            inputs::set_width(&mut pipe, (units / 4 * slots) as u32);
            let mark = |slot: usize, k: usize| [slot as u8, k as u8].repeat(32);
            let slot = |slot| (0..units).flat_map(|k| mark(slot, k)).collect::<Vec<u8>>();
            let codewords: Vec<u8> = (0..slots)
                .flat_map(|index| unmix(pattern, &slot(index)).expect("a codeword"))
                .collect();
            let mut memory = rng.bytes(codewords.len());
            let out = written(&mut rng, &pipe, 7, &codewords, &mut memory);
            let by_slot = (0..slots).flat_map(&slot).collect::<Vec<u8>>();
            let by_unit = (0..units).flat_map(|k| (0..slots).flat_map(move |w| mark(w, k)));
            let due = match regrouping {
                0 => by_slot.clone(),
                _ => by_unit.collect(),
            };
            assert!(out == due && memory == by_slot, "pattern {pattern}");
        }
    }
}

/// Any bytes are a memory: what is in them comes out. Of the memory one row is written, and no other is touched.
#[test]
fn a_memory_of_any_bytes() {
    let mut rng = Rng::new(843);
    for _ in 0..60 {
        let pipe = inputs::framed_pipe(&mut rng, 3, 60_000);
        let its = of(&pipe);
        let before = rng.bytes(its.memory_bytes());
        let mut memory = before.clone();
        let codewords = inputs::codewords(&mut rng, its.frame_bytes());
        let number = rng.field(32);
        written(&mut rng, &pipe, number, &codewords, &mut memory);
        let row = number as usize % its.rows();
        let rows = before
            .chunks(its.frame_bytes())
            .zip(memory.chunks(its.frame_bytes()));
        for (index, (before, after)) in rows.enumerate() {
            assert!(
                index == row || before == after,
                "row {index} of {pipe:02X?}"
            );
        }
    }
}

/// A frame's number counts by its remainder alone: those of one remainder do the same.
#[test]
fn numbers_of_a_frame() {
    let mut rng = Rng::new(844);
    for _ in 0..12 {
        let pipe = inputs::framed_pipe(&mut rng, 2, 40_000);
        let its = of(&pipe);
        let before = rng.bytes(its.memory_bytes());
        let codewords = rng.bytes(its.frame_bytes());
        let mut with = |number| {
            let mut memory = before.clone();
            let out = written(&mut rng, &pipe, number, &codewords, &mut memory);
            (out, memory)
        };
        let rows = its.rows() as u32;
        for remainder in [0, rows / 2, rows - 1] {
            let due = with(remainder);
            for near in [rows, 255 * rows, 65_537, 1 << 24, 1 << 31, u32::MAX] {
                let number = (near - near % rows).checked_add(remainder);
                assert!(
                    number.map_or(true, |number| with(number) == due),
                    "{pipe:02X?}"
                );
            }
        }
        with(u32::MAX);
    }
}

/// The greatest delay that there is, with the narrowest pipe; and the widest pipe, with a small one.
#[test]
fn the_longest_memory_and_the_widest_pipe() {
    let mut rng = Rng::new(845);
    let longest = [&[27 << 2, 7, 7, 0, 0x0F, 0xF0][..], &[0x01, 0xFF].repeat(8)].concat();
    assert_eq!(of(&longest).memory_bytes(), 6_161 * 1_792);
    let mut memory = rng.bytes(6_161 * 1_792);
    for number in [6_160, 6_161, u32::MAX] {
        let codeword = rng.bytes(1_792);
        written(&mut rng, &longest, number, &codeword, &mut memory);
    }
    for (pattern, width) in [(27, 1_022_u16), (0, 1_020)] {
        for flags in [0, REGROUPING] {
            let [high, low] = width.to_be_bytes();
            let pipe = [pattern << 2 | high, low, 0, flags, 0, 0, 0x0F, 0x20];
            let frame_bytes = 256 * usize::from(width);
            let (codewords, mut memory) = (rng.bytes(frame_bytes), rng.bytes(2 * frame_bytes));
            written(&mut rng, &pipe, 1, &codewords, &mut memory);
        }
    }
}

/// What is lent for a frame, its lengths too, to have rules broken in it.
struct Lent {
    pipe: Vec<u8>,
    codewords: usize,
    memory: usize,
    out: usize,
}

impl Lent {
    fn new(rng: &mut Rng) -> Lent {
        let pipe = inputs::framed_pipe(rng, 2, 30_000);
        let its = of(&pipe);
        let (codewords, memory, out) = (its.frame_bytes(), its.memory_bytes(), its.frame_bytes());
        Lent {
            pipe,
            codewords,
            memory,
            out,
        }
    }

    /// The number that both give. That nothing is then touched is looked at with every call.
    #[track_caller]
    fn refusal(&self, rng: &mut Rng) -> Option<u8> {
        let codewords = vec![0xA5; self.codewords];
        let frame = Frame {
            pipe: &self.pipe,
            number: rng.field(32),
            codewords: &codewords,
            out_len: self.out,
        };
        both_write(rng, &frame, &mut vec![0x5A; self.memory]).err()
    }

    fn break_pattern(&mut self, rng: &mut Rng) {
        inputs::set_pattern(&mut self.pipe, inputs::wrong_pattern(rng));
    }

    /// The lengths of codewords, memory and pipe.
    fn lengths(&mut self) -> [&mut usize; 3] {
        [&mut self.codewords, &mut self.memory, &mut self.out]
    }
}

#[test]
fn pipes_without_a_profile() {
    let mut rng = Rng::new(846);
    for why in NO_PROFILE {
        for later in 0..24 {
            let mut lent = Lent::new(&mut rng);
            // 20 comes before 3 and before 21
            if later % 2 == 1 {
                lent.break_pattern(&mut rng);
            }
            if later % 3 == 1 {
                *lent.lengths()[later / 3 % 3] += 1;
            }
            inputs::lose_profile(&mut rng, &mut lent.pipe, why);
            assert_eq!(lent.refusal(&mut rng), Some(20), "{why:?}");
        }
    }
    let mut lent = Lent::new(&mut rng);
    lent.pipe.clear();
    (lent.codewords, lent.memory, lent.out) = (0, 0, 0);
    assert_eq!(lent.refusal(&mut rng), Some(20));
}

#[test]
fn patterns_that_are_refused() {
    let mut rng = Rng::new(847);
    for pattern in 28..64 {
        let mut lent = Lent::new(&mut rng);
        inputs::set_pattern(&mut lent.pipe, pattern);
        assert_eq!(lent.refusal(&mut rng), Some(3), "pattern {pattern}");
        // 3 comes before 21
        for index in 0..3 {
            let before = std::mem::take(lent.lengths()[index]);
            assert_eq!(lent.refusal(&mut rng), Some(3), "pattern {pattern}");
            *lent.lengths()[index] = before;
        }
        inputs::set_width(&mut lent.pipe, 1);
        assert_eq!(lent.refusal(&mut rng), Some(3), "pattern {pattern}");
    }
}

/// A width that is not just whole codewords', be the lengths those of the codewords that it has room for or not.
#[test]
fn widths_that_are_refused() {
    let mut rng = Rng::new(848);
    for pattern in 0..28 {
        for slots in 0..3 {
            let mut pipe = inputs::flat_pipe(&mut rng, pattern);
            let codeword = of(&pipe).codeword_bytes;
            let width = inputs::wrong_width(&mut rng, pattern, slots);
            inputs::set_width(&mut pipe, width);
            let whole = slots as usize * codeword;
            for bytes in [256 * width as usize, whole, whole + codeword, 0] {
                let lent = Lent {
                    pipe: pipe.clone(),
                    codewords: bytes,
                    memory: bytes,
                    out: bytes,
                };
                assert_eq!(lent.refusal(&mut rng), Some(21), "{width} units");
            }
        }
    }
}

/// Each length alone, and lengths that go together but not with the pipe.
#[test]
fn lengths_that_are_refused() {
    let mut rng = Rng::new(849);
    for _ in 0..12 {
        let mut lent = Lent::new(&mut rng);
        let row = lent.out;
        for index in 0..3 {
            let right = *lent.lengths()[index];
            let wrong = [
                0,
                1,
                right - 64,
                right - 1,
                right + 1,
                right + 64,
                2 * right,
            ];
            let by_row = [right - row, right + row, right + 256, right + 65_536];
            for wrong in wrong.into_iter().chain(by_row) {
                *lent.lengths()[index] = wrong;
                assert_eq!(lent.refusal(&mut rng), Some(21), "{wrong} bytes");
            }
            *lent.lengths()[index] = right;
        }
        assert_eq!(lent.refusal(&mut rng), None);
        for length in lent.lengths() {
            *length *= 2;
        }
        assert_eq!(lent.refusal(&mut rng), Some(21));
    }
}
