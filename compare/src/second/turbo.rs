//! The turbo encoder (clauses 4.4.2 to 4.4.4) and the placement of received
//! values.
//!
//! `encode` and `place` follow 01 step by step: the lane of N + 6 groups of
//! five places, and the number of copies that a pattern sends of each place.
//! `Encoder` gives the same codewords fast, from tables made once.

use super::bits::{bits, BitWriter};
use super::interleaver;
use super::patterns::{self, Pattern};
use super::refusal;

/// N of a payload word.
pub const PAYLOAD_BLOCK: usize = 12_282;
/// N of a signalling word.
pub const SIGNALLING_BLOCK: usize = 762;
/// The bit periods of the tail.
pub const TAIL: usize = 6;

/// A constituent encoder: a1, a2, a3, at first zero.
#[derive(Clone, Copy, Debug, Default, PartialEq, Eq)]
pub struct Constituent {
    pub a1: bool,
    pub a2: bool,
    pub a3: bool,
}

/// What a constituent encoder gives in one clock.
#[derive(Clone, Copy, Debug, PartialEq, Eq)]
pub struct Symbols {
    pub x: bool,
    pub y0: bool,
    pub y1: bool,
}

impl Constituent {
    /// One clock with the switch up: input `u`.
    pub fn clock(&mut self, u: bool) -> Symbols {
        let Constituent { a1, a2, a3 } = *self;
        let a = u ^ a2 ^ a3;
        *self = Constituent {
            a1: a,
            a2: a1,
            a3: a2,
        };
        Symbols {
            x: u,
            y0: a ^ a1 ^ a3,
            y1: a ^ a1 ^ a2 ^ a3,
        }
    }

    /// One clock with the switch down: u = a2 + a3.
    pub fn clock_tail(&mut self) -> Symbols {
        self.clock(self.a2 ^ self.a3)
    }
}

/// The lane of an infoword: N groups X Y0 Y1 Y'0 Y'1, then three groups with
/// X Y0 Y1 at places 0 1 2 and three with X' Y'0 Y'1 at places 0 3 4. A place
/// without a symbol is false.
pub fn lane(info: &[bool]) -> Vec<[bool; 5]> {
    let mut first = Constituent::default();
    let mut second = Constituent::default();
    let mut groups = Vec::with_capacity(info.len() + TAIL);
    for (bit, address) in info.iter().zip(interleaver::addresses(info.len())) {
        let Symbols { x, y0, y1 } = first.clock(*bit);
        // X' is not sent in the data periods.
        let Symbols {
            x: _,
            y0: v0,
            y1: v1,
        } = second.clock(info[address]);
        groups.push([x, y0, y1, v0, v1]);
    }
    for _ in 0..3 {
        let Symbols { x, y0, y1 } = first.clock_tail();
        groups.push([x, y0, y1, false, false]);
    }
    for _ in 0..3 {
        let Symbols { x, y0, y1 } = second.clock_tail();
        groups.push([x, false, false, y0, y1]);
    }
    groups
}

/// The codeword of an infoword (1,536 or 96 bytes) under a pattern. Refusals
/// in the order: infoword length 1, 3, 4, codeword length 1, 2.
pub fn encode(pattern: u32, infoword: &[u8], codeword_len: usize) -> Result<Vec<u8>, u8> {
    let (block, pattern) = admit(pattern, infoword, codeword_len)?;
    let info: Vec<bool> = bits(infoword, 0, block).collect();
    let mut to = BitWriter::new();
    for (group, copies) in lane(&info).iter().zip(pattern.copies(block)) {
        for (symbol, times) in group.iter().zip(copies) {
            for _ in 0..times {
                to.flag(*symbol);
            }
        }
    }
    assert_eq!(to.len(), 8 * codeword_len);
    Ok(to.into_bytes())
}

/// The block and the pattern, or the encoder's refusal.
fn admit(
    pattern: u32,
    infoword: &[u8],
    codeword_len: usize,
) -> Result<(usize, &'static Pattern), u8> {
    let block = match infoword.len() {
        1_536 => PAYLOAD_BLOCK,
        96 => SIGNALLING_BLOCK,
        _ => return Err(refusal::LENGTH),
    };
    let row = admit_pattern(pattern, block)?;
    if 8 * codeword_len != row.code_bits(block) {
        return Err(refusal::LENGTH);
    }
    if bits(infoword, block, 8 * infoword.len()).any(|spare| spare) {
        return Err(refusal::SPARE);
    }
    Ok((block, row))
}

/// Refusals 3 and 4.
fn admit_pattern(pattern: u32, block: usize) -> Result<&'static Pattern, u8> {
    let row = patterns::pattern(pattern).ok_or(refusal::PATTERN)?;
    if block == SIGNALLING_BLOCK && pattern != 0 {
        return Err(refusal::BLOCK);
    }
    Ok(row)
}

/// The lane of received values, one signed byte per code bit: each place has
/// the sum of the values of its copies, 0 if none is sent. The lane's length
/// (61,440 or 3,840 places) picks N. Refusals in the order: lane length 1, 3,
/// 4, value length 1.
pub fn place(pattern: u32, values: &[i8], lane_len: usize) -> Result<Vec<i16>, u8> {
    let block = match lane_len {
        61_440 => PAYLOAD_BLOCK,
        3_840 => SIGNALLING_BLOCK,
        _ => return Err(refusal::LENGTH),
    };
    let row = admit_pattern(pattern, block)?;
    if values.len() != row.code_bits(block) {
        return Err(refusal::LENGTH);
    }
    let mut values = values.iter();
    let lane: Vec<i16> = row
        .copies(block)
        .iter()
        .flatten()
        .map(|times| {
            values
                .by_ref()
                .take(usize::from(*times))
                .map(|value| i16::from(*value))
                .sum()
        })
        .collect();
    assert!(values.next().is_none() && lane.len() == lane_len);
    Ok(lane)
}

/// The encoder with its tables made once.
pub struct Encoder {
    /// The interleaver of the payload block and of the signalling block.
    payload: Vec<u16>,
    signalling: Vec<u16>,
    /// One clock of a constituent encoder, at state * 2 + u.
    steps: [Step; 16],
    /// One data bit period of both encoders, at state * 4 + X * 2 + X', where
    /// a state is that of encoder 1 times 8 plus that of encoder 2.
    periods: Box<[Period; 256]>,
    rows: Vec<FastRow>,
}

/// The next state, as a number a1 a2 a3, and the symbols Y0 and Y1.
#[derive(Clone, Copy, Default)]
struct Step {
    next: u8,
    y0: u8,
    y1: u8,
}

/// The next state times 4, and the group X Y0 Y1 Y'0 Y'1.
#[derive(Clone, Copy)]
struct Period {
    next: u8,
    group: u8,
}

/// A pattern, ready for use.
struct FastRow {
    data: Vec<Squeeze>,
    tail: [[u8; 3]; 6],
    rate: (usize, usize),
}

/// For a group's mask: how many of the five symbols pass, and what is left of
/// each group of five bits.
struct Squeeze {
    count: u32,
    left: [u8; 32],
}

/// Appends bits to a buffer of zeros.
struct Pen<'a> {
    out: &'a mut [u8],
    at: usize,
    held: u64,
    filled: u32,
}

impl Pen<'_> {
    /// At most 32 bits at a time.
    #[inline(always)]
    fn push(&mut self, value: u64, count: u32) {
        self.held = self.held << count | value;
        self.filled += count;
        if self.filled >= 32 {
            self.filled -= 32;
            let whole = (self.held >> self.filled) as u32;
            self.out[self.at..self.at + 4].copy_from_slice(&whole.to_be_bytes());
            self.at += 4;
        }
    }

    fn finish(mut self) {
        while self.filled >= 8 {
            self.filled -= 8;
            self.out[self.at] = (self.held >> self.filled) as u8;
            self.at += 1;
        }
        assert!(self.filled == 0 && self.at == self.out.len());
    }
}

impl Default for Encoder {
    fn default() -> Self {
        Encoder::new()
    }
}

impl Encoder {
    pub fn new() -> Self {
        let narrow = |block| {
            interleaver::addresses(block)
                .iter()
                .map(|address| *address as u16)
                .collect()
        };
        let mut steps = [Step::default(); 16];
        for (index, step) in steps.iter_mut().enumerate() {
            let mut state = Constituent {
                a1: index & 8 != 0,
                a2: index & 4 != 0,
                a3: index & 2 != 0,
            };
            let Symbols { x: _, y0, y1 } = state.clock(index & 1 != 0);
            let next = [state.a1, state.a2, state.a3]
                .iter()
                .fold(0, |n, a| n << 1 | u8::from(*a));
            *step = Step {
                next,
                y0: u8::from(y0),
                y1: u8::from(y1),
            };
        }
        let periods = Box::new(std::array::from_fn(|index| {
            let x = index >> 1 & 1;
            let first = steps[index >> 5 << 1 | x];
            let second = steps[(index >> 2 & 7) << 1 | index & 1];
            Period {
                next: (first.next << 3 | second.next) << 2,
                group: (x as u8) << 4 | first.y0 << 3 | first.y1 << 2 | second.y0 << 1 | second.y1,
            }
        }));
        let rows = (0..28)
            .map(|number| {
                let pattern = patterns::pattern(number).expect("28 patterns");
                FastRow {
                    data: pattern.data.iter().map(squeeze).collect(),
                    tail: pattern.tail,
                    rate: pattern.rate,
                }
            })
            .collect();
        Encoder {
            payload: narrow(PAYLOAD_BLOCK),
            signalling: narrow(SIGNALLING_BLOCK),
            steps,
            periods,
            rows,
        }
    }

    /// The codeword's length in bytes, if the infoword has a length that is
    /// encoded and the pattern goes with it.
    pub fn codeword_len(&self, pattern: u32, infoword_len: usize) -> Option<usize> {
        match (infoword_len, pattern) {
            (1_536, 0..=27) => {
                let (over, under) = self.rows[pattern as usize].rate;
                Some((PAYLOAD_BLOCK + TAIL) * under / over / 8)
            }
            (96, 0) => Some(480),
            _ => None,
        }
    }

    /// The same codewords and refusals as `encode`, written into `codeword`,
    /// which is cleared first. A refusal leaves it as it was.
    pub fn encode(&self, pattern: u32, infoword: &[u8], codeword: &mut [u8]) -> Result<(), u8> {
        let addresses = match infoword.len() {
            1_536 => &self.payload[..],
            96 => &self.signalling[..],
            _ => return Err(refusal::LENGTH),
        };
        if pattern > 27 {
            return Err(refusal::PATTERN);
        }
        if infoword.len() == 96 && pattern != 0 {
            return Err(refusal::BLOCK);
        }
        if Some(codeword.len()) != self.codeword_len(pattern, infoword.len()) {
            return Err(refusal::LENGTH);
        }
        if infoword[infoword.len() - 1] & 0x3F != 0 {
            return Err(refusal::SPARE);
        }
        codeword.fill(0);
        let row = &self.rows[pattern as usize];
        let mut pen = Pen {
            out: codeword,
            at: 0,
            held: 0,
            filled: 0,
        };
        let mut state = 0;
        let mut index = 0;
        for period in addresses.chunks(row.data.len()) {
            for (address, squeeze) in period.iter().zip(&row.data) {
                let x = infoword[index >> 3] >> (7 - (index & 7)) & 1;
                let address = usize::from(*address);
                let v = infoword[address >> 3] >> (7 - (address & 7)) & 1;
                let step = self.periods[usize::from(state | x << 1 | v)];
                state = step.next;
                pen.push(
                    u64::from(squeeze.left[usize::from(step.group & 31)]),
                    squeeze.count,
                );
                index += 1;
            }
        }
        let mut states = [state >> 5, state >> 2 & 7];
        for (period, copies) in row.tail.iter().enumerate() {
            let state = &mut states[period / 3];
            let u = *state >> 1 & 1 ^ *state & 1;
            let Step { next, y0, y1 } = self.steps[usize::from(*state << 1 | u)];
            *state = next;
            for (symbol, times) in [u, y0, y1].iter().zip(copies) {
                for _ in 0..*times {
                    pen.push(u64::from(*symbol), 1);
                }
            }
        }
        pen.finish();
        Ok(())
    }
}

fn squeeze(mask: &[bool; 5]) -> Squeeze {
    let mut left = [0; 32];
    for (group, kept) in left.iter_mut().enumerate() {
        for (place, passes) in mask.iter().enumerate() {
            if *passes {
                *kept = *kept << 1 | (group >> (4 - place) & 1) as u8;
            }
        }
    }
    Squeeze {
        count: mask.iter().map(|passes| u32::from(*passes)).sum(),
        left,
    }
}
