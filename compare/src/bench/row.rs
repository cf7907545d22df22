//! A row of the bench: an exported function and its counterpart in the second implementation, on inputs of
//! one kind.

use crate::element::Element;
use crate::rng::Rng;
use std::fmt::{Display, Formatter};
use std::hint::black_box;
use std::mem::size_of;

/// What is called.
#[derive(Clone, Copy)]
pub enum Side {
    Library,
    Second,
}

pub const SIDES: [Side; 2] = [Side::Library, Side::Second];

/// When the second implementation makes the tables that it works from.
#[derive(Clone, Copy)]
pub enum Tables {
    /// Once, before the clock runs.
    Before,
    /// In each call, and so inside the clock.
    Inside,
    /// It has none.
    None,
}

impl Display for Tables {
    fn fmt(&self, to: &mut Formatter) -> std::fmt::Result {
        to.pad(match self {
            Tables::Before => "before",
            Tables::Inside => "inside",
            Tables::None => "none",
        })
    }
}

/// What a row is about.
pub struct Title {
    pub function: &'static str,
    pub case: String,
    pub tables: Tables,
}

/// In bytes. Addresses that differ by whole pages get in each other's way in the cache.
const PAGE: usize = 4_096;
const CACHE_LINE: usize = 64;

pub trait Row {
    fn title(&self) -> &Title;

    /// Takes another input of the row's kind, and has it stand at another place within a page, so that no side
    /// is slowed in all rounds by where its buffers happen to stand.
    fn renew(&mut self, rng: &mut Rng);

    /// Calls one side that many times. This is what is timed.
    fn call(&mut self, side: Side, times: usize);

    /// Panics unless both sides wrote the same when they were last called.
    fn compare(&self);
}

/// A row whose calls write `length` elements. `second` leaves what it makes in the vector that it is
/// given, which has that length at first. What else a function reads or writes, its two sides keep.
pub fn row<'a, R: Element + 'a, W: Element + 'a>(
    title: Title,
    length: usize,
    input: impl Fn(&mut Rng) -> Vec<R> + 'a,
    library: impl FnMut(&[R], &mut [W]) -> u8 + 'a,
    second: impl FnMut(&[R], &mut Vec<W>) -> Result<(), u8> + 'a,
) -> Box<dyn Row + 'a> {
    let zeros = vec![W::from_low_bits(0); length];
    Box::new(Pair {
        title,
        input,
        library,
        second,
        memory: Vec::new(),
        begins: 0,
        lent: zeros.clone(),
        made: zeros,
    })
}

struct Pair<R, W, I, L, S> {
    title: Title,
    input: I,
    library: L,
    second: S,
    /// What is read, from its place `begins` on.
    memory: Vec<R>,
    begins: usize,
    lent: Vec<W>,
    made: Vec<W>,
}

impl<R, W, I, L, S> Row for Pair<R, W, I, L, S>
where
    R: Element,
    W: Element,
    I: Fn(&mut Rng) -> Vec<R>,
    L: FnMut(&[R], &mut [W]) -> u8,
    S: FnMut(&[R], &mut Vec<W>) -> Result<(), u8>,
{
    fn title(&self) -> &Title {
        &self.title
    }

    fn renew(&mut self, rng: &mut Rng) {
        let lines = rng.below(PAGE / CACHE_LINE);
        self.begins = lines * CACHE_LINE / size_of::<R>();
        self.memory.clear();
        self.memory.resize(self.begins, R::from_low_bits(0));
        self.memory.extend((self.input)(rng));
    }

    fn call(&mut self, side: Side, times: usize) {
        match side {
            Side::Library => self.call_library(times),
            Side::Second => self.call_second(times),
        }
    }

    fn compare(&self) {
        let Title { function, case, .. } = &self.title;
        let (written, rest) = self.lent.split_at(self.made.len());
        assert!(
            written == self.made && rest.iter().all(|&place| place == W::from_low_bits(0)),
            "{function} and the second implementation differ on {case}"
        );
    }
}

// the black boxes keep the compiler from making one call of many, and from leaving out what is not looked at
impl<R, W, I, L, S> Pair<R, W, I, L, S>
where
    W: Element,
    L: FnMut(&[R], &mut [W]) -> u8,
    S: FnMut(&[R], &mut Vec<W>) -> Result<(), u8>,
{
    fn call_library(&mut self, times: usize) {
        for _ in 0..times {
            let lent = black_box(&mut self.lent[..]);
            lent.fill(W::from_low_bits(0));
            let refusal = (self.library)(black_box(&self.memory[self.begins..]), lent);
            assert_eq!(refusal, 0, "{} refuses", self.title.function);
        }
    }

    /// The second implementation clears what it is given, or makes what it writes anew.
    fn call_second(&mut self, times: usize) {
        for _ in 0..times {
            let done = (self.second)(
                black_box(&self.memory[self.begins..]),
                black_box(&mut self.made),
            );
            assert_eq!(done, Ok(()), "the second {} refuses", self.title.function);
        }
    }
}
