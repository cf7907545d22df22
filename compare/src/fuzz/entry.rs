//! An exported function as the fuzz has it: its refusals, how calls of it are made up, and its counterpart in the
//! second implementation. All else follows from include/opl.h.

use super::{Trial, Verdict};
use crate::calls::{every_entry, Call};
use crate::rng::Rng;

/// An exported function. Its struct in [`calls`](crate::calls) has what a call is given.
#[diagnostic::on_unimplemented(
    message = "include/opl.h declares a function for which src/fuzz/entries has no Entry: {Self}"
)]
pub trait Entry: Call {
    /// The refusals in 01's order. A rule is known by its place here, as a number may stand twice.
    const ORDER: &'static [u8];
    /// How often a round aims at each rule: the quicker the call, the oftener.
    const SHARE: usize;

    /// A call that is accepted.
    fn accepted(rng: &mut Rng) -> Self;

    /// Has the call break this rule, and no earlier one that it keeps.
    fn break_rule(&mut self, rng: &mut Rng, rule: usize);

    /// A call that may be accepted or refused.
    fn open(rng: &mut Rng) -> Self {
        let mut call = Self::accepted(rng);
        for _ in 0..rng.range(1, 3) {
            let rule = rng.below(Self::ORDER.len());
            call.break_rule(rng, rule);
        }
        call
    }

    /// Has the second implementation do what the call is for, on the call's own buffers; or gives its refusal,
    /// and touches nothing.
    fn second(&mut self) -> Result<(), u8>;
}

/// Something to be done with every entry.
pub trait Visitor {
    fn visit<E: Entry>(&mut self);
}

/// What an input is made for.
#[derive(Clone, Copy)]
pub(super) enum Aim {
    Accepted,
    /// The call is accepted, and is then made once more with what it left in its buffers. Memory that a function
    /// keeps with its caller is so carried from call to call.
    Again,
    /// This rule is the first that is broken.
    Rule(usize),
    /// Whatever comes of it.
    Open,
}

impl Aim {
    /// The number that is due, if one is.
    fn number(self, order: &[u8]) -> Option<u8> {
        match self {
            Aim::Accepted | Aim::Again => Some(0),
            Aim::Rule(rule) => Some(order[rule]),
            Aim::Open => None,
        }
    }
}

/// An entry whatever its type is.
#[derive(Clone, Copy)]
pub struct Listed {
    pub name: &'static str,
    pub order: &'static [u8],
    pub(super) share: usize,
    pub(super) run: fn(&mut Trial, Aim) -> Verdict,
}

impl Listed {
    pub const fn of<E: Entry>() -> Listed {
        Listed {
            name: E::NAME,
            order: E::ORDER,
            share: E::SHARE,
            run: run::<E>,
        }
    }
}

/// What include/opl.h declares, in its order.
pub fn entries() -> Vec<Listed> {
    struct List(Vec<Listed>);
    impl Visitor for List {
        fn visit<E: Entry>(&mut self) {
            self.0.push(Listed::of::<E>());
        }
    }
    let mut list = List(Vec::new());
    every_entry(&mut list);
    list.0
}

/// Makes up a call and makes it.
fn run<E: Entry>(trial: &mut Trial, aim: Aim) -> Verdict {
    let call = match aim {
        Aim::Accepted | Aim::Again => E::accepted(&mut trial.rng),
        Aim::Rule(rule) => refused::<E>(&mut trial.rng, rule),
        Aim::Open => E::open(&mut trial.rng),
    };
    let left = trial.call(&call, aim.number(E::ORDER))?;
    match aim {
        Aim::Again => trial.call(&left, None).map(drop),
        _ => Ok(()),
    }
}

/// A call that breaks this rule first, and now and then later ones too.
fn refused<E: Entry>(rng: &mut Rng, rule: usize) -> E {
    let mut call = E::accepted(rng);
    for later in (rule + 1..E::ORDER.len()).rev() {
        if rng.chance(1, 4) {
            call.break_rule(rng, later);
        }
    }
    call.break_rule(rng, rule);
    call
}
