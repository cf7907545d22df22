//! The calls of a case, each made both ways and compared.

use super::difference::{caught, hex};
use super::{Entry, Fault};
use crate::calls::{Argument, Call};
use crate::element::Buffer;
use crate::rng::Rng;

/// A case under way.
pub struct Trial {
    pub rng: Rng,
    /// The functions called so far, each with the number that it gave.
    pub(super) calls: Vec<(&'static str, u8)>,
}

/// The number that a call gave, and the call as it then was.
struct Answer<E> {
    number: u8,
    call: E,
}

impl Trial {
    pub(super) fn new(rng: Rng) -> Trial {
        let calls = Vec::new();
        Trial { rng, calls }
    }

    /// Makes a call of the library and of the second implementation, and gives the call back as it is then. It is
    /// a difference too if both agree on another number than is due.
    pub fn call<E: Entry>(&mut self, call: &E, due: Option<u8>) -> Result<E, Fault> {
        let answer = agreed(call).map_err(|what| Fault::of_call(call, what))?;
        let number = answer.number;
        self.calls.push((E::NAME, number));
        match due {
            Some(due) if due != number => Err(Fault::of_call(
                call,
                format!("made to give {due}, and both give {number}"),
            )),
            _ => Ok(answer.call),
        }
    }
}

/// The answer of both, or how they differ.
fn agreed<E: Entry>(call: &E) -> Result<Answer<E>, String> {
    let second = caught(|| answer(call, |call| call.second().err().unwrap_or(0)))
        .map_err(|panic| format!("the second implementation panics: {panic}"))?;
    let library =
        caught(|| answer(call, E::library)).map_err(|panic| format!("the library: {panic}"))?;
    if library.number != second.number {
        return Err(format!(
            "the library gives {}, the second implementation {}",
            library.number, second.number
        ));
    }
    match unlike(&library.call, &second.call) {
        Some(what) => Err(what),
        None => Ok(library),
    }
}

fn answer<E: Call>(call: &E, make: impl FnOnce(&mut E) -> u8) -> Answer<E> {
    let mut call = call.clone();
    let number = make(&mut call);
    Answer { number, call }
}

/// How the buffers differ that the library and the second implementation left, what is only read too.
fn unlike<E: Call>(library: &E, second: &E) -> Option<String> {
    let pairs = library.arguments().into_iter().zip(second.arguments());
    let mut faults = pairs.filter_map(|pair| match pair {
        ((name, Argument::Buffer(library)), (_, Argument::Buffer(second))) => {
            unlike_buffers(name, library, second)
        }
        _ => None,
    });
    faults.next()
}

fn unlike_buffers(name: &str, library: &dyn Buffer, second: &dyn Buffer) -> Option<String> {
    if library.count() != second.count() {
        return Some(format!("the second implementation resized {name}"));
    }
    let differ = |place: &usize| library.bits(*place) != second.bits(*place);
    let place = (0..library.count()).find(differ)?;
    let [library, second] = [library, second].map(|buffer| hex(buffer, place..place + 1));
    Some(format!(
        "{name} first at offset {place}: the library has {library}, the second implementation {second}"
    ))
}
