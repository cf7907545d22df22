//! Tests from outside. [`second`] is an independent implementation, written from the standard and the
//! scope and never from crates/; [`opl`] calls the proved library; the tests hold one to the other over
//! made-up [`inputs`], and [`fuzz`] does so for as long as it is given. `bench` measures one against the
//! other, where the library is linked. [`vectors`] is what the program crates/vectors must print, and [`stream`]
//! makes transport streams, examples/streams/story.ts among them.
//!
//! How a function is called is said in include/opl.h and nowhere here: [`opl`], [`calls`], what links the library
//! and what calls it elsewhere are made of the prototypes there ([`prototypes`]). For a function that is new in
//! the header there is to be written what cannot be read from it: its counterpart in [`second`], an
//! [`Entry`](fuzz::Entry) in fuzz/entries with its refusals and its inputs, and tests.

#[cfg(not(bridged))]
pub mod bench;
mod call;
pub mod calls;
pub mod element;
pub mod fuzz;
pub mod inputs;
pub mod lent;
pub mod opl;
pub mod prototypes;
pub mod rng;
pub mod second;
pub mod stream;
pub mod vectors;
