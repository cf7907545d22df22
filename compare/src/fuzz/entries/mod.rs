//! What cannot be read from include/opl.h of each exported function: its refusals, its made-up inputs, and what
//! the second implementation has for it.

mod ip;
mod payload;
mod pipe;
mod preamble;
mod signalling;
mod turbo;

use crate::element::Element;
use crate::inputs::wrong_length;
use crate::rng::Rng;

/// Memory of that many elements, whatever they are.
pub(super) fn held<T: Element>(rng: &mut Rng, length: usize) -> Vec<T> {
    let element = |_| T::from_low_bits(rng.next_u64());
    (0..length).map(element).collect()
}

/// Cuts or lengthens to a length that is none of these.
fn resize<T: Element>(rng: &mut Rng, elements: &mut Vec<T>, right: &[usize]) {
    let length = wrong_length(rng, right);
    elements.resize_with(length, || T::from_low_bits(rng.next_u64()));
}

/// Puts what the second implementation made to the front of what was lent for it.
fn put<T: Element>(made: Result<impl AsRef<[T]>, u8>, lent: &mut [T]) -> Result<(), u8> {
    let made = made?;
    let made = made.as_ref();
    lent[..made.len()].copy_from_slice(made);
    Ok(())
}
