//! The functions of include/opl.h, each as a safe function that lends guarded copies of its slices,
//! checks them after the call, and gives the refusal number back.

use crate::call::{call, Memory};
use crate::lent::Lent;

include!(concat!(env!("OUT_DIR"), "/opl.rs"));

/// Makes a call with these numbers and these buffers, each in the order of the prototype. Panics if it breaks a
/// rule of lent memory.
#[track_caller]
fn lend(name: &str, numbers: &[u32], lent: &mut [&mut dyn Memory]) -> u8 {
    let refusal = call(name, numbers, lent);
    take_back(name, refusal, lent);
    refusal
}

#[track_caller]
fn take_back(name: &str, refusal: u8, lent: &mut [&mut dyn Memory]) {
    for (index, memory) in lent.iter_mut().enumerate() {
        if let Err(fault) = memory.take_back(refusal) {
            panic!("{name}, buffer {index}: {fault}");
        }
    }
}

#[cfg(all(test, not(bare)))]
mod tests {
    use super::*;

    #[test]
    #[should_panic(
        expected = "opl_made_up, buffer 1: a call wrote outside its buffer, at offset 2"
    )]
    fn a_call_that_breaks_a_rule_of_any_buffer_panics() {
        let (mut one, mut other) = ([0_u8; 3], [0_u32; 2]);
        let (mut one, mut other) = (Lent::written(&mut one), Lent::written(&mut other));
        let end = other.begins() + 4 * other.length();
        other.bytes()[end] ^= 1;
        take_back("opl_made_up", 0, &mut [&mut one, &mut other]);
    }
}
