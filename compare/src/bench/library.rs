//! The library's functions on slices, with nothing around the call that would be timed along with it.
//! [`opl`](crate::opl) has them with guards, for tests.

use crate::call::direct;

// SAFETY of all: each slice is good for its own length, and no two of them overlap.
include!(concat!(env!("OUT_DIR"), "/library.rs"));
