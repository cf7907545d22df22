//! A call of each exported function as a value: a struct that is named for the function and has a field for each
//! number and for each buffer, under its name in include/opl.h. A buffer has the content with which it is lent,
//! and after the call, if the call may write it, what the call left in it.

use crate::element::Buffer;
use crate::fuzz::Visitor;
use crate::opl;

include!(concat!(env!("OUT_DIR"), "/calls.rs"));

pub trait Call: Clone {
    /// The function's name in C.
    const NAME: &'static str;

    /// Calls the library, and gives the refusal number.
    fn library(&mut self) -> u8;

    /// All that the call is given, or was left with, each with its name, in the order of the prototype.
    fn arguments(&self) -> Vec<(&'static str, Argument<'_>)>;

    /// The buffers that the call may write.
    fn written(&mut self) -> Vec<&mut dyn Buffer>;
}

pub enum Argument<'a> {
    Number(u32),
    Buffer(&'a dyn Buffer),
}
