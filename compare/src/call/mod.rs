//! A call of the library: the C function's name, its numbers in order, its buffers in order. Where this
//! program is for the same machine as the library, it calls the function itself; elsewhere through bridge.c.

#[cfg(bridged)]
mod bridge;
#[cfg(not(bridged))]
pub mod direct;

#[cfg(bridged)]
pub use bridge::call;
#[cfg(not(bridged))]
pub use direct::call;

/// Memory with a part in it that is lent.
pub trait Memory {
    /// All of it, what stands around the lent part too.
    fn bytes(&mut self) -> &mut [u8];
    /// The byte at which the lent part begins.
    fn begins(&self) -> usize;
    /// The length of the lent part, in elements.
    fn length(&self) -> usize;
    /// Hands over what a call wrote that gave this number; or says what the call did that it must not.
    fn take_back(&mut self, refusal: u8) -> Result<(), String>;
}
