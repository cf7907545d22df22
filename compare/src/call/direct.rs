//! The library's functions, linked.

use super::Memory;

include!(concat!(env!("OUT_DIR"), "/direct.rs"));

impl dyn Memory + '_ {
    /// Where the lent part begins. The pointer is of the whole memory, so that what is written around the lent
    /// part can be looked at.
    fn start<T>(&mut self) -> *mut T {
        let begins = self.begins();
        self.bytes().as_mut_ptr().wrapping_add(begins).cast()
    }
}
