//! What lent buffers are made of.

use std::fmt::Debug;

/// An element of a buffer: a number of which any bytes are one.
pub trait Element: sealed::Plain + Copy + PartialEq + Debug + 'static {
    /// The number that the low bits of `x` write.
    fn from_low_bits(x: u64) -> Self;
    /// Its own bits. They are what is compared: of floats == says neither that nothing was touched nor that
    /// two are written alike.
    fn bits(self) -> u32;
}

mod sealed {
    pub trait Plain {}
}

macro_rules! whole_numbers {
    ($($number:ty)*) => {$(
        impl sealed::Plain for $number {}
        impl Element for $number {
            fn from_low_bits(x: u64) -> $number {
                x as $number
            }

            fn bits(self) -> u32 {
                self as u32 & u32::MAX >> (u32::BITS - <$number>::BITS)
            }
        }
    )*};
}

whole_numbers!(u8 i8 u16 i16 u32 i32);

impl sealed::Plain for f32 {}

impl Element for f32 {
    fn from_low_bits(x: u64) -> f32 {
        f32::from_bits(x as u32)
    }

    fn bits(self) -> u32 {
        self.to_bits()
    }
}

/// A buffer, whatever its elements are.
pub trait Buffer {
    fn count(&self) -> usize;
    /// The bits of the element at a place.
    fn bits(&self, place: usize) -> u32;
    fn set_bits(&mut self, place: usize, bits: u32);
    /// The hexadecimal digits of an element.
    fn digits(&self) -> usize;
}

impl<T: Element> Buffer for Vec<T> {
    fn count(&self) -> usize {
        self.len()
    }

    fn bits(&self, place: usize) -> u32 {
        self[place].bits()
    }

    fn set_bits(&mut self, place: usize, bits: u32) {
        self[place] = T::from_low_bits(u64::from(bits));
    }

    fn digits(&self) -> usize {
        2 * std::mem::size_of::<T>()
    }
}

#[cfg(test)]
mod tests {
    use super::*;

    #[test]
    fn bits_write_the_number_they_are_of() {
        assert_eq!((-1_i8).bits(), 0xFF);
        assert_eq!((-2_i16).bits(), 0xFFFE);
        assert_eq!((-3_i32).bits(), 0xFFFF_FFFD);
        assert_eq!(0x8001_u16.bits(), 0x8001);
        assert_eq!(1.0_f32.bits(), 0x3F80_0000);
        assert_eq!(i8::from_low_bits(0x1FE), -2);
        assert_eq!(f32::from_low_bits(0xC000_0000), -2.0);
    }

    #[test]
    fn bits_tell_floats_apart_that_are_equal() {
        assert_ne!(0.0_f32.bits(), (-0.0_f32).bits());
        let nan = f32::from_low_bits(0x7FC0_0001);
        assert_eq!(nan.bits(), 0x7FC0_0001);
    }
}
