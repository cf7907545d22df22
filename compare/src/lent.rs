//! Buffers to lend to the library, with guards around them.

use crate::call::Memory;
use crate::element::Element;

/// How many guards stand on each side. It is odd, so that a buffer of bytes starts at an odd address:
/// the library must take bytes at any. A memory checker sees more without them: what is lent is then all
/// that was allocated, and a read outside it shows too.
const GUARDS: usize = if cfg!(bare) { 0 } else { 61 };

/// The guard at a place. Guards differ from place to place, so that one copied over another shows.
fn guard<T: Element>(place: usize) -> T {
    T::from_low_bits((place as u64).wrapping_mul(0x9E37_79B9_7F4A_7C15) >> 29)
}

/// The first place at which two buffers of one length differ.
pub fn first_difference<T: Element>(one: &[T], other: &[T]) -> Option<usize> {
    assert_eq!(one.len(), other.len(), "buffers of one length");
    let differ = |(one, other): (&T, &T)| one.bits() != other.bits();
    one.iter().zip(other).position(differ)
}

/// A copy of some elements with guards on both sides, to be lent to one call. [`Memory::take_back`] looks at
/// it after the call.
pub struct Lent<'a, T> {
    memory: Vec<T>,
    before: Vec<T>,
    /// Where the content goes after the call, if the call may write it.
    to: Option<&'a mut [T]>,
}

impl<'a, T: Element> Lent<'a, T> {
    /// A buffer that the call may only read.
    pub fn read(content: &[T]) -> Lent<'a, T> {
        let end = GUARDS + content.len();
        let mut memory = Vec::with_capacity(end + GUARDS);
        memory.extend((0..GUARDS).map(guard::<T>));
        memory.extend_from_slice(content);
        memory.extend((end..end + GUARDS).map(guard::<T>));
        Lent {
            memory,
            before: content.to_vec(),
            to: None,
        }
    }

    /// A buffer that the call may read and write.
    pub fn written(content: &'a mut [T]) -> Lent<'a, T> {
        let lent = Lent::read(content);
        Lent {
            to: Some(content),
            ..lent
        }
    }

    fn end(&self) -> usize {
        GUARDS + self.before.len()
    }

    fn content(&self) -> &[T] {
        &self.memory[GUARDS..self.end()]
    }

    fn guards_stand(&self) -> Result<(), String> {
        let mut guards = (0..GUARDS).chain(self.end()..self.memory.len());
        let written = guards.find(|&at| self.memory[at].bits() != guard::<T>(at).bits());
        written.map_or(Ok(()), |place| {
            let offset = place as isize - GUARDS as isize;
            Err(format!(
                "a call wrote outside its buffer, at offset {offset}"
            ))
        })
    }

    fn is_as_before(&self, fault: &str) -> Result<(), String> {
        let touched = first_difference(self.content(), &self.before);
        touched.map_or(Ok(()), |offset| {
            Err(format!("{fault}, first at offset {offset}"))
        })
    }
}

impl<T: Element> Memory for Lent<'_, T> {
    fn bytes(&mut self) -> &mut [u8] {
        let size = std::mem::size_of_val(&self.memory[..]);
        // SAFETY: these are the vector's elements, numbers of which any bytes are one.
        unsafe { std::slice::from_raw_parts_mut(self.memory.as_mut_ptr().cast(), size) }
    }

    fn begins(&self) -> usize {
        GUARDS * std::mem::size_of::<T>()
    }

    fn length(&self) -> usize {
        self.before.len()
    }

    fn take_back(&mut self, refusal: u8) -> Result<(), String> {
        self.guards_stand()?;
        if self.to.is_none() {
            self.is_as_before("a call wrote to what it may only read")?;
        } else if refusal != 0 {
            self.is_as_before("a refused call touched what was lent to it")?;
        }
        let content = &self.memory[GUARDS..GUARDS + self.before.len()];
        if let Some(to) = &mut self.to {
            to.copy_from_slice(content);
        }
        Ok(())
    }
}

/// The guards themselves: a call that breaks a rule is noticed. Each test writes as a faulty call would.
#[cfg(all(test, not(bare)))]
mod tests {
    use super::*;

    /// What is left in a buffer of 1, 2, 3 that a call so writes, and may, and then gives this number.
    fn called(refusal: u8, write: impl FnOnce(&mut [i16])) -> Result<[i16; 3], String> {
        let mut content = [1, 2, 3];
        let mut lent = Lent::written(&mut content);
        write(&mut lent.memory);
        lent.take_back(refusal)?;
        Ok(content)
    }

    /// The same of a buffer that the call may only read, and where it is accepted.
    fn called_to_read(write: impl FnOnce(&mut [i16])) -> Result<(), String> {
        let mut lent = Lent::read(&[1, 2, 3]);
        write(&mut lent.memory);
        lent.take_back(0)
    }

    fn fault<T>(words: &str) -> Result<T, String> {
        Err(words.to_string())
    }

    #[test]
    fn an_accepted_call_may_write_its_buffer() {
        let content = called(0, |memory| memory[GUARDS + 2] = 9);
        assert_eq!(content, Ok([1, 2, 9]));
    }

    #[test]
    fn an_empty_buffer_has_guards() {
        for mut lent in [Lent::<u8>::written(&mut []), Lent::read(&[])] {
            assert_eq!(lent.take_back(0), Ok(()));
            assert_eq!(lent.memory.len(), 2 * GUARDS);
        }
    }

    #[test]
    fn the_lent_part_begins_after_the_guards() {
        let mut lent: Lent<i16> = Lent::read(&[0x0102, 0x0304]);
        let (begins, length) = (lent.begins(), lent.length());
        assert_eq!(&lent.bytes()[begins..begins + 2], 0x0102_i16.to_ne_bytes());
        assert_eq!(
            (begins, length, lent.bytes().len()),
            (2 * GUARDS, 2, 2 * (2 * GUARDS + 2))
        );
    }

    #[test]
    fn a_write_before_the_buffer_is_noticed() {
        let found = called(0, |memory| memory[GUARDS - 1] ^= 1);
        assert_eq!(
            found,
            fault("a call wrote outside its buffer, at offset -1")
        );
    }

    #[test]
    fn a_write_past_the_buffer_is_noticed() {
        let found = called(0, |memory| memory[GUARDS + 3] ^= 1);
        assert_eq!(found, fault("a call wrote outside its buffer, at offset 3"));
    }

    #[test]
    fn a_write_outside_is_noticed_where_nothing_else_may_be_written() {
        let found = called_to_read(|memory| memory[2 * GUARDS + 2] ^= 1);
        assert_eq!(
            found,
            fault("a call wrote outside its buffer, at offset 63")
        );
    }

    #[test]
    fn a_refusal_that_touches_is_noticed() {
        let found = called(1, |memory| memory[GUARDS + 1] = 9);
        assert_eq!(
            found,
            fault("a refused call touched what was lent to it, first at offset 1")
        );
    }

    #[test]
    fn a_write_to_what_is_only_read_is_noticed() {
        let found = called_to_read(|memory| memory[GUARDS] = 9);
        assert_eq!(
            found,
            fault("a call wrote to what it may only read, first at offset 0")
        );
    }

    /// Some guards and some floats are no numbers, and so are equal to none; -0 is equal to 0.
    #[test]
    fn floats_are_held_to_their_bits() {
        let mut content = [f32::NAN, 0.0];
        let mut lent = Lent::written(&mut content);
        assert_eq!(lent.take_back(1), Ok(()));
        lent.memory[GUARDS + 1] = -0.0;
        assert_eq!(
            lent.take_back(1),
            fault("a refused call touched what was lent to it, first at offset 1")
        );
    }
}
