//! Codewords by the library and by the second implementation at once, which must agree on the number and on every byte.

use compare::lent::first_difference;
use compare::opl;
use compare::rng::Rng;
use compare::second::turbo::encode;

/// The codeword of that length, filled at random before, or the number with which both encoders refuse. Panics unless
/// they agree on it and on every byte of the codeword.
#[track_caller]
pub fn both_encode(
    rng: &mut Rng,
    pattern: u32,
    infoword: &[u8],
    length: usize,
) -> Result<Vec<u8>, u8> {
    let held = rng.bytes(length);
    let second = encode(pattern, infoword, length);
    let mut codeword = held.clone();
    let refusal = opl::encode(pattern, infoword, &mut codeword);
    let input = format!("pattern {pattern}, {} bytes into {length}", infoword.len());
    let number = second.as_ref().err().copied().unwrap_or(0);
    assert_eq!(refusal, number, "{input}");
    let expected = second.as_ref().unwrap_or(&held);
    assert_eq!(first_difference(&codeword, expected), None, "{input}");
    second
}
