//! The generator of clause 4.3.3 against what the clause says of its code: a narrow-sense BCH code of 4,095 bits, 4,047
//! of them the message's, with minimum distance 9. So alpha, alpha^2 up to alpha^8 are roots of the generator, and what
//! these bring with them, and nothing else is. A slip in a power, in the text of the standard or here, would show.

use compare::second::parity::GENERATOR;
use std::collections::BTreeSet;

/// The elements of the field other than 0, and so the code's length before it is shortened.
const LENGTH: usize = 4_095;
/// The field's own polynomial, x^12 + x^6 + x^4 + x + 1. The clause names none: of the primitive polynomials it is the
/// one that divides the generator.
const FIELD: u32 = 1 << 12 | 1 << 6 | 1 << 4 | 1 << 1 | 1;

/// The powers of alpha = x, from alpha^0 on, bit i of an element being its coefficient of x^i.
fn powers() -> Vec<u32> {
    let times_x = |element: &u32| {
        let product = element << 1;
        Some(if product >> 12 != 0 {
            product ^ FIELD
        } else {
            product
        })
    };
    std::iter::successors(Some(1), times_x)
        .take(LENGTH)
        .collect()
}

#[test]
fn alpha_is_primitive() {
    let elements: BTreeSet<u32> = powers().into_iter().collect();
    assert!(elements.into_iter().eq(1..4_096));
}

/// The exponents of the roots among alpha's powers: the generator has as many as its degree, 48, and they are 1, 3, 5
/// and 7 doubled again and again.
#[test]
fn the_roots_are_those_of_a_narrow_sense_code() {
    let powers = powers();
    let is_root = |exponent: &usize| {
        let terms = GENERATOR.map(|power| powers[exponent * power as usize % LENGTH]);
        terms.into_iter().fold(0, |sum, term| sum ^ term) == 0
    };
    let roots: BTreeSet<usize> = (0..LENGTH).filter(is_root).collect();
    let conjugates = |first: usize| (0..12).map(move |times| (first << times) % LENGTH);
    let due: BTreeSet<usize> = [1, 3, 5, 7].into_iter().flat_map(conjugates).collect();
    assert_eq!(roots, due);
    assert_eq!(roots.len(), GENERATOR[0] as usize);
    assert!((1..=8).all(|exponent| roots.contains(&exponent)));
    assert_eq!(LENGTH - roots.len(), 4_047);
}
