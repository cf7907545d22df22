//! The parity of two transport stream packets (clause 4.3.3), or of as many bytes of an IP stream (clause 4.3.4): a
//! shortened BCH code, and behind it a single parity bit. Polynomials are over GF(2); their coefficients stand as they are
//! sent, that of the highest power first.

/// The powers of x in the generator g(x), as the clause writes it.
pub const GENERATOR: [u32; 19] = [
    48, 44, 41, 37, 36, 34, 32, 29, 27, 26, 21, 17, 16, 13, 7, 5, 3, 1, 0,
];
/// Its degree, and so the number of bits d47 .. d0 of a remainder.
const DEGREE: usize = 48;

/// The bits m3007 .. m0 of a message: two packets, 376 bytes.
pub const MESSAGE_BITS: usize = 3_008;
/// The bits d47 .. d0 p0 behind them.
pub const PARITY_BITS: usize = DEGREE + 1;
/// All bits of a codeword c.
pub const CODEWORD_BITS: usize = MESSAGE_BITS + PARITY_BITS;

/// The generator as a number, bit i of which is the coefficient of x^i.
fn generator() -> u64 {
    GENERATOR.iter().map(|power| 1 << power).sum()
}

/// The remainder of a polynomial by the generator, as such a number. It is found by long division: coefficients are
/// brought down one after the other, and where x^48 has come up the generator is taken away.
pub fn remainder(coefficients: impl IntoIterator<Item = bool>) -> u64 {
    let generator = generator();
    let mut rest = 0;
    for coefficient in coefficients {
        rest = rest << 1 | u64::from(coefficient);
        if rest >> DEGREE != 0 {
            rest ^= generator;
        }
    }
    rest
}

/// A polynomial's value at x = 1, the sum of its coefficients.
fn at_one(coefficients: &[bool]) -> bool {
    coefficients.iter().filter(|&&one| one).count() % 2 != 0
}

/// The codeword of a message: the message, the remainder d(x) of x^48 m(x), and p0 = c_o(1), where c_o(x) is
/// x^48 m(x) + d(x).
pub fn codeword(message: &[bool]) -> Vec<bool> {
    let mut codeword = message.to_vec();
    let times_x_to_the_48 = message.iter().copied().chain([false; DEGREE]);
    let d = remainder(times_x_to_the_48);
    codeword.extend((0..DEGREE).rev().map(|power| d >> power & 1 != 0));
    let p0 = at_one(&codeword);
    codeword.push(p0);
    codeword
}

/// Whether the parity of what was received as a codeword holds. It does exactly when generator and parity bit both
/// agree (02, 2026-02): the generator divides c_o(x), and p0 is c_o(1).
pub fn holds(received: &[bool]) -> bool {
    let (p0, outer) = received.split_last().expect("a codeword has bits");
    remainder(outer.iter().copied()) == 0 && *p0 == at_one(outer)
}
