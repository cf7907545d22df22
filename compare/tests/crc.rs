//! The second implementation's CRC: check values from outside, and the register against long division.

use compare::rng::Rng;
use compare::second::bits::bits;
use compare::second::crc::{Crc, PAYLOAD, SIGNALLING};

const CHECKED: &[u8] = b"123456789";

/// All bits of some bytes.
fn all(bytes: &[u8]) -> impl Iterator<Item = bool> + '_ {
    bits(bytes, 0, 8 * bytes.len())
}

#[test]
fn crc_8_has_its_check_value() {
    assert_eq!(PAYLOAD.word(all(CHECKED)), 0xDF);
}

#[test]
fn crc_12_has_the_check_value_of_its_polynomial() {
    // the catalogued value is for a register that starts with zeros and is not inverted
    assert_eq!(SIGNALLING.register(0, all(CHECKED)), 0xF5B);
}

#[test]
fn without_data_the_register_of_ones_is_inverted() {
    assert_eq!(PAYLOAD.word([]), 0);
    assert_eq!(SIGNALLING.word([]), 0);
}

/// The CRC by long division: the first n data bits inverted (for a register of ones), n zeros
/// appended, the remainder by the polynomial, inverted.
fn by_division(crc: Crc, powers: &[usize], data: &[bool]) -> u32 {
    let n = crc.width as usize;
    let mut rest = data.to_vec();
    rest.resize(data.len() + n, false);
    rest[..n].iter_mut().for_each(|bit| *bit ^= true);
    for at in 0..data.len() {
        if rest[at] {
            for power in powers {
                rest[at + n - power] ^= true;
            }
        }
    }
    rest[data.len()..]
        .iter()
        .fold(0, |number, bit| number << 1 | u32::from(!bit))
}

#[test]
fn the_register_divides() {
    let mut rng = Rng::new(3);
    // the powers of x, as clauses 4.3 and 4.10.1.3 write the polynomials
    let codes: [(Crc, &[usize]); 2] = [
        (PAYLOAD, &[8, 5, 3, 2, 1, 0]),
        (SIGNALLING, &[12, 11, 3, 2, 1, 0]),
    ];
    for (crc, powers) in codes {
        for length in (0..=64).chain([750]) {
            let data: Vec<bool> = (0..length).map(|_| rng.flag()).collect();
            assert_eq!(
                crc.word(data.iter().copied()),
                by_division(crc, powers, &data),
                "{length} bits"
            );
        }
    }
}

#[test]
fn one_changed_bit_changes_the_crc() {
    let mut data: Vec<bool> = all(&Rng::new(4).bytes(94)).take(750).collect();
    for crc in [PAYLOAD, SIGNALLING] {
        let right = crc.word(data.iter().copied());
        for at in 0..data.len() {
            data[at] ^= true;
            assert_ne!(crc.word(data.iter().copied()), right, "bit {at}");
            data[at] ^= true;
        }
    }
}
