//! The second implementation's parity of two packets: codewords that were worked out apart from it, its long division
//! against another, and what is known of the code.

use compare::inputs::{codeword_places, distinct_places};
use compare::rng::Rng;
use compare::second::bits::bits;
use compare::second::parity::{codeword, holds, CODEWORD_BITS, GENERATOR, MESSAGE_BITS};

/// The parity d47 .. d0 p0 of a message, as a number.
fn parity(message: &[bool]) -> u64 {
    let parity = &codeword(message)[MESSAGE_BITS..];
    let digit = |number: u64, one: &bool| number << 1 | u64::from(*one);
    parity.iter().fold(0, digit)
}

/// The message that has these powers of x.
fn message_of(powers: &[usize]) -> Vec<bool> {
    let mut message = vec![false; MESSAGE_BITS];
    for power in powers {
        message[MESSAGE_BITS - 1 - power] = true;
    }
    message
}

fn any_message(rng: &mut Rng) -> Vec<bool> {
    (0..MESSAGE_BITS).map(|_| rng.flag()).collect()
}

#[test]
fn a_codeword_has_the_bits_of_the_clause() {
    let message = message_of(&[3_007, 0]);
    let codeword = codeword(&message);
    assert_eq!((codeword.len(), CODEWORD_BITS), (3_057, 3_057));
    assert_eq!(codeword[..3_008], message);
}

/// The parity whose d(x) has these powers, and whose p0 is this.
fn parity_of(powers: &[u32], p0: u64) -> u64 {
    let d: u64 = powers.iter().map(|power| 1_u64 << power).sum();
    d << 1 | p0
}

/// Modulo g(x), x^48 is the rest of g(x); x^51 is that times x^3, as its highest power is 44; x^52 is that times x^4,
/// with x^48 replaced once more.
#[test]
fn messages_of_one_low_power_by_hand() {
    let rest = &GENERATOR[1..];
    assert_eq!(parity(&message_of(&[0])), parity_of(rest, 1));
    let times_x_to_the_3: Vec<u32> = rest.iter().map(|power| power + 3).collect();
    assert_eq!(parity(&message_of(&[3])), parity_of(&times_x_to_the_3, 1));
    let reduced = [
        45, 44, 40, 38, 37, 34, 33, 32, 31, 30, 29, 27, 26, 25, 20, 16, 13, 11, 9, 4, 3, 1, 0,
    ];
    assert_eq!(parity(&message_of(&[4])), parity_of(&reduced, 0));
}

/// Two null packets: the sync byte, PID 1FFF, payload only, continuity counter 0, and bytes of FF.
fn null_packets() -> Vec<u8> {
    let mut packet = vec![0x47, 0x1F, 0xFF, 0x10];
    packet.resize(188, 0xFF);
    packet.repeat(2)
}

/// The parities were worked out with whole numbers of any length in another language.
#[test]
fn known_parities() {
    let one_bit = |power: usize| {
        let mut bytes = vec![0; 376];
        bytes[375 - power / 8] = 1 << (power % 8);
        bytes
    };
    let counting = (0..376).map(|place| place as u8).collect();
    let known = [
        (vec![0x00; 376], 0),
        (one_bit(0), 0x246A_5846_4157),
        (one_bit(1_504), 0xDF18_ECB9_430B),
        (one_bit(3_007), 0x1_38AD_783E_2167),
        (vec![0xFF; 376], 0x1_CCEF_9816_0176),
        (counting, 0x1_F690_FD81_2CFB),
        (null_packets(), 0x1_8FC9_20D6_35DE),
    ];
    for (bytes, due) in known {
        let message: Vec<bool> = bits(&bytes, 0, MESSAGE_BITS).collect();
        assert_eq!(parity(&message), due, "{:02X?}", &bytes[..4]);
    }
}

/// The codeword by division on paper: under each leading one of x^48 m(x) the generator is written and added, until
/// what is left is shorter than it.
fn by_division(message: &[bool]) -> Vec<bool> {
    let degree = GENERATOR[0] as usize;
    let mut paper = message.to_vec();
    paper.resize(message.len() + degree, false);
    for at in 0..message.len() {
        if paper[at] {
            for power in GENERATOR {
                paper[at + degree - power as usize] ^= true;
            }
        }
    }
    assert!(paper[..message.len()].iter().all(|one| !one));
    let outer = [message, &paper[message.len()..]].concat();
    let p0 = outer.iter().fold(false, |sum, one| sum ^ one);
    [&outer[..], &[p0]].concat()
}

#[test]
fn codewords_by_division_on_paper() {
    let mut rng = Rng::new(30);
    for power in (0..60).chain([1_503, 1_504, 3_006, 3_007]) {
        let message = message_of(&[power]);
        assert_eq!(codeword(&message), by_division(&message), "x^{power}");
    }
    for _ in 0..200 {
        let message = any_message(&mut rng);
        assert_eq!(codeword(&message), by_division(&message));
    }
}

fn sum(one: &[bool], other: &[bool]) -> Vec<bool> {
    one.iter().zip(other).map(|(a, b)| a ^ b).collect()
}

#[test]
fn the_codeword_of_a_sum_is_the_sum_of_the_codewords() {
    let mut rng = Rng::new(31);
    for _ in 0..200 {
        let [one, other] = [(); 2].map(|()| any_message(&mut rng));
        let both = codeword(&sum(&one, &other));
        assert_eq!(both, sum(&codeword(&one), &codeword(&other)));
    }
}

#[test]
fn codewords_hold() {
    let mut rng = Rng::new(32);
    for _ in 0..200 {
        assert!(holds(&codeword(&any_message(&mut rng))));
    }
    assert!(holds(&codeword(&message_of(&[]))));
}

fn flipped(codeword: &[bool], places: &[usize]) -> Vec<bool> {
    let mut codeword = codeword.to_vec();
    for place in places {
        codeword[*place] ^= true;
    }
    codeword
}

#[test]
fn every_single_bit_shows() {
    let codeword = codeword(&any_message(&mut Rng::new(33)));
    for place in 0..CODEWORD_BITS {
        assert!(!holds(&flipped(&codeword, &[place])), "bit {place}");
    }
}

/// The clause says that the minimum distance is 10.
#[test]
fn up_to_nine_changed_bits_show() {
    let mut rng = Rng::new(34);
    let codeword = codeword(&any_message(&mut rng));
    for number in 1..=9 {
        for _ in 0..300 {
            let places = distinct_places(&mut rng, number);
            assert!(!holds(&flipped(&codeword, &places)), "{places:?}");
        }
    }
}

#[test]
fn a_codeword_that_is_added_does_not_show() {
    let mut rng = Rng::new(35);
    let codeword = codeword(&any_message(&mut rng));
    for _ in 0..200 {
        let places = codeword_places(&mut rng);
        assert!(holds(&flipped(&codeword, &places)), "{places:?}");
    }
}

/// The places of the generator times x^`by` in a codeword. Behind c_o(x) stands p0.
fn generator_places(by: usize) -> Vec<usize> {
    let place = |power: u32| CODEWORD_BITS - 2 - by - power as usize;
    GENERATOR.into_iter().map(place).collect()
}

/// The generator has 19 powers: added at any place it is still divided, but p0 has to change with it.
#[test]
fn both_generator_and_parity_bit_have_to_agree() {
    let mut rng = Rng::new(36);
    let codeword = codeword(&any_message(&mut rng));
    let p0 = CODEWORD_BITS - 1;
    for by in (0..MESSAGE_BITS).step_by(7) {
        let mut places = generator_places(by);
        assert!(!holds(&flipped(&codeword, &places)), "times x^{by}");
        places.push(p0);
        assert!(holds(&flipped(&codeword, &places)), "times x^{by}, and p0");
    }
    // p0 changes with one bit before it, and the generator does not agree
    for place in 0..p0 {
        assert!(!holds(&flipped(&codeword, &[place, p0])), "bit {place}");
    }
}
