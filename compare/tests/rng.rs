//! The generator gives SplitMix64's published numbers, and what is made of them lies in its bounds.

use compare::rng::Rng;

#[test]
fn its_numbers_are_the_published_ones() {
    let mut rng = Rng::new(1_234_567);
    let numbers = [
        6_457_827_717_110_365_317,
        3_203_168_211_198_807_973,
        9_817_491_932_198_370_423,
        4_593_380_528_125_082_431,
        16_408_922_859_458_223_821,
    ];
    for number in numbers {
        assert_eq!(rng.next_u64(), number);
    }
}

#[test]
fn below_reaches_every_number_and_no_other() {
    let mut rng = Rng::new(5);
    let mut met = [false; 7];
    for _ in 0..1_000 {
        met[rng.below(7)] = true;
    }
    assert_eq!(met, [true; 7]);
}

#[test]
fn a_field_reaches_both_ends_and_no_further() {
    let mut rng = Rng::new(6);
    for width in [1, 4, 31, 32] {
        let most = u32::MAX >> (32 - width);
        let fields: Vec<u32> = (0..200).map(|_| rng.field(width)).collect();
        assert!(fields.iter().all(|field| *field <= most), "{width} bits");
        for end in [0, most] {
            assert!(fields.contains(&end), "{end} of {width} bits");
        }
    }
}
