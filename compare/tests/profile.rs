//! opl_profile against the second implementation: the number, the 32 lengths and the greatest delay.

use compare::inputs::{self, NO_PROFILE};
use compare::opl;
use compare::rng::Rng;
use compare::second::profile::report;

/// The profile, lent with that length and filled at random before, or the number with which both refuse. Panics unless
/// they agree on it and on every number of the profile.
#[track_caller]
fn both_into(rng: &mut Rng, pipe: &[u8], length: usize) -> Result<[u16; 33], u8> {
    let mut profile: Vec<u16> = (0..length).map(|_| rng.next_u64() as u16).collect();
    let second = report(pipe, length);
    let due = second.map_or(profile.clone(), |report| report.to_vec());
    let refusal = opl::profile(pipe, &mut profile);
    assert_eq!(refusal, second.err().unwrap_or(0), "{pipe:02X?}");
    assert_eq!(profile, due, "{pipe:02X?}");
    second
}

#[track_caller]
fn both(rng: &mut Rng, pipe: &[u8]) -> Result<[u16; 33], u8> {
    both_into(rng, pipe, 33)
}

#[test]
fn random_pipes() {
    let mut rng = Rng::new(830);
    for _ in 0..2_000 {
        let pipe = inputs::profiled_pipe(&mut rng);
        let profile = both(&mut rng, &pipe).expect("it is accepted");
        assert_eq!(profile[..32].iter().max(), profile.last());
        assert!(profile[..32].contains(&0) && profile[32] <= 6_160);
    }
}

#[test]
fn each_reason_by_itself() {
    let mut rng = Rng::new(831);
    for why in NO_PROFILE {
        for _ in 0..200 {
            let mut pipe = inputs::profiled_pipe(&mut rng);
            inputs::lose_profile(&mut rng, &mut pipe, why);
            assert_eq!(both(&mut rng, &pipe), Err(20), "{why:?}");
            // 20 comes before a wrong length
            assert_eq!(both_into(&mut rng, &pipe, 32), Err(20), "{why:?}");
        }
    }
}

/// Any bytes, mostly behind records of which they may be the sections.
#[test]
fn lengths_of_a_pipe() {
    let mut rng = Rng::new(832);
    let mut accepted = 0;
    for length in (0..30).cycle().take(3_000) {
        let mut pipe = rng.bytes(length);
        let count = length.saturating_sub(8) / 2;
        if let (Some(third), true) = (pipe.get_mut(2), rng.chance(7, 8)) {
            *third = *third & !7 | count as u8 & 7;
        }
        if pipe.len() > 7 && rng.flag() {
            // the first section has the taps that the others lack, if they do
            let others: u8 = pipe[8..].chunks(2).map(|bytes| (bytes[0] & 15) + 1).sum();
            pipe[6] = 15_u8.wrapping_sub(others) & 15;
        }
        accepted += usize::from(both(&mut rng, &pipe).is_ok());
    }
    assert!(accepted > 100, "{accepted} were accepted");
    for length in [6 + 256, 8 + 256, 8 + 65_536] {
        // 01's pipe of pattern 5 and its section, in a buffer that is longer by what is lost when its length is cut
        let mut pipe = vec![0x14, 0x12, 0, 0, 0, 0, 0x0F, 0x20];
        assert!(both(&mut rng, &pipe).is_ok());
        pipe.resize(length, 0);
        assert_eq!(both(&mut rng, &pipe), Err(20));
    }
}

/// Each pair of multipliers, over sections in which the rounding shows, in both orders.
#[test]
fn every_multiplier() {
    let mut rng = Rng::new(833);
    for multipliers in 0..=255_u8 {
        for flags in [0x00, 0x40, 0x80, 0xC0] {
            let (int, fract) = (multipliers & 15, multipliers & 0xF0);
            let record = [0x14, 0x12, 2, flags, int, fract];
            let sections = [0x06, 0x3F, 0x02, 0xF3, 0x05, 0x20];
            let pipe = [record, sections].concat();
            let profile = both(&mut rng, &pipe).expect("it is accepted");
            // 14 taps of difference 1, 6 of 7 behind a gap of 19, 12 of 1 at once: 13 + 19 + 35 + 11
            let sixteenths = u16::from(fract >> 4) + 1;
            let greatest = (u16::from(int) + 1) * (78 * sixteenths / 16);
            assert_eq!(profile[32], greatest);
        }
    }
}

/// Two sections of any taps: 32 together, or not. And each number of sections, of which 16 pairs of taps are to be found.
#[test]
fn every_number_of_taps() {
    let mut rng = Rng::new(834);
    for [one, other] in (0..16).flat_map(|one| (0..16).map(move |other| [one, other])) {
        let pipe = [0x14, 0x12, 1, 0, 0, 0xF0, one, 0x20, other, 0x45];
        let due = (one + other != 14).then_some(20);
        assert_eq!(both(&mut rng, &pipe).err(), due, "{one} and {other}");
    }
    for count in 1..=8_u8 {
        for last in 0..16 {
            let mut pipe = vec![0x14, 0x12, count - 1, 0, 0x0F, 0xF0];
            pipe.extend([0x00, 0xFF].repeat(usize::from(count) - 1));
            pipe.extend([last, 0xFF]);
            let due = (count + last != 16).then_some(20);
            assert_eq!(both(&mut rng, &pipe).err(), due, "{count} sections");
        }
    }
}

/// All patterns, those above 27 too, and all widths: but for width 0 they are not looked at.
#[test]
fn every_pattern_and_width() {
    let mut rng = Rng::new(835);
    for pattern_and_width in (0..=u16::MAX).step_by(13).chain((0..64).map(|id| id << 10)) {
        let [first, second] = pattern_and_width.to_be_bytes();
        let pipe = [first, second, 0xF8, 0x3F, 0xF0, 0xFF, 0xFF, 0x20];
        let profile = both(&mut rng, &pipe);
        let due = (pattern_and_width & 0x3FF == 0).then_some(20);
        assert_eq!(profile.err(), due, "{pattern_and_width:04X}");
        assert!(profile.map_or(true, |profile| profile[32] == 31));
    }
}

#[test]
fn the_greatest_delay_is_reached() {
    let mut rng = Rng::new(836);
    let pipe = [&[0x14, 0x12, 7, 0, 0x0F, 0xF0][..], &[0x01, 0xFF].repeat(8)].concat();
    let profile = both(&mut rng, &pipe).expect("it is accepted");
    assert_eq!(profile[32], 6_160);
}

#[test]
fn lengths_of_a_profile() {
    let mut rng = Rng::new(837);
    for length in (0..80).chain([33 + 256, 33 + 65_536, 2 * 33, 4_096]) {
        let pipe = inputs::profiled_pipe(&mut rng);
        let due = (length != 33).then_some(1);
        let found = both_into(&mut rng, &pipe, length).err();
        assert_eq!(found, due, "{length} numbers");
    }
}
