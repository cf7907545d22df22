//! The second implementation's tables: pattern rows and their lengths, table 10, the places of fields.

use compare::second::bits::BitWriter;
use compare::second::description::{Multiplex, PipeFields, Section, Stream, TailFields};
use compare::second::interleaver::{addresses, entry, parameter, tentative};
use compare::second::patterns::pattern;

/// Tables 12 and 13 of the standard: rate, code bits, capacity units.
const TABLE_13: [(&str, usize, u32); 14] = [
    ("1/5", 61_440, 30),
    ("2/9", 55_296, 27),
    ("1/4", 49_152, 24),
    ("2/7", 43_008, 21),
    ("3/10", 40_960, 20),
    ("1/3", 36_864, 18),
    ("3/8", 32_768, 16),
    ("2/5", 30_720, 15),
    ("3/7", 28_672, 14),
    ("1/2", 24_576, 12),
    ("3/5", 20_480, 10),
    ("2/3", 18_432, 9),
    ("3/4", 16_384, 8),
    ("6/7", 14_336, 7),
];

/// Table 11 of the standard: the rates of patterns 0 to 27.
const TABLE_11: &str = "1/5 2/9 1/4 2/7 3/10 1/3 1/3 3/8 3/8 2/5 2/5 3/7 3/7 1/2 1/2 1/2 3/5 3/5 \
                        3/5 2/3 2/3 2/3 3/4 3/4 3/4 6/7 6/7 6/7";

#[test]
fn length_rule_for_all_patterns() {
    for (number, rate) in TABLE_11.split_whitespace().enumerate() {
        let row = pattern(number as u32).unwrap();
        assert_eq!(format!("{}/{}", row.rate.0, row.rate.1), rate);
        let (_, code_bits, units) = TABLE_13
            .iter()
            .find(|(name, _, _)| *name == rate)
            .expect("a rate of table 13");
        // What the row's ones and copies add up to.
        let sum = |block| {
            row.copies(block)
                .iter()
                .flatten()
                .map(|c| usize::from(*c))
                .sum::<usize>()
        };
        assert_eq!(sum(12_282), *code_bits, "pattern {number}");
        assert_eq!(row.code_bits(12_282), *code_bits);
        assert_eq!(sum(12_282) * row.rate.0, 12_288 * row.rate.1);
        assert_eq!(row.capacity_units(), *units);
        assert_eq!(code_bits % 2048, 0);
        assert_eq!((code_bits / 2048) as u32, *units);
        // A period keeps the rate by itself, and so do the six tail periods.
        let ones = row.data.iter().flatten().filter(|one| **one).count();
        assert_eq!(
            ones * row.rate.0,
            row.data.len() * row.rate.1,
            "period of {number}"
        );
    }
    let row = pattern(0).unwrap();
    let sum: usize = row
        .copies(762)
        .iter()
        .flatten()
        .map(|c| usize::from(*c))
        .sum();
    assert_eq!(sum, 3_840);
    assert!((28..70).all(|number| pattern(number).is_none()));
    assert!(pattern(256).is_none() && pattern(u32::MAX).is_none());
}

/// Tables 7 and 8 as the text of the standard shows them, damage included.
const TABLE_7: &str = include_str!("table_7.txt");
const TABLE_8: &str = include_str!("table_8.txt");

/// The rows that 01 calls damaged.
const DAMAGED: [usize; 9] = [1, 4, 6, 9, 19, 23, 25, 26, 27];

fn groups(text: &str) -> Vec<Vec<u8>> {
    text.split_whitespace()
        .map(|group| {
            group
                .split(';')
                .filter_map(|digit| digit.parse().ok())
                .collect()
        })
        .collect()
}

/// Whether a row of the text is whole: groups of five, and the length rule.
fn is_whole(groups: &[Vec<u8>]) -> bool {
    groups.iter().all(|group| group.len() == 5)
}

#[test]
fn rows_against_the_standard() {
    let mut differ = Vec::new();
    for number in 0..28 {
        let row = pattern(number as u32).unwrap();
        let data = groups(TABLE_7.lines().nth(number).unwrap());
        let ours: Vec<Vec<u8>> = row.data.iter().map(|g| g.map(u8::from).to_vec()).collect();
        let tail = groups(TABLE_8.lines().nth(number).unwrap());
        let copies = row.copies(0);
        let ours_tail: Vec<Vec<u8>> = copies.iter().map(|group| group.to_vec()).collect();
        if data != ours {
            differ.push((number, "data"));
        }
        if tail != ours_tail {
            differ.push((number, "tail"));
        }
        // A row that 01 does not call damaged is as the standard has it.
        if !DAMAGED.contains(&number) {
            assert!(is_whole(&data) && is_whole(&tail), "row {number}");
            assert_eq!(data, ours, "row {number}");
            assert_eq!(tail, ours_tail, "row {number}");
        }
    }
    // The damage as it is found: rows 23 and 24 only end in a stray semicolon.
    assert_eq!(
        differ,
        [
            (1, "data"),
            (4, "data"),
            (6, "tail"),
            (9, "data"),
            (19, "data"),
            (25, "data"),
            (26, "data"),
            (27, "data")
        ]
    );
}

/// The damaged rows against what is legible of them in the text.
#[test]
fn damaged_rows_as_far_as_legible() {
    let theirs = |number: usize| groups(TABLE_7.lines().nth(number).unwrap());
    let ours = |number: usize| -> Vec<Vec<u8>> {
        let row = pattern(number as u32).unwrap();
        row.data.iter().map(|g| g.map(u8::from).to_vec()).collect()
    };
    // The last group has lost a digit: 1 and 19. The rest is there.
    for number in [1, 19] {
        let (theirs, ours) = (theirs(number).concat(), ours(number).concat());
        assert_eq!(theirs.len() + 1, ours.len());
        assert_eq!(theirs[..], ours[..theirs.len()], "row {number}");
    }
    // The last group has a digit too many: 4.
    assert_eq!(theirs(4).concat()[..30], ours(4).concat()[..]);
    assert_eq!(theirs(4).concat().len(), 31);
    // Three groups too many, d d f once more: 9.
    assert_eq!(theirs(9)[..12], ours(9)[..]);
    assert_eq!(theirs(9)[12..], ours(9)[9..]);
    // The second group of 25 to 27 has lost a zero, and there are three
    // groups too many. 25 is 01's row if they are taken from its many a, 26
    // and 27 if they are taken from the end (of 26 the tenth group, 10100,
    // is then against 01, which has a there).
    let mended = |number: usize| {
        let mut groups = theirs(number);
        assert_eq!(groups.len(), 15);
        assert_eq!(groups[1], [1, 0, 0, 0]);
        groups[1].push(0);
        groups
    };
    assert_eq!(mended(25)[3..], ours(25)[..]);
    assert!(mended(25)[..3]
        .iter()
        .all(|group| *group == [1, 0, 0, 0, 0]));
    assert_eq!(mended(26)[..9], ours(26)[..9]);
    assert_eq!(mended(26)[9], [1, 0, 1, 0, 0]);
    assert_eq!(mended(26)[10..12], ours(26)[10..]);
    assert_eq!(mended(27)[..12], ours(27)[..]);
    // Tail of 6: the fourth group has lost a zero.
    let mut tail = groups(TABLE_8.lines().nth(6).unwrap());
    assert_eq!(tail[3], [2, 0, 0, 1]);
    tail[3].insert(1, 0);
    let copies = pattern(6).unwrap().copies(0);
    assert!(tail
        .iter()
        .zip(&copies)
        .all(|(theirs, ours)| theirs[..] == ours[..]));
}

#[test]
fn table_10_entries() {
    for n in [5, 9] {
        for index in 0..32 {
            let entry = entry(n, index);
            assert!(entry % 2 == 1 && entry < 1 << n, "{n} {index}");
        }
    }
}

/// The first counters worked by hand: the five low bits reversed are the high
/// bits, the entry times one is the low ones; counters 3 and 7 are dropped.
#[test]
fn first_addresses_by_hand() {
    let high = [0, 16, 8, 4, 20, 12, 2]; // counters 0 1 2 4 5 6 8
    let low_5 = [27, 3, 1, 13, 17, 23, 9];
    let low_9 = [13, 335, 87, 15, 1, 333, 13];
    let small: Vec<usize> = high
        .iter()
        .zip(low_5)
        .map(|(high, low)| 32 * high + low)
        .collect();
    let large: Vec<usize> = high
        .iter()
        .zip(low_9)
        .map(|(high, low)| 512 * high + low)
        .collect();
    assert_eq!(small, [27, 515, 257, 141, 657, 407, 73]);
    assert_eq!(large, [13, 8_527, 4_183, 2_063, 10_241, 6_477, 1_037]);
    assert_eq!(addresses(762)[..7], small[..]);
    assert_eq!(addresses(12_282)[..7], large[..]);
    assert!([3, 7].iter().all(|counter| tentative(5, *counter) >= 762));
    assert!([3, 7]
        .iter()
        .all(|counter| tentative(9, *counter) >= 12_282));
    // The next round of counters has the top bits one higher: the entry twice.
    assert_eq!(tentative(5, 32), 2 * 27 % 32);
    assert_eq!(tentative(9, 33), 512 * 16 + 2 * 335 % 512);
    assert_eq!(tentative(9, 34), 512 * 8 + 2 * 87);
}

#[test]
fn every_address_once() {
    for (block, n) in [(762, 5), (12_282, 9)] {
        assert_eq!(parameter(block), n);
        let addresses = addresses(block);
        assert_eq!(addresses.len(), block);
        let mut sorted = addresses.clone();
        sorted.sort_unstable();
        assert!(sorted.iter().copied().eq(0..block));
        // Not the identity.
        assert_ne!(sorted, addresses);
    }
}

/// The place of each field: the start bit indexes of the standard's tables. (Its
/// text drops the start of Inter_Schedule_Period_Countdown_Slots, Schedule_Index
/// and Codeword_Align_Flag; 26, 44 and 6 are what is left.)
#[test]
fn places_of_fields() {
    fn record<T: Default>(change: impl Fn(&mut T), write: impl Fn(&T, &mut BitWriter)) -> String {
        let mut fields = T::default();
        change(&mut fields);
        let mut to = BitWriter::new();
        write(&fields, &mut to);
        let length = to.len();
        let bytes = to.into_bytes();
        (0..length)
            .map(|i| {
                if bytes[i / 8] & (0x80 >> (i % 8)) != 0 {
                    '1'
                } else {
                    '0'
                }
            })
            .collect()
    }
    fn expect(start: usize, width: usize, length: usize) -> String {
        format!(
            "{}{}{}",
            "0".repeat(start),
            "1".repeat(width),
            "0".repeat(length - start - width)
        )
    }
    macro_rules! table {
        ($type:ident, $length:expr, $($field:ident $start:literal $width:literal $value:expr;)*) => {
            let mut end = 0;
            $(
                assert_eq!(
                    record(|fields: &mut $type| fields.$field = $value, $type::write),
                    expect($start, $width, $length),
                    stringify!($field)
                );
                assert_eq!($start, end);
                end += $width;
            )*
            assert_eq!(end, $length);
            assert_eq!($type::BITS, $length);
        };
    }
    table!(Multiplex, 56,
        sig_pipe_ver 0 4 15;
        reconfig_flag 4 1 true;
        event_countdown 5 11 2047;
        operator_id 16 8 255;
        resync_flag 24 1 true;
        reschedule_flag 25 1 true;
        frame_index 26 22 0x3F_FFFF;
        max_inter_schedule_period_length_frames_div2_1 48 2 3;
        config_index 50 2 3;
        num_pipes_1 52 4 15;
    );
    table!(PipeFields, 48,
        punct_pat_id 0 6 63;
        pipe_width_cus 6 10 1023;
        num_sts_1 16 5 31;
        num_disperser_sections_1 21 3 7;
        disperser_inv_flag 24 1 true;
        regrouping_flag 25 1 true;
        inter_schedule_period_countdown_slots 26 10 1023;
        tap_diff_mult_int_1 36 4 15;
        tap_diff_mult_fract_1_16 40 4 15;
        schedule_index 44 4 15;
    );
    table!(TailFields, 16,
        punct_pat_id 0 6 63;
        codeword_align_flag 6 1 true;
        pipe_width_cus 7 9 511;
    );
    table!(Stream, 16,
        sts_id 0 8 255;
        sts_width_slots_1 8 8 255;
    );
    table!(Section, 12,
        num_taps_div2_1 0 4 15;
        tap_diff 4 3 7;
        gap_width 7 5 31;
    );
}
