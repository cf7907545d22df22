//! include/opl_text.h, and the macros of include/opl.h that are no figures, against the library: what text.c prints
//! of them, as a program in C and as one in C++.

mod program;

use compare::fuzz::entries;
use compare::inputs;
use compare::opl;
use compare::rng::Rng;
use compare::second::ip;
use compare::second::payload;
use compare::second::preamble::Form;
use compare::second::signalling::{sheet_of, word_of};
use program::{build, figure, file, made, run};
use std::collections::{BTreeMap, BTreeSet};
use std::fs;
use std::sync::OnceLock;

/// What the program prints in C; in C++ it prints the same.
fn printed() -> &'static str {
    static PRINTED: OnceLock<String> = OnceLock::new();
    PRINTED.get_or_init(|| {
        let (c, headers) = (file("compare/text.c"), made("headers"));
        let all = [read_sheets(), headed_sheets()].concat();
        let bytes: Vec<u8> = all.iter().flat_map(|sheet| &sheet[..12]).copied().collect();
        fs::write(&headers, bytes).expect("the headers are put there");
        let (cpp, include) = (made("text.cc"), format!("#include {c:?}\n"));
        fs::write(&cpp, include).expect("the C++ program is put there");
        let [in_c, in_cpp] =
            [("text_c", c, "c99"), ("text_cpp", cpp, "c++11")].map(|(name, source, standard)| {
                build(&made(name), &[source], standard);
                run(&made(name), &[&headers])
            });
        assert_eq!(in_c, in_cpp);
        in_c
    })
}

/// What follows this word in the lines that begin with it.
fn lines(first: &str) -> impl Iterator<Item = &'static str> + '_ {
    let rest = move |line: &'static str| line.strip_prefix(first)?.strip_prefix(' ');
    printed().lines().filter_map(rest)
}

fn number<T: std::str::FromStr>(text: &str) -> T {
    let number = text.parse().ok();
    number.unwrap_or_else(|| panic!("{text} is no number"))
}

/// Sheets that the library has read from words, the shortest and the longest among them.
fn read_sheets() -> Vec<Vec<u8>> {
    let (mut rng, mut held) = (Rng::new(720), Rng::new(721));
    let read = |_| {
        let description = inputs::description(&mut rng);
        let mut room = held.bytes(128);
        assert_eq!(opl::signalling_read(&word_of(&description), &mut room), 0);
        room.truncate(sheet_of(&description).len());
        room
    };
    (0..10_000).map(read).collect()
}

/// Sheets that no word has, up to the longest: zeros behind a header that is sound in itself.
fn headed_sheets() -> Vec<Vec<u8>> {
    let headed = |counts: [u8; 3]| {
        let [p, s, d] = counts.map(u16::from);
        let sections = 21 + 6 * p + 2 * s;
        let places = [21, 21 + 6 * p, sections, sections + 2 * d];
        let mut sheet = [&counts[..], &[0]].concat();
        sheet.extend(places.iter().flat_map(|place| place.to_be_bytes()));
        sheet.resize(usize::from(places[3]), 0);
        sheet
    };
    [[15, 0, 0], [0, 255, 0], [40, 3, 99], [255, 255, 255]]
        .map(headed)
        .to_vec()
}

#[test]
fn the_version_is_that_of_the_numbers() {
    let numbers = ["MAJOR", "MINOR", "PATCH"].map(|part| figure(&format!("OPL_VERSION_{part}")));
    let due = numbers.map(|number| number.to_string()).join(".");
    assert!(lines("version").eq([&due[..]]));
}

/// As a dummy's payload and null packet it is accepted, as the payload of no packets, and as a queue of none; elsewhere no
/// length of zero is.
#[test]
fn an_empty_buffer_is_lent() {
    assert!(lines("empty").eq(["0", "0", "0", "0", "1", "1", "20"]));
}

#[test]
fn the_figures_of_packets_are_the_seconds() {
    assert_eq!(figure("OPL_TS_PACKET_BYTES"), payload::TS_PACKET_BYTES);
    assert_eq!(figure("OPL_TS_PACKETS"), payload::TS_PACKETS as usize);
    assert_eq!(figure("OPL_TS_PAYLOAD_BYTES"), payload::TS_PAYLOAD_BYTES);
    assert_eq!(figure("OPL_PARITY_HOLDS"), (1 << payload::PARTS) - 1);
}

#[test]
fn the_figures_of_ip_streams_are_the_seconds() {
    assert_eq!(figure("OPL_IP_PAYLOAD_BYTES"), ip::PAYLOAD_BYTES);
    assert_eq!(figure("OPL_IP_PACKET_MOST"), ip::PACKET_MOST);
    assert_eq!(figure("OPL_IP_PROGRESS_BYTES"), ip::PROGRESS_BYTES);
    assert_eq!(figure("OPL_IP_OPEN_BYTES"), ip::OPEN_BYTES);
    assert_eq!(figure("OPL_IP_ROOM"), ip::ROOM);
    assert_eq!(figure("OPL_IP_NO_HEADER"), payload::NO_HEADER.into());
}

#[test]
fn a_word_without_a_header_says_so() {
    assert!(lines("address").eq(["4095 4095"]));
}

#[test]
fn all_parts_of_a_written_word_hold() {
    assert!(lines("parity").eq(["15 15"]));
}

#[test]
fn the_forms_have_the_numbers_that_are_told() {
    let numbers = [Form::Neither, Form::Upright, Form::Inverted].map(|form| form as u8);
    let due = numbers.map(|number| format!("{number} {number}"));
    assert!(lines("form").eq(due));
}

/// The text of each number that a byte has.
fn texts() -> BTreeMap<u8, &'static str> {
    let text = |line: &'static str| {
        let (refusal, text) = line.split_once(' ').expect("a number and a text");
        (number(refusal), text)
    };
    lines("refusal").map(text).collect()
}

/// The numbers of include/opl.h, with their names.
fn names() -> BTreeMap<u8, String> {
    let header = fs::read_to_string(file("include/opl.h")).expect("opl.h is there");
    let (_, after) = header.split_once("enum opl_refusal {").expect("the enum");
    let (body, _) = after.split_once("};").expect("its end");
    let named = |line: &str| {
        let (name, rest) = line.trim().split_once(" = ")?;
        let digits: String = rest.chars().take_while(char::is_ascii_digit).collect();
        Some((number(&digits), name.to_string()))
    };
    body.lines().filter_map(named).collect()
}

#[test]
fn every_number_that_a_function_gives_has_a_text_of_its_own() {
    let (texts, names) = (texts(), names());
    let given: BTreeSet<u8> = entries()
        .iter()
        .flat_map(|entry| entry.order)
        .copied()
        .chain([0])
        .collect();
    assert!(given.iter().eq(names.keys()), "{given:?}, {names:?}");
    for refusal in &given {
        let (text, name) = (texts[refusal], &names[refusal]);
        let meaning = text.strip_prefix(&format!("{name}: ")[..]);
        assert!(meaning.is_some_and(|words| words.len() > 5), "{text}");
    }
    let own: BTreeSet<&str> = given.iter().map(|refusal| texts[refusal]).collect();
    assert_eq!(own.len(), given.len(), "no two are alike");
}

#[test]
fn every_other_number_has_one_text() {
    let (texts, names) = (texts(), names());
    assert_eq!(texts.len(), 256);
    let (own, others): (Vec<_>, Vec<_>) = texts
        .iter()
        .partition(|(refusal, _)| names.contains_key(refusal));
    let other = others[0].1;
    assert!(others.iter().all(|(_, text)| *text == other));
    assert!(own.iter().all(|(_, text)| *text != other));
}

/// The lengths that are not 0, by pattern.
fn codewords() -> BTreeMap<u32, usize> {
    let row = |line: &str| {
        let (pattern, bytes) = line.split_once(' ').expect("two numbers");
        (number(pattern), number(bytes))
    };
    lines("codeword").map(row).collect()
}

/// The number that the library gives to a codeword of that length.
fn encoded(rng: &mut Rng, pattern: u32, n: usize, length: usize) -> u8 {
    let infoword = inputs::infoword(rng, n);
    opl::encode(pattern, &infoword, &mut vec![0; length])
}

#[test]
fn a_codeword_of_just_that_length_is_accepted() {
    let mut rng = Rng::new(722);
    let codewords = codewords();
    assert_eq!(codewords.len(), 28);
    let signalling = (0, 96, figure("OPL_SIGNALLING_CODEWORD_BYTES"));
    let payload = codewords
        .iter()
        .map(|(&pattern, &bytes)| (pattern, 1_536, bytes));
    for (pattern, n, bytes) in payload.chain([signalling]) {
        let mut at = |length| encoded(&mut rng, pattern, n, length);
        let found = [bytes - 1, bytes, bytes + 1].map(&mut at);
        assert_eq!(found, [1, 0, 1], "pattern {pattern}, {n} bytes");
    }
}

#[test]
fn where_there_is_no_length_none_is_accepted() {
    let mut rng = Rng::new(723);
    let codewords = codewords();
    let lengths: BTreeSet<usize> = codewords.values().copied().chain([0]).collect();
    for pattern in (0..64).chain([65_536, u32::MAX]) {
        let refused = |&length| encoded(&mut rng, pattern, 1_536, length) != 0;
        let due = codewords.contains_key(&pattern);
        assert_eq!(!lengths.iter().all(refused), due, "{pattern}");
    }
}

#[test]
fn a_sheet_has_the_length_that_it_states() {
    let (read, headed) = (read_sheets(), headed_sheets());
    let lengths: BTreeSet<usize> = read.iter().map(Vec::len).collect();
    assert_eq!((lengths.first(), lengths.last()), (Some(&21), Some(&121)));
    let stated: Vec<usize> = lines("sheet").map(number).collect();
    let due: Vec<usize> = read.iter().chain(&headed).map(Vec::len).collect();
    assert_eq!(stated, due);
}

/// At any other length a sheet is refused for its header.
#[test]
fn a_sheet_is_written_at_that_length_alone() {
    for sheet in headed_sheets() {
        let longer = [&sheet[..], &[0]].concat();
        let refused = |n| opl::signalling_write(&longer[..n], &mut [0; 96]) == 12;
        let n = sheet.len();
        assert_eq!([n - 1, n, n + 1].map(refused), [true, false, true], "{n}");
    }
}
