//! The listing program, target/bin/listing, against the second listing: what it prints, byte for byte.

use compare::inputs;
use compare::rng::Rng;
use compare::second::signalling::listing;
use std::io::{ErrorKind, Write};
use std::path::{Path, PathBuf};
use std::process::{ChildStdin, Command, Stdio};
use std::thread::sleep;
use std::time::Duration;

/// A file of the repository.
fn file(name: &str) -> PathBuf {
    let compare = Path::new(env!("CARGO_MANIFEST_DIR"));
    compare
        .parent()
        .expect("compare/ stands in the repository")
        .join(name)
}

/// What the program prints for these pieces on standard input, one after the other with a pause
/// between them.
fn printed(pieces: &[&[u8]]) -> String {
    let program = file("target/bin/listing");
    assert!(
        program.is_file(),
        "target/bin/listing is not there: run `make target/bin/listing` first"
    );
    let mut child = Command::new("sh")
        .arg(file("tools/x86-64.sh"))
        .arg("run")
        .arg(program)
        .stdin(Stdio::piped())
        .stdout(Stdio::piped())
        .stderr(Stdio::piped())
        .spawn()
        .expect("the program starts");
    let mut input = child.stdin.take().expect("it has a standard input");
    for (index, piece) in pieces.iter().enumerate() {
        if index > 0 {
            sleep(Duration::from_millis(50));
        }
        give(&mut input, piece);
    }
    drop(input);
    let output = child.wait_with_output().expect("the program ends");
    assert!(
        output.status.success() && output.stderr.is_empty(),
        "{}: {}",
        output.status,
        String::from_utf8_lossy(&output.stderr)
    );
    String::from_utf8(output.stdout).expect("it prints text")
}

/// A program that has read enough may end before it has read all.
fn give(input: &mut ChildStdin, piece: &[u8]) {
    match input.write_all(piece) {
        Err(error) if error.kind() == ErrorKind::BrokenPipe => {}
        other => other.expect("the program takes its input"),
    }
}

#[track_caller]
fn both(sheet: &[u8]) -> String {
    let text = printed(&[sheet]);
    assert_eq!(
        text,
        listing(sheet),
        "{} bytes {:02X?}",
        sheet.len(),
        &sheet[..sheet.len().min(3_000)]
    );
    text
}

/// 01's example.
const EXAMPLE: [u8; 21] = [
    0x00, 0x00, 0x00, 0x00, 0x00, 0x15, 0x00, 0x15, 0x00, 0x15, 0x00, 0x15, 0x00, 0x00, 0x09, 0x00,
    0x00, 0x05, 0x00, 0x00, 0x00,
];

#[test]
fn the_example() {
    assert_eq!(
        both(&EXAMPLE),
        "multiplex operator=9 frame=5 pipes=0 streams=0 sections=0\ntail unused\nok\n"
    );
}

#[test]
fn valid_sheets() {
    let mut rng = Rng::new(600);
    for _ in 0..120 {
        let text = both(&inputs::sheet(&mut rng));
        assert!(text.ends_with("\nok\n"), "{text}");
    }
}

#[test]
fn every_refusal() {
    let mut rng = Rng::new(601);
    // 1 is about the 96 bytes of a word, and here there are none
    for number in inputs::SHEET_REFUSALS.into_iter().filter(|n| *n != 1) {
        for _ in 0..8 {
            let (sheet, _) = inputs::refused_sheet(&mut rng, number).expect("the writer gives it");
            assert_eq!(both(&sheet), format!("refused {number}\n"));
        }
    }
}

#[test]
fn damaged_sheets() {
    let mut rng = Rng::new(602);
    for _ in 0..60 {
        both(&inputs::mutated_sheet(&mut rng));
    }
}

/// No input, one byte, lengths around 21 and 2,571, and more than a pipe holds.
#[test]
fn lengths() {
    let mut longest = vec![0; 2_571];
    longest[..3].fill(255);
    for (at, number) in [(4, 21_u16), (6, 1_551), (8, 2_061), (10, 2_571)] {
        longest[at..at + 2].copy_from_slice(&number.to_be_bytes());
    }
    assert_eq!(both(&longest), "refused 13\n");
    for n in [2_570, 2_572, 2_573, 4_096, 65_535, 65_557, 200_000] {
        longest.resize(n, 0);
        assert_eq!(both(&longest), "refused 12\n", "{n} bytes");
    }
    for n in [0, 1, 12, 20] {
        assert_eq!(both(&EXAMPLE[..n]), "refused 12\n", "{n} bytes");
    }
    let mut longer = EXAMPLE.to_vec();
    longer.push(0);
    assert_eq!(both(&longer), "refused 12\n");
}

/// Input that arrives in pieces is one sheet all the same.
#[test]
fn a_sheet_in_pieces() {
    let mut rng = Rng::new(603);
    let sheet = inputs::sheet(&mut rng);
    for cut in [1, 11, 20] {
        let (one, other) = sheet.split_at(cut);
        assert_eq!(printed(&[one, other]), listing(&sheet));
    }
    let (one, rest) = EXAMPLE.split_at(7);
    let (two, three) = rest.split_at(7);
    assert_eq!(printed(&[one, two, three]), listing(&EXAMPLE));
}
