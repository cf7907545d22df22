//! A program in C or C++ that is built with the library and run, whichever machine the tests run on: tools/x86-64.sh
//! does both. And what such a program and its test need besides.

use std::ffi::OsStr;
use std::fs;
use std::path::{Path, PathBuf};
use std::process::Command;

/// A file of the repository.
pub fn file(name: &str) -> PathBuf {
    let compare = Path::new(env!("CARGO_MANIFEST_DIR"));
    compare
        .parent()
        .expect("compare/ stands in the repository")
        .join(name)
}

/// Where a program and what it is run on are put.
pub fn made(name: &str) -> PathBuf {
    Path::new(env!("CARGO_TARGET_TMPDIR")).join(name)
}

/// Builds a program of these files, by this standard of their language.
pub fn build(program: &Path, sources: &[PathBuf], standard: &str) {
    let mut x86_64 = x86_64("build", program);
    x86_64.env("OPL_STANDARD", format!("-std={standard}"));
    // where build.rs writes calls.h
    x86_64.env("CPATH", env!("OUT_DIR"));
    printed(x86_64.args(sources));
}

/// Runs a program with these words, and gives what it prints.
pub fn run(program: &Path, words: &[impl AsRef<OsStr>]) -> String {
    printed(x86_64("run", program).args(words))
}

/// The command that builds or runs a program, still without its further words.
pub fn x86_64(task: &str, program: &Path) -> Command {
    let mut command = Command::new("sh");
    command.arg(file("tools/x86-64.sh")).arg(task).arg(program);
    command
}

fn printed(command: &mut Command) -> String {
    let output = command.output().expect("a shell starts");
    let said = String::from_utf8_lossy(&output.stderr);
    let status = output.status;
    assert!(status.success(), "{command:?}: {status}: {said}");
    String::from_utf8(output.stdout).expect("the program prints text")
}

/// A figure of include/opl.h.
pub fn figure(name: &str) -> usize {
    let header = fs::read_to_string(file("include/opl.h")).expect("opl.h is there");
    let value = header
        .lines()
        .find_map(|line| {
            line.strip_prefix("#define ")?
                .strip_prefix(name)?
                .strip_prefix(' ')
        })
        .unwrap_or_else(|| panic!("opl.h defines {name}"));
    value.parse().expect("a plain number")
}
