//! The head-end of examples/, built once, and with one of its files replaced.

use crate::program::{build, file, made};
use std::fs;
use std::path::{Path, PathBuf};
use std::sync::OnceLock;

/// The head-end, of all files that the Makefile builds it of.
pub fn headend() -> &'static Path {
    static BUILT: OnceLock<PathBuf> = OnceLock::new();
    BUILT.get_or_init(|| {
        let program = made("headend");
        build(&program, &sources(), "c11");
        program
    })
}

/// A program of this name: the head-end with another file in place of one of its own. The others are linked as the
/// head-end has them, as compiling them takes longer than most runs.
pub fn headend_with(name: &str, own: &str, other: &str) -> PathBuf {
    let head_end = headend().display();
    let object = |file: String| PathBuf::from(format!("{head_end}-{file}.o"));
    let names = sources().into_iter().filter_map(|path| {
        let name = path.file_name()?.to_str()?;
        (name != own).then(|| name.to_string())
    });
    let mut files: Vec<PathBuf> = names.map(object).collect();
    assert_eq!(files.len() + 1, sources().len());
    files.push(file(other));
    let program = made(name);
    build(&program, &files, "c11");
    program
}

/// The files of the head-end.
fn sources() -> Vec<PathBuf> {
    let listed = fs::read_dir(file("examples")).expect("examples/ is there");
    let paths = listed.map(|entry| entry.expect("it is listed").path());
    let is_source = |path: &PathBuf| path.extension().is_some_and(|suffix| suffix == "c");
    paths.filter(is_source).collect()
}
