//! Writes what follows from the prototypes of include/opl.h, and ties the tests to target/staticlib/libopl.a,
//! which `make lib` builds for x86-64. A test program for x86-64 links it; for any other machine bridge.c links
//! it, and the test program calls it through that. Where OPL_ARCHIVE names a library that is built for the machine at hand, that one is linked. Where OPL_BARE
//! is set, buffers are lent without guards, for a memory checker to watch their ends.

#[path = "src/prototypes/mod.rs"]
mod prototypes;

use prototypes::{c, functions, parse, values, Fault};
use std::path::{Path, PathBuf};
use std::process::{exit, Command};

fn main() {
    let compare = PathBuf::from(variable("CARGO_MANIFEST_DIR"));
    let top = compare.parent().expect("compare/ stands in the repository");
    println!("cargo:rustc-check-cfg=cfg(bridged)");
    println!("cargo:rustc-check-cfg=cfg(bare)");
    println!("cargo:rerun-if-env-changed=OPL_ARCHIVE");
    println!("cargo:rerun-if-env-changed=OPL_BARE");
    if std::env::var_os("OPL_BARE").is_some() {
        println!("cargo:rustc-cfg=bare");
    }
    write_calls(&top.join("include/opl.h"));
    let named = std::env::var("OPL_ARCHIVE").ok();
    let shipped = top.join("target/staticlib/libopl.a");
    let archive = named.as_ref().map_or(shipped, |name| top.join(name));
    depends_on(&archive);
    if !archive.is_file() {
        fail(&format!(
            "{} is not there: run `make lib` first",
            archive.display()
        ));
    }
    if named.is_some() || variable("CARGO_CFG_TARGET_ARCH") == "x86_64" {
        let folder = archive.parent().expect("the library stands in a folder");
        println!("cargo:rustc-link-search=native={}", folder.display());
        println!("cargo:rustc-link-lib=static=opl");
    } else {
        build_bridge(&compare.join("bridge.c"), &top.join("tools/x86-64.sh"));
    }
}

/// What is written of the header's functions, each for the module or the program that includes it.
fn write_calls(header: &Path) {
    depends_on(header);
    let name = header.display();
    let text = std::fs::read_to_string(header)
        .unwrap_or_else(|error| fail(&format!("{name} cannot be read: {error}")));
    let prototypes =
        parse(&text).unwrap_or_else(|Fault { line, what }| fail(&format!("{name}:{line}: {what}")));
    for (name, text) in [
        ("direct.rs", functions::direct(&prototypes)),
        ("opl.rs", functions::guarded(&prototypes)),
        ("library.rs", functions::bare(&prototypes)),
        ("calls.rs", values::calls(&prototypes)),
        ("calls.h", c::calls(&prototypes)),
    ] {
        let written = std::fs::write(made(name), text);
        written.unwrap_or_else(|error| fail(&format!("{name} was not written: {error}")));
    }
}

fn build_bridge(source: &Path, script: &Path) {
    depends_on(source);
    depends_on(script);
    let bridge = made("bridge");
    let built = Command::new("sh")
        .arg(script)
        .arg("build")
        .arg(&bridge)
        .arg(source)
        .env("CPATH", made(""))
        .status();
    if !built.is_ok_and(|status| status.success()) {
        fail("compare/bridge.c was not built");
    }
    println!("cargo:rustc-cfg=bridged");
    println!("cargo:rustc-env=OPL_RUN={}", script.display());
    println!("cargo:rustc-env=OPL_BRIDGE={}", bridge.display());
}

fn depends_on(file: &Path) {
    println!("cargo:rerun-if-changed={}", file.display());
}

/// A file that is made here.
fn made(name: &str) -> PathBuf {
    Path::new(&variable("OUT_DIR")).join(name)
}

fn variable(name: &str) -> String {
    std::env::var(name).unwrap_or_else(|_| fail(&format!("cargo sets no {name}")))
}

fn fail(why: &str) -> ! {
    eprintln!("compare: {why}");
    exit(1);
}
